#!/usr/bin/env bash
# The library of bindings/: its header, each of its calls from C and C++ against the programs and the plain model, handles,
# threads, refused memory, the address sanitizer and valgrind; the crate in Rust, the examples, the planner against brute force.
# It makes the library by bindings/build.sh. Run it after `rt ci`, which proves and builds what it asks; GTD and GTDESK in the
# environment name other programs. It needs what tests/setup.sh installs.
# Usage: tests/library.sh [DOMAINS]    (so many random domains, and as many files; 1000 by default)
set -u
ulimit -c 0
top=$(cd "$(dirname "$0")/.." && pwd)
tests=$top/tests/library
out=$top/bindings/out
export GTD=${GTD:-$top/crates/gtd/out/gtd} GTDESK=${GTDESK:-$top/crates/gtdesk/out/gtdesk}
for built in "$GTD" "$GTDESK"; do
    [ -x "$built" ] || { echo "nothing at $built: run rt ci first" >&2; exit 1; }
done
"$top/bindings/build.sh" || exit 1
room=$(mktemp -d)
trap 'rm -rf "$room"' EXIT
passed=0 failed=0

pass() {
    passed=$((passed + ${1:-1}))
}

# fail NAME [FILE]: counts a failure, and shows the first lines of the file.
fail() {
    failed=$((failed + 1))
    echo "FAILED $1"
    [ $# = 1 ] || head -n 10 "$2" | cut -c 1-300
}

# succeeds NAME COMMAND..: the command ends with status 0.
succeeds() {
    local name=$1
    shift
    if "$@" > "$room/said" 2>&1; then pass; else fail "$name" "$room/said"; fi
}

# counted NAME COMMAND..: the command succeeds; its last line gives its counts.
counted() {
    local name=$1 status=0
    shift
    "$@" > "$room/said" 2>&1 || status=$?
    if [[ $(tail -n 1 "$room/said") =~ ([0-9]+)\ passed,\ ([0-9]+)\ failed ]]; then
        pass "${BASH_REMATCH[1]}"
        failed=$((failed + BASH_REMATCH[2]))
        [ "${BASH_REMATCH[2]}" = 0 ] || grep FAILED "$room/said" | head -n 10
        [ "$status" = 0 ] || [ "${BASH_REMATCH[2]}" != 0 ] || fail "$name: status $status" "$room/said"
    else
        fail "$name: no counts" "$room/said"
    fi
}

strict=(-Wall -Wextra -Wshadow -Wconversion -Wsign-conversion -Wcast-qual -Wundef -Werror -pedantic -I "$top/bindings/c")
c() {
    "${CC:-gcc}" -std=c11 -O2 "${strict[@]}" "$@"
}
cpp() {
    "${CXX:-g++}" -std=c++17 -O2 "${strict[@]}" -Wold-style-cast -I "$top/bindings/cpp" "$@"
}

# The headers alone, and twice in one file.
for language in c c++; do
    printf '#include "gtd.h"\n#include "gtd.h"\nint main(void) { gtd_handle none = GTD_NONE; gtd_close(&none); return 0; }\n' \
        > "$room/header.$language"
done
succeeds 'gtd.h in C11' c -fsyntax-only -x c "$room/header.c"
succeeds 'gtd.h in C++17' cpp -fsyntax-only -x c++ "$room/header.c++"
printf '#include "gtd.hpp"\n#include "gtd.hpp"\nint main() { return gtd::version().empty(); }\n' > "$room/header.cpp"
succeeds 'gtd.hpp in C++17' cpp -fsyntax-only "$room/header.cpp"

# Of a library that lacks calls of its header only the other calls are asked, by the program in C.
lacks=$(paste -sd ' ' "$out/lacks")
if [ -n "$lacks" ]; then
    echo "library: it lacks $lacks; of the rest, ask.c alone is tried"
    succeeds 'ask.c' c -o "$room/ask" "$tests/ask.c" "$out/libgtd.a" -Wl,--unresolved-symbols=ignore-all -no-pie
    "$tests/questions.py" "$room/questions" "$room/answers" "${1:-1000}" || exit 1
    words=$(tr ' ' '\n' <<< "$lacks" | sed 's/^gtd_records_\(next\|spans\)$/records_\1/; s/^gtd_\(domain\|records\)_open$/\1/
        s/^gtd_domain_from_hours$/hours/
        s/^gtd_records_closed_at$/closed/; s/^gtd_records_\(closed_many\|count\|element\|closers\|schedule\)$/\1/
        s/^gtd_domain_//; s/^gtd_//' | paste -sd '|')
    paste -d '\t' "$room/questions" "$room/answers" | grep -vE "^($words)[[:space:]]" > "$room/pairs"
    "$room/ask" < <(cut -f 1 "$room/pairs") > "$room/found"
    if cmp -s <(cut -f 2 "$room/pairs") "$room/found"; then pass "$(wc -l < "$room/found")"; else fail 'ask.c' "$room/found"; fi
    echo "library: $passed passed, $failed failed"
    [ "$failed" = 0 ]
    exit
fi

# Programs: linked with libgtd.a, with libgtd.so.0, and with the address sanitizer.
sanitized=(-g -fsanitize=address -fsanitize=undefined -fno-sanitize-recover=all)
for name in ask handles threads growth; do
    succeeds "$name.c" c -pthread -o "$room/$name" "$tests/$name.c" "$out/libgtd.a"
    succeeds "$name.c, sanitized" c -pthread "${sanitized[@]}" -o "$room/$name.asan" "$tests/$name.c" "$out/libgtd.a"
done
succeeds 'ask.c with libgtd.so.0' c -o "$room/ask.shared" "$tests/ask.c" -L "$out" -lgtd -Wl,-rpath,"$out"
succeeds 'ask.cpp' cpp -o "$room/ask_cpp" "$tests/ask.cpp" "$out/libgtd.a"
succeeds 'values.cpp, sanitized' cpp -pthread "${sanitized[@]}" -o "$room/values" "$tests/values.cpp" "$out/libgtd.a"
succeeds 'planner.cpp' cpp -o "$room/planner" "$top/bindings/cpp/planner.cpp" "$out/libgtd.a"
read -ra flags <<< "$(PKG_CONFIG_PATH=$out pkg-config --cflags --libs gtd)"
succeeds 'example.c by pkg-config' c -o "$room/example" "$top/bindings/c/example.c" "${flags[@]}" -Wl,-rpath,"$out"
succeeds 'example.cpp by pkg-config' cpp -o "$room/example_cpp" "$top/bindings/cpp/example.cpp" "${flags[@]}" -Wl,-rpath,"$out"

# with_cmake VERSION FOLDER: a project of CMake that asks for this version, with the shared and with the static library.
with_cmake() {
    mkdir -p "$2"
    printf '%s\n' 'cmake_minimum_required(VERSION 3.16)' 'project(first LANGUAGES C CXX)' "find_package(gtd $1 REQUIRED)" \
        "add_executable(shared $top/bindings/c/example.c)" 'target_link_libraries(shared PRIVATE gtd::gtd)' \
        "add_executable(static $top/bindings/cpp/example.cpp)" 'target_link_libraries(static PRIVATE gtd::static)' \
        'target_compile_features(static PRIVATE cxx_std_17)' > "$2/CMakeLists.txt"
    cmake -S "$2" -B "$2/build" -Dgtd_DIR="$out" && cmake --build "$2/build"
}
succeeds 'CMake' with_cmake 0.1 "$room/cmake"
for example in shared static; do
    succeeds "the $example example by CMake" "$room/cmake/build/$example" "$top/examples/restrictions.csv" 17 11
done
for version in 0.2 1 0.1.999; do
    if with_cmake $version "$room/cmake_$version" > "$room/said" 2>&1; then
        fail "CMake: version $version was found" "$room/said"
    else
        pass 1
    fi
done
[ "$failed" = 0 ] || { echo "library: $passed passed, $failed failed"; exit 1; }

# agree NAME ANSWERS PROGRAM..: the program answers the questions of $room/asked so, line by line.
agree() {
    local name=$1 answers=$2 good bad
    shift 2
    "$@" < "$room/asked" > "$room/found" 2> "$room/err" || fail "$name: status $?" "$room/err"
    read -r good bad < <(paste -d '\n' "$answers" "$room/found" "$room/asked" | awk -v wrong="$room/wrong" '
        NR % 3 == 1 { right = $0 } NR % 3 == 2 { found = $0 }
        NR % 3 == 0 { if (right == found) good++; else { bad++; print $0 ": " found ", and not " right > wrong } }
        END { print good + 0, bad + 0 }')
    pass "$good"
    if [ "$bad" != 0 ] || ! cmp -s <(wc -l < "$answers") <(wc -l < "$room/found"); then
        fail "$name: $bad answers" "$room/wrong"
    fi
    rm -f "$room/wrong"
}

# Every call, against the programs and the model.
"$tests/questions.py" "$room/questions" "$room/answers" "${1:-1000}" || exit 1
cp "$room/questions" "$room/asked"
agree 'ask.c' "$room/answers" "$room/ask"
agree 'ask.c with libgtd.so.0' "$room/answers" "$room/ask.shared"
agree 'ask.c, sanitized' "$room/answers" "$room/ask.asan"
counted 'handles' "$room/handles"
counted 'handles, sanitized' "$room/handles.asan"

# Of C++ all but handles that stand for nothing and names by number; what comes before a number out of range is not told there,
# nor that one of two domains that are the same gives a year.
paste -d '\t' "$room/questions" "$room/answers" | sed $'s/^\(same .*\t\)year$/\\1yes/' |
    grep -v $'^\(fault_name\|record_fault_name\|hours_fault_name\|close\|.*\tkind$\)' > "$room/pairs"
cut -f 1 "$room/pairs" > "$room/asked"
cut -f 2 "$room/pairs" | sed 's/^range .*/range/' > "$room/answers_cpp"
agree 'ask.cpp' "$room/answers_cpp" "$room/ask_cpp"
counted 'values.cpp' "$room/values"

# Memory: no leak, no access beyond what is taken, by valgrind on fewer questions. Then each growth refused in turn: the call says
# so, and answers the same when it is put again.
"$tests/questions.py" --random "$room/asked" "$room/answers_few" 10 2 || exit 1
checked=(valgrind -q --error-exitcode=9 --leak-check=full --show-leak-kinds=all --errors-for-leak-kinds=all)
agree 'ask.c in valgrind' "$room/answers_few" "${checked[@]}" "$room/ask"
counted 'handles in valgrind' "${checked[@]}" "$room/handles"
"${CC:-gcc}" -O2 -shared -fPIC -o "$room/refuse.so" "$top/tests/refuse_growth.c" || exit 1
for ((growth = 1; ; growth++)); do
    LD_PRELOAD=$room/refuse.so REFUSE_GROWTH=$growth "$room/ask" < "$room/asked" > "$room/found" 2> "$room/err"
    status=$?
    if [ "$status" = 0 ] && cmp -s "$room/found" "$room/answers_few"; then pass; else fail "growth $growth" "$room/err"; fi
    grep -q 'growth refused' "$room/err" || break
done
echo "growths refused: $((growth - 1))"
[ "$growth" -gt 100 ] || fail "only $growth growths were refused"

# Two million spans, between two requests that begin and end a time in which every growth is refused: the first of these requests
# is the only one.
border=4271
counted 'spans without memory' env LD_PRELOAD="$room/refuse.so" REFUSE_BETWEEN=$border "$room/growth" $border
[ "$(grep -c 'growth refused' "$room/said")" = 1 ] || fail 'gtd_spans_next takes memory' "$room/said"

# Threads.
python3 "$top/python/tests/make_records.py" 4000 1 > "$room/made.csv"
for file in "$top/examples/town.csv" "$room/made.csv"; do
    succeeds "threads over ${file##*/}" "$room/threads" "$file" 20000
    succeeds "threads over ${file##*/}, sanitized" "$room/threads.asan" "$file" 5000
done

# Rust. Its tests are those of its documents, too.
export GTD_LIB_DIR=$out CARGO_TARGET_DIR=$room/target
crate=(--offline --quiet --manifest-path "$top/bindings/rust/Cargo.toml")
cargo test "${crate[@]}" --lib --tests --examples > "$room/said" 2>&1 && cargo test "${crate[@]}" --doc >> "$room/said" 2>&1
status=$?
good=$(sed -n 's/^test result: .* \([0-9]*\) passed; .*/\1/p' "$room/said" | awk '{ sum += $1 } END { print sum + 0 }')
if [ "$status" = 0 ] && [ "$good" -gt 30 ]; then pass "$good"; else fail "cargo test, $good passed" "$room/said"; fi
succeeds 'cargo doc' env RUSTDOCFLAGS='-D warnings' cargo doc "${crate[@]}" --no-deps
if command -v cargo-clippy > /dev/null; then
    succeeds 'clippy' cargo clippy "${crate[@]}" --all-targets -- -D warnings
fi

# prints NAME FILE COMMAND..: the command prints exactly what the file holds.
prints() {
    local name=$1 file=$2
    shift 2
    "$@" > "$room/said" 2>&1
    if cmp -s "$file" "$room/said"; then pass; else fail "$name" "$room/said"; fi
}

# The examples: the street in front of a school, closed from Monday to Friday between 7:30 and 16:00; the first program of the
# document prints what it shows; and the planner.
cat > "$room/week" << 'END'
open at 2024-03-15T06:50:00, which changes at 2024-03-15T07:30:00
open from 2024-03-15T00:00:00 until 2024-03-15T07:30:00
open from 2024-03-15T16:00:00 until 2024-03-18T07:30:00
open from 2024-03-18T16:00:00 until 2024-03-19T07:30:00
open from 2024-03-19T16:00:00 until 2024-03-20T07:30:00
open from 2024-03-20T16:00:00 until 2024-03-21T07:30:00
open from 2024-03-21T16:00:00 until 2024-03-22T00:00:00
END
cat > "$room/day" << 'END'
103 Positive:
  open from 2024-03-15T00:00:00 until 2024-03-15T07:30:00
  open from 2024-03-15T16:00:00 until 2024-03-16T00:00:00
  rows that close it at noon: [3]
103 Negative:
  open from 2024-03-15T00:00:00 until 2024-03-16T00:00:00
  rows that close it at noon: []
END
cat > "$room/text" << 'END'
[(h25){h1}]
  ^ FieldRange
END
prints 'example.c' "$room/week" "$room/example" "$top/examples/town.csv" 103 11
prints 'example.cpp' "$room/week" "$room/example_cpp" "$top/examples/town.csv" 103 11
# refused STATUS EXAMPLE: it refuses words that are no numbers, and numbers that are too large.
refused() {
    local words status
    for words in '103 267' '103 11x' '103 -245' '1x 11' '99999999999 11'; do
        read -ra words <<< "$words"
        status=0
        "$room/$2" "$top/examples/town.csv" "${words[@]}" > "$room/said" 2>&1 || status=$?
        if [ $status = "$1" ]; then pass; else fail "$2: ${words[*]}: status $status" "$room/said"; fi
    done
}
refused 2 example
refused 3 example_cpp
prints 'examples/closed.rs' "$room/day" cargo run "${crate[@]}" --example closed -- "$top/examples/town.csv" 103 11 2024 3 15
prints 'examples/domain.rs' "$room/text" cargo run "${crate[@]}" --example domain -- '[(h25){h1}]'
# block N: what the document shows in its N-th fenced block.
block() {
    awk -v wanted="$1" '/^```/ { if (is_in) is_in = 0; else { is_in = 1; count++ } next } is_in && count == wanted' \
        "$top/docs/LIBRARY.md"
}
mkdir "$room/first"
block 1 > "$room/where"
block 2 > "$room/first/first.cpp"
block 3 > "$room/commands"
block 4 > "$room/shown"
prints 'the first program' "$room/shown" bash -euc 'cd "$1" && source "$3" && cd "$2" && source "$4"' - \
    "$top" "$room/first" "$room/where" "$room/commands"
counted 'planner' "$tests/planner.py" "$room/planner"

echo "library: $passed passed, $failed failed"
[ "$failed" = 0 ]

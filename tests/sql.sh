#!/usr/bin/env bash
# The library in SQL: the extensions of SQLite and of PostgreSQL, built without a warning, against the plain model and the
# programs; a GeoPackage read by GDAL; memory watched and refused; the examples of docs/LIBRARY.md. PostgreSQL is started by the
# tests themselves, and ends with them. Run it after `rt ci`, which proves and builds what it asks; GTD and GTDESK in the
# environment name other programs. It needs what tests/setup.sh installs.
# Usage: tests/sql.sh [DOMAINS]    (so many random domains, and a fourth as many files; 1000 by default)
set -u
ulimit -c 0
top=$(cd "$(dirname "$0")/.." && pwd)
tests=$top/tests/sql
out=$top/bindings/out
export GTD=${GTD:-$top/crates/gtd/out/gtd} GTDESK=${GTDESK:-$top/crates/gtdesk/out/gtdesk}
for built in "$GTD" "$GTDESK"; do
    [ -x "$built" ] || { echo "nothing at $built: run rt ci first" >&2; exit 1; }
done
"$top/bindings/build.sh" || exit 1
if [ -s "$out/lacks" ]; then
    echo "sql: the library lacks $(paste -sd ' ' "$out/lacks")"
    echo 'sql: 0 passed, 1 failed'
    exit 1
fi
room=$(mktemp -d)
trap 'rm -rf "$room"' EXIT
passed=0 failed=0

# fail NAME: counts a failure, and shows the first lines of what was said.
fail() {
    failed=$((failed + 1))
    echo "FAILED $1"
    head -n 20 "$room/said" | cut -c 1-300
}

# succeeds NAME COMMAND..: the command ends with status 0.
succeeds() {
    local name=$1
    shift
    if "$@" > "$room/said" 2>&1; then passed=$((passed + 1)); else fail "$name"; fi
}

# counted NAME COMMAND..: the command succeeds; its last line gives its counts.
counted() {
    local name=$1 status=0
    shift
    "$@" > "$room/said" 2>&1 || status=$?
    if [[ $(tail -n 1 "$room/said") =~ ([0-9]+)\ passed,\ ([0-9]+)\ failed ]]; then
        passed=$((passed + BASH_REMATCH[1])) failed=$((failed + BASH_REMATCH[2]))
        [ "${BASH_REMATCH[2]}" = 0 ] || grep -A 3 FAILED "$room/said" | head -n 30 | cut -c 1-1000
        [ "$status" = 0 ] || [ "${BASH_REMATCH[2]}" != 0 ] || fail "$name: status $status"
    else
        fail "$name: no counts"
    fi
}

make=(make -s -C "$top/bindings/sqlite")
succeeds 'the extension of SQLite' "${make[@]}" -B
succeeds 'its installation' "${make[@]}" install DESTDIR="$room/root" PREFIX=/usr
installed=$room/root/usr/lib/$(gcc -print-multiarch)/mod_gtd
succeeds 'the installed extension' sqlite3 :memory: ".load $installed" "SELECT gtd_canon('(h1){h1}')"
extension=$out/mod_gtd.so
nm -D --defined-only "$extension" | sed 's/.* //' > "$room/said"
if [ "$(cat "$room/said")" = sqlite3_modgtd_init ]; then passed=$((passed + 1)); else fail 'what the extension exports'; fi

export PYTHONPATH=$top/tests
"$tests/cases.py" "$room/cases" "${1:-1000}" || exit 1
"$tests/cases.py" "$room/few" "$((${1:-1000} / 10))" 2 || exit 1
counted 'sqlite' "$tests/sqlite.py" "$extension" "$room/cases"
counted 'geopackage' "$tests/geopackage.py" "$extension"
counted 'postgres' "$tests/postgres.py" "$room/cases"
counted 'documents' "$tests/documents.py"

# Memory: the address sanitizer on fewer cases, no leak by valgrind, and each growth refused in turn.
mkdir "$room/watched"
succeeds 'the extension, sanitized' "${make[@]}" out="$room/watched" library="$out/libgtd.a" LDFLAGS= \
    CFLAGS='-g -fsanitize=address -fsanitize=undefined -fno-sanitize-recover=all' "$room/watched/mod_gtd.so"
counted 'sqlite, sanitized' env LD_PRELOAD="$(gcc -print-file-name=libasan.so) $(gcc -print-file-name=libubsan.so)" \
    ASAN_OPTIONS=detect_leaks=0 "$tests/sqlite.py" "$room/watched/mod_gtd.so" "$room/few"
asked=(sqlite3 -readonly -cmd ".load $extension" "$room/rows.db")
sqlite3 -cmd ".load $extension" "$room/rows.db" < "$tests/rows.sql"
"${asked[@]}" < "$tests/memory.sql" > "$room/right" 2> /dev/null
valgrind -q --error-exitcode=9 --leak-check=full --errors-for-leak-kinds=definite,indirect,possible \
    "${asked[@]}" < "$tests/memory.sql" > "$room/found" 2> "$room/said"
status=$?
if [ "$status" != 9 ] && cmp -s "$room/right" "$room/found" && ! grep -q '^==' "$room/said"; then
    passed=$((passed + 1))
else
    fail "memory.sql in valgrind: status $status"
fi
"${CC:-gcc}" -O2 -shared -fPIC -o "$room/refuse.so" "$top/tests/refuse_growth.c" || exit 1
counted 'refused memory' "$tests/refused.py" "$extension" "$room/refuse.so" "$room/rows.db"

echo "sql: $passed passed, $failed failed"
[ "$failed" = 0 ]

#!/usr/bin/env bash
# Runs each test of refused memory with its first growth refused, then with its second, and so on to its last. Does the same
# for each command of the programs, and once more with all growths after that one refused, too: some calls try again without a
# growth that was refused. Runs each test of calls that take no memory with all growths in those calls refused. Run it after
# `rt ci`, which proves and builds what it runs; GTD and GTDESK in the environment name other programs. It needs a C compiler.
set -u
ulimit -c 0
here=$(cd "$(dirname "$0")" && pwd)
crates=$here/../crates
layers=$crates/gtd_test_layers/out/gtd_test_layers_tests
commands=$crates/gtd_test_commands/out/gtd_test_commands_tests
gtd=$(realpath -m "${GTD:-$crates/gtd/out/gtd}")
gtdesk=$(realpath -m "${GTDESK:-$crates/gtdesk/out/gtdesk}")
for built in "$layers" "$commands" "$gtd" "$gtdesk"; do
    [ -x "$built" ] || { echo "nothing at $built: run rt ci first" >&2; exit 1; }
done
room=$(mktemp -d)
trap 'rm -rf "$room"' EXIT
"${CC:-cc}" -O2 -shared -fPIC -o "$room/refuse.so" "$here/refuse_growth.c" || exit 1

passed=0 failed=0

# judge NAME CHECK: the last run is as it must be if the check holds.
judge() {
    if "$2"; then
        passed=$((passed + 1))
    else
        failed=$((failed + 1))
        echo "FAILED $1: status $status, said '$(head -c 1000 "$room/out")', told '$(head -c 1000 "$room/err")'"
    fi
}

report=$'\ngrowth refused\n'
# 1 if all growths after a refused one are refused, too.
rest=0

# run GROWTH BETWEEN PROGRAM WORDS..: the program, with the growth of this number refused, or those between two requests. The
# lines that it told are kept after a line end, and without the report of a refusal.
run() {
    LD_PRELOAD=$room/refuse.so REFUSE_GROWTH=$1 REFUSE_REST=$rest REFUSE_BETWEEN=$2 "${@:3}" \
        < "$file" > "$room/out" 2> "$room/err"
    status=$?
    told=$(< "$room/err") is_refused=false
    told=$'\n'${told:+$told$'\n'}
    if [[ $told == *"$report"* ]]; then
        is_refused=true told=${told/"$report"/$'\n'}
    fi
}

# names_of TESTS MODULE: the tests of this program in modules of this name.
names_of() {
    local names
    names=$("$1" --list | sed -n "s/^\(\([a-z_]*::\)*$2::.*\): test$/\1/p")
    [ -n "$names" ] || { echo "no tests in modules $2 of $1" >&2; exit 1; }
    echo "$names"
}

test_passed() {
    [ "$status" = 0 ] && [[ $(< "$room/out") == *'test result: ok'* ]]
}

# in_turn NAME CHECK PROGRAM WORDS..: the program, with its growths refused in turn. A success does not end the loop: a call can
# do without some growths.
in_turn() {
    local name=$1 check=$2 growth
    shift 2
    for ((growth = 1; ; growth++)); do
        run "$growth" 0 "$@"
        judge "$name, growth $growth" "$check"
        "$is_refused" || break
    done
    echo "$name: $((growth - 1))"
    # Each of them takes memory: if no growth was refused, nothing was tested.
    [ "$growth" != 1 ] || { failed=$((failed + 1)); echo "FAILED $name: it takes no memory"; }
}

file=/dev/null
for tests in "$layers" "$commands"; do
    names=$(names_of "$tests" refusals) || exit 1
    for name in $names; do
        in_turn "${name/refusals::/}" test_passed "$tests" "$name"
    done
done

# The number of bytes that a test asks for before and after the calls that must take no memory. The request before them is
# refused, and must be the only growth up to the next such request.
switch=7654321
only_the_first() {
    test_passed && "$is_refused" && [ "$(< "$room/err")" = 'growth refused' ]
}
for tests in "$layers" "$commands"; do
    names=$(names_of "$tests" without_memory) || exit 1
    for name in $names; do
        run 0 "$switch" "$tests" "$name"
        judge "${name/without_memory::/}, without memory" only_the_first
    done
    echo "without memory: $(wc -w <<< "$names") tests"
done

# as_before: the last run of the program ended as it does with all its memory.
as_before() {
    [ "$status" = "$whole_status" ] && [ "$told" = "$whole_told" ] && cmp -s "$room/out" "$room/whole"
}

# in_want: the last run reported refused memory, and had written a first part of what it writes, or nothing if it writes all at
# once.
in_want() {
    [ "$status" = 3 ] && [[ $told == *$'\n'"$no_memory"$'\n' ]] && [[ $whole_told == "${told%"$no_memory"$'\n'}"* ]] \
        && cmp -s -n "$(stat -c %s "$room/out")" "$room/out" "$room/whole" && { "$has_parts" || [ ! -s "$room/out" ]; }
}

as_before_or_in_want() {
    as_before || { "$is_refused" && in_want; }
}

# program_refused STATUS WORDS..: the command of `program`, which ends so with all its memory, with its growths refused in turn,
# each alone and then each with all after it. The record file is standard input, too.
program_refused() {
    local name="${program##*/} ${*:2}"
    has_parts=false
    case $2 in
        schedule | year | migrate | now | diff | ask | records | conditions | picture | picture-domain) has_parts=true ;;
    esac
    run 0 0 "$program" "${@:2}"
    mv "$room/out" "$room/whole"
    whole_status=$status whole_told=$told
    [ "$whole_status" = "$1" ] || { failed=$((failed + 1)); echo "FAILED $name: status $whole_status"; }
    in_turn "$name" as_before_or_in_want "$program" "${@:2}"
    rest=1
    in_turn "$name, with all after it" as_before_or_in_want "$program" "${@:2}"
    rest=0
}

cd "$room" || exit 1
domain='[(M4d1){M3}]*[(h10){h4}]'
moment=2024-04-01T10:00:00
file=$room/r.csv
printf '%s\n' element,direction,vehicle,domain "17,positive,0,$domain" 17,negative,11, > r.csv
printf '%s\n' element,direction,vehicle,domain > none.csv
printf '%s\n' element,direction,vehicle,domain 17,up,0, '17,both,0,(h25)' '17,both,0,(h0){h24}' > faulty.csv
printf '%s\n' element,direction,vehicles,hours '1,both,0,Fr 22:00-04:00' '2,positive,11;12,' > hours.csv
printf '%s\n' element,direction,vehicles,hours '1,both,0,Apr 10-31' 1,up,0, > faulty_hours.csv
printf '%s\n' kind,name,means mode,access,0 'mode,hgv,11;12' mode,oneway,!90 'condition,weight>7.5,12' > means.csv
printf '%s\n' kind,name,means mode,HGV,11 mode,hgv,x > faulty_means.csv
printf '%s\n' element,key,value '1,access:conditional,no @ (Mo-Fr 07:00-09:00); yes @ (weight>7.5)' 1,hgv,no 2,oneway,yes \
    > tags.csv
printf '%s\n' element,key,value '1,access:conditional,no @ (07:00-09:00' x,hgv,no > faulty_tags.csv

program=$gtd no_memory='fault NoMemory'
program_refused 0 check "$domain"
program_refused 1 check '[(h25){h1}]'
program_refused 0 canon "$domain"
program_refused 0 at "$domain" $moment
program_refused 1 at "$domain" now
program_refused 0 next "$domain" $moment 2024-05-01
program_refused 0 ever "$domain" $moment
program_refused 1 ever '(y2024){d1}' $moment
program_refused 2 canon
program_refused 0 schedule r.csv 2024-04-01 2024-05-01 11
program_refused 1 schedule faulty.csv 2024-04-01 2024-05-01 11
program_refused 3 schedule gone.csv 2024-04-01 2024-05-01 11
program_refused 0 year r.csv 17 positive 11 2024
program_refused 1 year r.csv 18 positive 11 2024
program_refused 0 migrate r.csv
program_refused 1 migrate faulty.csv

program=$gtdesk no_memory='gtdesk: memory: refused by the system'
program_refused 0 now r.csv $moment 11
program_refused 0 now - $moment 11
program_refused 0 now --closed --element 17,18 r.csv $moment 11
program_refused 0 now --why r.csv $moment 11
program_refused 0 now --why --json none.csv $moment 11
program_refused 1 now --element 17, r.csv $moment 11
program_refused 1 now faulty.csv $moment 11
program_refused 3 now gone.csv $moment 11
program_refused 1 now r.csv now 11
program_refused 0 faults r.csv
program_refused 1 faults faulty.csv
program_refused 1 faults --warn faulty.csv
program_refused 1 faults --warn --allow past,minutes --at 2024-04-01 faulty.csv
program_refused 2 faults --warn --allow past,none faulty.csv
program_refused 0 words "$domain"
program_refused 1 words '[(h25){h1}]'
program_refused 0 hours 'Mo-Fr 07:00-09:00,16:00-18:00; Dec 25 off'
program_refused 1 hours 'Mo-Fr PH off'
program_refused 0 hours 'mo-fr 8:00-9:00 10:00-11:00;'
program_refused 0 hours --strict 'Mo-Fr 08:00-09:00'
program_refused 0 mend hours 'mo-fr 8:00-9:00 10:00-11:00;'
program_refused 1 mend hours 'Mo-Fr PH off'
program_refused 0 mend hours 'PH,easter 17:00+ "a", Mo 8:00 || dawn-dusk'
program_refused 0 mend hours --day-names de 'Do,So 8:00-9:00'
program_refused 1 hours --day-names fr Mo
program_refused 0 hours --of '(t2t3t4t5t6h0m0){d1}*[(h7m0){m120}+(h16m0){m120}]'
program_refused 0 hours --of '[(h7){h2}]*[(M5){M3}]-[(t1){d1}]'
program_refused 1 hours --of '(M3l11){M8}'
program_refused 0 same "$domain" "$domain"
program_refused 1 same "$domain" '[(h25){h1}]'
program_refused 0 same --hours 24/7 00:00-24:00
program_refused 1 same --hours 24/7 'Mo-Fr PH off'
program_refused 0 same --file r.csv
program_refused 1 same --file faulty.csv
program_refused 0 diff r.csv r.csv 2024-04-01 2024-04-08 11
program_refused 1 diff r.csv faulty.csv 2024-04-01 2024-04-08 11
program_refused 1 ask r.csv
program_refused 0 records hours.csv
program_refused 1 records faulty_hours.csv
program_refused 0 conditions tags.csv means.csv
program_refused 1 conditions faulty_tags.csv means.csv
program_refused 1 conditions tags.csv faulty_means.csv
program_refused 1 conditions --years 1 tags.csv means.csv
program_refused 1 conditions --holidays tags.csv --years 2026 tags.csv means.csv
program_refused 0 picture r.csv 17 positive 12 2024
program_refused 1 picture r.csv 18 positive 12 2024
program_refused 0 picture-domain "$domain" 2024
program_refused 0 help now
program_refused 0 --version
program_refused 2 now r.csv

echo "refusals: $passed passed, $failed failed"
[ "$failed" = 0 ]

#!/usr/bin/env bash
# What the built program does with the system: words that are not text, files, outputs that fail, its error line and its status.
# Run it after `rt ci`, which builds the program.
set -u
program=$(cd "$(dirname "$0")/.." && pwd)/crates/gtd/out/gtd
[ -x "$program" ] || { echo "no program at $program: run rt ci first" >&2; exit 1; }
room=$(mktemp -d)
trap 'rm -rf "$room"' EXIT
passed=0 failed=0

# holds FILE TEXT: the file holds this text and one line end, byte for byte; or nothing, if the text is empty.
holds() {
    printf '%s' "${2:+$2$'\n'}" | cmp -s - "$1"
}

# expect NAME STATUS OUT ERR: the last run's status and what it wrote.
expect() {
    if [ "$status" = "$2" ] && holds "$room/out" "$3" && holds "$room/err" "$4"; then
        passed=$((passed + 1))
    else
        failed=$((failed + 1))
        echo "FAILED $1: status $status, wrote '$(cat "$room/out")' and '$(cat "$room/err")'"
    fi
}

run() {
    : > "$room/out"
    "$program" "$@" > "$room/out" 2> "$room/err"
    status=$?
}

usage='usage: gtd COMMAND ARGUMENTS'
run canon '[(m30h07){m30h1}]'
expect 'canonical text' 0 '[(h7m30){h1m30}]' ''
run check '[[(h1){h1}]]'
expect 'check' 0 'ok' ''
run check '[(h25){h1}]'
expect 'fault of a text' 1 '' 'fault FieldRange at 2'
run canon -
expect 'a hyphen alone' 1 '' 'fault Unexpected at 0'
run
expect 'no words' 2 '' "$usage"
run canon $'\xff'
expect 'a word that is no text' 2 '' "$usage"

: > "$room/out"
"$program" canon '[(h1){h1}]' > /dev/full 2> "$room/err"
status=$?
expect 'a full output' 3 '' 'fault WriteFault'
"$program" canon '[(h1){h1}]' >&- 2> "$room/err"
status=$?
expect 'a closed output' 3 '' 'fault WriteFault'
: > "$room/err"
"$program" check '[(h25){h1}]' > "$room/out" 2> /dev/full
status=$?
expect 'a full error output' 1 '' ''

# Files. FILE.csv is written from its lines, and `files NAME STATUS OUT ERR WORDS..` runs a command on it.
element='element,direction,vehicle,domain'
elements='element,direction,vehicles,domain'
schedule='element,direction,vehicle,from,until'
r=$element'
17,positive,0,[(M4d1){M3}]*[(h10){h4}]
17,negative,11,
'
printf '%s' "$r" > "$room/r.csv"
printf '%s' "$r"'18,both,0,[(h25){h1}]
' > "$room/faulty.csv"
printf '%s\n' "$element" > "$room/header.csv"
: > "$room/empty.csv"
printf '\357\273\277%s\r\n"17",both,00,"[(h22){h8}]"\r\n' "$element" > "$room/nights.csv"
printf '%s\n17,both,0,[(h0){h12}]\n009,positive,0,\n' "$element" > "$room/noon.csv"
printf '%s\n17,positive,!%s,\n' "$elements" '12;11' > "$room/most.csv"

run schedule "$room/r.csv" 2024-04-01 2024-04-02 11
expect 'a schedule' 0 "$schedule
17,positive,11,2024-04-01T00:00:00,2024-04-01T10:00:00
17,positive,11,2024-04-01T14:00:00,2024-04-02T00:00:00" ''
run schedule "$room/r.csv" 2024-04-01 2024-04-02 12
expect 'a schedule for another type' 0 "$schedule
17,positive,12,2024-04-01T00:00:00,2024-04-01T10:00:00
17,positive,12,2024-04-01T14:00:00,2024-04-02T00:00:00
17,negative,12,2024-04-01T00:00:00,2024-04-02T00:00:00" ''
run schedule "$room/noon.csv" 2024-01-01 2024-01-02 1
expect 'elements by their numbers' 0 "$schedule
9,negative,1,2024-01-01T00:00:00,2024-01-02T00:00:00
17,positive,1,2024-01-01T12:00:00,2024-01-02T00:00:00
17,negative,1,2024-01-01T12:00:00,2024-01-02T00:00:00" ''
run schedule "$room/r.csv" 2699-12-31 2700-01-01 11
expect 'the last day' 0 "$schedule
17,positive,11,2699-12-31T00:00:00,2700-01-01T00:00:00" ''
run schedule "$room/header.csv" 2024-04-01 2024-04-02 11
expect 'a header alone' 0 "$schedule" ''
run schedule "$room/empty.csv" 2024-04-01 2024-04-02 11
expect 'an empty file' 1 '' 'fault Header'
run schedule "$room/faulty.csv" 2024-04-01 2024-04-02 11
expect 'a faulty row' 1 '' 'fault row 3 Domain FieldRange at 2'
for vehicle in 0 100 255 256 9999999999; do
    run schedule "$room/faulty.csv" 2024-04-01 2024-04-02 $vehicle
    expect "vehicle $vehicle" 1 '' 'fault VehicleRange'
done
run schedule "$room/r.csv" 2024-04-01 2024-04-02 eleven
expect 'a vehicle that is no number' 2 '' "$usage"
run schedule "$room/r.csv" 2024-04-31 2024-04-02 eleven
expect 'usage before the dates' 2 '' "$usage"
run schedule "$room/none.csv" 2024-04-31 2024-4-02 11
expect 'a date that is none' 1 '' 'fault date NoSuchDate'
run schedule "$room/none.csv" 2024-04-02 2024-04-02 0
expect 'the horizon before the file' 1 '' 'fault horizon Empty'
run schedule "$room/none.csv" 2024-04-01 2024-04-02 0
expect 'no such file' 3 '' 'fault Open'
run schedule "$room" 2024-04-01 2024-04-02 11
expect 'a folder' 3 '' 'fault ReadFault'
run schedule "$room/r.csv" 2024-04-01 2024-04-02
expect 'a word too few' 2 '' "$usage"

run year "$room/r.csv" 17 positive 11 2024
days=$(sort "$room/out" | uniq | wc -l)
sed -i -n '/-03-31\|-04-01\|-06-30\|-07-01/p' "$room/out"
expect "a year's table" 0 '2024-03-31 86400
2024-04-01 72000
2024-06-30 72000
2024-07-01 86400' ''
echo "$days" > "$room/out"
expect "the days of a year" 0 366 ''
run year "$room/nights.csv" 17 negative 1 2023
sort -u -k 2 "$room/out" | cut -c 11- > "$room/kinds"
echo "$(wc -l < "$room/out")$(cat "$room/kinds")" > "$room/out"
expect 'a year of nights' 0 '365 57600' ''
run year "$room/r.csv" 18 positive 11 2024
expect 'no such element' 1 '' 'fault NoElement'
run year "$room/r.csv" 17 positive 11 2200
expect 'a year too late' 1 '' 'fault YearRange'
run year "$room/r.csv" 17 positive 11 70000
expect 'a year of five digits' 1 '' 'fault YearRange'
run year "$room/empty.csv" 17 positive 0 2200
expect 'the type before the year' 1 '' 'fault VehicleRange'
run year "$room/empty.csv" 17 positive 11 2200
expect 'the year before the file' 1 '' 'fault YearRange'
run year "$room/faulty.csv" 5 positive 11 2024
expect 'the file before the element' 1 '' 'fault row 3 Domain FieldRange at 2'
run year "$room/r.csv" x positive 11 2024
expect 'an element that is no number' 2 '' "$usage"
run year "$room/r.csv" 17 both 11 2024
expect 'no direction' 2 '' "$usage"

run migrate "$room/r.csv"
expect 'a migrated file' 0 "$elements
17,positive,0,[[(M4d1){M3}]*[(h10){h4}]]
17,negative,11," ''
cp "$room/out" "$room/migrated.csv"
run migrate "$room/migrated.csv"
cmp "$room/out" "$room/migrated.csv" > "$room/err" 2>&1
expect 'a file migrated twice' 0 "$(cat "$room/migrated.csv")" ''
run migrate "$room/most.csv"
expect 'all types but a list' 0 "$elements
17,positive,!11;12," ''
run migrate "$room/header.csv"
expect 'the header migrated' 0 "$elements" ''
run migrate "$room/empty.csv"
expect 'an empty file migrated' 1 '' 'fault Header'
sed 's/^17,negative,11,/17,negative,100,/' "$room/r.csv" > "$room/bad.csv"
run migrate "$room/bad.csv"
expect 'a faulty vehicle type' 1 '' 'fault row 2 Vehicle'

: > "$room/out"
for words in 'schedule r.csv 2024-04-01 2024-04-02 11' 'year r.csv 17 positive 11 2024' 'migrate r.csv'; do
    (cd "$room" && exec "$program" $words) > /dev/full 2> "$room/err"
    status=$?
    expect "a full output: $words" 3 '' 'fault WriteFault'
done

echo "program: $passed passed, $failed failed"
[ "$failed" = 0 ]

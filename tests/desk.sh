#!/usr/bin/env bash
# What the built program `gtdesk` does with its words, files and outputs: what it prints, its error line and its status. The texts
# of help are compared with those in tests/desk/. Run it after `rt ci`, which builds the programs.
set -u
top=$(cd "$(dirname "$0")/.." && pwd)
program=$top/crates/gtdesk/out/gtdesk
[ -x "$program" ] || { echo "no program at $program: run rt ci first" >&2; exit 1; }
room=$(mktemp -d)
trap 'rm -rf "$room"' EXIT
cd "$room" || exit 1
passed=0 failed=0

# holds FILE TEXT: the file holds this text and one line end, byte for byte; or nothing, if the text is empty.
holds() {
    printf '%s' "${2:+$2$'\n'}" | cmp -s - "$1"
}

# expect NAME STATUS OUT ERR: the last run's status and what it wrote.
expect() {
    if [ "$status" = "$2" ] && holds out "$3" && holds err "$4"; then
        passed=$((passed + 1))
    else
        failed=$((failed + 1))
        echo "FAILED $1: status $status, wrote '$(cat out)' and '$(cat err)'"
    fi
}

run() {
    "$program" "$@" > out 2> err
    status=$?
}

header='element,direction,vehicle,state,until,rows'
printf '%s\n' element,direction,vehicle,domain '17,positive,0,[(M4d1){M3}]*[(h10){h4}]' '17,both,11,(h10){h1}' '18,negative,0,' \
    > a.csv

# Texts.
run --help
expect 'help' 0 "$(cat "$top/tests/desk/help.txt")" ''
run help
expect 'the command help' 0 "$(cat "$top/tests/desk/help.txt")" ''
run now --help
expect 'help of a command' 0 "$(cat "$top/tests/desk/now.txt")" ''
run help now
expect 'the command help with a command' 0 "$(cat "$top/tests/desk/now.txt")" ''
run faults --help
expect 'help of the command faults' 0 "$(cat "$top/tests/desk/faults.txt")" ''
run picture --help
expect 'help of the command picture' 0 "$(cat "$top/tests/desk/picture.txt")" ''
run help picture-domain
expect 'help of the command picture-domain' 0 "$(cat "$top/tests/desk/picture-domain.txt")" ''
run words --help
expect 'help of the command words' 0 "$(cat "$top/tests/desk/words.txt")" ''
run hours --help
expect 'help of the command hours' 0 "$(cat "$top/tests/desk/hours.txt")" ''
run help hours
expect 'the command help with the command hours' 0 "$(cat "$top/tests/desk/hours.txt")" ''
run same --help
expect 'help of the command same' 0 "$(cat "$top/tests/desk/same.txt")" ''
run diff --help
expect 'help of the command diff' 0 "$(cat "$top/tests/desk/diff.txt")" ''
run ask --help
expect 'help of the command ask' 0 "$(cat "$top/tests/desk/ask.txt")" ''
run records --help
expect 'help of the command records' 0 "$(cat "$top/tests/desk/records.txt")" ''
run --version
expect 'version' 0 'gtdesk 0.1.0' ''

run
expect 'no words' 0 "$(cat "$top/tests/desk/help.txt")" ''

# Words that are refused.
see='(see gtdesk --help)'
run yesterday
expect 'no command' 2 '' "gtdesk: command line: unrecognized subcommand $see"
run now
expect 'words left out' 2 '' "gtdesk: command line: one or more required arguments were not provided $see"
run words '(h1){h1}' '(h1){h1}'
expect 'a word too many' 2 '' "gtdesk: command line: unexpected argument found $see"
run now a.csv 2024-04-01T10:00:00 $'\xff'
expect 'a word that is no text' 2 '' "gtdesk: command line: a word is no text $see"
run now a.csv 2024-04-01 11
expect 'the form of a moment' 1 '' 'gtdesk: MOMENT: not of the form YYYY-MM-DDThh:mm:ss'
run now a.csv 2023-02-29T00:00:00 11
expect 'no such date' 1 '' 'gtdesk: MOMENT: no such date or clock time'
run now a.csv 1900-12-31T23:59:59 11
expect 'a moment out of range' 1 '' 'gtdesk: MOMENT: not from 1901-01-01T00:00:00 to 2199-12-31T23:59:59'
for vehicle in 0 100 eleven 4294967297 ''; do
    run now a.csv 2024-04-01T10:00:00 "$vehicle"
    expect "the vehicle type '$vehicle'" 1 '' 'gtdesk: VEHICLE: not a number from 1 to 99'
done

# The state at a moment: rows for both directions and for one vehicle type, at the second of a change and the second before it.
always=$'18,positive,11,open,,\n18,negative,11,closed,,3'
at_ten=$'17,positive,11,closed,2024-04-01T14:00:00,1;2\n17,negative,11,closed,2024-04-01T11:00:00,2'
before=$'17,positive,11,open,2024-04-01T10:00:00,\n17,negative,11,open,2024-04-01T10:00:00,'
run now a.csv 2024-04-01T10:00:00 11
expect 'at the second' 0 "$header"$'\n'"$at_ten"$'\n'"$always" ''
run now a.csv 2024-04-01T09:59:59 11
expect 'the second before' 0 "$header"$'\n'"$before"$'\n'"$always" ''
run now a.csv 2024-04-01T10:00:00 12
twelve=$'17,positive,12,closed,2024-04-01T14:00:00,1\n17,negative,12,open,,'
expect 'another vehicle type' 0 "$header"$'\n'"$twelve"$'\n'"${always//,11,/,12,}" ''
"$program" now - 2024-04-01T10:00:00 11 < a.csv > out 2> err
status=$?
expect 'standard input' 0 "$header"$'\n'"$at_ten"$'\n'"$always" ''
head -n 1 a.csv > none.csv
run now none.csv 2024-04-01T10:00:00 11
no_row='gtdesk: none.csv: note: no row is for vehicle type 11'
expect 'no rows' 0 "$header" "$no_row"
"$program" now none.csv 2024-04-01T10:00:00 11 > out 2> /dev/full
status=$?
: > err
expect 'a note that is not told' 3 "$header" ''

run now a.csv none.csv 2024-04-01T10:00:00 11
expect 'two files' 0 "$header"$'\n'"$at_ten"$'\n'"$always"$'\n'"$header" "$no_row"
run now gone.csv none.csv 2024-04-01T10:00:00 11
expect 'a file that is gone, and another' 3 "$header" $'gtdesk: gone.csv: cannot be opened\n'"$no_row"

# Ctrl-C while the file is read: the shell reports status 130, and nothing was printed.
mkfifo waits
exec 3<> waits
cat a.csv >&3
timeout --preserve-status -s INT 0.5 "$program" now - 2024-04-01T10:00:00 11 <&3 > out 2> err
status=$?
exec 3>&-
expect 'interrupted while it reads' 130 '' ''
# Ctrl-C while the output takes no more: a first part was printed, and nothing else.
{ head -n 1 a.csv; printf '%s,both,0,\n' {1..3000}; } > long.csv
"$program" now long.csv 2024-04-01T10:00:00 11 > whole
mkfifo full
exec 4<> full
timeout --preserve-status -s INT 0.5 "$program" now long.csv 2024-04-01T10:00:00 11 >&4 2> err
status=$?
timeout 0.5 cat full > part
exec 4>&-
: > out
[ -s part ] && [ "$(stat -c %s part)" -lt "$(stat -c %s whole)" ] && cmp -s -n "$(stat -c %s part)" part whole || status=wrong
expect 'interrupted while it writes' 130 '' ''

# Files that are refused.
run now gone.csv 2024-04-01T10:00:00 11
expect 'no file' 3 '' 'gtdesk: gone.csv: cannot be opened'
run now $'a\nb\\\xc3\xa9' 2024-04-01T10:00:00 11
expect 'a name that is shown escaped' 3 '' 'gtdesk: a\x0ab\x5c\xc3\xa9: cannot be opened'
run now . 2024-04-01T10:00:00 11
expect 'a folder' 3 '' 'gtdesk: .: ReadFault'
refused() {
    printf '%s' "$2" > bad.csv
    run now bad.csv 2024-04-01T10:00:00 11
    expect "$1" 1 '' "gtdesk: bad.csv: $3"
}
top_line=$'element,direction,vehicle,domain\n'
refused 'nothing' '' 'Header'
refused 'a header' $'element;direction;vehicle;domain\n' 'Header'
refused 'fields' "$top_line"$'1,both,0\n' 'row 1: FieldCount'
refused 'an element' "$top_line"$'x,both,0,\n' 'row 1: Element'
refused 'a direction' "$top_line"$'1,both,0,\n1,up,0,\n' 'row 2: Direction'
refused 'a vehicle' "$top_line"$'1,both,100,\n' 'row 1: Vehicle'
refused 'a domain' "$top_line"$'1,both,0,[(h25){h1}]\n' 'row 1: Domain FieldRange at 2'

# All faults of a file: each row at fault in order, with its line, its field and a caret; nothing for an accepted file.
run faults a.csv
expect 'no faults' 0 '' ''
run faults none.csv
expect 'no faults of no rows' 0 '' ''
run faults
expect 'faults of no file' 2 '' "gtdesk: command line: one or more required arguments were not provided $see"
run faults gone.csv
expect 'faults of a file that is not there' 3 '' 'gtdesk: gone.csv: cannot be opened'
run faults .
expect 'faults of a folder' 3 '' 'gtdesk: .: ReadFault'
printf '%s' "$top_line" > bad.csv
printf '%s\n' '1,both,0,' 'x,both,0,' '1,both,0,"(h10)' '{h1}"' '1,up,0,' '1,both,100,' '1,both,0' '1,both,0,[(h25){h1}]' \
    '1,up,100,x' '1,both,0,(h10){h1}' >> bad.csv
run faults bad.csv
expect 'faults of rows' 1 "$(cat "$top/tests/desk/faults_of_rows.txt")" ''
"$program" faults - < bad.csv > out 2> err
status=$?
expect 'faults of standard input' 1 "$(sed 's/^bad.csv:/-:/' "$top/tests/desk/faults_of_rows.txt")" ''
run now bad.csv 2024-04-01T10:00:00 11
expect 'the first of them refuses the file' 1 '' 'gtdesk: bad.csv: row 2: Element'
cp bad.csv $'b\n.csv'
# One file after the other: the first that is refused gives the status, or else the first that has faults.
listed=$(cat "$top/tests/desk/faults_of_rows.txt")
run faults a.csv bad.csv none.csv
expect 'faults of one of three files' 1 "$listed" ''
run faults gone.csv bad.csv . a.csv
expect 'faults of two files that are not read' 3 "$listed" $'gtdesk: gone.csv: cannot be opened\ngtdesk: .: ReadFault'
run faults bad.csv bad.csv
expect 'faults of a file twice' 1 "$listed"$'\n'"$listed" ''
"$program" faults a.csv - < bad.csv > out 2> err
status=$?
expect 'faults of a file and of standard input' 1 "$(sed 's/^bad.csv:/-:/' <<< "$listed")" ''

run faults $'b\n.csv'
expect 'a name that is listed escaped' 1 "$(sed 's/^bad.csv:/b\\x0a.csv:/' "$top/tests/desk/faults_of_rows.txt")" ''
listed() {
    printf '%s' "$2" > bad.csv
    run faults bad.csv
    expect "$1" 1 "$3" ''
}
expected='    expected: element,direction,vehicle,domain (or vehicles)'
listed 'an empty file' '' $'bad.csv:1: Header\n    found:    \n'"$expected"
listed 'a wrong header' $'element;direction\r\n1,both,0,\n' $'bad.csv:1: Header\n    found:    element;direction\n'"$expected"
listed 'lines that end with two bytes, and an empty line' \
    $'element,direction,vehicle,domain\r\n1,both,0,\r\n1,up,0,\r\n\r\n1,x,0,\r\n' \
    $'bad.csv:3: row 2: Direction\n    up\n    ^\n    expected: positive, negative or both
bad.csv:5: row 3: Direction\n    x\n    ^\n    expected: positive, negative or both'
listed 'bytes that are shown escaped' "$top_line"$'1,both,0,\\\xc3\xa9(h25)\n' \
    $'bad.csv:2: row 1: Domain BadToken at 0\n    \\x5c\\xc3\\xa9(h25)\n    ^
    expected: a letter with 1 to 6 digits, a space, or one of ( ) { } [ ] + * -'
# A hint for a first line that is nearly a header: the first of those that apply, and none for another line.
hinted() {
    [ "$2" = - ] || printf "$2" > bad.csv
    run faults bad.csv
    expect "a hint for $1" 1 $'bad.csv:1: Header\n    found:    '"$3"$'\n'"$expected${4:+$'\n    hint:     '$4}" ''
}
commas=element,direction,vehicle,domain
semicolons='the fields are separated by semicolons; use commas'
tabs='the fields are separated by tabs; use commas'
spaces='there are spaces in the header; remove them'
capitals='there are capital letters in the header; use small ones'
quotes='quotes make one field of several; remove them'
utf16='the file is UTF-16; save it as UTF-8'
hinted 'semicolons' 'element;direction;vehicle;domain\n17;both;0;\n' 'element;direction;vehicle;domain' "$semicolons"
hinted 'semicolons of version 2 at the end of the file' 'element;direction;vehicles;domain' \
    'element;direction;vehicles;domain' "$semicolons"
hinted 'semicolons between quoted capitals after a mark' '\xef\xbb\xbf"Element";"Direction";"Vehicle";"Domain"\r\n' \
    '\xef\xbb\xbf"Element";"Direction";"Vehicle";"Domain"' "$semicolons"
hinted 'semicolons, tabs and spaces' 'element;direction\tvehicle; domain\n' 'element;direction\x09vehicle; domain' \
    "$semicolons"
hinted 'tabs' 'element\tdirection\tvehicle\tdomain\n' 'element\x09direction\x09vehicle\x09domain' "$tabs"
hinted 'tabs and spaces' 'element\t direction\tvehicle\tdomain\n' 'element\x09 direction\x09vehicle\x09domain' "$tabs"
hinted 'spaces' 'element, direction, vehicle, domain\n' 'element, direction, vehicle, domain' "$spaces"
hinted 'a space at the end, and capitals' 'Element,direction,vehicle,domain \r\n' 'Element,direction,vehicle,domain ' "$spaces"
hinted 'capitals' 'Element,Direction,Vehicle,Domain\n' 'Element,Direction,Vehicle,Domain' "$capitals"
hinted 'one capital' 'element,direction,vehicles,domaiN\r' 'element,direction,vehicles,domaiN' "$capitals"
hinted 'quoted capitals' '"ELEMENT","DIRECTION","VEHICLE","DOMAIN"\n' '"ELEMENT","DIRECTION","VEHICLE","DOMAIN"' "$capitals"
hinted 'a quoted line' "\"$commas\"\n" "\"$commas\"" "$quotes"
hinted 'UTF-16 without a mark' "$(printf %s "$commas" | sed 's/./&\\0/g')" \
    'e\x00l\x00e\x00m\x00e\x00n\x00t\x00,\x00d\x00i\x00...' "$utf16"
for order in LE BE; do
    printf 'element,direction,vehicle,domain\n17,both,0,\n' | iconv -t "UTF-16$order" > bad.csv
    run faults bad.csv
    sed -i 2d out
    expect "UTF-16$order without a mark" 1 $'bad.csv:1: Header\n'"$expected"$'\n    hint:     '"$utf16" ''
done
hinted 'UTF-16 with a mark' '\xff\xfex\0' '\xff\xfex\x00' "$utf16"
hinted 'UTF-16 with the other mark' '\xfe\xff\0x' '\xfe\xff\x00x' "$utf16"
names='it has four fields, but other names; write the header in its place, or above it'
hinted 'another word' 'element;direction;vehicle;domains\n' 'element;direction;vehicle;domains' "$names"
hinted 'a fifth field' 'element;direction;vehicle;domain;\n' 'element;direction;vehicle;domain;' ''
hinted 'a field left out' 'Element,Direction,Vehicle\n' 'Element,Direction,Vehicle' ''
hinted 'a mark in another place' "$commas\\xef\\xbb\\xbf\n" "$commas\xef\xbb\xbf" "$names"
hinted 'half a mark' '\xff\n' '\xff' ''
# Texts of more than 100 columns are cut: 40 columns before the place and 50 from it on are left.
times() { printf "$2%.0s" $(seq "$1"); }
listed 'a field of 100 columns' "$top_line$(times 100 x)"$',both,0,\n' \
    $'bad.csv:2: row 1: Element\n    '"$(times 100 x)"$'\n    ^\n    expected: 1 to 10 digits'
listed 'a longer field' "$top_line$(times 101 x)"$',both,0,\n' \
    $'bad.csv:2: row 1: Element\n    '"$(times 50 x)"$'...\n    ^\n    expected: 1 to 10 digits'
listed 'a domain cut on both sides' "$top_line"$'1,both,0,'"$(times 60 ' ')(h25){h1}$(times 60 ' ')"$'\n' \
    $'bad.csv:2: row 1: Domain FieldRange at 61\n    ...'"$(times 39 ' ')(h25){h1}$(times 42 ' ')"$'...\n'"$(times 47 ' ')^
    expected: 0 to 23 for an hour"
listed 'a domain cut on the left' "$top_line"$'1,both,0,'"$(times 100 ' ')(h25){h1}"$'\n' \
    $'bad.csv:2: row 1: Domain FieldRange at 101\n    ...'"$(times 39 ' ')(h25){h1}"$'\n'"$(times 47 ' ')^
    expected: 0 to 23 for an hour"
listed 'a field cut where bytes are shown escaped' "$top_line$(times 26 '\\')"$',both,0,\n' \
    $'bad.csv:2: row 1: Element\n    '"$(times 12 '\\x5c')"$'...\n    ^\n    expected: 1 to 10 digits'
listed 'a first line that is cut' "$(times 101 x)"$'\n' $'bad.csv:1: Header\n    found:    '"$(times 50 x)"$'...\n'"$expected"
{ printf '%s' "$top_line"; yes 1,both,0, | head -n 65536; printf '1,both\n1,both\n'; } > bad.csv
run faults bad.csv
expect 'too many rows' 1 $'bad.csv:65538: row 65537: TooManyRows\n    expected: at most 65536 rows' ''
head -c 16777217 /dev/zero > bad.csv
run faults bad.csv
expect 'a file too large' 1 $'bad.csv:1: TooLarge\n    expected: at most 16777216 bytes' ''

# Pictures: a line for each day and two more, under their titles; refused words, in their order, and an element without rows.
# tests/pictures.py looks at what they show.
drawn() {
    "$program" "${@:4}" > out 2> err < a.csv
    status=$?
    [ "$(wc -l < out)" = "$2" ] && [ "$(tail -n 1 out | tail -c 7)" = '</svg>' ] && grep -qF "<title>$3</title>" out && : > out
    expect "$1" 0 '' ''
}
drawn 'a picture' 368 'Element 17, positive, vehicle type 12, 2024 (a.csv)' picture a.csv 17 positive 12 2024
drawn 'a picture of standard input' 367 'Element 18, negative, vehicle type 1, 1901 (-)' picture - 18 negative 1 1901
drawn 'a picture of a domain' 367 '(h10){h1}' picture-domain '(h10){h1}' 2199
run picture a.csv x both 0 1900
expect 'no element' 1 '' 'gtdesk: ELEMENT: not a number of 1 to 10 digits'
run picture a.csv 17 both 0 1900
expect 'no direction' 1 '' 'gtdesk: DIRECTION: neither positive nor negative'
run picture a.csv 17 positive 0 1900
expect 'no vehicle type of a picture' 1 '' 'gtdesk: VEHICLE: not a number from 1 to 99'
run picture a.csv 17 positive 1 2200
expect 'no year' 1 '' 'gtdesk: YEAR: not a number from 1901 to 2199'
run picture a.csv 19 positive 1 2024
expect 'an element that no row names' 1 '' 'gtdesk: a.csv: no row names the element'
run picture gone.csv 17 positive 1 2024
expect 'a picture of no file' 3 '' 'gtdesk: gone.csv: cannot be opened'
run picture a.csv 17 positive 1
expect 'a picture of no year' 2 '' "gtdesk: command line: one or more required arguments were not provided $see"
run picture-domain '(h25){h1}' 1900
expect 'no domain' 1 '' $'gtdesk: DOMAIN: FieldRange at 1\n    (h25){h1}\n     ^\n    expected: 0 to 23 for an hour'
run picture-domain '(h5){h1}' 1900
expect 'no year of a domain' 1 '' 'gtdesk: YEAR: not a number from 1901 to 2199'
# The words of a domain.
run words '[(M4d1){M3}]*[(h22){h8}]'
expect 'words' 0 'from 1 April every year until 30 June (included)
and all this only in: each day from 22:00 until 06:00 the next day' ''
run words '(h25){h1}'
expect 'words of no domain' 1 '' $'gtdesk: DOMAIN: FieldRange at 1\n    (h25){h1}\n     ^\n    expected: 0 to 23 for an hour'
run words ''
expect 'words of nothing' 1 '' $'gtdesk: DOMAIN: Incomplete at 0\n    \n    ^
    expected: (start){duration} in full, and a ] for each ['
run words -- '-(h10){h1}'
expect 'words of a domain with a sign in front' 1 '' $'gtdesk: DOMAIN: Unexpected at 0\n    -(h10){h1}\n    ^
    expected: (start){duration} or [..] at the beginning and after an operator, and + * - or ] after one of them'
run words
expect 'words without a domain' 2 '' "gtdesk: command line: one or more required arguments were not provided $see"

# Opening hours of a domain.
run hours --of '[(t2t3t4t5t6h0m0){d1}]*[[(h7m0){m120}]+[(h16m0){m120}]]'
expect 'hours' 0 'Mo-Fr 07:00-09:00,16:00-18:00' ''
run hours '--of=(h0m0){d1}-(M12d25h0m0){d1}'
expect 'hours of a domain in one word with its option' 0 '24/7; Dec 25 off' ''
run hours --of '(M3l11){M8}'
expect 'no hours' 1 '' 'gtdesk: DOMAIN: no opening hours are found that have its seconds'
run hours --of '(h25){h1}'
expect 'hours of no domain' 1 '' $'gtdesk: DOMAIN: FieldRange at 1\n    (h25){h1}\n     ^\n    expected: 0 to 23 for an hour'
run hours --of ''
expect 'hours of nothing' 1 '' $'gtdesk: DOMAIN: Incomplete at 0\n    \n    ^
    expected: (start){duration} in full, and a ] for each ['
run hours
expect 'hours of neither' 2 '' "gtdesk: command line: hours takes either TEXT or --of DOMAIN $see"
run hours Mo-Fr --of '(h0m0){d1}'
expect 'hours of both' 2 '' "gtdesk: command line: hours takes either TEXT or --of DOMAIN $see"
run hours Mo Fr
expect 'hours of two texts' 2 '' "gtdesk: command line: unexpected argument found $see"
run hours --of
expect 'hours without a domain' 2 '' "gtdesk: command line: one of the values isn't valid for an argument $see"

# The domain of opening hours.
run hours 'Mo-Fr 08:00-17:00'
expect 'a text of hours' 0 '[[(t2t3t4t5t6h0m0){d1}]*[(h8m0){m540}]]' ''
run hours '24/7; Dec 25 off'
expect 'a text of two rules' 0 '[[(h0m0){d1}]-[(M12d25h0m0){d1}]]' ''
run hours 'Mo-Fr 7:30-12:00'
expect 'a text that is written loosely' 0 '[[(t2t3t4t5t6h0m0){d1}]*[(h7m30){m270}]]' 'gtdesk: TEXT: warning Loose at 6: 07:30'
run mend hours 'Mo-Fr 7:30-12:00'
expect 'its strict form' 0 'Mo-Fr 07:30-12:00' ''
run hours --strict 'Mo-Fr 7:30-12:00'
expect 'a byte that begins no token' 1 '' $'gtdesk: TEXT: BadToken at 6\n    Mo-Fr 7:30-12:00\n          ^
    expected: words, numbers and signs of opening hours, such as Mo-Fr 08:00-18:00'
run hours 'Mo-Fr 08:00-18:00; PH off'
expect 'holidays' 1 '' $'gtdesk: TEXT: Holidays at 19\n    Mo-Fr 08:00-18:00; PH off\n                       ^
    expected: a table of such holidays: give one with --holidays FILE'
run hours 'Apr 10-31'
expect 'a day that its month never has' 1 '' $'gtdesk: TEXT: Range at 7\n    Apr 10-31\n           ^
    expected: a number or a time in its range, such as 08:00 or Apr 30'
run hours ''
expect 'an empty text of hours' 1 '' $'gtdesk: TEXT: Incomplete at 0\n    \n    ^
    expected: more: the second part of a range, or what follows a sign'
run hours 'Mo-Fr 12am-5am'
expect 'hours that are read in two ways' 1 '' $'gtdesk: TEXT: Ambiguous at 6\n    Mo-Fr 12am-5am\n          ^
    expected: what is read in one way: weekdays in English, and times such as 08:00'
run same --hours 24/7 'Mo-Fr PH off'
expect 'the second of two texts' 1 '' $'gtdesk: SECOND: Unsupported at 6\n    Mo-Fr PH off\n          ^
    expected: years, weeks, dates, weekdays and times; and where the command reads them, holidays and comments'
run words "$(printf '%70s' '')(M13){M1}$(printf '%70s' '')"
expect 'a long word' 1 '' "gtdesk: DOMAIN: FieldRange at 71
    ...$(printf '%39s' '')(M13){M1}$(printf '%42s' '')...
    $(printf '%43s' '')^
    expected: 1 to 12 for a month"
run hours '1800-2056/2'
expect 'a domain too large' 1 '' $'gtdesk: TEXT: TooMany at 0\n    1800-2056/2\n    ^
    expected: hours that take at most 128 basic domains; these take 129'
run hours $'Mo\xff'
expect 'hours that are no text' 2 '' "gtdesk: command line: a word is no text $see"

# Warnings: after the faults.
printf '%s\n' element,direction,vehicle,domain '1,both,0,[(h5){h1}]*[(h7){h1}]' '2,both,0,(h0){h24}' '3,up,0,' \
    '4,both,0,(h7){h2}' 5,both,0, '6,both,0,(y1800){y1}' > warn.csv
never=$'never-holds: at no second from 1901 on\n    ' always=$'always-holds: at each second, as if no domain were given\n    (h0){h24}\n    ^'
run faults --warn warn.csv
expect 'faults and warnings' 1 $'warn.csv:4: row 3: Direction\n    up\n    ^\n    expected: positive, negative or both
warn.csv:2: row 1: '"$never"$'[(h5){h1}]*[(h7){h1}]\n     ^
warn.csv:3: row 2: '"$always"$'
warn.csv:7: row 6: '"$never"$'(y1800){y1}\n    ^' ''
run faults warn.csv
expect 'faults without warnings' 1 $'warn.csv:4: row 3: Direction\n    up\n    ^\n    expected: positive, negative or both' ''
sed -i -e 4d -e 2d warn.csv
run faults warn.csv --warn
expect 'warnings alone' 0 "warn.csv:2: row 1: $always"$'\nwarn.csv:5: row 4: '"$never"$'(y1800){y1}\n    ^' ''

# Scripts of their own: a long file that is mended by what is printed of it, and the words and pictures of the gallery.
for script in mend.py gallery.py; do
    if "$top/tests/$script" > out 2>&1; then
        passed=$((passed + 1))
    else
        failed=$((failed + 1))
        echo "FAILED $script: $(cat out)"
    fi
done

# Files of opening hours.
printf '%s\n' element,direction,vehicles,hours '1,both,0,Fr 22:00-04:00' '2,positive,12;11,' > hours.csv
run records hours.csv
expect 'records' 0 $'element,direction,vehicles,domain\n1,both,0,[[(t6h22m0){d1}]*[(h22m0){m360}]]\n2,positive,11;12,' ''
"$program" records - < hours.csv > out 2> err
status=$?
expect 'records of standard input' 0 $'element,direction,vehicles,domain\n1,both,0,[[(t6h22m0){d1}]*[(h22m0){m360}]]
2,positive,11;12,' ''
printf '%s\n' element,direction,vehicles,hours '1,both,0,Apr 10-31' '1,up,0,24/7' '1,both,0,24/7' '1,both,0,1800-2056/2' > bad.csv
run records bad.csv
expect 'faults of hours' 1 '' $'bad.csv:2: row 1: Hours Range at 7\n    Apr 10-31\n           ^
    expected: a number or a time in its range, such as 08:00 or Apr 30
bad.csv:3: row 2: Direction\n    up\n    ^\n    expected: positive, negative or both
bad.csv:5: row 4: Hours TooMany at 0\n    1800-2056/2\n    ^
    expected: hours that take at most 128 basic domains; these take 129'
run records a.csv
expect 'no file of hours' 1 '' $'a.csv:1: Header\n    found:    element,direction,vehicle,domain
    expected: element,direction,vehicles,hours'
run records gone.csv
expect 'no such file of hours' 3 '' 'gtdesk: gone.csv: cannot be opened'
run records .
expect 'a folder of hours' 3 '' 'gtdesk: .: ReadFault'
"$program" records hours.csv > /dev/full 2> err
status=$?
: > out
expect 'a full output for records' 3 '' 'gtdesk: standard output: cannot be written'
"$program" records bad.csv > out 2> /dev/full
status=$?
: > err
expect 'a full output for the faults of hours' 1 '' ''

# Warnings that are lost: all is printed, and the status says so. Without warnings nothing is lost.
"$program" hours 'Mo 8:00-9:00' > out 2> /dev/full
status=$?
: > err
expect 'a full output for a warning' 3 '[[(t2h0m0){d1}]*[(h8m0){m60}]]' ''
"$program" hours 'Mo 08:00-09:00' > out 2> /dev/full
status=$?
expect 'a full output for no warning' 0 '[[(t2h0m0){d1}]*[(h8m0){m60}]]' ''
printf 'element;direction;vehicle;domain\n17;both;0;\n' > semicolons.csv
"$program" mend semicolons.csv > out 2> /dev/full
status=$?
expect 'a full output for changes' 3 'element,direction,vehicle,domain
17,both,0,' ''

# Rules that hold all day, and hidden hours beside holidays.
run hours 'Mo, Dec 24 off'
expect 'a rule of days alone' 0 '[[(t2h0m0){d1}]-[(M12d24h0m0){d1}]]' 'gtdesk: TEXT: warning WholeDay at 0: open'
run hours 'Feb 1,24/7'
expect 'a rule of days alone before 24/7' 0 '[[(M2d1h0m0){d1}]+[(h0m0){d1}]]' 'gtdesk: TEXT: warning WholeDay at 0: open'
printf 'first,last,kind,name\n2026-01-01,2026-12-31,PH-covered,\n2026-12-25,,PH,Christmas\n' > days.csv
run hours --holidays days.csv --years 2026 'Mo 08:00-12:00; Mo 13:00-17:00; PH off'
expect 'hidden hours beside holidays' 0 \
    '[[[[[(t2h0m0){d1}]*[(h8m0){m240}]]-[(t2h0m0){d1}]]+[[(t2h0m0){d1}]*[(h13m0){m240}]]]-[(y2026M12d25h0m0){d1}]]' \
    'gtdesk: TEXT: warning Hides at 16: Mo 08:00-12:00, Mo 13:00-17:00; PH off
gtdesk: TEXT: warning KnownYears at 32: 2026-2026'

# Tags with hours that need a table of holidays.
printf 'element,key,value\n7,access:conditional,no @ (10:00-12:00; PH off)\n' > tags.csv
printf 'kind,name,means\nmode,access,0\n' > means.csv
printf 'first,last,kind,name\n2026-01-01,2026-12-31,PH-covered,\n2026-12-25,,PH,Christmas\n' > days.csv
run conditions --holidays days.csv --years 2026 tags.csv means.csv
expect 'tags with holidays' 0 \
    $'element,direction,vehicles,domain\n7,both,0,[[[(h0m0){d1}]*[(h10m0){m120}]]-[(y2026M12d25h0m0){d1}]]' \
    'tags.csv:2: row 1: warning Hours KnownYears at 19: 2026-2026'
run conditions tags.csv means.csv
expect 'no table of holidays' 1 '' \
    $'tags.csv:2: row 1: Hours Holidays at 19\n    no @ (10:00-12:00; PH off)\n                       ^
    expected: a table of such holidays: give one with --holidays FILE'
run conditions --holidays days.csv --years 2025-2026 tags.csv means.csv
expect 'a day that the table does not cover' 1 '' \
    $'tags.csv:2: row 1: Hours Uncovered at 19: 2025-01-01\n    no @ (10:00-12:00; PH off)\n                       ^
    expected: a table with all holidays of these years, and rows that say so: PH-covered or SH-covered'
run conditions --holidays means.csv --years 2026 tags.csv means.csv
expect 'no table' 1 '' 'gtdesk: means.csv: Header'
run conditions --holidays - --years 2026 - means.csv < days.csv
expect 'standard input twice' 2 '' 'gtdesk: command line: standard input is given more than once (see gtdesk --help)'

# Tags with two rows for each element: as many rows as a record file may have, which is accepted, and then one more.
printf 'kind,name,means\nmode,access,0\ncondition,hazmat,13\n' > means.csv
{ printf 'element,key,value\n'; seq 32768 | sed 's/$/,access:conditional,no @ (10:00-12:00); no @ hazmat/'; } > tags.csv
"$program" conditions tags.csv means.csv > rows.csv 2> err
status=$?
{ wc -l < rows.csv; tail -n 2 rows.csv; } > out
expect 'the most rows of tags' 0 $'65537\n32768,both,!13,[[(h0m0){d1}]*[(h10m0){m120}]]\n32768,both,13,' ''
run faults rows.csv
expect 'the most rows of tags are a record file' 0 '' ''
printf '32769,access,no\n' >> tags.csv
run conditions tags.csv means.csv
expect 'too many rows of tags' 1 '' \
    'gtdesk: tags.csv: TooManyRows: the record file would have 65537 rows; at most 65536 are accepted'

# Outputs that fail.
: > out
"$program" now a.csv 2024-04-01T10:00:00 11 > /dev/full 2> err
status=$?
expect 'a full output' 3 '' 'gtdesk: standard output: cannot be written'
"$program" --help > /dev/full 2> err
status=$?
expect 'a full output for help' 3 '' 'gtdesk: standard output: cannot be written'
"$program" hours --of '(h0m0){d1}' > /dev/full 2> err
status=$?
expect 'a full output for hours' 3 '' 'gtdesk: standard output: cannot be written'
"$program" hours 24/7 > /dev/full 2> err
status=$?
expect 'a full output for the domain of hours' 3 '' 'gtdesk: standard output: cannot be written'
: > err
"$program" now gone.csv 2024-04-01T10:00:00 11 2> /dev/full
status=$?
expect 'a full error output' 3 '' ''

echo "desk: $passed passed, $failed failed"
[ "$failed" = 0 ]

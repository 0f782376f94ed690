#!/usr/bin/env bash
# Each command of `gtd` and `gtdesk`, with its calls of the system made to fail by the library of fail_call.c: each open of a
# file, each read, each write to standard output and each to standard error, one after the other.
#
#   A call that is interrupted, or moves a single byte, changes nothing; nor do 999 interruptions of each (50 of standard error).
#   A pipe that is not ready changes nothing of gtdesk, which waits, but that the line of a refusal may be lost; for gtd it is
#   another error.
#   1,000 interruptions of a read in a row are `Endless`. Another error of a read is `ReadFault`. One of an open is `Open`, or
#   `NoMemory` if memory was refused. Nothing is printed then.
#   Another error of a write to standard output is `WriteFault`, after a first part of what is printed. This may be all of it: at
#   its end a program writes once more what is left in its buffer. If that fails too, exactly what was taken before is printed.
#   Another error of standard error does not change what is printed. Only a first part of the line is told. A status of 0 becomes
#   3, since a warning was lost; others stay.
#
# Run it after `rt ci`, which builds the programs; GTD and GTDESK in the environment name others. It needs a C compiler.
set -u
# Texts are measured in bytes.
export LC_ALL=C
here=$(cd "$(dirname "$0")" && pwd)
gtd=$(realpath -m "${GTD:-$here/../crates/gtd/out/gtd}")
gtdesk=$(realpath -m "${GTDESK:-$here/../crates/gtdesk/out/gtdesk}")
for program in "$gtd" "$gtdesk"; do
    [ -x "$program" ] || { echo "no program at $program: run rt ci first" >&2; exit 1; }
done
room=$(mktemp -d)
trap 'rm -rf "$room"' EXIT
"${CC:-cc}" -O2 -shared -fPIC -o "$room/fail.so" "$here/fail_call.c" || exit 1
cd "$room" || exit 1
passed=0 failed=0
declare -A line_of waits_or calls

# run CALL TIMES ERROR [ROOM]: runs the command with these calls failing (see fail_call.c). If there was no such call, the file
# `met` is empty.
run() {
    FAIL_CALL=$1 FAIL_TIMES=$2 FAIL_WITH=$3 FAIL_ROOM=${4:-0} LD_PRELOAD=$room/fail.so \
        "$program" "${words[@]}" < r.csv > out 2> err 3> met
    status=$?
    IFS= read -r -d '' printed < out
    IFS= read -r -d '' told < err
}

# count RESULT WHAT: counts a test of the last run, which passed if the result is 0.
count() {
    if [ "$1" = 0 ]; then
        passed=$((passed + 1))
    else
        failed=$((failed + 1))
        echo "FAILED $name ${words[*]}: $2: status $status, printed ${#printed} bytes, told '${told%$'\n'}'"
    fi
}

# is_start TEXT WHOLE: it is a first part of the whole, or all of it.
is_start() {
    [ "$1" = "$2" ] || [ "$1" = "${2:0:${#1}}" ]
}

# ended HOW: the last run ended like this: the `same` as without failures, with a line or a warning `untold`, either of these two,
# or by a fault.
ended() {
    case $1 in
        same) [ "$status" = "$whole_status" ] && [ "$printed" = "$whole" ] && [ "$told" = "$whole_told" ] ;;
        untold) [ "$status" = "$((whole_status ? whole_status : 3))" ] && [ "$printed" = "$whole" ] && is_start "$told" "${whole_told%?}" ;;
        told_or_not) ended same || ended untold ;;
        WriteFault) [ "$status" = 3 ] && is_start "$printed" "$whole" && [ "$told" = "${line_of[$1]}"$'\n' ] ;;
        *) [ "$status" = 3 ] && [ "$printed" = '' ] && [ "$told" = "${line_of[$1]}"$'\n' ] ;;
    esac
}

# try HOW CALL TIMES ERROR [ROOM]: with these calls failing, the command ends like this.
try() {
    run "${@:2}"
    [ -s met ] && ended "$1"
    count $? "$*"
}

# The failures of a call, such as `open:1`.
try_open() {
    local error
    try same "$1" 1 EINTR
    for error in EACCES EMFILE ENOENT; do
        try Open "$1" 1 $error
    done
    try NoMemory "$1" 1 ENOMEM
}

# moves_on CALL INTERRUPTIONS: a call that moves bytes is interrupted, or this call and all later ones so many times each. Or it
# moves a single byte, or each of them does.
moves_on() {
    try same "$1" 1 EINTR
    try same "$1" "$2/$(($2 + 1))" EINTR
    try same "$1" 1 short
    try same "$1" 0 short
}

try_read() {
    local error
    moves_on "$1" 999
    try Endless "$1" 1000 EINTR
    try "${waits_or[ReadFault]}" "$1" 1 EAGAIN
    for error in EBADF EIO ETIMEDOUT; do
        try ReadFault "$1" 1 $error
    done
    try ReadFault "$1" 0 EIO
}

# fails_to_write CALL HOW: a write fails, and the command ends like this.
fails_to_write() {
    local error
    try "${waits_or[$2]}" "$1" 1 EAGAIN
    for error in none EBADF EIO ENOSPC EPIPE; do
        try "$2" "$1" 1 $error
    done
    try "$2" "$1" 0 EIO
}

try_write() {
    moves_on "$1" 999
    fails_to_write "$1" WriteFault
}

try_error() {
    moves_on "$1" 50
    fails_to_write "$1" untold
}

# each_call NAME: tries each call of this name that the command makes, and one more, that it does not make.
each_call() {
    local number=1
    while run "$1:$number" 1 EINTR; [ -s met ]; do
        "try_$1" "$1:$number"
        number=$((number + 1))
    done
    ended same
    count $? "no $1:$number"
    calls[$1]=$((number - 1))
}

# Inputs that fail, or fall silent, after so many bytes.
short_inputs() {
    local size
    for size in 1 25 50; do
        try ReadFault read:1 0 EIO $size
        try Endless read:1 0 EINTR $size
    done
}

# Outputs with room for so many bytes.
small_outputs() {
    local size
    for size in 0 1 $((${#whole} / 2)) $((${#whole} - 1)); do
        run write:1 0 ENOSPC $size
        ended WriteFault && [ ${#printed} = $size ]
        count $? "room for $size bytes"
    done
    try same write:1 0 ENOSPC ${#whole}
}

# try_command NAMES WORDS..: a command that makes calls of these names, and of no others.
try_command() {
    local call made=
    words=("${@:2}")
    run none 0 none
    whole=$printed whole_told=$told whole_status=$status
    for call in open read write error; do
        each_call $call
        [ "${calls[$call]}" = 0 ] || made+="$call "
    done
    [ "$made" = "$1 " ]
    count $? "makes calls of $made"
    [[ $made != *read* ]] || short_inputs
    [[ $made != *write* ]] || small_outputs
    echo "$name ${words[*]}: open ${calls[open]}, read ${calls[read]}, write ${calls[write]}, error ${calls[error]}"
}

gtd() {
    name=gtd program=$gtd
    waits_or=([ReadFault]=ReadFault [WriteFault]=WriteFault [untold]=untold)
    line_of=([Open]='fault Open' [NoMemory]='fault NoMemory' [ReadFault]='fault ReadFault' [Endless]='fault Endless'
        [WriteFault]='fault WriteFault')
    try_command "$@"
}

# The file, if there is one, is the second word, or stands behind `--file`. `ask` reads its questions first.
gtdesk() {
    local at="gtdesk: ${3-}:" read_at
    [ "${3-}" != --file ] || at="gtdesk: ${4-}:"
    read_at=$at
    [ "${2-}" != ask ] || read_at='gtdesk: standard input:'
    name=gtdesk program=$gtdesk
    waits_or=([ReadFault]=same [WriteFault]=same [untold]=told_or_not)
    line_of=([Open]="$at cannot be opened" [NoMemory]='gtdesk: memory: refused by the system' [ReadFault]="$read_at ReadFault"
        [Endless]="$read_at Endless" [WriteFault]='gtdesk: standard output: cannot be written')
    try_command "$@"
}

# Small files, and files of several reads. The faults of the last one are a list that is longer than a program's buffer.
domain='[(M4d1){M3}]*[(h10){h4}]'
header=element,direction,vehicle,domain
printf '%s\n' $header "17,positive,0,$domain" 17,negative,11, > r.csv
printf '%s\n' $header '17,both,0,(h0){h24}' > always.csv
printf '%s\n' $header '17,both,0,[(h25){h4}]' > bad.csv
printf '%s\n' $header 17,both,0, 17,both,0, > twice.csv
printf '%s\n' element,direction,vehicles,hours '17,both,0,Fr 22:00-04:00' > hours.csv
printf '%s\n' element,direction,vehicles,hours '17,both,0,Apr 10-31' > bad_hours.csv
printf '%s\n' kind,name,means ignore,maxspeed, ignore,parking, ignore,turn:lanes, > means.csv
{ echo $header; printf "%s,both,0,$domain\n" {1..300}; } > long.csv
{ echo $header; printf '%s,up,0,\n' {1..2000}; } > long_bad.csv

gtd write check "$domain"
gtd write canon "$domain"
gtd write at "$domain" 2024-04-01T10:00:00
gtd write next "$domain" 2024-04-01T10:00:00 2024-05-01
gtd write ever "$domain" 2024-04-01T10:00:00
gtd 'open read write' schedule r.csv 2024-04-01 2024-04-02 12
gtd 'open read write' schedule r.csv 2001-04-01 2031-04-01 12
gtd 'open read write' year r.csv 17 positive 11 2024
gtd 'open read write' migrate long.csv
# A file is read 4,096 bytes at a time, and once more at its end.
[ "${calls[read]}" = $((($(stat -c %s long.csv) + 4095) / 4096 + 1)) ]
count $? "reads ${calls[read]} times"
gtd error
gtd error check '[(h25){h1}]'
gtd 'open read error' migrate bad.csv
gtd 'open error' migrate gone.csv

gtdesk 'open read write' now r.csv 2024-04-01T10:00:00 11
gtdesk 'read write' now - 2024-04-01T10:00:00 11
gtdesk 'open read write' now r.csv '2024-04-01 10:00' 11 --closed --element 17,18
gtdesk 'open read' faults r.csv
gtdesk 'open read write' faults bad.csv
gtdesk 'open read write' faults always.csv --warn
gtdesk 'open read write' faults long_bad.csv
# Such a list goes past the buffer, and then 1,000 interruptions in a row are a failure.
try WriteFault write:1 1000 EINTR
gtdesk write words "$domain"
gtdesk write hours 'Mo-Fr 08:00-17:00'
gtdesk 'write error' hours 'Mo-Fr 8:00-17:00'
gtdesk write hours --strict 'Mo-Fr 08:00-17:00'
gtdesk write mend hours 'Mo-Fr 8:00-17:00'
gtdesk write hours --of '(t2h0m0){d1}*(h7m0){m120}'
gtdesk write same --hours 24/7 00:00-24:00
gtdesk 'open read write' same --file twice.csv
gtdesk 'open read error' same --file bad.csv
gtdesk 'open read write' diff r.csv r.csv 2024-04-01 2024-04-08 11
gtdesk 'open read error' diff bad.csv bad.csv 2024-04-01 2024-04-08 11
gtdesk 'open read error' ask r.csv
gtdesk 'open read write' records hours.csv
gtdesk 'open read error' records bad_hours.csv
# Both files have one name, so a table of means is the file of tags, too, and is at fault as that.
gtdesk 'open read error' conditions means.csv means.csv
gtdesk 'open read write' picture r.csv 17 positive 11 2024
gtdesk write picture-domain '(h0){h2}+(h4){h2}+(h8){h2}' 2024
gtdesk write
gtdesk write --help
gtdesk error today
gtdesk error words '[(h25){h1}]'
gtdesk 'open read error' now bad.csv 2024-04-01T10:00:00 11
gtdesk 'open error' now gone.csv 2024-04-01T10:00:00 11

echo "failing: $passed passed, $failed failed"
[ "$failed" = 0 ] && [ "$passed" != 0 ]

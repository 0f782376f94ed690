#!/usr/bin/env bash
# The library from C, Rust and Python, beside a process for each question, KOpeningHours in process, and recurrence rules of
# dateutil, in one run: a Markdown table. The file has 65,536 rows as a map has them. Run it after bindings/build.sh and `rt ci`,
# which build what it measures; GTD, GTDESK and LIBGTD in the environment name others.
#
# Needs gcc, g++, cargo, pkg-config, and Debian's packages python3-pandas, python3-dateutil, libkopeninghours-dev and qtbase5-dev.
# Usage: bench/library.sh              measures
#        bench/library.sh --install    installs the packages first, as root or by sudo
set -euo pipefail
top=$(cd "$(dirname "$0")/.." && pwd)
here=$top/bench/library
out=$top/bindings/out
gtd=${GTD:-$top/crates/gtd/out/gtd} gtdesk=${GTDESK:-$top/crates/gtdesk/out/gtdesk}
export LIBGTD=${LIBGTD:-$out/libgtd.so.0} PYTHONDONTWRITEBYTECODE=1
python=${PYTHON:-/usr/bin/python3}
packages=(gcc g++ cargo pkg-config python3-pandas python3-dateutil libkopeninghours-dev qtbase5-dev)
if [ "${1:-}" = --install ]; then
    as_root=
    [ "$(id -u)" = 0 ] || as_root=sudo
    DEBIAN_FRONTEND=noninteractive $as_root apt-get -qq install -y --no-install-recommends "${packages[@]}"
fi
if ! [ -e /usr/include/KOpeningHours/OpeningHours ] || ! pkg-config --exists Qt5Core ||
    ! "$python" -c 'import dateutil, pandas' 2> /dev/null; then
    echo "needs ${packages[*]}: bench/library.sh --install installs them" >&2
    exit 1
fi
work=$(mktemp -d)
trap 'rm -rf "$work"' EXIT
domain='[(M4d1){M3}]*[(h10){h4}]'
hours='Apr-Jun 10:00-14:00' # the same
"$python" "$top/python/tests/make_records.py" 65536 1 > "$work/made.csv"
"$here/hours.py" "$work/made.csv" > "$work/made.hours"
warnings=(-Wall -Wextra -Werror)
gcc -std=c11 -O2 "${warnings[@]}" -I "$top/bindings/c" -o "$work/main" "$here/main.c" "$out/libgtd.a"
read -ra flags <<< "$(pkg-config --cflags --libs Qt5Core)"
g++ -std=c++17 -O2 -fPIC "${warnings[@]}" -o "$work/kopeninghours" "$here/kopeninghours.cpp" "${flags[@]}" -lKOpeningHours
export GTD_LIB_DIR=$out CARGO_TARGET_DIR=$work/target
(cd "$top/bindings/rust" && cargo bench --offline --quiet --bench library --no-run 2> /dev/null)

# processes TIMES COMMAND..: the least time of one of so many runs, in nanoseconds.
processes() {
    local times=$1 least='' from took
    shift
    for ((; times; times--)); do
        from=$(date +%s%N)
        "$@" > "$work/printed"
        took=$(($(date +%s%N) - from))
        [ -n "$least" ] && [ "$least" -le "$took" ] || least=$took
    done
    echo "$least"
}

"$work/main" "$domain" "$work/made.csv" > "$work/c" 2> /dev/null
(cd "$top/bindings/rust" && cargo bench --offline --quiet --bench library -- "$domain" "$work/made.csv") > "$work/rust"
"$python" "$here/main.py" "$domain" "$work/made.csv" > "$work/python"
"$work/kopeninghours" "$hours" "$work/made.hours" > "$work/kde" 2> /dev/null
"$python" "$here/rules.py" "$work/made.csv" > "$work/dateutil"
moment=2024-03-15T06:50:00
{
    at=$(processes 100 "$gtd" at "$domain" $moment)
    now=$(processes 7 "$gtdesk" now "$work/made.csv" $moment 11)
    echo "holds $at"
    echo "holds_many $at"
    echo "closed_at $now"
    echo "closed_many $now"
    echo "open $(processes 7 "$gtdesk" faults "$work/made.csv")"
    echo "week $(processes 7 "$gtd" schedule "$work/made.csv" 2024-03-11 2024-03-18 11)"
} > "$work/process"

# A row for each call, in the order of main.c: the times, and how many times as long as C another takes.
(cd "$work" && awk '
    BEGIN {
        print "| Call | C | Rust | Python | A process for each | KOpeningHours | `dateutil` |"
        print "|---|---|---|---|---|---|---|"
        said["holds"] = "`gtd_domain_holds`"; said["holds_many"] = "`gtd_domain_holds_many`, each of a million"
        said["closed_at"] = "`gtd_records_closed_at`"; said["closed_many"] = "`gtd_records_closed_many`, each of a million"
        said["open"] = "`gtd_records_open`, 65,536 rows"
        said["week"] = "`gtd_records_spans`, a week of each element and direction"
    }
    function time(ns) {
        return ns < 1e4 ? sprintf("%.0f ns", ns) : ns < 1e6 ? sprintf("%.1f µs", ns / 1e3) : \
            ns < 1e9 ? sprintf("%.1f ms", ns / 1e6) : sprintf("%.1f s", ns / 1e9)
    }
    function beside(ns) { return ns == "" ? "" : time(ns) sprintf(ns < 10 * of ? " (%.1f)" : " (%.0f)", ns / of) }
    { took[FILENAME, $1] = $2 }
    FILENAME == "c" { calls[++count] = $1 }
    END {
        for (at = 1; at <= count; at++) {
            call = calls[at]; of = took["c", call]
            printf "| %s | %s | %s | %s |", said[call], time(of), time(took["rust", call]), time(took["python", call])
            printf " %s | %s |", beside(took["process", call]), beside(took["kde", call])
            printf " %s |\n", beside(took["dateutil", call])
        }
    }' c rust python process kde dateutil)

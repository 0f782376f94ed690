#!/usr/bin/env bash
# The Python package: its types, its tests, and its wheel in a fresh virtual environment. Run it after `rt ci`, which builds the
# programs and the library's archive; bindings/build.sh links the library, if it is not there. LIBGTD, GTD and GTDESK name others.
# It needs Debian's Python packages, and calls tests/setup.sh if one is missing. The tests mount a small disk: if this is not run
# as root, they run as root of their own namespace.
#
# Four groups of tests run side by side, since they mostly wait for processes to start.
set -u
top=$(cd "$(dirname "$0")/.." && pwd)
export GTD=${GTD:-$top/crates/gtd/out/gtd} GTDESK=${GTDESK:-$top/crates/gtdesk/out/gtdesk}
export LIBGTD=${LIBGTD:-$top/bindings/out/libgtd.so.0}
for program in "$GTD" "$GTDESK"; do
    [ -x "$program" ] || { echo "no program at $program: run rt ci first" >&2; exit 1; }
done
[ -e "$LIBGTD" ] || "$top/bindings/build.sh" > /dev/null || { echo "no library at $LIBGTD" >&2; exit 1; }
python=${PYTHON:-/usr/bin/python3}
needed='import build, cryptography, dask.dataframe, dateutil, distributed, fiona, geopandas, gi, icalendar, mypy, osmium, pandas'
needed+=', pytest, recurring_ical_events, setuptools, venv, wheel; gi.require_version("ICalGLib", "3.0")'
{ "$python" -c "$needed" && command -v openssl && command -v osmium; } > /dev/null 2>&1 ||
    "$top/tests/setup.sh" > /dev/null || {
    echo "Python's packages are missing, and tests/setup.sh failed" >&2
    exit 1
}
[ "$(id -u)" = 0 ] || exec unshare --map-root-user --mount "$0" "$@"
room=$(mktemp -d)
trap 'rm -rf "$room"' EXIT
export TMPDIR=$room PYTHONDONTWRITEBYTECODE=1
passed=0 failed=0

# succeeds NAME COMMAND..: the command ends with status 0.
succeeds() {
    local name=$1
    shift
    if "$@" > "$room/said" 2>&1; then
        passed=$((passed + 1))
    else
        failed=$((failed + 1))
        echo "FAILED $name"
        tail -n 20 "$room/said"
    fi
}

# start NAME FILES..: a group of tests, in the background.
start() {
    local name=$1
    shift
    (cd "$top/python" && "$python" -m pytest -q -p no:cacheprovider --basetemp "$room/$name" "$@") > "$room/$name.log" 2>&1 &
}

# end NAME PROCESS: waits for a group, and counts its tests.
end() {
    local status line
    wait "$2"
    status=$?
    line=$(grep -E '^[0-9]+ (passed|failed|error).* in [0-9.]+s' "$room/$1.log" | tail -n 1)
    [[ $line =~ ([0-9]+)\ passed ]] && passed=$((passed + BASH_REMATCH[1]))
    [ $status = 0 ] && [[ $line == *\ passed* && $line != *skipped* ]] && return
    failed=$((failed + 1))
    echo "FAILED the tests of $1"
    tail -n 60 "$room/$1.log"
}

# The wheel is built and installed with the commands of docs/PYTHON.md, from a copy: nothing is written into the repository, and
# nothing is fetched. Another Python stands first on the path, which has none of the packages.
install_wheel() {
    local line
    mkdir "$room/copy"
    cp -r "$top/python" "$room/copy"
    cd "$room/copy" || exit 1
    sed -n '/^## Install/,/^## /p' "$top/docs/PYTHON.md" | sed -n '/^```sh/,/^```$/p' |
        grep -v -e '^```' -e '^apt-get ' > "$room/install"
    succeeds 'the commands that install are shown' [ "$(wc -l < "$room/install")" = 3 ]
    mkdir "$room/other"
    printf '#!/bin/sh\nexec "%s" -I -S "$@"\n' "$python" > "$room/other/python3"
    chmod +x "$room/other/python3"
    while IFS= read -r line; do
        succeeds "$line" env PATH="$room/other:$PATH" bash -c "${line//\/usr\/bin\/python3/$python}"
    done < "$room/install"
    succeeds 'the wheel holds the library and both programs' bash -c \
        "[ \"\$('$python' -m zipfile -l gtd-*.whl | grep -c -E '^gtd/native/(libgtd.so.0|gtd|gtdesk) ')\" = 3 ]"
}

# The installed package, from a folder in which Python does not find the repository's, with nothing but what the wheel holds.
use_wheel() {
    local alone=(env -u GTD -u GTDESK -u LIBGTD PATH=/nowhere)
    mkdir "$room/elsewhere"
    cd "$room/elsewhere" || exit 1
    cat > user.py << 'end'
from datetime import datetime
from typing import List
import gtd
inside: bool = gtd.contains("[(M5h10){h1}]", datetime(2024, 5, 17, 10))
assert inside and "/venv/" in gtd.__file__
domain: gtd.Domain = gtd.Domain("(t7h5){h10}")
assert domain.contains(datetime(2024, 3, 16, 8)) and domain.words().startswith("every Saturday")
rows: List[int] = gtd.Records(b"element,direction,vehicle,domain\n7,both,0,\n").closers(7, "positive", 1, "2024-03-16T08:00:00")
assert rows == [1]
for path in (gtd.library(), gtd.program(), gtd.program("gtdesk")):
    assert path is not None and "/venv/" in path and "/gtd/native/" in path, path
end
    succeeds 'the installed package is used' "${alone[@]}" "$room/copy/venv/bin/python" user.py
    succeeds 'its types are known to its users' "$python" -m mypy --strict --cache-dir "$room/types" \
        --python-executable "$room/copy/venv/bin/python" user.py
    succeeds 'the installed command' "${alone[@]}" "$room/copy/venv/bin/gtd-country" "$top/examples/town.csv" \
        --from 2024-03-15 --to 2024-03-18 --vehicle 11 --workers 1 --join --out town.csv
    succeeds 'what it has written' cmp town.csv "$top/examples/town.schedule.csv"
    succeeds 'the installed command of DATEX II' "${alone[@]}" "$room/copy/venv/bin/gtd-datex" read \
        "$top/examples/exchange/roadworks.xml" --places "$top/examples/exchange/roadworks.places.csv" --zone Europe/Vienna \
        --night begins --out roadworks.csv
    succeeds 'the records that it has written' cmp roadworks.csv "$top/examples/exchange/roadworks.csv"
    succeeds 'the installed command of calendars' "${alone[@]}" "$room/copy/venv/bin/gtd-ical" write \
        "$top/examples/exchange/market.csv" --vehicle 11 --from 2025-03-01 --to 2025-07-01 --zone Europe/Vienna \
        --names "$top/examples/exchange/names.csv" --title 'Market Street' --host example.org --stamp 20250201T080000Z \
        --out closures.ics
    succeeds 'the calendar that it has written' cmp closures.ics "$top/examples/exchange/closures.ics"
}

start failures tests/test_failures.py
failures=$!
start country tests/test_country.py tests/test_cluster.py tests/test_diff.py tests/test_large.py tests/test_documents.py \
    tests/test_osm.py
country=$!
start exchange tests/test_datex.py tests/test_ical.py tests/test_exchange_rows.py tests/test_exchange_faults.py \
    tests/test_exchange_commands.py
exchange=$!
start package tests/test_domain.py tests/test_records.py tests/test_series.py tests/test_roads.py tests/test_blocks.py \
    tests/test_asked_domain.py tests/test_asked_records.py tests/test_planner.py tests/test_same.py tests/test_install.py \
    tests/test_desk.py tests/test_bins.py tests/test_hours.py
package=$!
(cd "$top/python" && "$python" -m mypy --strict --cache-dir "$room/types") > "$room/mypy" 2>&1
succeeds 'mypy --strict' grep -q '^Success' "$room/mypy"
(cd "$top/python" && "$python" -m mypy --strict --cache-dir "$room/types" ../examples/planner.py) > "$room/mypy" 2>&1
succeeds 'mypy --strict of the planner' grep -q '^Success' "$room/mypy"
install_wheel
use_wheel
end failures $failures
end country $country
end exchange $exchange
end package $package
echo "python: $passed passed, $failed failed"
[ "$failed" = 0 ]

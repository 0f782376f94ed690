#!/usr/bin/env bash
# All tests, one part after another: proofs and wrong bodies, then the built programs and the documents. It installs what is
# missing, goes on if a part fails, prints a line for each part with its time, and ends in the sums. `--anew` has `rt ci` prove
# all again, and take nothing from what earlier runs on this machine kept.
#
# Usage: tests/all.sh [--anew]
set -u
cd "$(dirname "$0")/.." || exit 1
anew=()
case ${1-} in
    '') ;;
    --anew) anew=(--anew) ;;
    *) echo 'usage: tests/all.sh [--anew]' >&2; exit 2 ;;
esac
export RT_JOBS=${RT_JOBS:-$(tests/jobs.sh)}

# Programs and modules of Python that the parts need; each is in a package of tests/setup.sh.
needed=(gcc g++ ld cargo cmake valgrind pkg-config python3 mandoc zsh openssl mount osmium chromium rsvg-convert xmllint pngtopnm
    make sqlite3 ogr2ogr pg_config)
[ "$(id -u)" = 0 ] || needed+=(fakeroot)
modules='build, cryptography, dask.dataframe, dateutil, distributed, fiona, geopandas, gi, icalendar, mypy, osmium, pandas'
modules+=', pytest, recurring_ical_events, setuptools, venv, wheel; gi.require_version("ICalGLib", "3.0")'

# missing: what is not there, a line for each.
missing() {
    local it
    for it in "${needed[@]}"; do
        command -v "$it" > /dev/null || echo "$it"
    done
    /usr/bin/python3 -c "import $modules" 2> /dev/null || echo "modules of Python: $modules"
    [ -e /usr/include/sqlite3ext.h ] || echo 'headers of SQLite'
    [ -e "$(pg_config --includedir-server 2> /dev/null)/postgres.h" ] || echo 'headers of the server PostgreSQL'
    [ -x "$(pg_config --bindir 2> /dev/null)/initdb" ] || echo 'the server PostgreSQL'
}

if [ -n "$(missing)" ]; then
    echo 'all: installs what is missing'
    tests/setup.sh || echo 'all: tests/setup.sh failed' >&2
    if [ -n "$(missing)" ]; then
        printf 'all: still missing (tests/setup.sh, run as root, installs it):\n%s\n' "$(missing)" >&2
        exit 1
    fi
fi

room=$(mktemp -d)
trap 'rm -rf "$room"' EXIT
passed=0 failed=0 lines=()

# part COMMAND..: runs one part. Its last line gives its counts; without them its status counts as one.
part() {
    local name=$* from=$SECONDS status=0 good=0 bad=0
    echo "all: $*"
    "$@" 2>&1 | tee "$room/said" || status=$?
    if [[ $(tail -n 1 "$room/said") =~ ([0-9]+)\ passed,\ ([0-9]+)\ failed ]]; then
        good=${BASH_REMATCH[1]} bad=${BASH_REMATCH[2]}
    elif [ "$status" = 0 ]; then
        good=1
    fi
    # A part that fails without a count, or that ran nothing, is a failure too.
    if [ "$bad" = 0 ] && { [ "$status" != 0 ] || [ "$good" = 0 ]; }; then
        bad=1
    fi
    passed=$((passed + good)) failed=$((failed + bad))
    lines+=("$(printf '%-24s %6d passed %4d failed %6d s' "${name#tests/}" "$good" "$bad" $((SECONDS - from)))")
}

set -o pipefail
part rt ci "${anew[@]}"
part tests/statement.py
part tests/measures.py
part tests/rows.py
part tests/program.sh
part tests/desk.sh
part tests/examples.sh
part tests/failing.sh
part tests/refusals.sh
part tests/fuzz.py 60 1
part tests/words.py
part tests/hours.py 10 1
part tests/holidays_model.py
part tests/listed_days.py
part tests/moments.py
part tests/reading.py
part tests/hidden_model.py
part tests/conditional_model.py
part tests/conditions_program.py 300 1
part tests/hours_program.py 10 1
part tests/hours_features.py
part tests/known_program.py 10 1
part tests/wider_program.py 10 1
part tests/same.py 1000 1
part tests/diff.py 300 1
part tests/repeats.py 300 1
part tests/warned.py 150 1
part tests/mended.py 2000 1
part tests/now_forms.py 40 1
part tests/pictures.py
part tests/library.sh
part tests/sql.sh
part /usr/bin/python3 tests/damaged.py 5000 1 bindings/out/mod_gtd.so
part tests/page.py
part tests/packaging.sh
part tests/python.sh
printf '%s\n' "${lines[@]}"
echo "$passed passed, $failed failed"
[ "$failed" = 0 ]

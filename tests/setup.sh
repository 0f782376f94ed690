#!/usr/bin/env bash
# Installs what the tests need besides Rattle's kit, from Debian's packages:
#   gcc, libc6-dev   tests/refusals.sh and tests/failing.sh compile the libraries that refuse memory and make calls fail
#   g++, binutils, cargo, cmake, valgrind, pkgconf
#                    tests/library.sh builds programs with the library, and checks their memory; tests/packaging.sh
#   python3          tests/statement.py, tests/rows.py, tests/fuzz.py, tests/hours.py, tests/press_tab.py
#   mandoc           tests/packaging.sh lints the man pages
#   zsh              tests/packaging.sh tries the completions; bash is already there
#   fakeroot         tests/packaging.sh installs the package, if it is not run as root
#   python3-pandas, python3-geopandas, python3-dask, python3-distributed, python3-cryptography
#                    what the Python package needs; tests/python.sh, bench/country.py
#   python3-pyosmium, osmium-tool
#                    what reads extracts of OpenStreetMap; tests/python.sh makes some
#   python3-dateutil, tzdata
#                    what gtd.ical needs besides, and the time zones; python3-pandas brings the first
#   python3-icalendar, python3-recurring-ical-events, gir1.2-ical-3.0, python3-gi
#                    other readers of calendars, with which tests/python.sh compares gtd.ical
#   python3-pytest, mypy, python3-build, python3-setuptools, python3-wheel, python3-venv
#                    tests/python.sh tests the package, its types, and its wheel in a fresh environment
#   openssl, mount   tests/python.sh makes certificates, and a small disk
#   chromium, librsvg2-bin, libxml2-utils, netpbm, fonts-dejavu-core
#                    tests/pictures.py draws pictures, reads them as XML, and reads the drawn pixels; tests/page.py opens the
#                    page in the same browser
#   make, sqlite3, libsqlite3-dev, gdal-bin, postgresql-15, postgresql-server-dev-15
#                    tests/sql.sh builds the extensions of databases and asks them; bench/sql.py
# Run it as root, or as a user who may call sudo. tests/all.sh calls it where something is missing.
set -eu
packages=(gcc libc6-dev g++ binutils cargo cmake valgrind pkgconf python3 mandoc zsh fakeroot
    python3-pandas python3-geopandas python3-dask python3-distributed python3-cryptography python3-pyosmium osmium-tool
    python3-dateutil tzdata python3-icalendar python3-recurring-ical-events gir1.2-ical-3.0 python3-gi
    python3-pytest mypy python3-build python3-setuptools python3-wheel python3-venv openssl mount
    chromium librsvg2-bin libxml2-utils netpbm fonts-dejavu-core
    make sqlite3 libsqlite3-dev gdal-bin postgresql-15 postgresql-server-dev-15)
command -v apt-get > /dev/null || { echo "no apt-get here: install ${packages[*]} by hand" >&2; exit 1; }
as_root=
[ "$(id -u)" = 0 ] || as_root=sudo
export DEBIAN_FRONTEND=noninteractive
$as_root apt-get -qq -o Acquire::Retries=3 update
install=($as_root apt-get -qq -o Acquire::Retries=3 install -y --no-install-recommends)

# A PostgreSQL that is new here makes no cluster, and so starts no server: tests/sql/server.py starts its own.
clusters=/etc/postgresql-common/createcluster.conf line='create_main_cluster = false  # while the tests of gtd install'
if ! dpkg-query -W postgresql-15 > /dev/null 2>&1; then
    "${install[@]}" postgresql-common
    echo "$line" | $as_root tee -a "$clusters" > /dev/null
    trap '$as_root sed -i "/while the tests of gtd install/d" "$clusters"' EXIT
fi
"${install[@]}" "${packages[@]}"

#!/usr/bin/env bash
# The opening hours of tests/hours by KOpeningHours, a library of KDE, beside the plain models of this project.
# bench/kopeninghours/README.md explains what differs. It is no test of this project, and the gate does not run it.
#
# Needs g++, pkg-config, python3, and Debian's packages libkopeninghours-dev (22.12) and qtbase5-dev.
# Usage: bench/kopeninghours.sh              builds the driver in a scratch folder, and compares
#        bench/kopeninghours.sh --install    installs the packages first, as root or by sudo
#        bench/kopeninghours.sh --each N     asks KOpeningHours about each N-th minute by itself: ten minutes for 30
set -euo pipefail
here=$(cd "$(dirname "$0")" && pwd)
packages=(g++ pkg-config python3 libkopeninghours-dev qtbase5-dev)
if [ "${1:-}" = --install ]; then
    as_root=
    [ "$(id -u)" = 0 ] || as_root=sudo
    DEBIAN_FRONTEND=noninteractive $as_root apt-get -qq install -y --no-install-recommends "${packages[@]}"
fi
if [ ! -e /usr/include/KOpeningHours/OpeningHours ] || ! pkg-config --exists Qt5Core; then
    echo "needs ${packages[*]}: bench/kopeninghours.sh --install installs them" >&2
    exit 1
fi
work=$(mktemp -d)
trap 'rm -rf "$work"' EXIT
read -ra flags <<< "$(pkg-config --cflags --libs Qt5Core)"
g++ -O2 -fPIC -Wall -Wextra -o "$work/driver" "$here/kopeninghours/main.cpp" "${flags[@]}" -lKOpeningHours
step=()
[ "${1:-}" = --each ] && step=("${2:-1}")
"$here/kopeninghours/compare.py" "$work/driver" "${step[@]}"

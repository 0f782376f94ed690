#!/usr/bin/env bash
# Makes the library of bindings/c/gtd.h in bindings/out from the proved crate gtd_c, which bindings/archive.py first proves and
# compiles where that is not done. Run it after `rt ci`:
#   libgtd.a       one object that needs nothing but the C library
#   libgtd.so.0    the shared library, and libgtd.so, a copy of it for the linker
#   include        the headers for C and C++
#   gtd.pc         for pkg-config, to use them where they are; gtd-config.cmake and gtd-config-version.cmake for CMake
#   lacks          the calls of the header that the crate does not export, a line for each: none, if the library is whole
# Both libraries export exactly the other calls of the header. It needs gcc and the GNU linker.
# Usage: bindings/build.sh
set -eu
top=$(cd "$(dirname "$0")/.." && pwd)
proved=$top/crates/gtd_c/out/libgtd_c.a
out=$top/bindings/out
[ -e "$proved" ] || "$top/bindings/archive.py"
heap=$(dirname "$(rt doc)")/c/liblibc_c.a
version=$(sed -n 's/^## \[\([0-9.]*\)\] - .*/\1/p' "$top/CHANGELOG.md" | head -n 1)
mkdir -p "$out"
work=$(mktemp -d)
trap 'rm -rf "$work"' EXIT

# The calls of the header that the crate exports, a line for each.
sed -n 's/^\(uint32_t\|void\) \(gtd_[a-z_]*\)(.*/\2/p' "$top/bindings/c/gtd.h" | sort > "$work/header"
nm --defined-only --extern-only --format=posix "$proved" | sed -n 's/^\(gtd_[a-z_]*\) T .*/\1/p' | sort > "$work/crate"
comm -12 "$work/header" "$work/crate" > "$work/calls"
comm -23 "$work/header" "$work/crate" > "$out/lacks"

# exported NM-WORDS..: the names that a library exports must be those calls.
exported() {
    nm --defined-only --format=posix "$@" | sed -n 's/^\([^ @]*\)[^ ]* [BDRTVW] .*/\1/p' | sort > "$work/exported"
    diff "$work/calls" "$work/exported" >&2 || { echo "build.sh: ${*: -1} does not export the calls of gtd.h" >&2; exit 1; }
}

ld -r -o "$work/gtd.o" --whole-archive "$proved" --no-whole-archive "$heap"
objcopy --keep-global-symbols="$work/calls" "$work/gtd.o"
rm -f "$out/libgtd.a"
ar rcsD "$out/libgtd.a" "$work/gtd.o"
exported --extern-only "$out/libgtd.a"

{ echo 'GTD_0 { global:'; sed 's/$/;/' "$work/calls"; echo 'local: *; };'; } > "$work/gtd.map"
gcc -shared -Wl,-soname,libgtd.so.0 -Wl,-z,defs -Wl,-z,relro,-z,now -Wl,--version-script="$work/gtd.map" \
    -o "$out/libgtd.so.0" "$work/gtd.o"
exported --dynamic "$out/libgtd.so.0"
# A copy: `rt ci` takes no links in the repository.
rm -f "$out/libgtd.so"
cp "$out/libgtd.so.0" "$out/libgtd.so"

mkdir -p "$out/include"
cp "$top/bindings/c/gtd.h" "$top/bindings/cpp/gtd.hpp" "$out/include"
for name in gtd.pc gtd-config.cmake gtd-config-version.cmake; do
    sed -e "s|@libdir@|$out|; s|@includedir@|$out/include|; s|@version@|$version|" "$top/bindings/c/$name.in" > "$out/$name"
done

#!/usr/bin/env bash
# Makes the page in web/out, a folder to publish as it is: the files beside this script, the example files, and two modules of
# WebAssembly with a memory of 64 bits:
#   gtd.wasm       the library, with the calls of bindings/c/gtd.h
#   gtdesk.wasm    the program gtdesk, with a file in memory
# Rattle's own way to WebAssembly takes no crate that needs memory. So bindings/archive.py keeps the LLVM module that the proved
# crate is compiled of, and the kit's clang compiles it anew, with the C files of web/host for memory and files. Run it after
# `rt ci`. What has not changed is not compiled again.
# It needs the kit's clang, or one in CLANG, with the target wasm64, and its linker or one in WASM_LD (Debian's package lld).
# Usage: web/build.sh
set -euo pipefail
top=$(cd "$(dirname "$0")/.." && pwd)
here=$top/web
out=$here/out
work=$(mktemp -d)
trap 'rm -rf "$work"' EXIT

missing() {
    echo "web/build.sh: $*" >&2
    exit 1
}

# The tools, and what they can do.
doc=$(rt doc 2> /dev/null) || missing "there is no Rattle kit here: its command rt is not found"
kit=$(dirname "$doc")
clang=${CLANG:-$kit/toolchain/bin/clang}
[ -x "$(command -v "$clang")" ] || missing "there is no $clang: name a clang in CLANG that reads the kit's LLVM modules"
"$clang" --print-targets | grep '^ *wasm64 ' > /dev/null || missing "$clang cannot compile for wasm64: name another in CLANG"
linker=${WASM_LD:-}
if [ -z "$linker" ]; then
    # The kit's clang is its linker too, under this name.
    ln -s "$(command -v "$clang")" "$work/wasm-ld"
    linker=$work/wasm-ld
    "$linker" --version 2> /dev/null | grep '^LLD' > /dev/null || linker=$(command -v wasm-ld) ||
        missing "there is no wasm-ld: install Debian's package lld, or name one in WASM_LD"
fi
target=(--target=wasm64-unknown-unknown -mbulk-memory)
mkdir -p "$out/examples"

# module CRATE: the LLVM module of the proved crate is there, and no older than the code that it comes from.
module() {
    local kept=$top/crates/$1/out/$1.bc
    if [ ! -e "$kept" ] || [ -n "$(find "$top"/crates/*/src "$top/crates.txt" -newer "$kept" -print -quit)" ]; then
        "$top/bindings/archive.py" "$1" || missing "the crate $1 is not proved"
    fi
    [ -s "$kept" ] || missing "bindings/archive.py kept no LLVM module of $1"
}

# compiled CRATE LEVEL: the crate's object for wasm64, from its LLVM module as text, for another processor.
compiled() {
    local kept=$top/crates/$1/out/$1.bc sum made=$top/crates/$1/out/$1.wasm64
    sum=$({ cat "$kept"; declare -f compiled; echo "${target[@]}" "$2"; "$clang" --version; } | sha256sum)
    [ -e "$made.o" ] && [ "$(cat "$made.sum" 2> /dev/null)" = "$sum" ] && return
    rm -f "$made.sum"
    "$clang" --target=x86_64-unknown-linux-gnu -x ir "$kept" -S -emit-llvm -O0 -Xclang -disable-llvm-passes -o "$work/$1.x86.ll"
    # Where data lies is left to the target; a program's `main` is called by web/host/system.c under another name.
    sed -e '/^target datalayout/d; s/^target triple.*/target triple = "wasm64-unknown-unknown"/' \
        -e '/^attributes/s/"\(probe-stack\|stack-probe-size\|target-cpu\|target-features\|tune-cpu\)"="[^"]*"//g' \
        -e 's/@main(/@gtdesk_main(/' "$work/$1.x86.ll" > "$work/$1.ll"
    "$clang" "${target[@]}" "$2" -x ir -c "$work/$1.ll" -o "$work/$1.o"
    mv "$work/$1.o" "$made.o"
    echo "$sum" > "$made.sum"
}

# linked MODULE WORDS..: a module of objects and the names that it exports. A name that nothing defines is told. The stack comes
# first, so that the module stops where it is too deep, and writes over nothing.
linked() {
    "$linker" -m wasm64 --no-entry --gc-sections --strip-all --stack-first -z stack-size=8388608 "${@:2}" -o "$work/$1" ||
        missing "$1 could not be linked"
    mv "$work/$1" "$out/$1"
}

module gtd_c
compiled gtd_c -O2 &
module gtdesk
compiled gtdesk -Os
wait $!
for name in memory system; do
    "$clang" "${target[@]}" -O2 -ffreestanding -fno-builtin -Wall -Wextra -c "$here/host/$name.c" -o "$work/$name.o"
done
exports=()
for name in $(sed -n 's/^\(uint32_t\|void\) \(gtd_[a-z_]*\)(.*/\2/p' "$top/bindings/c/gtd.h") gtd_malloc gtd_free; do
    exports+=("--export=$name")
done
linked gtd.wasm "${exports[@]}" "$top/crates/gtd_c/out/gtd_c.wasm64.o" "$work/memory.o"
linked gtdesk.wasm --export=gtdesk "$top/crates/gtdesk/out/gtdesk.wasm64.o" "$work/memory.o" "$work/system.o"

# The other files. What is no longer made is not left there.
rm -f "$out"/*.{html,css,js} "$out"/examples/*
cp "$here"/*.html "$here"/*.css "$here"/*.js "$out/"
cp "$top"/examples/{town,pass,works}.csv "$here/faults.csv" "$out/examples/"
echo "web/build.sh: $out is ready: $(du -bc "$out"/*.* "$out"/examples/* | tail -n 1 | cut -f 1) bytes"

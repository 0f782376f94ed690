# Sourced by the benchmarks. `build NAME DEP..` proves and builds bench/NAME/main.rattle as a program over a copy of this
# repository's crates. It sets `program` to its path and `work` to a folder that is removed when the script ends.
set -euo pipefail
top=$(cd "$(dirname "${BASH_SOURCE[0]}")/.." && pwd)
work=$(mktemp -d)
trap 'rm -rf "$work"' EXIT

build() {
    local name=$1 crate=$work/crates/bench_$1
    shift
    cp -r "$top/crates.txt" "$top/HANDLES" "$top/crates" "$work"
    mkdir -p "$crate/src"
    cp "$top/bench/$name/main.rattle" "$crate/src/main.rt"
    echo "bench_$name: $*" >> "$work/crates.txt"
    (cd "$crate" && rt run > "$work/log" 2>&1) || [ -x "$crate/out/bench_$name" ] || { tail "$work/log" >&2; exit 1; }
    program=$crate/out/bench_$name
}

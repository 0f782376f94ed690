#!/usr/bin/env bash
# Tries the wrong bodies of planted/CRATE/*.edit: the prover must refuse each. They are not in the gate, since each costs a check.
# Run this before a release, and for the crates that you name after a change of them; with no names it tries those of all crates.
#
# The crates are copied to a folder where these edits stand in place of those of the gate, and `rt ci CRATE..` tries them there.
# It takes the proofs of the crates from what earlier runs on this machine kept, so it is quick after a whole `rt ci`.
#
# Usage: tests/planted.sh [CRATE..]
set -euo pipefail
top=$(cd "$(dirname "$0")/.." && pwd)
cd "$top"
names=("$@")
[ ${#names[@]} -gt 0 ] || mapfile -t names < <(cd planted && ls)
for name in "${names[@]}"; do
    [ -d "planted/$name" ] || { echo "no planted/$name; there are: $(cd planted && echo *)" >&2; exit 2; }
done
export RT_JOBS=${RT_JOBS:-$(tests/jobs.sh)}
room=$(mktemp -d)
trap 'rm -rf "$room"' EXIT
mkdir "$room/repository" "$room/repository/.git"
cp crates.txt HANDLES "$room/repository/"
tar cf - --exclude='crates/*/out' --exclude='crates/*/must-fail' crates | tar xf - -C "$room/repository"
wanted=0
for name in "${names[@]}"; do
    mkdir "$room/repository/crates/$name/must-fail"
    cp planted/"$name"/*.edit "$room/repository/crates/$name/must-fail/"
    edits=(planted/"$name"/*.edit)
    wanted=$((wanted + ${#edits[@]}))
done
cd "$room/repository"
status=0
rt ci "${names[@]}" 2>&1 | tee "$room/said" || status=$?
refused=$(grep -c ': refused, as it must be' "$room/said" || true)
failed=$((wanted - refused))
[ "$status" = 0 ] || [ "$failed" -gt 0 ] || failed=1
echo "planted: $refused passed, $failed failed"
[ "$failed" = 0 ]

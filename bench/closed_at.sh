#!/usr/bin/env bash
# What a question of `Records::closed_at` takes, beside a plain native table of the same file: bench/closed_at.py says more. The
# program is proved with the crates below it first, which takes ten minutes where `rt check` has not kept them.
. "$(dirname "$0")/build.sh"
build closed_at gtd_core gtd_devices gtd_records
"$top/bench/closed_at.py" "$program"

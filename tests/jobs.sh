#!/usr/bin/env bash
# Prints how many checks `rt` may do at a time here: one for each processor, as long as there are 4 GB of memory for each. By
# itself `rt` plans up to 7 GB for a check, which takes 1 to 3, and leaves processors idle.
set -eu
processors=$(nproc)
memory=$(awk '/^MemAvailable:/ { print int($2 / 4000000) }' /proc/meminfo)
jobs=$((memory < processors ? memory : processors))
echo $((jobs > 0 ? jobs : 1))

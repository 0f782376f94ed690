#!/usr/bin/env bash
# How many starts per second are handed out, for four starts over ten years.
. "$(dirname "$0")/build.sh"
build starts gtd_core gtd_recur
"$program"

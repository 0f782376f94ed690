#!/usr/bin/env bash
# Instructions for one look at a day, by callgrind: with the crate's `fields`, and with `jiff`'s public calls for the same
# numbers. These have a program of their own, since a second place that adds days makes both slower. Prints both and their ratio.
. "$(dirname "$0")/build.sh"
days=146097
count() { # instructions of one run
    valgrind --tool=callgrind --callgrind-out-file="$work/callgrind" "$program" "$1" 2>&1 > "$work/sum" |
        sed -n 's/.*Collected : //p'
}
look() { # instructions of one look at a day
    local none all
    none=$(count none)
    all=$(count all)
    echo $(((all - none) / days))
}
build calendar_fields gtd_calendar
fields=$(look)
build calendar_public jiff
public=$(look)
echo "fields: $fields instructions a day"
echo "jiff's public calls: $public instructions a day"
awk "BEGIN { printf \"ratio: %.2f\\n\", $public / $fields }"

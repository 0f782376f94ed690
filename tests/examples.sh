#!/usr/bin/env bash
# The examples, byte for byte: each command shown in the documents against the lines under it, and each command of the table
# in examples/README.md against the file it names. Commands run in examples/, and those of docs/TUTORIAL.md one after another in a
# folder of their own, as do those of docs/DATEX.md and docs/ICAL.md, beside the files of examples/exchange. These call the Python
# package (tests/python.sh says what it needs). Run it after `rt ci`, which builds the programs; GTD and GTDESK in the environment
# name others, and PYTHON another Python.
set -u
top=$(cd "$(dirname "$0")/.." && pwd)
programs=("${GTD:-$top/crates/gtd/out/gtd}" "${GTDESK:-$top/crates/gtdesk/out/gtdesk}")
for program in "${programs[@]}"; do
    [ -x "$program" ] || { echo "no program at $program: run rt ci first" >&2; exit 1; }
done
cd "$top/examples" || exit 1
room=$(mktemp -d)
trap 'rm -rf "$room"' EXIT
passed=0 failed=0

# The programs come first on the path, alone in their folder.
mkdir "$room/bin" "$room/tutorial"
ln -s "$(realpath "${programs[0]}")" "$room/bin/gtd"
ln -s "$(realpath "${programs[1]}")" "$room/bin/gtdesk"
printf '#!/bin/sh\nexec "%s" "$@"\n' "${PYTHON:-/usr/bin/python3}" > "$room/bin/python3"
chmod +x "$room/bin/python3"
export GTD=$room/bin/gtd GTDESK=$room/bin/gtdesk PYTHONPATH=$top/python PYTHONDONTWRITEBYTECODE=1
cp -r exchange "$room/exchange"
folder=$top/examples

# compare WHERE COMMAND FILE: what the command writes, its faults included, is exactly the file.
compare() {
    (cd "$folder" && PATH=$room/bin:$PATH bash -c "$2" > "$room/out" 2>&1 < /dev/null)
    if cmp -s "$room/out" "$3"; then
        passed=$((passed + 1))
    else
        failed=$((failed + 1))
        echo "FAILED $1: $2"
        diff "$3" "$room/out" | head -n 10
    fi
}

# must_show WHERE COUNT: a document that must show commands and shows none fails.
must_show() {
    [ "$2" -gt 0 ] && return
    failed=$((failed + 1))
    echo "FAILED $1: it shows no command"
}

# document FILE: in fenced blocks, each line `$ COMMAND`, and the lines up to the next `$ ` or the block's end. Lines `> TEXT`
# right below a command go on with it.
document() {
    local line command='' fenced=0 number=0 at=0 shown=0 more=0
    while IFS= read -r line || [ -n "$line" ]; do
        number=$((number + 1))
        case $line in
            '```'* | '$ '*)
                [ -n "$command" ] && compare "$1:$at" "$command" "$room/expected"
                command='' at=$number more=0
                ;;
            '> '*)
                if [ $more = 1 ]; then
                    command+=$'\n'${line#'> '}
                elif [ -n "$command" ]; then
                    printf '%s\n' "$line" >> "$room/expected"
                fi
                ;;
            *)
                more=0
                [ -n "$command" ] && printf '%s\n' "$line" >> "$room/expected"
                ;;
        esac
        case $fenced$line in
            ?'```'*) fenced=$((1 - fenced)) ;;
            1'$ '*)
                command=${line#'$ '} shown=$((shown + 1)) more=1
                : > "$room/expected"
                ;;
        esac
    done < "$top/$1"
    [ -n "$command" ] && compare "$1:$at" "$command" "$room/expected"
    case ${1#docs/} in
        README.md | TUTORIAL.md | COMMANDS.md | LANGUAGE.md | FILES.md | DATEX.md | ICAL.md) must_show "$1" $shown ;;
    esac
}

document README.md
for path in "$top"/CONTRIBUTING.md "$top"/docs/*.md "$top"/crates/*/README.md; do
    case $path in
        */TUTORIAL.md) folder=$room/tutorial ;;
        */DATEX.md | */ICAL.md) folder=$room/exchange ;;
        *) folder=$top/examples ;;
    esac
    document "${path#"$top/"}"
done
folder=$top/examples

# Each picture of the documents is one that a command shown there prints, or that the tutorial makes.
for picture in "$top"/docs/pictures/*.svg; do
    grep -qF "cmp - ../docs/pictures/${picture##*/} &&" "$top"/docs/*.md && continue
    cmp -s "$room/tutorial/${picture##*/}" "$picture" && continue
    failed=$((failed + 1))
    echo "FAILED ${picture#"$top/"}: no document shows its command"
done

# asked PAGE ROWS: each domain that was found on a page occurs in a command of that page, or of the rows.
asked() {
    local domain
    while IFS= read -r domain; do
        grep -qF "'$domain'" "$top/$1" "$top/$2" && continue
        failed=$((failed + 1))
        echo "FAILED $1: neither the page nor $2 asks about $domain"
    done < "$room/domains"
    must_show "$1" "$(wc -l < "$room/domains")"
}

# The domains of the recipe, and those of restrictions in words. tests/warned.py asks about those that are easily mistaken.
sed -n '/^## From A until B/,/^## Easily/s/^|.* | `\([^`]*\)` |$/\1/p' "$top/docs/LANGUAGE.md" > "$room/domains"
asked docs/LANGUAGE.md tests/rows/language.rows
sed -n '/^## Restrictions/,/^## Words/s/^|.* | `\([^`]*\)` |$/\1/p' "$top/docs/GALLERY.md" > "$room/domains"
asked docs/GALLERY.md tests/rows/restrictions.rows

# The table: a row holds a command and the file that it makes. A file that no row names fails.
sed -n 's/^| `\(gtd[a-z]* [^`]*\)` | `\([^`]*\)` |$/\1\t\2/p' README.md > "$room/table"
while IFS=$'\t' read -r command file; do
    compare examples/README.md "$command" "$file"
done < "$room/table"
must_show examples/README.md "$(wc -l < "$room/table")"
for file in *.schedule.csv *.migrated.csv *.records.csv *.year.txt; do
    grep -q $'\t'"$file\$" "$room/table" && continue
    failed=$((failed + 1))
    echo "FAILED examples/README.md: no row makes $file"
done

echo "examples: $passed passed, $failed failed"
[ "$failed" = 0 ]

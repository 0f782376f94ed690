#!/usr/bin/env bash
# The Debian packages: builds them twice and compares the bytes, installs them in a scratch root, lints the installed man pages,
# presses Tab in real shells with the installed completions, runs the main job from it on examples/, builds programs with the
# installed library, and removes all. Run it after `rt ci`, which builds what they hold. It needs Debian's dpkg, and calls
# tests/setup.sh if a tool is missing.
#
# It installs with `dpkg --root` and not with `dpkg -x`, which only unpacks: so dpkg's own list of files decides what a removal
# takes away, and the test sees what is left.
set -u
top=$(cd "$(dirname "$0")/.." && pwd)
for name in gtd gtdesk; do
    [ -x "$top/crates/$name/out/$name" ] || { echo "no program in crates/$name/out: run rt ci first" >&2; exit 1; }
done
PATH=$PATH:/usr/sbin:/sbin
for tool in dpkg dpkg-deb mandoc zsh python3 fakeroot gcc g++ pkg-config; do
    command -v "$tool" > /dev/null && continue
    "$top/tests/setup.sh" > /dev/null || { echo "no $tool, and tests/setup.sh failed" >&2; exit 1; }
done
room=$(mktemp -d)
trap 'rm -rf "$room"' EXIT
chmod 755 "$room"
root=$room/root
passed=0 failed=0

pass() {
    passed=$((passed + 1))
}

# fail NAME [FILE]: counts a failure, and shows the first lines of the file.
fail() {
    failed=$((failed + 1))
    echo "FAILED $1"
    [ $# = 1 ] || head -n 10 "$2"
}

# succeeds NAME COMMAND..: the command ends with status 0.
succeeds() {
    local name=$1
    shift
    if "$@" > "$room/said" 2>&1; then pass; else fail "$name" "$room/said"; fi
}

# gives NAME EXPECTED COMMAND..: the command's output, its errors included, is exactly the text.
gives() {
    local name=$1 expected=$2
    shift 2
    "$@" > "$room/said" 2>&1
    if [ "$(cat "$room/said")" = "$expected" ]; then pass; else fail "$name" "$room/said"; fi
}

# The packages: the same bytes from another folder, under another umask, at another time.
build_twice() {
    mkdir "$room/first" "$room/second"
    succeeds 'the packages are built' "$top/packaging/deb.sh" "$room/first"
    [ "$failed" = 0 ] || exit 1
    (cd "$room/second" && umask 077 && TMPDIR=$room "$top/packaging/deb.sh") > "$room/said" 2>&1
    [ ! -s "$top/bindings/out/lacks" ] || packages=gtd
    local name
    for name in $packages; do
        deb=$(echo "$room/first/${name}"_*_amd64.deb)
        succeeds "$name is built again, byte for byte" cmp "$deb" "$room/second/${deb##*/}"
        gives "the fields of $name" "$name amd64" dpkg-deb --show --showformat '${Package} ${Architecture}' "$deb"
        gives "the name of $name has its version" "${name}_$(dpkg-deb --field "$deb" Version)_amd64.deb" echo "${deb##*/}"
        succeeds "the change log has the version of $name" \
            grep -q "^## \[$(dpkg-deb --field "$deb" Version)\] - " "$top/CHANGELOG.md"
        dpkg-deb --contents "$deb" > "$room/contents"
        gives "all files of $name belong to root" 'root/root' awk '!seen[$2]++ { print $2 }' "$room/contents"
        gives "all files of $name may be read" '' grep -v '^[-d]r[-w][-x]r-[-x]r-[-x] \|^lrwx' "$room/contents"
    done
}

# dpkg_in ARGUMENTS..: dpkg over the scratch root. The root has no C library of its own, so dependencies only warn. The documents
# are installed even if this machine's dpkg leaves documents out.
dpkg_in() {
    local as_root=
    [ "$(id -u)" = 0 ] || as_root=fakeroot
    $as_root dpkg --root="$root" --force-depends --log="$room/log" --path-include='/usr/share/*' "$@"
}

make_root() {
    mkdir -p "$root/var/lib/dpkg/info" "$root/var/lib/dpkg/updates" "$root/var/lib/dpkg/triggers"
    : > "$root/var/lib/dpkg/status"
}

# files_in_root: the files and links outside dpkg's own folder.
files_in_root() {
    (cd "$root" && find . -path ./var/lib/dpkg -prune -o ! -type d -print | LC_ALL=C sort)
}

# missing_pictures: those that a document shows and that are not installed beside it.
missing_pictures() {
    local doc=$root/usr/share/doc/gtd picture
    grep -oh 'pictures/[a-zA-Z0-9_/]*\.svg' "$doc/README.md" "$doc"/docs/*.md | sort -u | while read -r picture; do
        [ -s "$doc/docs/$picture" ] || echo "$picture"
    done
}

install_it() {
    make_root
    succeeds 'the packages are installed' dpkg_in --install "$room"/first/*.deb
    local name
    for name in $packages; do
        gives "dpkg knows $name" 'install ok installed' dpkg-query --admindir="$root/var/lib/dpkg" -W -f '${Status}' "$name"
        succeeds "the sums of $name agree" bash -c "cd '$root' && md5sum --quiet -c var/lib/dpkg/info/$name[.:]*md5sums"
        succeeds "the licence of $name says which" grep -q 'MIT OR Apache-2.0' "$root/usr/share/doc/$name/copyright"
        succeeds "the change log of $name" test -s "$root/usr/share/doc/$name/changelog.gz"
    done
    for name in gtd gtdesk; do
        succeeds "$name is the proved one" cmp "$root/usr/bin/$name" "$top/crates/$name/out/$name"
    done
    for file in README.md STATEMENT.txt docs/TUTORIAL.md docs/COMMANDS.md examples/restrictions.csv \
        examples/planner/network.csv; do
        succeeds "documents: $file" test -s "$root/usr/share/doc/gtd/$file"
    done
    gives 'the pictures that the documents show' '' missing_pictures
    for licence in MIT APACHE; do
        succeeds "the text of LICENSE-$licence" python3 -c 'import sys
assert open(sys.argv[1]).read() in open(sys.argv[2]).read()' "$top/LICENSE-$licence" "$root/usr/share/doc/gtd/copyright"
    done
}

# lint PAGE: mandoc finds nothing. It looks for the pages that a page refers to only in /usr/share/man, so this checks that they
# are in the scratch root.
lint() {
    local page=$root/usr/share/man/man${1##*.}/$1 name section
    zcat "$page.gz" > "$room/$1" || fail "$1 is there"
    mandoc -T lint "$room/$1" > "$room/lint" 2>&1
    gives "$1: mandoc finds nothing" '' grep -v 'STYLE: referenced manual not found' "$room/lint"
    while read -r name section; do
        succeeds "$1 refers to $name($section)" test -s "$root/usr/share/man/man$section/$name.$section.gz"
    done < <(sed -n 's/^\.Xr \([^ ]*\) \([0-9]\).*/\1 \2/p' "$room/$1" | sort -u)
}

lint_pages() {
    lint gtd.1
    lint gtdesk.1
    lint gtd-files.5
    lint gtd-domain.7
    local command
    for command in $commands; do
        succeeds "gtd(1) has $command" grep -q "^\.It Cm $command " "$room/gtd.1"
    done
    for command in $desk_commands; do
        succeeds "gtdesk(1) has $command" grep -q "^\.It Cm $command " "$room/gtdesk.1"
    done
}

# tab SHELL TEXT WORDS: after Tab, the line that begins with the text has these words.
tab() {
    gives "$1: $2<Tab>" "$3" "$top/tests/press_tab.py" "$1" "${setup[$1]}" "$2"
}

complete_in() {
    tab "$1" 'gtd sch' '<schedule>'
    tab "$1" 'gtd ca' '<canon>'
    tab "$1" 'gtd schedule town.sch' '<schedule><town.schedule.csv>'
    tab "$1" 'gtd migrate restr' '<migrate><restrictions.csv>'
    tab "$1" 'gtd year town.csv 103 p' '<year><town.csv><103><positive>'
    tab "$1" 'gtd year town.csv 103 n' '<year><town.csv><103><negative>'
    tab "$1" 'gtd check restr' '<check><restr>'
    tab "$1" 'gtd schedule town.csv restr' '<schedule><town.csv><restr>'
    tab "$1" 'gtdesk fau' '<faults>'
    tab "$1" 'gtdesk help rec' '<help><records>'
    tab "$1" 'gtdesk faults --w' '<faults><--warn>'
    tab "$1" 'gtdesk faults --warn restr' '<faults><--warn><restrictions.csv>'
    tab "$1" 'gtdesk hours --op' '<hours><--open-end>'
    tab "$1" 'gtdesk hours --ho' '<hours><--holidays>'
    tab "$1" 'gtdesk same --fr' '<same><--from>'
    tab "$1" 'gtdesk same --fi' '<same><--file>'
    tab "$1" 'gtdesk ask restr' '<ask><restrictions.csv>'
    tab "$1" 'gtdesk same --h' '<same><--hours>'
    tab "$1" 'gtdesk diff restr' '<diff><restrictions.csv>'
    tab "$1" 'gtdesk records town.hours' '<records><town.hours.csv>'
    tab "$1" 'gtdesk picture town.csv 103 p' '<picture><town.csv><103><positive>'
    tab "$1" 'gtdesk words restr' '<words><restr>'
    tab "$1" 'gtdesk now town.csv restr' '<now><town.csv><restrictions.csv>'
}

# Not each program lists its commands, so they are taken from the definitions that the programs are proved to meet.
know_commands() {
    gives "the program's commands" "$(tr ' ' '\n' <<< "$commands" | sort)" \
        bash -c "sed -n 's/.*(codes \"\([a-z]*\)\", .*reading)/\1/p' '$top/crates/gtd_tool/specs/Commands.antt' | sort"
    local defined=$top/crates/gtdesk_plans/specs/Commands
    gives "gtdesk's commands" "$(tr ' ' '\n' <<< "$desk_commands" | sort)" \
        bash -c "sed -n 's/.*command_of (codes \"\([a-z-]*\)\").*/\1/p' '$defined'/*.antt | sort"
    gives "gtdesk's commands and their words, as its help says them" '' "$top/packaging/pages.py" --help-of "$root/usr/bin/gtdesk"
}

complete_words() {
    local bash_file=$root/usr/share/bash-completion/completions/gtd zsh_folder=$root/usr/share/zsh/vendor-completions
    declare -A setup=(
        [bash]=". $bash_file; . ${bash_file}esk"
        [zsh]="fpath=($zsh_folder \$fpath); autoload -Uz compinit; compinit -u -D"
    )
    gives 'bash: complete -p gtd' 'complete -F _gtd gtd' bash --norc -c ". '$bash_file'; complete -p gtd"
    gives 'bash: complete -p gtdesk' 'complete -F _gtdesk gtdesk' bash --norc -c ". '${bash_file}esk'; complete -p gtdesk"
    gives 'zsh: the function of gtd' '_gtd' zsh -fc "${setup[zsh]}; echo \$_comps[gtd]"
    gives 'zsh: the function of gtdesk' '_gtdesk' zsh -fc "${setup[zsh]}; echo \$_comps[gtdesk]"
    gives 'bash: all commands' "$commands" \
        bash --norc -c ". '$bash_file'; COMP_WORDS=(gtd '') COMP_CWORD=1; _gtd; echo \"\${COMPREPLY[*]}\""
    gives 'zsh: all commands' "$commands" \
        bash -c "sed -n \"s/^        '\\([a-z]*\\):.*/\\1/p\" '$zsh_folder/_gtd' | paste -sd ' '"
    gives 'bash: all commands of gtdesk' "$desk_commands help --help --version" \
        bash --norc -c ". '${bash_file}esk'; COMP_WORDS=(gtdesk '') COMP_CWORD=1; _gtdesk; echo \"\${COMPREPLY[*]}\""
    gives 'zsh: all commands of gtdesk' "$desk_commands help" \
        bash -c "sed -n \"s/^        '\\([a-z-]*\\):.*/\\1/p\" '${zsh_folder}/_gtdesk' | paste -sd ' '"
    complete_in bash
    complete_in zsh
}

# makes FILE WORDS..: what the installed program prints is exactly the file of examples/.
makes() {
    local file=$1
    shift
    "$root/usr/bin/gtd" "$@" > "$room/out" 2>&1
    succeeds "gtd $*" cmp "$room/out" "$top/examples/$file"
}

run_it() {
    cd "$root/usr/share/doc/gtd/examples" || exit 1
    makes town.schedule.csv schedule town.csv 2024-03-15 2024-03-18 11
    makes pass.schedule.csv schedule pass.csv 2025-04-15 2025-04-21 12
    makes works.schedule.csv schedule works.csv 2024-06-01 2024-10-01 1
    makes town.year.txt year town.csv 103 positive 11 2024
    makes works.migrated.csv migrate works.csv
    "$root/usr/bin/gtdesk" records town.hours.csv > "$room/out" 2>&1
    succeeds 'gtdesk records town.hours.csv' cmp "$room/out" "$top/examples/town.records.csv"
    cd "$top/examples" || exit 1
}

# Programs built with what is installed, by pkg-config, and run with the installed library.
use_library() {
    local libraries=$root/usr/lib/x86_64-linux-gnu examples=$root/usr/share/doc/libgtd-dev/examples flags name
    gives 'the name of the library' 'libgtd.so.0' \
        bash -c "objdump -p '$libraries/libgtd.so.0' | sed -n 's/.*SONAME *//p'"
    gives 'its link' 'libgtd.so.0' readlink "$libraries/libgtd.so"
    succeeds 'its calls are those of the header' cmp \
        <(nm -D --defined-only "$libraries/libgtd.so.0" | sed -n 's/.* T \([^@]*\).*/\1/p' | sort) \
        <(sed -n 's/^[a-z0-9_]* \(gtd_[a-z_]*\)(.*/\1/p' "$root/usr/include/gtd.h" | sort)
    gives 'what depends on it' 'libgtd 0 libgtd0 (>= '"$(dpkg-deb --field "$deb" Version)"')' \
        bash -c "cat '$root'/var/lib/dpkg/info/libgtd0*.shlibs"
    read -ra flags <<< "$(PKG_CONFIG_SYSROOT_DIR=$root PKG_CONFIG_PATH=$libraries/pkgconfig pkg-config --cflags --libs gtd)"
    succeeds 'a program in C' gcc -std=c11 -o "$room/example_c" "$examples/example.c" "${flags[@]}"
    succeeds 'a program in C++' g++ -std=c++17 -o "$room/example_cpp" "$examples/example.cpp" "${flags[@]}"
    succeeds 'a program in C, static' gcc -std=c11 -o "$room/example_static" "$examples/example.c" \
        -I "$root/usr/include" "$libraries/libgtd.a"
    for name in example_c example_cpp example_static; do
        LD_LIBRARY_PATH=$libraries "$room/$name" "$top/examples/town.csv" 103 11 > "$room/$name.out" 2>&1
        gives "$name: its first line" 'open at 2024-03-15T06:50:00, which changes at 2024-03-15T07:30:00' \
            head -n 1 "$room/$name.out"
    done
}

# The extensions, as they are installed; tests/sql.sh starts a server with one.
use_extensions() {
    gives 'the extension of SQLite' '[(h7m30){h1m30}]' sqlite3 :memory: ".load $root/usr/lib/x86_64-linux-gnu/mod_gtd" \
        "SELECT gtd_canon('[(m30h07){m30h1}]')"
    gives 'the extension of PostgreSQL' "default_version = '0.1'" \
        grep version "$root/usr/share/postgresql/15/extension/gtd.control"
    succeeds 'its functions' cmp "$root/usr/share/postgresql/15/extension/gtd--0.1.sql" "$top/bindings/postgres/gtd--0.1.sql"
    gives 'its module needs the C library alone' '' \
        bash -c "objdump -p '$root/usr/lib/postgresql/15/lib/gtd.so' | grep NEEDED | grep -v 'libc\.so\.6'"
}

remove_it() {
    # shellcheck disable=SC2086 # names without spaces
    succeeds 'the packages are removed' dpkg_in --purge $packages
    gives 'nothing is left' '' files_in_root
}

packages='gtd libsqlite3-mod-gtd postgresql-15-gtd libgtd0 libgtd-dev'
# The commands of packaging/commands.txt, in its order.
commands=$("$top/packaging/pages.py" --commands gtd)
desk_commands=$("$top/packaging/pages.py" --commands gtdesk)
cd "$top/examples" || exit 1
build_twice
install_it
know_commands
lint_pages
complete_words
run_it
if [ "$packages" != gtd ]; then
    use_library
    use_extensions
fi
remove_it

echo "packaging: $passed passed, $failed failed"
[ "$failed" = 0 ]

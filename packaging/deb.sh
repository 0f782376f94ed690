#!/usr/bin/env bash
# Makes five packages in the folder given (by default the current one): gtd, of the proved programs; libgtd0, the library;
# libgtd-dev, what programs that use it are built with; libsqlite3-mod-gtd and postgresql-15-gtd, the extensions of databases,
# which need libsqlite3-dev and postgresql-server-dev-15 to be built. Run it after `rt ci`, or `rt run` in crates/gtd and in
# crates/gtdesk, which proves and builds the programs; bindings/build.sh makes the library if it is missing. Version and date
# are those of the newest release in CHANGELOG.md, and the same programs and files give the same bytes. packaging/pages.py
# makes the man pages of the programs and their completions. Packagers set the maintainer in the environment variable
# GTD_MAINTAINER.
# Usage: packaging/deb.sh [FOLDER]
set -eu
into=$(cd "${1:-.}" && pwd)
top=$(cd "$(dirname "$0")/.." && pwd)
programs=("$top/crates/gtd/out/gtd" "$top/crates/gtdesk/out/gtdesk")
for program in "${programs[@]}"; do
    [ -x "$program" ] || { echo "no program at $program: run rt ci first" >&2; exit 1; }
done
out=$top/bindings/out
[ -e "$out/lacks" ] || "$top/bindings/build.sh"
read -r version released < <(sed -n 's/^## \[\([0-9.]*\)\] - \([0-9-]*\)$/\1 \2/p' "$top/CHANGELOG.md")
umask 022
work=$(mktemp -d)
trap 'rm -rf "$work"' EXIT
mkdir "$work/pages"
"$top/packaging/pages.py" "$work/pages"
libraries=usr/lib/x86_64-linux-gnu

# begin PACKAGE: what follows is put into this package.
begin() {
    package=$1 root=$work/$1 doc=$work/$1/usr/share/doc/$1
    mkdir -m 755 "$root"
}

# put MODE FOLDER FILE..: the files, in a folder of the package.
put() {
    local mode=$1 folder=$root/$2
    shift 2
    mkdir -p "$folder"
    install -m "$mode" "$@" "$folder"
}

put_programs() {
    local name completions=usr/share/bash-completion/completions
    put 755 usr/bin "${programs[@]}"
    for name in gtd gtdesk; do
        put 644 "$completions" "$work/pages/$name.bash"
        mv "$root/$completions/$name.bash" "$root/$completions/$name"
        put 644 usr/share/zsh/vendor-completions "$work/pages/_$name"
    done
}

put_pages() {
    put 644 usr/share/man/man1 "$work/pages/gtd.1" "$work/pages/gtdesk.1"
    put 644 usr/share/man/man5 "$top/packaging/gtd-files.5"
    put 644 usr/share/man/man7 "$top/packaging/gtd-domain.7"
    gzip -9n "$root"/usr/share/man/man?/*
}

# The documents keep their folders, so that their links hold, and come with the pictures that they show.
put_documents() {
    local folder
    put 644 usr/share/doc/gtd "$top/README.md" "$top/CHANGELOG.md" "$top/STATEMENT.txt"
    put 644 usr/share/doc/gtd/docs "$top"/docs/*.md
    for folder in pictures pictures/words pictures/hours; do
        put 644 "usr/share/doc/gtd/docs/$folder" "$top/docs/$folder"/*.svg
    done
    put 644 usr/share/doc/gtd/examples "$top"/examples/*.*
    put 644 usr/share/doc/gtd/examples/planner "$top"/examples/planner/*
    put 644 usr/share/doc/gtd/examples/conditions "$top"/examples/conditions/*
    put 644 usr/share/doc/gtd/examples/hours "$top"/examples/hours/*
    rm "$doc/CHANGELOG.md"
    put_notes
}

# What each package must have.
put_notes() {
    mkdir -p "$doc"
    gzip -9n < "$top/CHANGELOG.md" > "$doc/changelog.gz"
    put_licence > "$doc/copyright"
}

put_library() {
    put 644 "$libraries" "$out/libgtd.so.0"
    strip --strip-unneeded "$root/$libraries/libgtd.so.0"
    put_notes
}

put_headers() {
    put 644 usr/include "$top/bindings/c/gtd.h" "$top/bindings/cpp/gtd.hpp"
    put 644 "$libraries" "$out/libgtd.a"
    strip --strip-debug --enable-deterministic-archives "$root/$libraries/libgtd.a"
    ln -s libgtd.so.0 "$root/$libraries/libgtd.so"
    local file name
    mkdir -p "$root/$libraries/pkgconfig" "$root/$libraries/cmake/gtd"
    for file in pkgconfig/gtd.pc cmake/gtd/gtd-config.cmake cmake/gtd/gtd-config-version.cmake; do
        name=${file##*/}
        sed "s|@libdir@|/$libraries|; s|@includedir@|/usr/include|; s|@version@|$version|" "$top/bindings/c/$name.in" \
            > "$root/$libraries/$file"
    done
    put 644 usr/share/doc/libgtd-dev "$top/docs/LIBRARY.md"
    put 644 usr/share/doc/libgtd-dev/examples "$top"/bindings/c/*.c "$top"/bindings/cpp/*.cpp
    put_notes
}

put_sqlite() {
    mkdir "$work/sqlite"
    make -s -C "$top/bindings/sqlite" out="$work/sqlite" library="$out/libgtd.a" CFLAGS=-O2 "$work/sqlite/mod_gtd.so"
    put 644 "$libraries" "$work/sqlite/mod_gtd.so"
    strip --strip-unneeded "$root/$libraries/mod_gtd.so"
    put 644 "usr/share/doc/$package" "$top/docs/LIBRARY.md"
    put 644 "usr/share/doc/$package/examples" "$top"/bindings/sqlite/example/*
    put_notes
}

# Without debugging symbols, which name the folder that it was built in.
put_postgres() {
    mkdir "$work/postgres"
    make -s -C "$work/postgres" -f "$top/bindings/postgres/Makefile" PG_CONFIG="$server" COPT=-g0 install \
        DESTDIR="$root"
    strip --strip-unneeded "$root"/usr/lib/postgresql/15/lib/gtd.so
    put 644 "usr/share/doc/$package" "$top/docs/LIBRARY.md"
    put_notes
}

put_licence() {
    echo 'gtd is licensed under the MIT license or the Apache License, Version 2.0, at your choice (MIT OR Apache-2.0).'
    printf '\n%s\n\n' '== LICENSE-MIT'
    cat "$top/LICENSE-MIT"
    printf '\n%s\n\n' '== LICENSE-APACHE'
    cat "$top/LICENSE-APACHE"
}

# libc FILE..: the C library must be at least as new as the newest of its symbols that these name.
libc() {
    echo "libc6 (>= $(grep -aoh 'GLIBC_[0-9.]*[0-9]' "$@" | sort -uV | tail -n 1 | cut -d _ -f 2))"
}

# put_control SECTION DEPENDS [FIELD]: its description is standard input.
put_control() {
    mkdir "$root/DEBIAN"
    (cd "$root" && find usr -type f -print0 | LC_ALL=C sort -z | xargs -0 md5sum > DEBIAN/md5sums)
    cat > "$root/DEBIAN/control" << END
Package: $package
Version: $version
Architecture: amd64
Maintainer: ${GTD_MAINTAINER:-Julepwadi <maintainers@julepwadi.example>}
Installed-Size: $(find "$root/usr" -type f -printf '%s\n' | awk '{ kib += int(($1 + 1023) / 1024) } END { print kib }')
Depends: $2
Section: $1
Priority: optional
${3:+$3
}$(cat)
END
}

# Every file in the package has the time of the release, unless the caller names another.
build() {
    find "$root" -exec touch -h -d "@$SOURCE_DATE_EPOCH" {} +
    dpkg-deb --root-owner-group -Zxz --threads-max=1 --build "$root" "$into/${package}_${version}_amd64.deb" > /dev/null
    echo "$into/${package}_${version}_amd64.deb"
}

export SOURCE_DATE_EPOCH=${SOURCE_DATE_EPOCH:-$(date -u -d "$released" +%s)}

begin gtd
put_programs
put_pages
put_documents
put_control utils "$(libc "${programs[@]}")" << END
Description: check and evaluate timed road restrictions
 gtd reads files of timed road restrictions, whose times are time domains of
 GDF (ISO 14825:2004), and prints when each road element is open. It also
 checks, prints and evaluates single time domains. gtdesk is its program for
 people: it says which elements are closed at a moment and by which rows, lists
 all faults of a file, draws pictures of a year, says in plain English when a
 time domain holds, and turns opening hours into time domains.
 .
 It needs a processor of the level x86-64-v2.
END
build

# A library that lacks calls of its header is not given out.
[ ! -s "$out/lacks" ] || { echo "no packages of the library, which lacks $(paste -sd ' ' "$out/lacks")" >&2; exit; }

begin libgtd0
put_library
put_control libs "$(libc "$out/libgtd.so.0")" 'Multi-Arch: same' << END
Description: evaluate timed road restrictions in process
 libgtd answers when road elements are open, by files of timed road restrictions
 whose times are time domains of GDF (ISO 14825:2004), and when single time
 domains hold.
 .
 This is the shared library. It needs a processor of the level x86-64-v2.
END
echo "libgtd 0 libgtd0 (>= $version)" > "$root/DEBIAN/shlibs"
echo 'activate-noawait ldconfig' > "$root/DEBIAN/triggers"
build

begin libgtd-dev
put_headers
put_control libdevel "libgtd0 (= $version)" 'Multi-Arch: same' << END
Description: evaluate timed road restrictions in process (development files)
 libgtd answers when road elements are open, by files of timed road restrictions
 whose times are time domains of GDF (ISO 14825:2004), and when single time
 domains hold.
 .
 These are its headers for C and C++, and the static library.
END
build

server=/usr/lib/postgresql/15/bin/pg_config
if [ ! -e /usr/include/sqlite3ext.h ] || [ ! -e "$("$server" --includedir-server 2> /dev/null)/postgres.h" ]; then
    echo 'no packages of the extensions: libsqlite3-dev or postgresql-server-dev-15 is not installed' >&2
    exit
fi

begin libsqlite3-mod-gtd
put_sqlite
put_control database "$(libc "$root/$libraries/mod_gtd.so"), libsqlite3-0 (>= 3.31)" 'Enhances: sqlite3, gdal-bin' << END
Description: timed road restrictions in SQL of SQLite
 With this extension SQLite answers when time domains of GDF (ISO 14825:2004)
 hold and change, and whether rows of timed road restrictions close a road.
 .
 It is loaded by ".load mod_gtd", and by GDAL for views of a GeoPackage.
END
build

begin postgresql-15-gtd
put_postgres
put_control database "$(libc "$root/usr/lib/postgresql/15/lib/gtd.so"), postgresql-15" << END
Description: timed road restrictions in SQL of PostgreSQL
 With this extension PostgreSQL answers when time domains of GDF (ISO
 14825:2004) hold and change, and whether rows of timed road restrictions close
 a road. It has a type of texts that must be time domains.
 .
 It is made part of a database by "CREATE EXTENSION gtd".
END
build

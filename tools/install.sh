#!/usr/bin/env bash
# Installs the library for C: headers, the static library, a pkg-config file, and what to read (docs, examples in C).
#
#     [DESTDIR=FOLDER] tools/install.sh PREFIX
#
# PREFIX is where the files will be found (/usr/local, say); with DESTDIR they are put below that folder instead, for a
# package. `tools/build.sh tomchoen` makes the library first. Files that stand there already are replaced. Exit status: 0
# installed, 1 something is missing or cannot be written, 2 wrong usage.
set -eu

# ends with a message and a status
stop() {
    printf 'tools/install.sh: %s\n' "$2" >&2
    exit "$1"
}

[ $# -eq 1 ] || stop 2 'usage: [DESTDIR=FOLDER] tools/install.sh PREFIX'
prefix=${1%/}
[[ $1 == /* ]] || stop 2 "PREFIX must begin with /: $1"
[[ $prefix != *[[:space:]]* ]] || stop 2 "PREFIX must not have blanks, which pkg-config would part: $1"

root=$(cd "$(dirname "$0")/.." && pwd)
library=$root/target/staticlib/libtomchoen.a
[ -f "$library" ] || stop 1 "$library is not there: run 'tools/build.sh tomchoen' first"
place=${DESTDIR:-}$prefix
docs=$place/share/doc/tomchoen

# puts files into a folder, which is made where it is not there
put() {
    local folder=$1
    shift
    { install -d "$folder" && install -m 644 "$@" "$folder"; } || stop 1 "cannot install into $folder"
}

# the pkg-config file, filled in
filled=$(mktemp -d)
trap 'rm -rf "$filled"' EXIT
description=$(<"$root/tools/tomchoen.pc.in")
description=${description//@PREFIX@/"$prefix"}
description=${description//@VERSION@/"$(<"$root/VERSION")"}
printf '%s\n' "$description" >"$filled/tomchoen.pc"

put "$place/include" "$root"/include/*.h
put "$place/lib" "$library"
put "$place/lib/pkgconfig" "$filled/tomchoen.pc"
put "$docs" "$root"/docs/{C-API,REFUSALS,SPACE,TEXT}.md
put "$docs/examples" "$root"/examples/c/*

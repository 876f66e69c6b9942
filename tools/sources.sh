#!/bin/sh
# Says whether a program is built from the sources of this checkout:
#
#   tools/sources.sh check PROGRAM          ends with 0 if it is, else with 1 and a sentence
#   tools/sources.sh sum                    prints the checksum of the sources
#   tools/sources.sh record PROGRAM [SUM]   notes of which sources a program was just built: these,
#                                           or those of SUM, which `sum` printed before the build
#
# The note stands in PROGRAM.sources: the checksums of the program and of crates.txt, HANDLES and
# crates/*/{src,specs,proofs}. The build writes it. If `rt ci` built crates/vodserve/out/vodserve,
# there is no note of it: then `check` asks that no source is newer, and writes the note.
set -eu
top=$(readlink -f -- "$(dirname -- "$(readlink -f -- "$0")")/..")
own=$top/crates/vodserve/out/vodserve

usage() {
    sed -n '2,/^set/{/^set/d;s/^# \{0,1\}//p}' "$0"
}

# find_sources EXPRESSION..: prints the names of the sources that fit, in one order everywhere.
find_sources() {
    (cd "$top" && find crates.txt HANDLES crates/*/src crates/*/specs crates/*/proofs \
        -type f "$@" | LC_ALL=C sort)
}

# sum_sources: prints the checksum of all sources with their names.
sum_sources() {
    find_sources | (cd "$top" && tr '\n' '\0' | xargs -0 sha256sum) | sha256sum | cut -d ' ' -f 1
}

# sum_program PROGRAM: prints the checksum of a program.
sum_program() {
    sha256sum <"$1" | cut -d ' ' -f 1
}

# record PROGRAM SUM: notes of which sources a program is; by a rename, so never in part.
record() {
    printf 'program %s\nsources %s\n' "$(sum_program "$1")" "$2" >"$1.sources.$$"
    mv "$1.sources.$$" "$1.sources"
}

# check PROGRAM: prints what is wrong, if anything is.
check() {
    if ! [ -f "$1" ] || ! [ -x "$1" ]; then
        echo "$1 isn't there: './vodserve --version' proves and builds it"
    elif [ -f "$1.sources" ] &&
        [ "$(sed -n 's/^program //p' "$1.sources")" = "$(sum_program "$1")" ]; then
        [ "$(sed -n 's/^sources //p' "$1.sources")" = "$(sum_sources)" ] ||
            echo "$1 was built from other sources: './vodserve --version' builds it from these"
    elif [ "$1" != "$own" ]; then
        echo "$1.sources doesn't say from which sources it is: './vodserve --version' builds $own"
    else
        newer=$(find_sources -newer "$1" | head -n 1)
        if [ -n "$newer" ]; then
            echo "$1 is older than $newer: './vodserve --version' proves and builds it again"
        else
            record "$1" "$(sum_sources)" 2>/dev/null || true
        fi
    fi
}

case ${1-}:$# in
    -h:1 | --help:1) usage && exit 0 ;;
    sum:1) sum_sources && exit 0 ;;
    check:2 | record:2 | record:3) ;;
    *) usage >&2 && exit 2 ;;
esac
program=$(readlink -f -- "$2") || program=$2
if [ "$1" = record ]; then
    [ -f "$program" ] || { echo "sources.sh: $program isn't there" >&2 && exit 1; }
    record "$program" "${3:-$(sum_sources)}"
    exit 0
fi
wrong=$(check "$program")
[ -z "$wrong" ] || { echo "sources.sh: $wrong" >&2 && exit 1; }

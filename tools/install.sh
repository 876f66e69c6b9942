#!/bin/sh
# Installs the program, its tools, manual pages, completion, service and documents:
#
#   tools/install.sh [PREFIX] [--program FILE]   PREFIX is /usr/local unless it is given
#   tools/install.sh --remove [PREFIX]           takes away what was installed there
#
# FILE is the built program (crates/vodserve/out/vodserve). A program that isn't built from these
# sources is refused. The settings go to PREFIX/etc/vodserve.conf, or to /etc if PREFIX is /usr.
# Settings that were changed are kept. With DESTDIR in the environment all files go below that
# folder, as for a package. Where something is wrong, one sentence says so and nothing is changed.
set -eu
tools=$(dirname -- "$(readlink -f -- "$0")")
top=$(dirname -- "$tools")
destdir=${DESTDIR-}
remove=no prefix='' program=$top/crates/vodserve/out/vodserve

usage() {
    sed -n '2,/^set/s/^# \{0,1\}//p' "$0"
}

fail() {
    echo "install.sh: $*" >&2
    exit 1
}

while [ $# -gt 0 ]; do
    case $1 in
        -h | --help) usage && exit 0 ;;
        --remove) remove=yes ;;
        --program)
            [ $# -gt 1 ] || fail "--program needs a file"
            program=$2 && shift
            ;;
        -*) fail "there is no option $1; 'install.sh --help' shows them" ;;
        *)
            [ -z "$prefix" ] || fail "two prefixes, $prefix and $1; give one"
            prefix=$1
            ;;
    esac
    shift
done
prefix=${prefix:-/usr/local}
case $prefix in
    /*) ;;
    *) fail "PREFIX must begin with '/', for example $PWD/$prefix" ;;
esac
case $prefix in
    *[!A-Za-z0-9/._-]*) fail "PREFIX '$prefix' may have letters, digits, '/', '.', '_' and '-'" ;;
esac
prefix=$(realpath -ms -- "$prefix")
settings=$prefix/etc/vodserve.conf
[ "$prefix" != /usr ] || settings=/etc/vodserve.conf
# one line a file that was installed, checksum and place, and one a folder that was created for it
list=$prefix/lib/vodserve/installed
work=$(mktemp -d)
trap 'rm -rf "$work"' EXIT
trap 'exit 130' INT TERM

# put MODE SOURCE PLACE: notes a file to be installed.
put() {
    echo "$1 $3 $2" >>"$work/files"
}

# put_folder FOLDER PLACE: notes all files of a folder.
put_folder() {
    for file in "$1"/*; do
        mode=644
        [ ! -x "$file" ] || mode=755
        [ ! -f "$file" ] || put $mode "$file" "$2/${file##*/}"
    done
}

# fill_in SOURCE: prints a file with the paths of this installation.
fill_in() {
    sed -e "s|@PREFIX@|$prefix|g" -e "s|@SETTINGS@|$settings|g" "$1"
}

# list_files: notes all that belongs to an installation.
list_files() {
    doc=$prefix/share/doc/vodserve man=$prefix/share/man lib=$prefix/lib/vodserve
    put 755 "$program" "$prefix/bin/vodserve"
    put 755 "$tools/start.py" "$lib/start.py"
    put 755 "$tools/monitor.py" "$lib/monitor.py"
    put 755 "$tools/draw.py" "$lib/draw.py"
    put_folder "$tools/vodtools" "$lib/vodtools"
    put 644 "$tools/vodserve.1" "$man/man1/vodserve.1"
    echo '.so man1/vodserve.1' >"$work/other.1"
    put 644 "$work/other.1" "$man/man1/vodserve-monitor.1"
    put 644 "$work/other.1" "$man/man1/vodserve-draw.1"
    if [ -f "$top/docs/PROTOCOL.md" ]; then
        "$tools/protocol_page.py" "$top/docs/PROTOCOL.md" >"$work/protocol.7"
        put 644 "$work/protocol.7" "$man/man7/vodserve-protocol.7"
    fi
    put 644 "$tools/vodserve.bash" "$prefix/share/bash-completion/completions/vodserve"
    fill_in "$tools/vodserve.service" >"$work/service"
    put 644 "$work/service" "$prefix/lib/systemd/system/vodserve.service"
    for file in README.md CHANGELOG.md SECURITY.md; do
        [ ! -f "$top/$file" ] || put 644 "$top/$file" "$doc/$file"
    done
    put_folder "$top/docs" "$doc/docs"
    put_folder "$top/examples" "$doc/examples"
    # the settings of an administrator stay
    [ -e "$destdir$settings" ] || put 644 "$top/examples/vodserve.conf" "$settings"
}

# was_installed PLACE: whether an earlier installation put a file there.
was_installed() {
    [ -f "$destdir$list" ] && grep -q "^file [0-9a-f]* $1\$" "$destdir$list"
}

# check_places: refuses an installation that can't be written or would hide another program's file.
check_places() {
    while read -r _ place _; do
        if [ -e "$destdir$place" ] && ! was_installed "$place"; then
            fail "$destdir$place is there and wasn't put there by install.sh: move it away first"
        fi
        folder=$(dirname "$destdir$place")
        while ! [ -e "$folder" ]; do folder=$(dirname "$folder"); done
        [ -d "$folder" ] || fail "$folder isn't a folder"
        [ -w "$folder" ] || fail "you may not write to $folder: run it as root, or give a PREFIX"
    done <"$work/files"
}

# make_folder FOLDER: creates a folder and those above it, and notes each that wasn't there.
make_folder() {
    [ ! -d "$destdir$1" ] || return 0
    make_folder "$(dirname "$1")"
    mkdir "$destdir$1" 2>/dev/null || fail "$destdir$1 can't be created"
    echo "folder - $1" >>"$work/installed"
}

# note_link PLACE TARGET: creates a name in PREFIX/bin for a tool, and notes it.
note_link() {
    ln -sf "$2" "$destdir$1"
    echo "link $2 $1" >>"$work/installed"
}

put_files() {
    keep_notes >"$work/installed"
    make_folder "$(dirname "$list")"
    while read -r mode place source; do
        make_folder "$(dirname "$place")"
        install -m "$mode" "$source" "$destdir$place"
        echo "file $(sha256sum <"$source" | cut -d ' ' -f 1) $place" >>"$work/installed"
    done <"$work/files"
    note_link "$prefix/bin/vodserve-monitor" ../lib/vodserve/monitor.py
    note_link "$prefix/bin/vodserve-draw" ../lib/vodserve/draw.py
    install -m 644 "$work/installed" "$destdir$list"
}

# keep_notes: prints what is left of the earlier installation: settings and folders.
keep_notes() {
    [ -f "$work/before" ] || return 0
    while read -r kind sum place; do
        case $kind in
            folder) [ ! -d "$destdir$place" ] || echo "$kind $sum $place" ;;
            file)
                [ "$place" != "$settings" ] || [ ! -e "$destdir$place" ] ||
                    echo "$kind $sum $place"
                ;;
        esac
    done <"$work/before"
}

# remove_files: takes away what the list names, but for settings that were changed.
remove_files() {
    while read -r kind sum place; do
        [ "$kind" != folder ] || continue
        if [ "$place" = "$settings" ] && [ -f "$destdir$place" ] &&
            [ "$(sha256sum <"$destdir$place" | cut -d ' ' -f 1)" != "$sum" ]; then
            echo "install.sh: $destdir$place was changed and is kept"
            continue
        fi
        rm -f "$destdir$place"
    done <"$destdir$list"
    grep '^folder' "$destdir$list" | cut -d ' ' -f 3 | sort -r >"$work/folders" || true
    rm -f "$destdir$list"
    while read -r place; do
        rmdir --ignore-fail-on-non-empty "$destdir$place" 2>/dev/null || true
    done <"$work/folders"
}

# refuse_running: an installation that a service runs isn't taken away.
refuse_running() {
    [ -z "$destdir" ] && command -v systemctl >/dev/null 2>&1 || return 0
    if systemctl is-active -q vodserve 2>/dev/null; then
        fail "the service runs: 'systemctl disable --now vodserve' stops it"
    fi
}

if [ $remove = yes ]; then
    [ -f "$destdir$list" ] || fail "nothing is installed in $destdir$prefix (no $destdir$list)"
    [ -w "$(dirname "$destdir$list")" ] ||
        fail "you may not write to $destdir$prefix: run it as root"
    refuse_running
    remove_files
    echo "install.sh: removed from $destdir$prefix"
    exit 0
fi
wrong=$("$tools/sources.sh" check "$program" 2>&1) || fail "${wrong#sources.sh: }"
program=$(readlink -f -- "$program")
: >"$work/files"
list_files
check_places
if [ -f "$destdir$list" ]; then
    cp "$destdir$list" "$work/before"
    remove_files
    # settings that weren't changed are gone now: this version's take their place
    : >"$work/files"
    list_files
fi
put_files
version=$("$destdir$prefix/bin/vodserve" --version)
echo "install.sh: installed $version in $destdir$prefix, settings in $destdir$settings"
if [ -z "$destdir" ]; then
    echo "install.sh: to run it as a service, as root:"
    echo "    adduser --system --group --no-create-home --home /var/lib/vodserve vodserve"
    echo "    install -d /var/lib/vodserve    # the films go there"
    echo "    systemctl daemon-reload && systemctl enable --now vodserve"
fi

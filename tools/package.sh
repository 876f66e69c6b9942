#!/bin/sh
# Builds a Debian package of the program and its tools:
#
#   tools/package.sh [FOLDER] [--program FILE] [--revision N]
#
# The package FOLDER/vodserve_VERSION-N_ARCH.deb has what install.sh puts below /usr, the user
# vodserve, and the folder /var/lib/vodserve for films. FOLDER is the current one and N is 1 unless
# they are given. VERSION is what the program prints. A program that isn't built from these sources
# is refused. Where something is wrong, one sentence says so and nothing is written.
set -eu
tools=$(dirname -- "$(readlink -f -- "$0")")
top=$(dirname -- "$tools")
folder='' program=$top/crates/vodserve/out/vodserve revision=1
maintainer="vodserve maintainers <maintainers@users.noreply.hitfig.example>"

usage() {
    sed -n '2,/^set/s/^# \{0,1\}//p' "$0"
}

fail() {
    echo "package.sh: $*" >&2
    exit 1
}

while [ $# -gt 0 ]; do
    case $1 in
        -h | --help) usage && exit 0 ;;
        --program | --revision)
            [ $# -gt 1 ] || fail "$1 needs a value"
            [ "$1" = --program ] && program=$2 || revision=$2
            shift
            ;;
        -*) fail "there is no option $1; 'package.sh --help' shows them" ;;
        *)
            [ -z "$folder" ] || fail "two folders, $folder and $1; give one"
            folder=$1
            ;;
    esac
    shift
done
folder=${folder:-.}
case $revision in
    '' | *[!0-9]*) fail "a revision is a number, for example '--revision 2'" ;;
esac
if ! [ -d "$folder" ] || ! [ -w "$folder" ]; then
    fail "$folder isn't a folder that you may write to"
fi
command -v dpkg-deb >/dev/null || fail "dpkg-deb is missing: this builds packages on Debian alone"
work=$(mktemp -d)
trap 'rm -rf "$work"' EXIT
trap 'exit 130' INT TERM
root=$work/root
mkdir -p "$root/DEBIAN"
chmod 755 "$root"

# needed_libc: prints the lowest version of the C library that the program runs with.
needed_libc() {
    grep -ao 'GLIBC_2\.[0-9.]*' "$program" | sort -uV | tail -n 1 | sed 's/GLIBC_//'
}

write_control() {
    cat >"$root/DEBIAN/control" <<CONTROL
Package: vodserve
Version: $version-$revision
Section: video
Priority: optional
Architecture: $(dpkg --print-architecture)
Maintainer: $maintainer
Installed-Size: $(du -sk --exclude=DEBIAN "$root" | cut -f 1)
Depends: libc6 (>= $(needed_libc)), adduser, python3:any
Suggests: ffmpeg
Description: video-on-demand server that never overbooks its link
 vodserve serves stored MPEG-1 video over RTSP. It sends each film by the plan
 that needs the lowest peak rate for the client's buffer, and admits a play only
 if its plan fits into the capacity of the link beside all others.
 .
 The server is proved against its contracts. The package has the server as a
 service, a monitor, and tools that draw plans and what the server did.
CONTROL
    echo /etc/vodserve.conf >"$root/DEBIAN/conffiles"
    for script in postinst prerm postrm; do
        install -m 755 "$tools/package/$script" "$root/DEBIAN/$script"
    done
}

# write_documents: adds the changelog and the licence, and compresses what Debian wants compressed.
write_documents() {
    doc=$root/usr/share/doc/vodserve
    if [ -f "$top/LICENSE" ]; then
        sed '/^License:/,$d' "$tools/package/copyright" >"$doc/copyright"
        { echo "License: see-below" && sed -e 's/^$/./' -e 's/^/ /' "$top/LICENSE"; } \
            >>"$doc/copyright"
    else
        install -m 644 "$tools/package/copyright" "$doc/copyright"
    fi
    date=$(date -R -u -r "$program")
    gzip -9n >"$doc/changelog.Debian.gz" <<CHANGELOG
vodserve ($version-$revision) unstable; urgency=medium

  * Built from the sources of $version.

 -- $maintainer  $date
CHANGELOG
    find "$root/usr/share/man" -type f -exec gzip -9n {} +
    chmod 644 "$doc"/*.gz "$doc/copyright"
}

# write_overrides: explains to lintian why the program has its symbols.
write_overrides() {
    install -d -m 755 "$root/usr/share/lintian/overrides"
    cat >"$root/usr/share/lintian/overrides/vodserve" <<'OVERRIDES'
# the program is packaged byte for byte as it was proved, built and run
vodserve: unstripped-binary-or-object [usr/bin/vodserve]
OVERRIDES
}

wrong=$(DESTDIR=$root "$tools/install.sh" /usr --program "$program" 2>&1 >/dev/null) ||
    fail "${wrong#install.sh: }"
version=$("$root/usr/bin/vodserve" --version | cut -d ' ' -f 2)
# dpkg keeps a list of its own
rm "$root/usr/lib/vodserve/installed"
install -d -m 755 "$root/var/lib/vodserve"
write_documents
write_overrides
write_control
(cd "$root" && find . -path ./DEBIAN -prune -o -type f -printf '%P\n' | LC_ALL=C sort |
    tr '\n' '\0' | xargs -0 md5sum >DEBIAN/md5sums)
chmod -R u+rwX,go+rX,go-w "$root"
package=$(realpath "$folder")/vodserve_$version-${revision}_$(dpkg --print-architecture).deb
dpkg-deb --root-owner-group --build "$root" "$work/package.deb" >/dev/null
install -m 644 "$work/package.deb" "$package"
echo "$package"

# The Debian package: built, judged by lintian, and installed into a copy of this system, in which
# it serves a film, is upgraded, and is removed with nothing left.
# shellcheck shell=bash disable=SC2154

# in_copy SCRIPT: runs a script in a copy of this system. The copy is a layer over the root folder,
# which sees all of it and keeps every change in memory; the Rattle kit (/opt) is hidden.
in_copy() {
    # shellcheck disable=SC2016
    unshare --mount --propagation private bash -c '
        mkdir room && mount -t tmpfs none room && mkdir room/changes room/work room/root &&
        mount -t overlay overlay -o lowerdir=/,upperdir=room/changes,workdir=room/work room/root &&
        mount -t tmpfs none room/root/run && mount -t tmpfs none room/root/opt &&
        mount --rbind /proc room/root/proc && mount --rbind /dev room/root/dev &&
        mount --bind . room/root/mnt && chroot room/root /bin/bash -eu /mnt/"$1"' _ "$1"
}

cat >scene.sh <<'SCENE'
say() { echo "scene: $*"; }
. /mnt/scene.txt
export PATH=/usr/sbin:/usr/bin:/sbin:/bin DEBIAN_FRONTEND=noninteractive
dpkg -i "/mnt/$first" >/mnt/install.txt 2>&1
grep -q "not started: .* has no film" /mnt/install.txt && say "no film, so it isn't started"
id vodserve >/dev/null && say "the user is there"
cp /mnt/colours.mpg /var/lib/vodserve/
sed -i "s/^port = .*/port = $port/" /etc/vodserve.conf
unit=/lib/systemd/system/vodserve.service
[ -f $unit ] || unit=/usr/lib/systemd/system/vodserve.service
# starts what the unit file starts, as its user, in its folder and environment
start() {
    cd "$(sed -n 's/^WorkingDirectory=//p' $unit)"
    env $(sed -n 's/^Environment=//p' $unit) \
        setpriv --reuid vodserve --regid vodserve --clear-groups --inh-caps=-all \
        $(sed -n 's/^ExecStart=//p' $unit) >>/mnt/server.txt 2>&1 &
    server=$!
    cd /
    for _ in $(seq 100); do
        grep -q "$(printf ':%04X 00000000:0000 0A' "$port")" /proc/net/tcp && return
        sleep 0.1
    done
}
play() {
    (cd /tmp && vodserve watch film=colours.mpg port="$port" startup=0 2>/mnt/watch.txt) |
        cmp - /mnt/colours.mpg
}
start
play && say "the film is served"
[ "$(ps -o user= -p $server)" = vodserve ] && say "by the user vodserve"
[ "$(tr '\0' '\n' </proc/$server/environ | grep -c '^MALLOC_.*=[0-9]*$')" = 2 ] &&
    [ "$(readlink /proc/$server/exe)" = /usr/bin/vodserve ] && say "in the unit's environment"
dpkg -i "/mnt/$second" >/mnt/upgrade.txt 2>&1
[ "$(dpkg-query -W -f '${Version}' vodserve)" = "$version-2" ] && say "upgraded"
grep -q "^port = $port" /etc/vodserve.conf && say "the settings are kept"
kill $server && wait $server || true
start
play && say "served after the upgrade"
kill $server && wait $server || true
say stopped
dpkg --remove vodserve >/mnt/remove.txt 2>&1
[ -f /var/lib/vodserve/colours.mpg ] && say "removed, and the film is kept"
rm /var/lib/vodserve/colours.mpg
dpkg --purge vodserve >/mnt/purge.txt 2>&1
find /usr /etc /var /lib /run -xdev -name '*vodserve*' -not -path '/var/log/*' >/mnt/left.txt
! grep -q vodserve /etc/passwd /etc/group /etc/shadow && [ ! -s /mnt/left.txt ] &&
    say "nothing is left"
SCENE

if ! have dpkg-deb; then
    skip "package" "dpkg-deb isn't installed"
elif ! wrong=$("$tools/sources.sh" check "$program" 2>&1); then
    skip "package" "${wrong#sources.sh: }"
else
    cp "$top/examples/colours.mpg" .
    try "the package is built" "$tools/package.sh" --program "$program" .
    try "a second version is built" "$tools/package.sh" --program "$program" --revision 2 .
    first=$(echo ./*-1_*.deb) second=$(echo ./*-2_*.deb)
    if have lintian; then
        try "lintian has no error" lintian --fail-on error "$first"
    else
        skip "lintian has no error" "it isn't installed"
    fi
    version=$("$program" --version | cut -d ' ' -f 2)
    printf 'first=%s\nsecond=%s\nport=%s\nversion=%s\n' \
        "$first" "$second" "$(free_port)" "$version" >scene.txt
    echo true >nothing.sh
    if [ "$(id -u)" != 0 ]; then
        skip "the package is installed" "needs root"
    elif dpkg-query -W vodserve >/dev/null 2>&1; then
        skip "the package is installed" "this system has it already"
    elif ! wrong=$(in_copy nothing.sh 2>&1); then
        skip "the package is installed" "no copy of this system: $wrong"
    else
        rmdir room
        in_copy scene.sh >said.txt 2>scene_error.txt
        for line in "no film, so it isn't started" "the user is there" "the film is served" \
            "by the user vodserve" "in the unit's environment" "upgraded" "the settings are kept" \
            "served after the upgrade" "stopped" "removed, and the film is kept" \
            "nothing is left"; do
            if grep -qx "scene: $line" said.txt; then
                pass "package: $line"
            else
                miss "package: $line" "$(tail -n 5 scene_error.txt ./*.txt | tail -n 40)"
            fi
        done
    fi
fi
refuses "refused: a revision" 1 "a revision is a number" "$tools/package.sh" --revision b
refuses "refused: a folder" 1 "/nowhere isn't a folder that you may write to" \
    "$tools/package.sh" /nowhere
refuses "refused: no program" 1 "none isn't there" "$tools/package.sh" --program "$PWD/none" .

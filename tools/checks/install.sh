# Installing, installing again, and removing; what is refused; the service's file.
# shellcheck shell=bash disable=SC2154

# run_install ARGUMENT..: runs install.sh with the program under test.
run_install() { "$tools/install.sh" --program "$program" "$@"; }
prefix=$PWD/usr
if wrong=$("$tools/sources.sh" check "$program" 2>&1); then
    try "install" run_install "$prefix"
    same "the program is the one that was built" "$(sha256sum <"$prefix/bin/vodserve")" \
        "$(sha256sum <"$program")"
    cp "$top/examples/colours.mpg" "$top/examples/evening.txt" .
    try "the installed monitor and pictures run" "$prefix/bin/vodserve-monitor" --help
    try "the installed pictures use the installed program" \
        "$prefix/bin/vodserve-draw" capacity film=colours.mpg
    if have man; then
        try "man finds the page" man -M "$prefix/share/man" -w 1 vodserve
        try "man finds the page of the monitor" man -M "$prefix/share/man" -l \
            "$prefix/share/man/man1/vodserve-monitor.1"
    fi
    try "the settings start the installed server" "$prefix/lib/vodserve/start.py" --check \
        --folder . "$prefix/etc/vodserve.conf"
    same "no other file was written" "$(find "$prefix" -name __pycache__)" ""
    find "$prefix" -type f | sort >first.txt
    try "install again" run_install "$prefix"
    same "the same files" "$(find "$prefix" -type f | sort)" "$(cat first.txt)"
    echo "port = 1554" >>"$prefix/etc/vodserve.conf"
    try "install over changed settings" run_install "$prefix"
    try "changed settings are kept" grep -q '^port = 1554' "$prefix/etc/vodserve.conf"
    try "remove" "$tools/install.sh" --remove "$prefix"
    same "changed settings alone are left" "$(find "$prefix" -type f)" "$prefix/etc/vodserve.conf"
    rm -r "$prefix"
    run_install "$prefix" >/dev/null && "$tools/install.sh" --remove "$prefix" >/dev/null
    same "nothing is left" "$(ls -d "$prefix" 2>&1)" \
        "ls: cannot access '$prefix': No such file or directory"
    mkdir -p "$prefix/bin"
    echo mine >"$prefix/bin/vodserve"
    refuses "refused: another's file" 1 "bin/vodserve is there and wasn't put there by install.sh" \
        run_install "$prefix"
    same "nothing was changed" "$(find "$prefix" -type f -exec cat {} +)" mine
    if [ "$(id -u)" != 0 ]; then
        refuses "refused: no right to write" 1 "you may not write to /" run_install /nowhere
    fi
else
    skip "install" "${wrong#sources.sh: }"
fi
refuses "refused: a prefix without '/'" 1 "PREFIX must begin with '/', for example $PWD/usr" \
    run_install usr
refuses "refused: two prefixes" 1 "two prefixes, /a and /b; give one" run_install /a /b
refuses "refused: an unknown option" 1 "there is no option --purge" run_install --purge
refuses "refused: nothing to remove" 1 "nothing is installed in /nowhere" \
    "$tools/install.sh" --remove /nowhere

# which programs are of these sources: tried in a small checkout
mkdir -p small/tools small/crates/vodserve/out small/crates/vodserve/src
cp "$tools/sources.sh" small/tools/
echo 'vodserve:' | tee small/crates.txt small/HANDLES >small/crates/vodserve/src/main.rt
mkdir small/crates/vodserve/specs small/crates/vodserve/proofs
own=$PWD/small/crates/vodserve/out/vodserve
sources() { small/tools/sources.sh "$@"; }
refuses "sources.sh: no program" 1 "$own isn't there: './vodserve --version' proves" \
    sources check "$own"
cp /bin/true "$own"
touch -d 2001-01-01 "$own"
refuses "sources.sh: a source is newer" 1 "$own is older than HANDLES: './vodserve --version'" \
    sources check "$own"
touch "$own"
try "sources.sh: no source is newer, as after rt ci" sources check "$own"
touch -d 2001-01-01 "$own"
try "sources.sh: that was noted, and counts more than times" sources check "$own"
echo 'vodserve: vod_base' >small/crates.txt
touch -d 2001-01-01 small/crates.txt
touch "$own"
refuses "sources.sh: another source, though it is older" 1 "was built from other sources" \
    sources check "$own"
cp -r "$tools/draw.py" "$tools/vodtools" small/tools/
refuses "a tool builds nothing by itself" 1 "was built from other sources: './vodserve --version'" \
    small/tools/draw.py capacity trace=none
cp "$own" elsewhere
refuses "sources.sh: a program from elsewhere" 1 "elsewhere.sources doesn't say from which" \
    sources check elsewhere
sum=$(sources sum)
try "sources.sh: a build notes its sources" sources record elsewhere "$sum"
try "sources.sh: the noted program" sources check elsewhere
echo more >>elsewhere
refuses "sources.sh: not the noted program" 1 "elsewhere.sources doesn't say from which" \
    sources check elsewhere
refuses "refused: a program of other sources" 1 "elsewhere.sources doesn't say from which" \
    "$tools/install.sh" --program elsewhere "$prefix"
refuses "refused: no program" 1 "none isn't there: './vodserve --version' proves and builds it" \
    "$tools/install.sh" --program "$PWD/none" "$prefix"

sed -e "s|@PREFIX@|$prefix|g" -e "s|@SETTINGS@|/dev/null|" "$tools/vodserve.service" \
    >vodserve.service
if have systemd-analyze; then
    mkdir -p "$prefix/lib/vodserve"
    install -m 755 "$tools/start.py" "$prefix/lib/vodserve/start.py"
    same "vodserve.service: systemd-analyze verify says nothing" \
        "$(systemd-analyze verify --man=no "$PWD/vodserve.service" 2>&1)" ""
    exposure=$(systemd-analyze security --offline=true "$PWD/vodserve.service" |
        sed -n 's/.*exposure level for [^:]*: \([0-9.]*\).*/\1/p')
    try "vodserve.service: exposure ${exposure:-unknown} is under 2.0" \
        awk "BEGIN {exit !($exposure < 2)}"
else
    skip "vodserve.service" "systemd-analyze isn't installed"
fi
files=$(sed -n 's/^LimitNOFILE=//p' "$tools/vodserve.service")
try "vodserve.service: descriptors for 256 workers" [ "$files" -ge $((256 * 3 + 32)) ]
heaps=$(sed -n 's/^Environment=MALLOC_ARENA_MAX=//p' "$tools/vodserve.service")
try "vodserve.service: a heap for each of 256 workers" [ "$heaps" -gt 256 ]

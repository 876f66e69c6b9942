#!/usr/bin/env bash
# Tries the operator's tools with the built program: tools/check_tools.sh [PROGRAM [PART..]]
#
# PROGRAM is the built vodserve (default: crates/vodserve/out/vodserve). PART names files of
# tools/checks (default: all of them), which run side by side. Prints a line for each check, and at
# the end how many passed, failed, and were skipped because a program or a right is missing. The
# status is 0 if none failed. All files are in a temporary folder. Only the part `package` needs
# root: it installs the package into a copy of this system that is thrown away.
set -u
tools=$(dirname -- "$(readlink -f -- "$0")")
top=$(dirname -- "$tools")

# pass NAME, miss NAME WHY, skip NAME WHY: print the line of a check.
pass() { echo "passed   $1"; }
miss() { echo "FAILED   $1: ${2:-}"; }
skip() { echo "skipped  $1: $2"; }

# have TOOL: whether a program is there.
have() { command -v "$1" >/dev/null 2>&1; }

# try NAME COMMAND..: passes if the command ends with 0, and shows what it printed if it doesn't.
try() {
    local name=$1 output
    shift
    if output=$("$@" 2>&1); then pass "$name"; else miss "$name" "$(tail -n 5 <<<"$output")"; fi
}

# refuses NAME STATUS TEXT COMMAND..: passes if the command ends with this status, and one line on
# the error stream has the text.
refuses() {
    local name=$1 status=$2 text=$3 output found
    shift 3
    output=$("$@" 2>&1 >/dev/null)
    found=$?
    if [ "$found" -ne "$status" ]; then
        miss "$name" "status $found instead of $status: $output"
    elif [ "$(wc -l <<<"$output")" -ne 1 ] || [[ $output != *"$text"* ]]; then
        miss "$name" "'$output' isn't one line with '$text'"
    else
        pass "$name"
    fi
}

# same NAME FOUND WANTED: passes if both texts are equal.
same() {
    if [ "$2" = "$3" ]; then pass "$1"; else miss "$1" "$(diff <(echo "$3") <(echo "$2"))"; fi
}

# free_port: prints a port at which nothing listens.
free_port() {
    python3 -c '
import socket
with socket.socket() as asked:
    asked.bind(("127.0.0.1", 0))
    print(asked.getsockname()[1])'
}

# wait_for_port PORT: waits until something listens there, at most 10 seconds.
wait_for_port() {
    local place
    place=$(printf ':%04X 00000000:0000 0A' "$1")
    for _ in $(seq 200); do
        grep -q "$place" /proc/net/tcp && return 0
        sleep 0.05
    done
    return 1
}

case ${1-} in
    -h | --help) sed -n '2,/^set/{/^set/d;s/^# \{0,1\}//p}' "$0" && exit 0 ;;
esac
program=$(readlink -f -- "${1:-$top/crates/vodserve/out/vodserve}")
[ -x "$program" ] || { echo "check_tools.sh: there is no program $program" >&2 && exit 2; }
[ $# -eq 0 ] || shift
[ $# -gt 0 ] || set -- "$tools"/checks/*.sh
work=$(mktemp -d)
jobs=()
trap 'kill "${jobs[@]}" 2>/dev/null; rm -rf "$work"' EXIT
trap 'exit 130' INT TERM
begin=$SECONDS

# run_part PART: runs a part in its folder; a part that stops early has failed.
run_part() {
    mkdir "$work/$1" && cd "$work/$1" || exit 2
    # shellcheck disable=SC1090
    . "$tools/checks/$1.sh"
    echo "ended"
}

parts=()
for part; do
    part=$(basename "$part" .sh)
    [ -f "$tools/checks/$part.sh" ] ||
        { echo "check_tools.sh: there is no part $part" >&2 && exit 2; }
    parts+=("$part")
done
for part in "${parts[@]}"; do
    (run_part "$part") >"$work/$part.txt" 2>&1 &
    jobs+=($!)
done
wait "${jobs[@]}"
for part in "${parts[@]}"; do
    [ "$(tail -n 1 "$work/$part.txt")" = ended ] || miss "$part ran to its end" "see above"
    grep -v '^ended$' "$work/$part.txt"
done | tee "$work/all.txt"
count() { grep -c "^$1 " "$work/all.txt"; }
echo "$(count passed) passed, $(count FAILED) failed, $(count skipped) skipped," \
    "$((SECONDS - begin)) s"
[ "$(count FAILED)" -eq 0 ]

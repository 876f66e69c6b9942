#!/bin/sh
# Compares the numbers that draw.py draws with what `plan` and `day` print:
#
#   tools/draw_test.sh [PROGRAM]
#
# PROGRAM is the built vodserve (default: ../crates/vodserve/out/vodserve).
# All files are in a temporary folder.
# shellcheck disable=SC2086
set -eu
case ${1-} in
    -h | --help) sed -n '2,/^# shellcheck/{/^# shellcheck/d;s/^# \{0,1\}//p}' "$0" && exit 0 ;;
esac
here=$(cd "$(dirname "$0")" && pwd)
program=$(realpath "${1:-$here/../crates/vodserve/out/vodserve}")
folder=$(mktemp -d)
trap 'rm -rf "$folder"' EXIT
cd "$folder"
"$program" make kind=trace seed=3 pictures=400 >trace.txt
for args in "buffer=1048576 startup=25" "buffer=20000 startup=3" "buffer=9000 startup=0"; do
    "$program" plan trace=trace.txt $args >plan.txt
    "$here/draw.py" plan trace=trace.txt $args program="$program" >plan.svg
    python3 - $args <<'PYTHON'
import re, sys
from xml.dom import minidom
args = dict(word.split("=") for word in sys.argv[1:])
buffer, startup = int(args["buffer"]), int(args["startup"])
drawn = {}
for kind in ("polyline", "path"):
    for element in minidom.parse("plan.svg").getElementsByTagName(kind):
        if element.hasAttribute("data-values"):
            numbers = element.getAttribute("data-values").split()
            drawn[element.getAttribute("id")] = list(map(int, numbers))
lines = [line.split() for line in open("plan.txt")]
slots, total = int(lines[1][1]), int(lines[2][1])
sizes = [int(n) for n in open("trace.txt").read().split()]
assert len(drawn["sent"]) == slots and sum(drawn["sent"]) == total == sum(sizes)
assert drawn["plan"] == [sum(drawn["sent"][:k + 1]) for k in range(slots)]
place = 0
for _, count, size in (line for line in lines if line[0] == "segment"):
    assert sum(drawn["sent"][place:place + int(count)]) == int(size)
    place += int(count)
for t in range(slots):
    used = sum(sizes[:max(0, t - startup + 1)])
    before = sum(sizes[:max(0, t - startup)])
    assert drawn["must"][t] == used and drawn["may"][t] == min(total, before + buffer)
    assert drawn["must"][t] <= drawn["plan"][t] <= drawn["may"][t]
PYTHON
    echo "plan $args: the numbers drawn are those of the plan"
done

printf '1 1 5\n' >small.txt
cat >script.txt <<'SCRIPT'
play 0 trace small.txt 7 0
play 1 trace small.txt 7 0
slot 1
offer 1 trace small.txt 7 0 4
slot 2
play 1 trace small.txt 7 0
play 2 trace trace.txt 20000 3
slot 4
pause 2
slot 5
look 9
resume 2
slot 60
play 3 trace trace.txt 20000 3
slot 90
pause 2
slot 95
resume 2
slot 200
pause 2
slot 230
resume 2
slot 700
SCRIPT
for args in "capacity=5" "capacity=20000" "capacity=0:9000,4:7000"; do
    "$program" day script=script.txt $args >day.txt
    "$here/draw.py" day script=script.txt $args program="$program" >day.svg
    python3 - <<'PYTHON'
from xml.dom import minidom
drawn = {}
for element in minidom.parse("day.svg").getElementsByTagName("path"):
    if element.hasAttribute("data-values"):
        numbers = element.getAttribute("data-values").split()
        drawn[element.getAttribute("id")] = list(map(int, numbers))
plays = [values for name, values in drawn.items() if name.startswith("play")]
booked = [sum(values) for values in zip(*plays)]
lines = [line.split() for line in open("day.txt")]
assert len(plays) == sum("admitted" in line for line in lines)
last = 0
for line in lines:
    if line[0] == "slot":
        slot = int(line[1])
        assert sum(booked[last + 1:slot + 1]) == int(line[3].split("=")[1]), line
        last = slot
    if line[0] == "at":
        slot = int(line[1])
        assert booked[slot] == int(line[2].split("=")[1]), line
assert all(b <= c for b, c in zip(booked, drawn["capacity"]))
PYTHON
    echo "day $args: the numbers drawn are those of the day"
done

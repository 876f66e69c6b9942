# What draw.py draws: the numbers are those of plan, day and serve; what is refused.
# shellcheck shell=bash disable=SC2154

cp "$top/examples/colours.mpg" .
draw() { "$tools/draw.py" "$@" program="$program"; }

try "plans and days" "$tools/draw_test.sh" "$program"

"$program" make kind=trace seed=1 pictures=1000 >trace.txt
draw capacity trace=trace.txt capacity=50000 buffers=16384,65536 >capacity.svg
# the largest picture by the trace, and the steepest segments by the plans
try "capacity: the numbers of the trace and the plans" python3 - "$program" <<'PYTHON'
import re, subprocess, sys
drawn = [tuple(map(int, it.split())) for it in
         re.findall(r'data-values="(\d+ \d+)"', open("capacity.svg").read())]
wanted = [max(map(int, open("trace.txt").read().split()))]
for buffer in (16384, 65536):
    plan = subprocess.run([sys.argv[1], "plan", "trace=trace.txt", f"buffer={buffer}"],
                          capture_output=True, text=True, check=True).stdout
    wanted.append(max(-(-int(b) // int(n)) for n, b in re.findall(r"segment (\d+) (\d+)", plan)))
assert drawn == [(peak, 50000 // peak) for peak in wanted], (drawn, wanted)
PYTHON
draw capacity film=colours.mpg >film.svg
try "capacity: a film, in three buffers" test "$(grep -c '<rect id="bar' film.svg)" = 4
draw capacity film=colours.mpg buffers=100,65536 >small.svg
try "capacity: a buffer that is too small" \
    grep -q 'id="bar1" data-values="0 0".*' small.svg
try "capacity: it is named" grep -q "too small for this film" small.svg

# two plays, of which one has no room, and a look; then the server ends
port=$(free_port)
capacity=2000
"$program" serve film=colours.mpg port="$port" workers=3 connections=1 capacity=$capacity \
    >served.txt &
server=$!
wait_for_port "$port"
watch() { "$program" watch film=colours.mpg port="$port"; }
watch >copy.mpg 2>/dev/null &
first=$!
sleep 1
watch >/dev/null 2>refused.txt
(echo "OPTIONS * RTSP/1.0"; echo "CSeq: 1"; echo; echo "GET_PARAMETER rtsp://a/colours.mpg RTSP/1.0"
    echo "CSeq: 2"; echo "Content-Length: 8"; echo; printf x-Booked; sleep 1) |
    timeout 5 python3 -c '
import socket, sys
with socket.create_connection(("127.0.0.1", int(sys.argv[1]))) as server:
    server.sendall(sys.stdin.buffer.read())
    server.recv(65536)' "$port"
wait $first $server
same "serve ended by itself" $? 0
draw served file=served.txt capacity=$capacity films=colours.mpg >served.svg
draw served file=served.txt capacity=$capacity films=colours.mpg form=table >table.txt
try "served: the table" python3 - <<'PYTHON'
rows = {line[:28].strip(): line[28:].strip() for line in open("table.txt")}
assert rows["connections"] == "3" and rows["plays"] == "2: 1 admitted, 1 refused", rows
assert rows["halts"] == "1: 0 before the film's end" and rows["looks"] == "1", rows
assert rows["bytes in the slots"] == "those of the films", rows
assert any(name.startswith("no room in slot ") for name in rows), rows
PYTHON
try "served: the bookings drawn are the journal's" python3 - <<'PYTHON'
import re
text = open("served.txt").read()
size = int(re.search(r"bytes=(\d+) admitted", text)[1])
booked = re.search(r'id="booked" data-values="([\d ]*)"', open("served.svg").read())[1]
booked = list(map(int, booked.split()))
assert sum(booked) == size and max(booked) <= 2000, (sum(booked), size)
# a refusal and a look name what was booked in a slot
first = int(re.search(r"admitted start=(\d+)", text)[1])
asked = min(first, *(int(it) for it in re.findall(r"play slot=(\d+) .*overflow", text)))
named = re.findall(r"(?:overflow slot|at)=(\d+) booked=(\d+)", text)
assert len(named) == 2, named
for slot, value in named:
    assert booked[int(slot) - asked] == int(value), (slot, value)
PYTHON
draw served file=served.txt capacity=$capacity form=table >even.txt
try "served: without films the bytes are spread evenly" grep -q "evenly spread" even.txt
sed '2s/play/paly/' served.txt >bad.txt
refuses "refused: not a line of serve" 1 "bad.txt:2: '1 seat=" draw served file=bad.txt
head -n 2 served.txt >short.txt
refuses "refused: no end" 1 "short.txt: has no line 'served connections=C entries=E'" \
    draw served file=short.txt
refuses "refused: no file" 1 "none.txt: can't be read" draw served file=none.txt
refuses "refused: an unknown picture" 2 "draw.py draws plan, day, capacity, served" draw map
refuses "refused: an unknown argument" 2 "plan takes no 'film'; it takes trace, buffer, startup" \
    draw plan film=colours.mpg
refuses "refused: no input" 2 "capacity needs film=NAME or trace=NAME" draw capacity capacity=9
refuses "refused: no number" 2 "'slot=x': slot is a number" draw capacity film=colours.mpg slot=x
refuses "refused: a film as a trace" 1 "vodserve: colours.mpg: BadTrace 0" \
    draw plan trace=colours.mpg
refuses "refused: what the program refuses" 1 "vodserve: none.mpg: NotFound" \
    draw capacity film=none.mpg

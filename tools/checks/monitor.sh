# The monitor beside a real server: up, bookings, a full journal, down; its page and its picture.
# shellcheck shell=bash disable=SC2154

mkdir films
cp "$top/examples/colours.mpg" films/
"$program" make kind=film seed=1 pictures=3000 >films/long.mpg
port=$(free_port)
page=$(free_port)
printf 'port = %s\nworkers = 4\njournal = 200\ncapacity = 2 Mbit/s\n' "$port" >vodserve.conf
# the monitor, asking once
monitor=("$tools/monitor.py" vodserve.conf --folder films --program "$program")

refuses "refused: no settings" 2 "none.conf: can't be read" "$tools/monitor.py" none.conf --once
refuses "refused: asking all the time" 2 "--every is at least 1 second" "${monitor[@]}" --every 0
"${monitor[@]}" --once >down.txt
same "a server that is down: the status" $? 1
try "a server that is down: the reason" \
    grep -q "down: 127.0.0.1:$port: Connection refused" down.txt

(cd films && exec "$tools/start.py" --program "$program" ../vodserve.conf >/dev/null) &
server=$!
wait_for_port "$port"
"${monitor[@]}" --once >up.txt
same "a server that is up: the status" $? 0
try "a server that is up: nothing is booked" \
    grep -q "up, answer after .* booked 0.00 of 2.00" up.txt
# the length is the server's, the rates are the plan's
peak=$(cd films && "$program" plan film=colours.mpg |
    awk '/^segment/ {p = ($3 + $2 - 1 - ($3 + $2 - 1) % $2) / $2; if (p > m) m = p} END {print m}')
rate=$(awk "BEGIN {printf \"%.2f\", $peak * 200 / 1e6}")
try "the film: length, peak and room" \
    grep -Eq "^colours.mpg +0:10 .* $rate +$((10000 / peak))$" up.txt

"${monitor[@]}" --every 1 --hours 0.01 --page "$page" >lines.txt 2>&1 &
watcher=$!
"$program" watch film=long.mpg port="$port" >/dev/null 2>&1 &
viewer=$!
wait_for_port "$page"
sleep 3.5
# fetch PATH [HOST]: prints what the page's server answers.
fetch() {
    python3 - "$page" "$1" "${2:-127.0.0.1:$page}" <<'PYTHON'
import http.client, sys
server = http.client.HTTPConnection("127.0.0.1", int(sys.argv[1]), timeout=5)
server.request("GET", sys.argv[2], headers={"Host": sys.argv[3]})
reply = server.getresponse()
print(reply.status, reply.getheader("Content-Security-Policy"))
print(reply.read().decode())
PYTHON
}
fetch / >page.html
fetch /state.json >state.json
try "the page: the film, its bookings, and that a look costs an entry" grep -q \
    "Each look at the bookings takes one of the journal's 200 entries" page.html
try "the page loads nothing" bash -c "! grep -Eo '(src=|href=|@import|url\()[^ ]*' page.html"
try "the page forbids loading" \
    grep -q "^200 default-src 'none'; style-src 'unsafe-inline'" page.html
same "the page for another host's name" "$(fetch / evil.example | sed -n '1s/ .*//p')" 403
same "another path" "$(fetch /etc/passwd | sed -n '1s/ .*//p')" 404
try "what is booked is the plan's" python3 <<'PYTHON'
import json
state = json.loads(open("state.json").read().split("\n", 1)[1])
assert state["capacity"] == 10000, state
booked = state["last"]["booked"]
assert 0 < booked <= state["films"][1]["peak"], state
for film in state["films"]:
    assert film["more_viewers"] == (10000 - booked) // film["peak"], state
PYTHON
if have chromium; then
    timeout 60 chromium --headless --no-sandbox --disable-gpu --window-size=960,780 \
        --screenshot="$PWD/page.png" "http://127.0.0.1:$page/" >/dev/null 2>&1
    try "the page in Chromium" python3 - <<'PYTHON'
import struct
data = open("page.png", "rb").read()
assert data[:8] == b"\x89PNG\r\n\x1a\n" and struct.unpack(">II", data[16:24]) == (960, 780)
assert len(data) > 20000, len(data)
PYTHON
    [ -z "${SCREENSHOT:-}" ] || cp page.png "$SCREENSHOT"
else
    skip "the page in Chromium" "it isn't installed"
fi
# looks fill the journal; an open play keeps an entry for its halt
python3 - "$port" "$tools" <<'PYTHON'
import sys
sys.path.insert(0, sys.argv[2])
sys.dont_write_bytecode = True
from vodtools.rtsp import Client
with Client("127.0.0.1", int(sys.argv[1])) as client:
    for _ in range(200):
        client.ask("GET_PARAMETER", client.url_of("colours.mpg"), body=b"x-Booked")
PYTHON
"${monitor[@]}" --once >full.txt
try "a full journal" grep -Eq "journal full \((199|200) entries\): restart the server" full.txt
kill $server
wait $server 2>/dev/null
sleep 1.5
fetch / >page.html
try "the page: the server is down" grep -q '<b class="bad">down</b>' page.html
try "the lines: up, then down" \
    awk '/ up, /{up = 1} up && / down: /{down = 1} END {exit !down}' lines.txt
refuses "refused: the page's port is in use" 2 "port $page for the page: Address already in use" \
    "${monitor[@]}" --page "$page"
kill $watcher $viewer 2>/dev/null
wait $watcher $viewer 2>/dev/null

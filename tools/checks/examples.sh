# The examples do what their README.md shows.
# shellcheck shell=bash disable=SC2154

cp -r "$top"/examples/. .
chmod -R u+w .

# shown NAME: prints the block of README.md that follows the line `<!-- NAME -->`.
shown() {
    awk -v mark="<!-- $1 -->" '
        $0 == mark {found = 1}
        found && /^```/ {if (open) exit; open = 1; next}
        open {print}' README.md
}
# mask: hides what differs from one run to another: session, source, first numbers, counts.
mask() {
    sed -E 's/(Session: )[0-9a-f]{16}/\1ID/; s/ssrc=[0-9a-f]{8}/ssrc=ID/; s/seq=[0-9]+/seq=N/
        s/rtptime=[0-9]+/rtptime=N/; s/127.0.0.1:[0-9]+/127.0.0.1:PORT/
        s/[0-9]+ bytes in a/N bytes in a/; s/ *$//'
}
same "offers.txt" "$("$program" day script=offers.txt capacity=2500 | sed '/^calendar/,$d')" \
    "$(shown offers)"

port=$(free_port)
"$program" serve film=colours.mpg port="$port" &
server=$!
wait_for_port "$port"
if have nc; then
    same "ask.sh" "$(./ask.sh "$port" | mask)" "$(shown ask | mask)"
else
    skip "ask.sh" "nc isn't installed"
fi
if have ffmpeg; then
    ffmpeg -nostdin -loglevel error -rtsp_transport tcp -timeout 3000000 \
        -i "rtsp://127.0.0.1:$port/colours.mpg" -c copy -f mpeg1video copy.mpg >/dev/null 2>&1
    try "ffmpeg writes the film byte for byte" cmp copy.mpg colours.mpg
else
    skip "ffmpeg writes the film byte for byte" "ffmpeg isn't installed"
fi
kill $server
wait $server 2>/dev/null
try "ask.sh: no server" grep -q "no answer from port $port" <(./ask.sh "$port" 2>&1)

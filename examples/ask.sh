#!/bin/sh
# Plays the first second of a film by hand, with nc: examples/ask.sh [PORT [FILM]]
#
# Prints each request after '>', and what the server answers. The film's bytes, which follow the
# reply to PLAY, are counted and not shown. README.md of this folder has the output.
set -eu
port=${1:-8554} film=${2:-colours.mpg}
case $port in
    -h | --help) sed -n '2,/^set/s/^# \{0,1\}//p' "$0" && exit 0 ;;
    *[!0-9]*) echo "ask.sh: '$port' isn't a port, for example 8554" >&2 && exit 2 ;;
esac
url=rtsp://127.0.0.1:$port/$film
folder=$(mktemp -d)
trap 'rm -rf "$folder"' EXIT
mkfifo "$folder/requests"
: >"$folder/replies"
nc 127.0.0.1 "$port" <"$folder/requests" >"$folder/replies" 2>"$folder/error" &
exec 3>"$folder/requests"
shown=0

# ask LINE..: sends a request of these lines and an empty one, and shows it and the reply.
ask() {
    for line in "$@" ''; do
        printf '%s\r\n' "$line"
    done | tee "$folder/request" >&3 || true
    tr -d '\r' <"$folder/request" | sed 's/^/> /'
    for _ in 1 2 3 4 5 6 7 8 9 10 11 12 13 14 15 16 17 18 19 20; do
        sleep 0.2
        ! tail -c +$((shown + 1)) "$folder/replies" | tr -d '\r' | grep -aq '^$' || break
    done
    # up to the empty line, or to the film's bytes, which begin with '$'
    tail -c +$((shown + 1)) "$folder/replies" | LC_ALL=C sed '/^\$/,$d' | tr -d '\r'
    [ "$(wc -c <"$folder/replies")" -gt "$shown" ] ||
        { echo "ask.sh: no answer from port $port" >&2 && exit 1; }
    shown=$(wc -c <"$folder/replies")
}

ask "OPTIONS * RTSP/1.0" "CSeq: 1"
ask "DESCRIBE $url RTSP/1.0" "CSeq: 2"
ask "SETUP $url/video RTSP/1.0" "CSeq: 3" "Transport: RTP/AVP/TCP;interleaved=0-1"
session=$(tr -d '\r' <"$folder/replies" | LC_ALL=C sed -n 's/^Session: //p')
ask "PLAY $url RTSP/1.0" "CSeq: 4" "Session: $session"
sleep 1
echo "(then media: $(($(wc -c <"$folder/replies") - shown)) bytes in a second)"
(printf 'TEARDOWN %s RTSP/1.0\r\nCSeq: 5\r\nSession: %s\r\n\r\n' "$url" "$session") >&3 || true
exec 3>&-
wait

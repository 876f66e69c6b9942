#!/bin/sh
# `watch` against another RTSP server: bench/watch_gst.sh [PROGRAM]
#
# PROGRAM is the built vodserve (default: ../crates/vodserve/out/vodserve). Needs python3 with gst-rtsp-server (Debian
# packages python3-gi and gir1.2-gst-rtsp-server-1.0, GStreamer's plugins base, good and bad) and ffmpeg. A film of six
# seconds is served by gst-rtsp-server as MPEG-1 video over RTP, and asked for by `watch`: its stream under the name that
# this server gives it, and under the one that `watch` asks for (load/gst_server.py); so are a film
# that it hasn't, and a port at which nothing listens. Prints the status and the line of each, and how long it took;
# ends with status 1 where one took longer than 30 seconds, and 2 where nothing could be tried.
set -u
here=$(cd "$(dirname "$0")" && pwd)
. "$here/setup.sh"
find_program "${1:-}"
need ffmpeg
python=/usr/bin/python3
"$python" -c 'import gi; gi.require_version("GstRtspServer", "1.0")' 2>/dev/null ||
    { echo "watch_gst.sh: gst-rtsp-server is missing; nothing is tried"; exit 2; }
enter_folder
server=
trap 'kill $server 2>/dev/null; rm -rf "$folder"' EXIT
ffmpeg -v error -f lavfi -i testsrc=size=352x288:rate=25 -t 6 -c:v mpeg1video -f matroska film.mkv ||
    { echo "watch_gst.sh: no film was encoded"; exit 2; }
bad=0

serve() { # [STREAM]
    [ -z "$server" ] || kill "$server" 2>/dev/null
    port=$("$python" -c 'import socket; s = socket.socket(); s.bind(("127.0.0.1", 0)); print(s.getsockname()[1])')
    "$python" "$here/load/gst_server.py" "$port" film.mpg film.mkv "$@" &
    server=$!
    sleep 2
}

watched() { # WHAT PORT FILM
    begin=$(date +%s)
    timeout 30 "$program" watch "film=$3" "port=$2" >copy 2>said
    status=$?
    echo "$1: status $status after $(($(date +%s) - begin)) s, $(wc -c <copy) bytes: $(cat said)"
    [ "$status" -ne 124 ] || bad=1
}

serve
watched "gst-rtsp-server, the film" "$port" film.mpg
watched "gst-rtsp-server, a film that it hasn't" "$port" other.mpg
serve video
watched "gst-rtsp-server, its stream named video" "$port" film.mpg
watched "a port at which nothing listens" 1 film.mpg
exit "$bad"

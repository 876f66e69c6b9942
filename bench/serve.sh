#!/bin/sh
# `serve` beside other servers: bench/serve.sh [PROGRAM [SESSIONS [ROUNDS [OTHER]]]]
#
# PROGRAM is the built vodserve (default: ../crates/vodserve/out/vodserve), OTHER another one.
# SESSIONS play a film of 25 s and 1.5 Mbit/s at once (default: 100, at most 256), in each of ROUNDS
# (default: 3) from each server in turn. The bare C server (serve/bare.c) has a thread for each
# connection too, checks nothing, and sends bytes that were put together before. Needs python3,
# ffmpeg and cc; leaves gst-rtsp-server out where it is missing (Debian packages python3-gi,
# gir1.2-gst-rtsp-server-1.0 and gstreamer1.0-plugins-bad). Prints the processor time of each, and
# its ratio to the bare server; and where valgrind is there, how many instructions of its own `serve`
# takes for a wake. Ends with status 1 if a session didn't get the film, and 2 if nothing could be
# tried. All files are made in a folder that is removed again, and the servers are stopped in any
# case.
set -u
here=$(cd "$(dirname "$0")" && pwd)
. "$here/setup.sh"
find_program "${1:-}"
other=${4:+$(realpath "$4")}
need python3 ffmpeg cc
enter_folder
cc -O2 -D_GNU_SOURCE -pthread -o bare "$here/serve/bare.c" || exit 2
"$here/load/make_film.sh" 25 || exit 2
GST_PYTHON=
for python in python3 /usr/bin/python3; do
    "$python" -c 'import gi; gi.require_version("GstRtspServer", "1.0")' 2>/dev/null &&
        GST_PYTHON=$python && break
done
[ -n "$GST_PYTHON" ] || echo "serve.sh: gst-rtsp-server is missing; it is left out"
export GST_PYTHON
if command -v valgrind >/dev/null; then
    python3 "$here/serve/count.py" "$program" "$folder" || exit 1
fi
python3 "$here/serve/turns.py" \
    "$program" "$folder/bare" "$folder" "${2:-100}" "${3:-3}" ${other:+"$other"}

#!/bin/sh
# Many sessions at once: bench/load.sh [PROGRAM] [COUNT...]
#
# PROGRAM is the built vodserve (default: ../crates/vodserve/out/vodserve), COUNT how many sessions play at once (default:
# 1 25 100 250; at most 256). Needs python3 and ffmpeg. The film has 25 pictures and about 1.5 Mbit a second, for 25
# seconds. Each byte is checked. Beside it, on the same film and with the same clients, runs a server of gst-rtsp-server
# where that is there (Debian packages python3-gi and gir1.2-gst-rtsp-server-1.0, and gstreamer1.0-plugins-bad for the
# parser). Ends with status 1 where a session didn't get the film, and 2 where nothing could be tried. All files are made
# in a folder that is removed again, and the servers are stopped in any case.
set -u
here=$(cd "$(dirname "$0")" && pwd)
. "$here/setup.sh"
find_program "${1:-}"
[ $# -gt 0 ] && shift
[ $# -gt 0 ] || set -- 1 25 100 250
need python3 ffmpeg
enter_folder
"$here/load/make_film.sh" 25 || exit 2

bad=0
python3 "$here/load/play.py" "$program" "$folder" film.mpg "$@" || bad=1

# The bindings belong to the system's python3, which may be another than the one of the path.
for GST_PYTHON in python3 /usr/bin/python3 none; do
    "$GST_PYTHON" -c 'import gi; gi.require_version("GstRtspServer", "1.0")' 2>/dev/null && break
done
if [ "$GST_PYTHON" = none ]; then
    echo "load.sh: gst-rtsp-server is missing; nothing is compared"
    exit "$bad"
fi
export GST_PYTHON
python3 "$here/load/play.py" gst "$folder" film.mpg "$@" || bad=1
exit "$bad"

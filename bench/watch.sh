#!/bin/sh
# Films watched over loopback, and the meter beside the plan: bench/watch.sh [PROGRAM] [PICTURES]
#
# PROGRAM is the built vodserve (default: ../crates/vodserve/out/vodserve); PICTURES the film's length at 25 pictures a
# second (default 15000, ten minutes). Needs python3 and ffmpeg (Debian package ffmpeg). A server for each of two lengths of
# slot serves the film, and `watch` plays it at several buffers and start delays, all at once. Each copy is compared with the
# film; the meter's greatest level stands beside the one that the plan has. Prints one line for each; ends with status 1
# where a copy differs, and 2 where nothing could be tried. It takes the film's time. All files are made in a folder that is
# removed again, and the servers are stopped in any case.
set -u
here=$(cd "$(dirname "$0")" && pwd)
. "$here/setup.sh"
find_program "${1:-}"
pictures=${2:-15000}
need python3 ffmpeg
enter_folder
ffmpeg -v error -f lavfi -i testsrc2=size=352x288:rate=25 -frames:v "$pictures" -c:v mpeg1video -bf 2 -b:v 800k \
    -f mpeg1video film.mpg || { echo "watch.sh: no film was encoded"; exit 2; }
python3 "$here/watch/play.py" "$program" "$folder" film.mpg

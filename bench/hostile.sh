#!/bin/sh
# A reader that leaves, and bad input over the socket while a good client plays: bench/hostile.sh [PROGRAM]
#
# PROGRAM is the built vodserve (default: ../crates/vodserve/out/vodserve). Needs python3 and ffmpeg, and up to three
# minutes, since the server waits for a client that stops reading. One line an attack; ends with status 1 where
# something isn't as it should be, and 2 where nothing could be tried. All files are made in a folder that is removed
# again, and the server is stopped in any case.
set -u
here=$(cd "$(dirname "$0")" && pwd)
. "$here/setup.sh"
find_program "${1:-}"
need python3 ffmpeg
enter_folder
# Where the reader of its pipe leaves, the program ends with the status and the line of its output's fault.
{ "$program" make kind=trace seed=1 pictures=100000 2>pipe.err; echo $? >pipe.status; } | head -n 1 >/dev/null
pipe="status $(cat pipe.status), $(cat pipe.err)"
[ "$pipe" = "status 5, vodserve: SinkFault" ] || { echo "closed pipe: $pipe"; exit 1; }
echo "closed pipe: $pipe"
ffmpeg -v error -f lavfi -i testsrc2=size=352x288:rate=25 -t 8 -c:v mpeg1video -bf 2 -b:v 1150k -f mpeg1video film.mpg || exit 2
# About 3 MB a second: the buffers of the connection are full after a few seconds.
ffmpeg -v error -f lavfi -i nullsrc=size=352x288:rate=25,geq=random\(1\)*255:128:128 -t 2 -c:v mpeg1video -qscale:v 2 \
    -f mpeg1video part.mpg || exit 2
cat part.mpg part.mpg part.mpg part.mpg part.mpg part.mpg part.mpg part.mpg >large.mpg
python3 "$here/hostile/attack.py" "$program" "$folder" film.mpg large.mpg

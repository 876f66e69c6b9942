#!/bin/sh
# The film of `load.sh` and `serve.sh`: make_film.sh SECONDS
#
# Makes film.mkv in the current folder, with 25 pictures and about 1.5 Mbit a second, and film.mpg,
# its video alone. Needs ffmpeg.
set -eu
ffmpeg -v error -f lavfi -i testsrc2=size=352x288:rate=25 -t "$1" -c:v mpeg1video -bf 2 -b:v 1500k \
    -maxrate 1800k -bufsize 1000k film.mkv
ffmpeg -v error -i film.mkv -c copy -f mpeg1video film.mpg 2>/dev/null
echo "film: $(wc -c <film.mpg) bytes in $1 seconds, $(nproc) processors"

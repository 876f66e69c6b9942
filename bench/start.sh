#!/bin/sh
# From the start to the first answer with a film of 1 GiB: bench/start.sh [PROGRAM] [ROUNDS]
#
# PROGRAM is the built vodserve (default: ../crates/vodserve/out/vodserve). Needs python3 and ffmpeg, and about 1.1 GB in
# the folder for temporary files, which is given back, and as much memory. The film is a short one of about 1.5 Mbit a
# second many times over, filled up to 1 GiB with zero bytes, which are bytes of the last slice. One byte more
# has to be refused. Ends with status 2 where nothing could be tried. The server is stopped in any case.
set -u
here=$(cd "$(dirname "$0")" && pwd)
. "$here/setup.sh"
find_program "${1:-}"
rounds=${2:-3}
need python3 ffmpeg
enter_folder
ffmpeg -v error -f lavfi -i testsrc2=size=352x288:rate=25 -t 6 -c:v mpeg1video -bf 2 -b:v 1500k -f mpeg1video part.mpg || exit 2
limit=1073741824
copies=$((limit / $(wc -c <part.mpg)))
yes part.mpg | head -n "$copies" | xargs cat >film.mpg
truncate -s "$limit" film.mpg
python3 "$here/start/start.py" "$program" "$folder" film.mpg part.mpg "$copies" "$rounds" || exit 1

truncate -s $((limit + 1)) film.mpg
said=$(timeout 60 "$program" serve film=film.mpg workers=1 connections=1 2>&1)
echo "  one byte more: status $?, $said"

#!/bin/sh
# What the memory of a session is: bench/memory.sh [PROGRAM] [COUNT...]
#
# COUNT sessions (0, 1, 50, 100 and 200 unless told otherwise, at most 256) of the film of load.sh play at once, each with a
# worker of its own. After four seconds the server's resident memory is read from /proc/PID/smaps, and told by what holds it:
# the stacks of the threads, the heaps of the threads, and mappings of their own (the calendar).
#
# Needs python3 and ffmpeg. All files are made in a folder that is removed again.
set -eu
here=$(cd "$(dirname "$0")" && pwd)
. "$here/setup.sh"
find_program "${1:-}"
need python3 ffmpeg
[ $# -gt 0 ] && shift
[ $# -gt 0 ] || set -- 0 1 50 100 200
enter_folder
ffmpeg -v error -f lavfi -i testsrc2=size=352x288:rate=25 -t 25 -c:v mpeg1video -bf 2 -b:v 1500k -maxrate 1800k \
    -bufsize 1000k -f mpeg1video film.mpg
python3 "$here/memory/resident.py" "$program" "$folder" "$@"

#!/bin/sh
# Scripts of a day in which each line names another trace: bench/scripts.sh [PROGRAM]
#
# PROGRAM is the built vodserve (default: ../crates/vodserve/out/vodserve). No such trace is there, so `day` ends with status 3 once it
# has read the script. Prints for each number of lines its times and its peak memory (where GNU time is installed).
set -eu
here=$(cd "$(dirname "$0")" && pwd)
. "$here/setup.sh"
need python3
find_program "${1:-}"
enter_folder

for lines in 25000 50000 100000 200000 400000; do
    seq "$lines" | sed 's/.*/play 0 trace t& 1 0/' >"$lines.txt"
    python3 "$here/measure.py" 3 "$lines-refused" "$program day script=$lines.txt"
done

#!/bin/sh
# A film of 500 MB, as video and as a system stream, read by scan, plan and check: bench/large.sh [PROGRAM [PICTURES [TIMES]]]
#
# PROGRAM is the built vodserve (default: ../crates/vodserve/out/vodserve). Makes a film of PICTURES pictures (default
# 100,000), puts it TIMES times (default 5) one after another, and the same as a system stream. Prints for each command its
# times and its peak memory (where GNU time is installed) beside those of `cat film | wc -c`. Needs python3 and 2 GB of disk.
# All files are made in a folder that is removed again.
set -eu
here=$(cd "$(dirname "$0")" && pwd)
. "$here/setup.sh"
find_program "${1:-}"
pictures=${2:-100000}
times=${3:-5}
enter_folder

# joined KIND CUT: a made film so many times, each without its last CUT bytes
joined() {
    "$program" make kind="$1" seed=5 pictures="$pictures" >one
    for _ in $(seq "$times"); do
        head -c $(($(stat -c %s one) - $2)) one
    done >"$1"
    rm one
}

joined film 0
joined system 4 # the code of the stream's end
for kind in film system; do
    echo "$kind of $(stat -c %s $kind) bytes: seconds by the clock, of the processor, and peak KiB"
    python3 "$here/measure.py" 1 "cat-$kind" "sh -c 'cat $kind | wc -c'" "scan-$kind" "$program scan film=$kind" \
        "plan-$kind" "$program plan film=$kind"
    cp "plan-$kind.out" "$kind.cert"
    python3 "$here/measure.py" 1 "check-$kind" "$program check film=$kind cert=$kind.cert"
done
cmp plan-film.out plan-system.out
tail -n +2 scan-film.out >film.units
tail -n +2 scan-system.out | cmp - film.units
echo "both kinds give the same units and the same plan"

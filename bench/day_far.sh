#!/bin/sh
# Days whose slots lie far apart: bench/day_far.sh [PROGRAM [ROUNDS [OTHER]]]
#
# PROGRAM is the built vodserve (default: ../crates/vodserve/out/vodserve). Runs scripts of `slot` and `play` lines in turn, the slots 1,
# 2^10, 2^19, 2^20 - 1 and 2^20 apart, and prints the best times of ROUNDS (default 5), a line each, and then each time as a ratio to the
# one of slots one apart. With OTHER, another vodserve, it compares what both print. Needs python3. All files are made in a folder that is
# removed again.
set -eu
here=$(cd "$(dirname "$0")" && pwd)
. "$here/setup.sh"
need python3
other=${3:+$(realpath "$3")}
find_program "${1:-}"
rounds=${2:-5}
enter_folder
uptime
echo 1 >one
python3 - <<'END'
for apart in (1, 1 << 10, 1 << 19, (1 << 20) - 1, 1 << 20):
    with open(f"apart{apart}", "w") as file:
        for pair in range(10_000):
            file.write(f"slot {(pair + 1) * apart}\nplay {pair % 256} trace one 5 0\n")
END
echo "day: 20,000 lines by the slots between them, seconds by the clock, of the processor, and peak KiB"
set --
for apart in 1 1024 524288 1048575 1048576; do
    set -- "$@" "apart$apart" "$program day script=apart$apart journal=1048576"
done
python3 "$here/measure.py" "$rounds" "$@" | tee times
awk 'NR == 1 { one = $3 } { printf "%s: %.2f of the time of slots one apart\n", $1, $3 / one }' times
[ -n "$other" ] || exit 0
for apart in 1 1024 524288 1048575 1048576; do
    "$other" day "script=apart$apart" journal=1048576 | cmp - "apart$apart.out"
done
echo "the same bytes as $other"

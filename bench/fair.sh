#!/bin/sh
# Long days: `fair` of up to 100,000 plays and scripts of up to 1,000,000 lines: bench/fair.sh [PROGRAM [ROUNDS]]
#
# PROGRAM is the built vodserve (default: ../crates/vodserve/out/vodserve). Compares `fair` with a plain program (fair.py), and prints the
# best times of ROUNDS (default 3) and the peak memory (where GNU time is installed), a line each. Needs python3. All files are made in a
# folder that is removed again.
set -eu
here=$(cd "$(dirname "$0")" && pwd)
. "$here/setup.sh"
find_program "${1:-}"
rounds=${2:-3}
enter_folder
uptime
python3 "$here/fair.py" "$program"
echo "fair: plays, seconds by the clock, of the processor, and peak KiB"
for plays in 2000 10000 30000 100000; do
    python3 "$here/measure.py" "$rounds" "$plays" "$program fair seed=7 plays=$plays"
    cat "$plays.out"
done
"$program" make kind=trace seed=1 pictures=150 >trace
python3 - <<'END'
import random
rng, slot, lines = random.Random(1), 0, []
while len(lines) < 1_000_000:
    client = rng.randrange(256)
    kind = rng.randrange(8)
    if kind < 3:
        slot += rng.randrange(1, 4)
        lines.append(f"slot {slot}")
    elif kind < 5:
        lines.append(f"play {client} trace trace {rng.randrange(16384, 32768)} {rng.randrange(26)}")
    else:
        lines.append((f"pause {client}", f"resume {client}", f"look {slot + rng.randrange(200)}")[kind - 5])
for count in (125_000, 250_000, 500_000, 1_000_000):
    with open(f"lines{count}", "w") as file:
        file.write("\n".join(lines[:count]) + "\n")
END
echo "day: lines, seconds by the clock, of the processor, and peak KiB"
for count in 125000 250000 500000 1000000; do
    python3 "$here/measure.py" "$rounds" "$count" "$program day script=lines$count journal=1048576"
    tail -n 3 "$count.out"
done

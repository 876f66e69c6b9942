#!/bin/sh
# The proved planner beside plain ones in Rust and C: bench/plan.sh [PROGRAM] [ROUNDS]
#
# PROGRAM is the built vodserve (default: ../crates/vodserve/out/vodserve). All programs read the same trace file and
# must print the same bytes. Then `plan` and `check` are timed on the first eighth, quarter and half of the sizes and on
# all of them. Needs rustc, cc and python3, and valgrind to count instructions; all files are made in a folder that is
# removed again.
set -eu
here=$(cd "$(dirname "$0")" && pwd)
. "$here/setup.sh"
find_program "${1:-}"
rounds=${2:-15}
need rustc cc python3
enter_folder
rustc --edition 2024 -O -o plain "$here/plan/plan.rs"
cc -O2 -o plain_c "$here/plan/plan.c"
cc -O2 -o funnel "$here/plan/funnel.c"

# 1,000,000 sizes of a fixed linear congruence: 200 to 1,999, each twelfth four times as large.
python3 - >generated.txt <<'PYTHON'
state = 1
lines = []
for k in range(1_000_000):
    state = (state * 6364136223846793005 + 1442695040888963407) % 2**64
    lines.append((200 + (state >> 33) % 1800) * (4 if k % 12 == 0 else 1))
print("\n".join(map(str, lines)))
PYTHON
# Falling sizes: each one ends a segment, and each slot stays in the lower chain to the end.
seq 100000 -1 1 >falling.txt

instructions() { # COMMAND..: how many it takes, as valgrind counts them
    valgrind --tool=callgrind --callgrind-out-file=/dev/null "$@" 2>&1 >/dev/null | awk '/Collected/ { print $NF }'
}

compare() { # TITLE TRACE BUFFER STARTUP, and WORDS with which the trace is read and then refused
    echo "$1: $(wc -l <"$2") sizes, buffer=$3 startup=$4, best of $rounds"
    words="plan trace=$2 buffer=$3 startup=$4"
    python3 "$here/measure.py" "$rounds" \
        proved "$program $words" plain "./plain $words" in-c "./plain_c $words" funnel "./funnel $words" \
        proved-refused "$program plan trace=$2 $5" plain-refused "./plain plan trace=$2 $5" \
        plain-reading "./plain $words stop=reading" plain-plan "./plain $words stop=plan" >times.txt
    if ! cmp -s proved.out plain.out || ! cmp -s proved.out in-c.out ||
        ! cmp -s proved.out funnel.out || ! cmp -s proved-refused.err plain-refused.err; then
        echo "  the outputs differ"
        exit 1
    fi
    echo "  outputs equal: $(grep -c '^segment' proved.out) segments, $(wc -c <proved.out) bytes"
    awk '
        function line(name) {
            printf "  %-6s  %7.1f ms by the clock, %7.1f ms of processor time, peak %s KiB\n", name, clock[name],
                processor[name], memory[name]
        }
        function parts(name) {
            printf "  %-6s  to start, read and refuse the trace %.1f ms (%.0f %%), the rest %.1f ms\n", name,
                clock[name "-refused"], 100 * clock[name "-refused"] / clock[name], clock[name] - clock[name "-refused"]
        }
        { clock[$1] = $2 * 1000; processor[$1] = $3 * 1000; memory[$1] = $4 }
        END {
            line("proved"); line("plain"); line("in-c"); line("funnel")
            printf "  ratio   %7.2f by the clock,    %7.2f by processor time\n", clock["proved"] / clock["plain"],
                processor["proved"] / processor["plain"]
            printf "  to C    %7.2f by the clock,    %7.2f by processor time\n", clock["proved"] / clock["in-c"],
                processor["proved"] / processor["in-c"]
            printf "  funnel  %7.2f by the clock,    %7.2f by processor time\n", clock["proved"] / clock["funnel"],
                processor["proved"] / processor["funnel"]
            parts("proved"); parts("plain")
            printf "  plain   to start, read and parse %.1f ms (%.0f %%), curves and plan %.1f ms, text %.1f ms\n",
                clock["plain-reading"], 100 * clock["plain-reading"] / clock["plain"],
                clock["plain-plan"] - clock["plain-reading"], clock["plain"] - clock["plain-plan"]
        }' times.txt
    if command -v valgrind >/dev/null; then
        awk -v proved="$(instructions "$program" $words)" -v plain="$(instructions ./plain $words)" \
            -v c="$(instructions ./plain_c $words)" -v funnel="$(instructions ./funnel $words)" 'BEGIN {
            printf "  instructions: %.1f million, plain %.1f (ratio %.2f), in C %.1f (ratio %.2f), funnel %.1f (ratio %.2f)\n",
                proved / 1e6, plain / 1e6, proved / plain, c / 1e6, proved / c, funnel / 1e6, proved / funnel
        }'
    fi
}

# A million sizes and one slot before them are too many slots; the first of the falling sizes is more than one byte.
compare "generated sizes" generated.txt 1048576 0 "startup=1"
compare "generated sizes, small buffer" generated.txt 16384 0 "startup=1"
compare "falling sizes" falling.txt 4398046511104 0 "buffer=1"

# Four rows, each of twice as many slots as the one before: the time of a slot should stay what it is.
growth() { # TITLE TRACE BUFFER
    echo "$1: plan and check by slots, buffer=$3 startup=0, best of $rounds"
    slots=$(wc -l <"$2")
    for part in 8 4 2 1; do
        count=$((slots / part))
        head -n "$count" "$2" >part.txt
        words="trace=part.txt buffer=$3 startup=0"
        "$program" plan $words >cert.txt
        python3 "$here/measure.py" "$rounds" \
            plan "$program plan $words" check "$program check $words cert=cert.txt" >times.txt
        [ "$(cat check.out)" = least ] || { echo "  the certificate isn't accepted"; exit 1; }
        awk -v slots="$count" '
            { clock[$1] = $2 }
            END { printf "  %7d slots: plan %6.1f ms (%3.0f ns a slot), check %6.1f ms (%3.0f ns a slot)\n", slots,
                clock["plan"] * 1000, clock["plan"] * 1e9 / slots, clock["check"] * 1000,
                clock["check"] * 1e9 / slots }' times.txt
    done
}

growth "generated sizes" generated.txt 1048576
growth "falling sizes" falling.txt 4398046511104

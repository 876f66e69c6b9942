#!/bin/sh
# Speed and memory of `vodserve scan`: bench/scan.sh [PROGRAM] [ROUNDS] [FILM]
#
# PROGRAM is the built vodserve (default: ../crates/vodserve/out/vodserve). FILM is a film to scan besides those that are
# made here. Beside it, in the same rounds and on the same file, run `wc -c`, `cat FILM | wc -c` (wc alone asks for the
# size and reads nothing) and two plain counts of the bytes 00 00 01. Needs rustc and python3, and about 700 MB in the
# folder for temporary files, which is given back.
set -eu
here=$(cd "$(dirname "$0")" && pwd)
. "$here/setup.sh"
find_program "${1:-}"
rounds=${2:-7}
given=${3:+$(realpath "$3")}
need rustc python3
enter_folder
rustc --edition 2024 -O -o count "$here/scan/count.rs"

measure() { # TITLE FILM
    bytes=$(wc -c <"$2")
    python3 "$here/measure.py" "$rounds" \
        scan "$program scan film=$2" wc-c "wc -c $2" cat-wc-c "sh -c 'cat $2 | wc -c'" \
        memchr "./count memchr $2" loop "./count loop $2" >times.txt
    cmp -s memchr.out loop.out || { echo "$1: the two counts of 00 00 01 differ"; exit 1; }
    echo "$1: $bytes bytes, $(cat memchr.out) times 00 00 01, best of $rounds"
    echo "  $(head -1 scan.out); its text has $(wc -c <scan.out) bytes"
    awk -v bytes="$bytes" '
        function ratios(of, seconds) {
            printf "  scan takes %.2f times cat and wc, %.2f times memchr, %.2f times the loop %s\n",
                seconds["scan"] / seconds["cat-wc-c"], seconds["scan"] / seconds["memchr"],
                seconds["scan"] / seconds["loop"], of
        }
        { printf "  %-9s %9.1f ms by the clock, %8.1f ms of processor time, %8.0f MB/s, peak %s KiB\n", $1, $2 * 1000,
            $3 * 1000, bytes / 1000000 / $2, $4; clock[$1] = $2; processor[$1] = $3 }
        END { ratios("by the clock", clock); ratios("of processor time", processor) }' times.txt
}

instructions() { # COMMAND..: how many it takes, as valgrind counts them
    valgrind --tool=callgrind --callgrind-out-file=/dev/null "$@" 2>&1 >/dev/null | awk '/Collected/ { print $NF }'
}

make() { # SEED PICTURES
    "$program" make kind=film seed="$1" pictures="$2"
}

if command -v valgrind >/dev/null; then
    make 1 10000 >counted.mpg
    codes=$(./count memchr counted.mpg)
    awk -v scan="$(instructions "$program" scan film=counted.mpg)" -v codes="$codes" \
        -v memchr="$(instructions ./count memchr counted.mpg)" 'BEGIN {
        printf "made film of 10,000 pictures, %d codes: %.1f million instructions, %d a code; memchr %.1f million, %d\n",
            codes, scan / 1e6, scan / codes, memchr / 1e6, memchr / codes
    }'
fi

# Two made films one after the other: the end code between them is bytes of the slice before it.
{ make 1 100000; make 2 100000; } >made.mpg
measure "made film" made.mpg
rm made.mpg

# The same 2,000 pictures with short slices and with slices of over 25,000 bytes: the memory is that of the pictures.
make 1 2000 >short.mpg
python3 "$here/scan/widen.py" short.mpg 25000 long.mpg
measure "2,000 pictures, short slices" short.mpg
measure "2,000 pictures, long slices" long.mpg
rm short.mpg long.mpg

if command -v ffmpeg >/dev/null; then
    ffmpeg -v error -f lavfi -i "mandelbrot=size=352x288:rate=25" -frames:v 250 -c:v mpeg1video -bf 2 -b:v 4000k \
        -f mpeg1video part.mpg
    times=$((200000000 / $(wc -c <part.mpg) + 1))
    yes part.mpg | head -n "$times" | xargs cat >encoded.mpg
    measure "film of ffmpeg, $times times one after another" encoded.mpg
    rm encoded.mpg
else
    echo "scan.sh: ffmpeg is missing; no film of a real encoder is scanned"
fi

if [ -n "$given" ]; then
    ln -s "$given" given.mpg
    measure "$given" given.mpg
fi

#!/bin/sh
# MPEG-1 system streams of a real multiplexer, compared with the video that it takes out of them: bench/streams.sh [PROGRAM]
#
# PROGRAM is the built vodserve (default: ../crates/vodserve/out/vodserve). Needs ffmpeg (Debian package ffmpeg). Makes
# streams with sound and padding at several rates and packet sizes, and as for a Video CD; takes the video out by ffmpeg; and
# compares what `scan` and `plan` print of both. Prints one line a stream. Ends with status 1 where something differs, and 2
# where nothing could be compared. All files are made in a folder that is removed again.
set -u
here=$(cd "$(dirname "$0")" && pwd)
. "$here/setup.sh"
find_program "${1:-}"
need ffmpeg
enter_folder
compared=0
differing=0

# same COMMAND..: the program prints the same of the stream and of the video
same() {
    for film in stream.mpg video.mpg; do
        "$program" "$1" film=$film $2 >"$film.out" 2>&1 || { cat "$film.out"; return 1; }
    done
    cmp -s stream.mpg.out video.mpg.out
}

# stream NAME RATE SIZE OPTION..: makes a stream of pictures of that rate and size, and compares it
stream() {
    name=$1 rate=$2 size=$3
    shift 3
    ffmpeg -v error -y -f lavfi -i "testsrc2=r=$rate:s=$size:d=6" -f lavfi -i "sine=f=440:d=6:r=44100" \
        -c:v mpeg1video -b:v 900k -maxrate 1150k -bufsize 327680 -g 15 -bf 2 -c:a mp2 -b:a 128k "$@" stream.mpg 2>log \
        || { echo "$name: ffmpeg made none: $(tail -1 log)"; return; }
    ffmpeg -v error -y -i stream.mpg -map 0:v -c copy -f mpeg1video video.mpg 2>log || { cat log; exit 2; }
    compared=$((compared + 1))
    if same scan "" && same plan "" && same plan "startup=50 slot=7200 buffer=400000"; then
        echo "$name: $(stat -c %s stream.mpg) bytes, video $(stat -c %s video.mpg): the same"
    else
        differing=$((differing + 1))
        echo "$name: DIFFERS"
    fi
}

for muxrate in 1200000 1500000 2500000; do
    for packet in 512 1024 2048 2324 8192; do
        stream "muxrate $muxrate packet $packet" 25 352x288 -f mpeg -muxrate $muxrate -packetsize $packet
    done
done
for rate in 24000/1001 24 25 30000/1001 30 50 60; do
    stream "rate $rate" $rate 176x144 -f mpeg
done
stream "video CD 25" 25 352x288 -f vcd
stream "video CD 29.97" 30000/1001 352x240 -f vcd
[ "$compared" -gt 0 ] || exit 2
echo "$compared compared, $differing differ"
[ "$differing" -eq 0 ]

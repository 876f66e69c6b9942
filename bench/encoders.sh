#!/bin/sh
# Films of real encoders, scanned and compared with ffprobe: bench/encoders.sh [PROGRAM]
#
# PROGRAM is the built vodserve (default: ../crates/vodserve/out/vodserve). Needs python3, ffmpeg with ffprobe (Debian
# package ffmpeg), and for the second encoder mpeg2enc (package mjpegtools); says which are missing. Prints one line a
# film. Ends with status 1 where a film is refused or something differs, and 2 where nothing could be compared. All files
# are made in a folder that is removed again.
set -u
here=$(cd "$(dirname "$0")" && pwd)
. "$here/setup.sh"
find_program "${1:-}"
need ffmpeg ffprobe python3
enter_folder

films=0
different=0

compare() { # TITLE: film.mpg was made
    films=$((films + 1))
    if ! "$program" scan film=film.mpg >scan.txt 2>refusal.txt; then
        echo "$1: REFUSED: $(cat refusal.txt)"
        different=$((different + 1))
        return
    fi
    line=$(python3 "$here/encoders/compare.py" film.mpg scan.txt) || different=$((different + 1))
    echo "$1: $line"
}

picture_source() { # RATE
    echo "testsrc=size=176x144:rate=$1"
}

by_ffmpeg() { # RATE WORDS
    rate=$1
    shift
    rm -f film.mpg
    if ffmpeg -v error -y -f lavfi -i "$(picture_source "$rate")" -frames:v 60 -c:v mpeg1video "$@" \
        -f mpeg1video film.mpg; then
        compare "ffmpeg rate=$rate $*"
    else
        echo "ffmpeg rate=$rate $*: NOT ENCODED"
        different=$((different + 1))
    fi
}

by_mpeg2enc() { # RATE CODE WORDS
    rate=$1
    code=$2
    shift 2
    rm -f film.mpg
    if ffmpeg -v error -f lavfi -i "$(picture_source "$rate")" -frames:v 60 -pix_fmt yuv420p -f yuv4mpegpipe - |
        mpeg2enc -v 0 -f 0 -F "$code" "$@" -o film.mpg >mpeg2enc.txt 2>&1; then
        compare "mpeg2enc rate=$rate $*"
    else
        echo "mpeg2enc rate=$rate $*: NOT ENCODED: $(tail -1 mpeg2enc.txt)"
        different=$((different + 1))
    fi
}

rates="24000/1001 24 25 30000/1001 30 50 60000/1001 60"
for rate in $rates; do
    by_ffmpeg "$rate" -bf 0
    by_ffmpeg "$rate" -bf 2
done
by_ffmpeg 25 -g 1
by_ffmpeg 25 -bf 3 -g 15
by_ffmpeg 25 -bf 2 -g 9 -flags +cgop -sc_threshold 1000000000
by_ffmpeg 25 -bf 2 -slices 3
by_ffmpeg 30 -bf 2 -b:v 1150k -minrate 1150k -maxrate 1150k -bufsize 320k

if command -v mpeg2enc >/dev/null; then
    code=0
    for rate in $rates; do
        code=$((code + 1))
        by_mpeg2enc "$rate" "$code" -R 0
        by_mpeg2enc "$rate" "$code" -R 2
    done
    by_mpeg2enc 25 3 -R 2 -g 6 -G 6 -s
    by_mpeg2enc 25 3 -R 2 -c
else
    echo "encoders.sh: mpeg2enc is missing; its films aren't compared"
fi

echo "$films films, $different of them refused, different or not encoded"
[ "$different" -eq 0 ]

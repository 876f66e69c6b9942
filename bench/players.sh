#!/bin/sh
# Films served to players that people have: bench/players.sh [PROGRAM]
#
# PROGRAM is the built vodserve (default: ../crates/vodserve/out/vodserve). Needs python3 and ffmpeg (Debian package
# ffmpeg); uses gst-launch-1.0 with the plugins base, good and bad, mpv, and mpeg2enc (package mjpegtools) where they are
# there, and says which are missing. Each film is played through by each player at once, and what arrives is compared
# with the film; then come seeks, a pause with its resume, and two clients that race for the last room. Prints one line
# for each; ends with status 1 where something differs, and 2 where nothing could be tried. All files are made in a
# folder that is removed again, and the server is stopped in any case.
set -u
here=$(cd "$(dirname "$0")" && pwd)
. "$here/setup.sh"
find_program "${1:-}"
need python3 ffmpeg
for tool in gst-launch-1.0 mpv mpeg2enc; do
    command -v "$tool" >/dev/null || echo "players.sh: $tool is missing; it is left out"
done
enter_folder
films=""
bad=0

add() { # NAME: the film was made
    films="$films $1"
}

failed() { # NAME
    echo "$1: NOT ENCODED"
    bad=1
}

by_ffmpeg() { # NAME SOURCE WORDS
    name=$1
    from=$2
    shift 2
    if ffmpeg -v error -f lavfi -i "$from" -t 6 -c:v mpeg1video "$@" -f mpeg1video "$name"; then
        add "$name"
    else
        failed "$name"
    fi
}

by_mpeg2enc() { # NAME SIZE RATE CODE WORDS
    name=$1
    from="testsrc2=size=$2:rate=$3"
    code=$4
    shift 4
    if ffmpeg -v error -f lavfi -i "$from" -t 6 -pix_fmt yuv420p -f yuv4mpegpipe - |
        mpeg2enc -v 0 -f 0 -F "$code" "$@" -o "$name" >mpeg2enc.txt 2>&1; then
        add "$name"
    else
        failed "$name"
    fi
}

"$program" make kind=film seed=1 pictures=144 >made.mpg && add made.mpg
by_ffmpeg 25-b.mpg testsrc2=size=352x288:rate=25 -bf 2 -b:v 1150k
by_ffmpeg 2997.mpg testsrc2=size=352x240:rate=30000/1001 -bf 0 -b:v 1500k
by_ffmpeg 24-small.mpg testsrc2=size=176x144:rate=24 -bf 2 -b:v 300k
by_ffmpeg 60.mpg testsrc2=size=320x240:rate=60 -bf 0 -b:v 800k
by_ffmpeg 25-large.mpg mandelbrot=size=720x576:rate=25 -bf 2 -b:v 5000k
by_ffmpeg 30-slices.mpg testsrc2=size=352x240:rate=30 -bf 2 -slices 4 -b:v 1000k
by_ffmpeg 25-constant.mpg testsrc2=size=352x288:rate=25 -bf 2 -b:v 1150k -minrate 1150k -maxrate 1150k -bufsize 320k
if command -v mpeg2enc >/dev/null; then
    by_mpeg2enc m25-b.mpg 352x288 25 3 -b 1150 -R 2
    by_mpeg2enc m2997.mpg 352x240 30000/1001 4 -b 1150 -R 0
fi

# The same pictures as video alone and in a system stream.
if ffmpeg -v error -f lavfi -i testsrc2=size=352x288:rate=25 -t 6 -c:v mpeg1video -bf 2 -b:v 1150k system.mkv &&
    ffmpeg -v quiet -i system.mkv -c copy -f mpeg system.mpg &&
    ffmpeg -v quiet -i system.mkv -c copy -f mpeg1video system.video; then
    # The server is asked by a scan, since it would end at the first film that it doesn't take.
    if "$program" scan film=system.mpg >/dev/null 2>scan.txt; then
        add system.mpg
    else
        echo "system.mpg: isn't taken as a film: $(cat scan.txt)"
    fi
else
    failed system.mpg
fi

# Unquoted, since the names are words without blanks.
python3 "$here/players/play.py" "$program" "$folder" $films || bad=1
"$program" make kind=film seed=2 pictures=200 >asked.mpg
python3 "$here/players/asks.py" "$program" "$folder" asked.mpg || bad=1
exit "$bad"

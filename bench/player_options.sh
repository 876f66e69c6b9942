#!/bin/sh
# Each player with the option that the README has for it: bench/player_options.sh [PROGRAM]
#
# PROGRAM is the built vodserve (default: ../crates/vodserve/out/vodserve). A film of 10 s is played
# once by ffmpeg, ffplay, mpv, mplayer, GStreamer and VLC, those of them that are installed. Prints
# how each ended, with which status, and how much of the film it had; players/options.py has the
# command lines. Takes two minutes, since most players wait for ever at the film's end. Needs
# python3, ffmpeg, Xvfb and xdotool. All files are made in a folder that is removed again.
set -u
here=$(cd "$(dirname "$0")" && pwd)
. "$here/setup.sh"
find_program "${1:-}"
need python3 ffmpeg Xvfb xdotool
enter_folder
first=$((90 + $$ % 400)) second=$((500 + $$ % 400))
Xvfb ":$first" -screen 0 640x480x24 >xvfb.txt 2>&1 &
screens=$!
Xvfb ":$second" -screen 0 640x480x24 >xvfb2.txt 2>&1 &
screens="$screens $!"
trap 'kill $screens 2>/dev/null; rm -rf "$folder"' EXIT
ffmpeg -v error -f lavfi -i testsrc=size=352x288:rate=25:decimals=2 -t 10 -c:v mpeg1video -bf 2 -b:v 1150k \
    -f mpeg1video film.mpg || exit 2
python3 "$here/players/options.py" "$program" "$folder" ":$first" ":$second"

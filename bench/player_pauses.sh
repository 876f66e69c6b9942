#!/bin/sh
# What each player does in a pause and after it: bench/player_pauses.sh [PROGRAM] [SECONDS]
#
# PROGRAM is the built vodserve (default: ../crates/vodserve/out/vodserve). A film of 60 s at 1.5
# Mbit/s is played by ffplay, mpv (with and without a cache), mplayer and GStreamer at once, those of
# them that are installed. After 9 s each is paused for SECONDS (default: 120), and resumed. Prints
# for each where it was paused, how it ended and how much of the film it showed. Takes SECONDS and
# two minutes more. Needs python3, ffmpeg, Xvfb and xdotool, for GStreamer python3-gi. All files are
# made in a folder that is removed again.
set -u
here=$(cd "$(dirname "$0")" && pwd)
. "$here/setup.sh"
find_program "${1:-}"
need python3 ffmpeg Xvfb xdotool
enter_folder
screen=:$((90 + $$ % 400))
Xvfb "$screen" -screen 0 640x480x24 >xvfb.txt 2>&1 &
trap 'kill $! 2>/dev/null; rm -rf "$folder"' EXIT
"$here/load/make_film.sh" 60 || exit 2
python3 "$here/players/pauses.py" "$program" "$folder" "$screen" "${2:-120}"

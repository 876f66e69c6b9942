#!/bin/sh
# How long the frames of a film take, by the length of the film: bench/frames.sh
#
# Needs rt. `rt try` checks each call as it runs, so times are longer than in a built program: read them as ratios.
set -eu
here=$(cd "$(dirname "$0")" && pwd)
. "$here/setup.sh"
need rt
enter_folder
"$here/program.sh" "$here/frames/main.txt" vod_base interleave mpeg_scan rtp_pack film_frames film_make | grep -E 'pictures,'

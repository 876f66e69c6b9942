#!/bin/sh
# Frames and reports of a made film, as they are sent, beside other people's programs: bench/packets.sh
#
# Needs rt, python3, tshark and gst-launch-1.0 with the plugins base and good.
set -eu
here=$(cd "$(dirname "$0")" && pwd)
. "$here/setup.sh"
need rt python3 tshark gst-launch-1.0
enter_folder
"$here/program.sh" "$here/packets/main.txt" vod_base interleave mpeg_scan rtp_pack film_frames film_make hex | grep -E '^(film|block) ' >lines.txt
python3 "$here/packets/compare.py" lines.txt "$folder"

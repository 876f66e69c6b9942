#!/bin/sh
# That requests take linear time, however they come: bench/requests.sh
#
# Needs rt. Times are those of `rt try`, which checks each call as it runs: what tells is that a byte costs the same at each length.
set -eu
here=$(cd "$(dirname "$0")" && pwd)
. "$here/setup.sh"
need rt
enter_folder
"$here/program.sh" "$here/requests/main.txt" vod_base interleave rtsp_text | grep -E '^(look|read|garbage)'

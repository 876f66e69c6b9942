#!/bin/sh
# What a play, a look and a halt cost as the journal grows: bench/book.sh
#
# Needs rt. `rt try` checks each call as it runs, so times are longer than in a built program: read them as ratios.
set -eu
here=$(cd "$(dirname "$0")" && pwd)
. "$here/setup.sh"
need rt
enter_folder
"$here/program.sh" "$here/book/main.txt" vod_base film_make plan_cert slot_calendar admission | grep -E 'entries:'

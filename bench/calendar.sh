#!/bin/sh
# How much the greatest totals of blocks save: bench/calendar.sh
#
# Needs rt. `rt try` checks each call as it runs, so both ways are slower than in a built program: read the times as a ratio.
set -eu
here=$(cd "$(dirname "$0")" && pwd)
. "$here/setup.sh"
need rt
enter_folder
"$here/program.sh" "$here/calendar/main.txt" vod_base plan_cert slot_calendar | grep -E '^(found|blocks|plain)'

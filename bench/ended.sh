#!/bin/sh
# The memory that an ended connection with one PLAY leaves: bench/ended.sh [PROGRAM]
#
# PROGRAM is the built vodserve (default: ../crates/vodserve/out/vodserve). Needs python3. Takes one
# to five minutes. The server starts in the environment of the service (Environment= of
# tools/vodserve.service); a variable that the caller sets counts instead. Prints the bytes of each
# connection beside what its parts hold. All files are made in a folder that is removed again.
set -u
here=$(cd "$(dirname "$0")" && pwd)
. "$here/setup.sh"
find_program "${1:-}"
need python3
enter_folder
cp "$here/../examples/colours.mpg" . || exit 2
python3 "$here/memory/ended.py" "$program" "$folder"

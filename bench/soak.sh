#!/bin/sh
# An hour of 60 clients that do whatever clients do: bench/soak.sh [MINUTES] [PROGRAM]
#
# MINUTES is how long they go on (default: 60; 4 for a try), PROGRAM the built vodserve (default:
# ../crates/vodserve/out/vodserve). Needs python3 of at least 3.10, and no other program.
#
# Each client draws one session after another: films played to the end, parts, pauses, offers,
# looks, TEARDOWN, ends without one, resets, stalls, peers that vanish. Now and then the server is
# short of file descriptors. Each byte of the media is compared with a model. At the end all
# workers must answer, nothing may be booked any more, and the server's memory must be what its
# journal, its notes and its offers account for, to 5 % (soak/memory.py says how that is
# reckoned).
#
# The server starts in the environment of the service (Environment= of tools/vodserve.service, which
# says how the C library divides memory). A variable that the caller sets counts instead.
#
# Prints figures, and one line for each fault. Ends by itself, up to four minutes after MINUTES:
# with status 1 where there was a fault, and 2 where nothing could be tried. The server listens at
# 127.0.0.1 alone. All files are made in a folder that is removed again, and the server is stopped
# in any case.
set -u
here=$(cd "$(dirname "$0")" && pwd)
. "$here/setup.sh"
find_program "${2:-}"
need python3
enter_folder
python3 "$here/soak/soak.py" "$program" "$folder" "${1:-60}"

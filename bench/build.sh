#!/bin/sh
# Processor time of the first build, of several commits: bench/build.sh COMMIT..
#
# Clones each COMMIT of this repository, and proves and builds the program there from nothing, as `./vodserve` does when it
# is called first; one commit after another, each on all processors. Prints the minutes of each by the clock and of the
# processor, and the ratio to the first. Needs the Rattle kit (its command rt) and bash, and 20 to 60 minutes for a commit.
set -eu
here=$(cd "$(dirname "$0")" && pwd)
. "$here/setup.sh"
need rt git bash python3
[ $# -gt 0 ] || { echo "build.sh: name at least one commit"; exit 2; }
top=$(cd "$here/.." && pwd)
enter_folder
for commit in "$@"; do
    git clone -q "$top" "$commit"
    git -C "$commit" checkout -q "$commit"
    bash -c 'TIMEFORMAT="%R %U %S"; time "$1/tools/build.py" >"$1.log" 2>&1' - "$commit" 2>times || {
        echo "$commit: it isn't built:"
        tail -n 20 "$commit.log"
        exit 1
    }
    echo "$commit $(cat times)" >>all
    rm -rf "$commit"
done
awk '{ processor = ($3 + $4) / 60; if (NR == 1) first = processor
    printf "%s: %.1f minutes by the clock, %.1f of the processor, %.2f of the first\n", $1, $2 / 60, processor, processor / first
}' all

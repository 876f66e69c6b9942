#!/bin/sh
# Runs a program over crates of this repository, without proof: program.sh MAIN CRATE..
#
# Makes a repository in the current folder, with this one's crates and MAIN as a program that stands on those named (of the kit too),
# and runs it by `rt try`, which checks each call as it runs.
# TRY_FLAGS has further words for `rt try`, as --seconds 600.
set -eu
here=$(cd "$(dirname "$0")" && pwd)
main=$1
shift
mkdir -p crates/bench_program/src
cp "$here/../HANDLES" "$here/../crates.txt" .
cp "$main" crates/bench_program/src/main.rt
for folder in "$here"/../crates/*/; do
    crate=crates/$(basename "$folder")
    mkdir "$crate"
    for part in src specs proofs; do [ ! -d "$folder$part" ] || cp -r "$folder$part" "$crate/"; done
done
echo "bench_program: $*" >>crates.txt
cd crates/bench_program
rt try ${TRY_FLAGS:-}

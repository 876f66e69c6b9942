#!/bin/sh
# Each request for memory refused in turn: bench/fail_alloc.sh TESTS [WORD..]
#
# TESTS is a crate's test program, as `rt test` leaves it (crates/NAME/out/NAME_tests). Each of its tests whose name has one of
# the words (each test, where there is none) is run once to count its requests for memory, and then once for each of them, in
# which that one request is refused. A test passes all the same where its call says want of memory by its name and it plays its
# script again; or it ends by that name. Any other answer, a play without its halt among them, is told and ends the script with 1.
#
# Needs cc and python3. All files are made in a folder that is removed again.
set -eu
here=$(cd "$(dirname "$0")" && pwd)
. "$here/setup.sh"
need cc python3
tests=$(realpath "$1")
shift
enter_folder
cc -O2 -shared -fPIC -o refuse.so "$here/fail_alloc/refuse.c"
python3 "$here/fail_alloc/each.py" "$folder/refuse.so" "$tests" "$@"

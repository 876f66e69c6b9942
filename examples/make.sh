#!/bin/sh
# Generates colours.mpg again, the film of this folder: 10 seconds of ffmpeg's test picture as an
# MPEG-1 video elementary stream. The bytes are those of ffmpeg 5.1.9; another version may encode
# them otherwise.
set -eu
cd "$(dirname "$0")"
ffmpeg -nostdin -loglevel error -y -f lavfi -i testsrc=size=320x240:rate=25:duration=10 \
    -c:v mpeg1video -g 12 -bf 2 -b:v 220k -maxrate 320k -bufsize 640k \
    -threads 1 -bitexact -f mpeg1video colours.mpg

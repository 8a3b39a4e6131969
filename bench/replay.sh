#!/bin/sh
# Measures the program's command `replay` against a plain scanner in C of the same pictures, as ratios, for conferences of
# 1, 4, 8 and 16 lanes, and the memory that it has resident: bench/replay.sh [RUNS [PICTURES]]
# It takes the program that PROGRAM names; else it proves and builds that of the repository, over what earlier runs of rt kept.
set -eu
. "$(dirname "$0")/lib.sh"
pictures=${2:-40000}

build_program
python3 "$here/codes.py" > "$work/codes.h"
build_c scanner
build_c timed

say "making the conferences"
mkdir "$work/made"
for lanes in 1 4 8 16; do
    python3 "$here/conference.py" "$lanes" "$pictures" 1 "$work/made"
done
if command -v ffmpeg > /dev/null; then
    mkdir "$work/encoded"
    ffmpeg -nostdin -v error -f lavfi -i testsrc2=size=qcif:rate=30000/1001 -frames:v 600 -c:v h261 -b:v 300k -g 600 -f h261 \
        "$work/stream"
    for lanes in 1 4 8 16; do
        python3 "$here/conference.py" "$lanes" "$pictures" 1 "$work/encoded" "$work/stream"
    done
else
    say "ffmpeg is not installed, so no pictures of its encoder are measured"
fi

say "measuring"
python3 "$here/measure_replay.py" "${1:-7}" "$PROGRAM" "$work"

#!/bin/sh
# Measures the program's command `decode` against ffmpeg's decoder of H.261 on one thread, as ratios, over composed pictures of three
# conferences of four lanes, and counts the samples in which the two differ: bench/decode.sh [RUNS]
# It takes the program that PROGRAM names; else it proves and builds that of the repository, over what earlier runs of rt kept.
set -eu
. "$(dirname "$0")/lib.sh"
command -v ffmpeg > /dev/null || {
    say "ffmpeg is not installed"
    exit 1
}
build_program
build_c differ
build_c timed

say "making the conferences"
python3 "$here/conference.py" 4 8000 1 "$work"
mv "$work/4.conf" "$work/dense.conf"
ffmpeg -nostdin -v error -f lavfi -i testsrc2=size=qcif:rate=30000/1001 -frames:v 600 -c:v h261 -b:v 300k -g 600 -f h261 \
    "$work/stream"
python3 "$here/conference.py" 4 8000 1 "$work" "$work/stream"
mv "$work/4.conf" "$work/encoded.conf"
"$PROGRAM" make --ticks=2000 > "$work/made.conf" 2> "$work/log"
for name in dense encoded made; do
    "$PROGRAM" replay < "$work/$name.conf" > "$work/$name.rtp" 2> "$work/log"
    "$top/examples/h261_of_frames.py" < "$work/$name.rtp" > "$work/$name.h261" 2> "$work/log"
done

say "measuring"
python3 "$here/measure_decode.py" "${1:-7}" "$PROGRAM" "$work" dense encoded made

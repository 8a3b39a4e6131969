#!/bin/sh
# Measures h261_pic::parse against a plain walker in C, as ratios: bench/parse.sh [RUNS]
# It proves and builds the program first, in a temporary folder, over what earlier runs of rt kept in crates/*/out.
set -eu
. "$(dirname "$0")/lib.sh"

say "making the pictures"
for format in qcif cif; do
    python3 "$here/pictures.py" "$format" 1000 1 0 > "$work/$format"
    python3 "$here/pictures.py" "$format" 1000 2 1 > "$work/$format.damaged"
done
python3 "$here/codes.py" > "$work/codes.h"
build_c walker
build parse pel_bits pel_model h261_pic

say "measuring"
python3 "$here/measure.py" "${1:-7}" "$work/parse" "$work/walker" "$work"

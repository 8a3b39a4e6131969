#!/bin/sh
# Measures cif_mix::compose against a memmove of as many octets, and against h261_pic::parse of the same pictures, as
# ratios: bench/compose.sh [RUNS]
# It proves and builds the programs first, in a temporary folder, over what earlier runs of rt kept in crates/*/out.
set -eu
. "$(dirname "$0")/lib.sh"

prepare_composing

say "measuring"
python3 "$here/measure_compose.py" "${1:-7}" "$work"

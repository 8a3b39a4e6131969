#!/bin/sh
# Measures cif_mix::compose and cif_pack's Packer::pack together against h261_pic::parse of the pictures that are composed, and
# pack against a memmove of as many octets, as ratios: bench/pack.sh [RUNS]
# It proves and builds the programs first, in a temporary folder, over what earlier runs of rt kept in crates/*/out.
set -eu
. "$(dirname "$0")/lib.sh"

prepare_composing
build pack pel_bits pel_model h261_pic io_edge cif_pack

say "measuring"
python3 "$here/measure_pack.py" "${1:-7}" "$work"

#!/bin/sh
# Shows what comes of a conference file as a PNG: examples/picture.sh CONFERENCE PNG [NUMBER]. It runs replay.sh, has the
# program decode the packets, and writes the picture of this number, counted from 1; without it the last one.
set -eu
if [ $# -eq 1 ] && [ "$1" = --help ]; then
    sed -n '2,3s/^# //p' "$0"
    exit 0
elif [ $# -lt 2 ] || [ $# -gt 3 ]; then
    echo "Usage: picture.sh CONFERENCE PNG [NUMBER]" >&2
    exit 2
fi
here=$(CDPATH='' cd -- "$(dirname -- "$0")" && pwd)
room=$(mktemp -d)
trap 'rm -rf "$room"' EXIT
"$here/../replay.sh" "$1" "$room/composed.rtp"
"$here/../crates/bridge_cli/out/bridge_cli" decode < "$room/composed.rtp" > "$room/composed.yuv"
"$here/png_of_planes.py" "${3-0}" < "$room/composed.yuv" > "$2"

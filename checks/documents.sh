#!/bin/sh
# checks/documents.sh PROGRAM: the commands of README.md and docs/GUIDE.md that need nothing but this repository are run
# word for word at the top of a copy of it, and give what is said there; and each list of statuses is that of --help.
. "$(dirname -- "$0")/lib.sh"
clone=$room/clone
mkdir -p "$clone/crates/bridge_cli/out" "$clone/docs"
cp -r "$top/README.md" "$top/examples" "$top/replay.sh" "$top/crates.txt" "$clone"
cp "$top/docs/GUIDE.md" "$clone/docs"
touch -d '1 hour ago' "$clone/crates.txt"
cp "$1" "$clone/crates/bridge_cli/out/bridge_cli"

# The commands of a document, without those of other tools and of the gate.
commands() {
    sed -n 's/^    \(\.\/replay\.sh.*\|tail .*\|\$program .*\|program=.*\|examples\/picture\.sh .*\|examples\/live[a-z_]*\.[a-z]* .*\|examples\/[ch][a-z0-9_]*\.py .*\)$/\1/p' "$clone/$1"
}
commands README.md > "$room/readme"
commands docs/GUIDE.md > "$room/guide"
is "README has three of them" test "$(wc -l < "$room/readme")" -eq 3
is "the guide has eleven of them" test "$(wc -l < "$room/guide")" -eq 11

# is_written FILE DIGEST: a file, by a digest that another implementation gave
is_written() {
    is "$1" test "$(sha256sum < "$clone/$1" | cut -c1-64)" = "$2"
}

# samples FILE: the rows of a PNG of the examples, whatever packed them
samples() {
    python3 -c 'import sys, zlib
png = open(sys.argv[1], "rb").read()
sys.stdout.buffer.write(zlib.decompress(png[41 : 41 + int.from_bytes(png[33:37], "big")]))' "$1"
}
try_line 'cd "$1" && set -e && . "$2"' "$clone" "$room/readme"
ended "the commands of README.md" 0
is_written composed.rtp 2dc8ea51b4843b7d0b3be2d1cb1f5238fe36f30d8766862903fe8f3874cda3bb
samples "$top/docs/four_faces.png" > "$room/shown"
samples "$clone/faces.png" > "$room/decoded"
is "its picture is the one that README shows" cmp "$room/shown" "$room/decoded"
is "its video begins with a picture" test "$(od -An -tx1 -N2 "$clone/composed.h261")" = " 00 01"
rm "$clone/composed.rtp" "$clone/composed.h261"

try_line 'cd "$1" && set -e && . "$2"' "$clone" "$room/guide"
ended "the commands of docs/GUIDE.md" 0
is_written composed.rtp 49d3fb47c2a89b99239181f24079dd3063df4746a97b9ed5d4b39956ca636111
is_written report.txt effb1522f138cf92634a0440931058c159de99d5f03a0031f6ce7c6494890d9b
is_written composed.yuv a3a49cfefdf2bdc6656f56b2e5c02757b24fa45a2e1dbc9610c105e342f24bc7
is_written made.conf 1022574ae8a7fe60dc8241eec0331b940ee00694ac165b60618ebadade3fbde1
is "its picture is a PNG" test "$(od -An -c -N4 "$clone/bars.png" | tr -d ' ')" = '211PNG'
is "its video begins with a picture" test "$(od -An -tx1 -N2 "$clone/composed.h261")" = " 00 01"

statuses() {
    sed -n 's/^| \([0-9]*\) | .*/\1/p' "$clone/$1" | grep -vx 1 | tr '\n' ' '
}
numbers=$("$1" --help | sed -n 's/^ *\([0-9]\{1,2\}\)  .*/\1/p' | tr '\n' ' ')
is "the statuses of README.md" test "$(statuses README.md)" = "$numbers"
is "the statuses of docs/GUIDE.md" test "$(statuses docs/GUIDE.md)" = "$numbers"

# the links of all pages to other files lead to them
for document in README.md CONTRIBUTING.md docs/GUIDE.md docs/FORMATS.md docs/CHAIR.md docs/TAKES.md docs/LOCK.md docs/MAP.md \
    docs/DECISIONS.md docs/GLOSSARY.md docs/CLAIMS.md bench/README.md; do
    links=$(sed -n 's/](\([^)#]*\)\(#[^)]*\)*)/\n<\1>\n/gp' "$top/$document" | sed -n 's/^<\(..*\)>$/\1/p' | sort -u)
    for link in $links; do
        is "the link $link of $document" test -e "$top/$(dirname "$document")/$link"
    done
done

tell "checks/documents.sh"

#!/usr/bin/env python3
"""Writes what `replay` must write for an example: composed.py grey_top_left|grey_bottom_right|striped_top_right, or
composed.py PLACE for the first packet of the lane on standard input, which holds a whole picture without stuffing and
spare bytes, at a tick of one step.

It is made from the description of the example, or by cutting the picture's bits at its groups, apart from the program."""
import pathlib
import sys

sys.dont_write_bytecode = True
sys.path.insert(0, str(pathlib.Path(__file__).parent.parent / "examples"))
from make_examples import field, group_header, grey_macroblocks, picture_header, striped_macroblocks  # noqa: E402

# The groups of a CIF picture in each place (H.261, 4.2.2).
PLACES = {1: (1, 3, 5), 2: (2, 4, 6), 3: (7, 9, 11), 4: (8, 10, 12)}

# The place, the step of the tick, and each group's quantiser and macroblocks.
EXAMPLES = {
    "grey_top_left": (1, 1, 3 * [(8, "".join(grey_macroblocks()))]),
    "grey_bottom_right": (4, 1, 3 * [(8, "".join(grey_macroblocks()))]),
    "striped_top_right": (2, 3, 3 * [(6, "".join(striped_macroblocks()))]),
}


def composed(place, step, groups):
    """The bits of the CIF picture with three groups in a place and nothing elsewhere."""
    shown = dict(zip(PLACES[place], groups))
    bits = picture_header(step, "000111")
    for number in range(1, 13):
        quantiser, macroblocks = shown.get(number, (1, ""))
        bits += group_header(number, quantiser) + macroblocks
    return bits


def one_frame(step, bits):
    """The frame of one RTP packet with the bits."""
    spare = -len(bits) % 8
    octets = int(bits + spare * "0", 2).to_bytes((len(bits) + spare) // 8, "big")
    packet = bytes([0x80, 0x9F, 0, 0]) + (3003 * step).to_bytes(4, "big") + b"H261" + bytes([4 * spare + 1, 0, 0, 0]) + octets
    return len(packet).to_bytes(2, "big") + packet


def groups_of(lane):
    """The groups of the picture in the first packet of a lane."""
    octets = lane[2 + 16 : 2 + int.from_bytes(lane[:2], "big")]
    # the last block ends with 10, and zeros may follow
    bits = field(int.from_bytes(octets, "big"), 8 * len(octets)).rstrip("0") + "0"
    starts = [at for at in range(32, len(bits)) if bits.startswith(field(1, 16), at)]
    assert [int(bits[at + 16 : at + 20], 2) for at in starts] == [1, 3, 5]
    return [(int(bits[at + 20 : at + 25], 2), bits[at + 26 : end]) for at, end in zip(starts, [*starts[1:], len(bits)])]


if __name__ == "__main__":
    if sys.argv[1] in EXAMPLES:
        place, step, groups = EXAMPLES[sys.argv[1]]
    else:
        place, step, groups = int(sys.argv[1]), 1, groups_of(sys.stdin.buffer.read())
    sys.stdout.buffer.write(one_frame(step, composed(place, step, groups)))

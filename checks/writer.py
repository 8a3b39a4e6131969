#!/usr/bin/env python3
"""writer.py: a conference file, made from docs/FORMATS.md and H.261 alone: nothing of the repository is taken.

Two lanes send a grey picture each, lane 1 a second one that sends nothing; lane 1 loses a packet, and its last unit is no
picture. The chair gives three commands, of which one is refused. Three ticks."""
import struct
import sys


def grey(reference):
    """A QCIF picture, all grey: the headers of picture and groups, and 33 macroblocks Intra a group."""
    block = "11111111" + "10"
    macroblock = "1" + "0001" + 6 * block
    groups = ["0000000000000001" + format(number, "04b") + "01000" + "0" + 33 * macroblock for number in (1, 3, 5)]
    return "00000000000000010000" + format(reference, "05b") + "000011" + "0" + "".join(groups)


def still(reference):
    """A QCIF picture that sends no macroblock."""
    groups = ["0000000000000001" + format(number, "04b") + "01000" + "0" for number in (1, 3, 5)]
    return "00000000000000010000" + format(reference, "05b") + "000011" + "0" + "".join(groups)


def packet(bits, sequence, stamp, source):
    spare = -len(bits) % 8
    octets = int(bits + "0" * spare, 2).to_bytes((len(bits) + spare) // 8, "big")
    header = struct.pack(">BBHII", 0x80, 0x80 | 31, sequence, stamp, source)
    return header + struct.pack(">I", spare << 26 | 1 << 24) + octets


def sent(lane, octets):
    return b"P" + bytes([lane]) + struct.pack(">H", len(octets)) + octets


def said(line):
    return b"C" + bytes([len(line)]) + line.encode()


TICK = b"T" + bytes([3])
parts = [
    b"H261CONF" + bytes([1, 2]),
    said("place 1 0"), said("place 4 1"), said("place 2 9"),
    sent(0, packet(grey(1), 0, 0, 10)), sent(1, packet(grey(1), 7, 0, 11)), TICK,
    sent(1, packet(still(4), 8, 9009, 11)), TICK,
    sent(1, packet(grey(7)[:-40], 10, 18018, 11)), TICK,
    b"E",
]
sys.stdout.buffer.write(b"".join(parts))

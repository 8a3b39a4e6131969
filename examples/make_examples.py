#!/usr/bin/env python3
"""Writes the conference files of this folder from their descriptions (docs/FORMATS.md says what each octet means)."""
import pathlib
import sys

from words import told

# The groups of a QCIF picture.
NUMBERS = (1, 3, 5)


def field(number, width):
    """`width` bits of a number, the most significant one first."""
    return format(number, f"0{width}b")


def picture_header(tr, ptype, spare="0"):
    """The header of a picture, with these bits from the first bit that tells of a spare byte on."""
    return field(1 << 4, 20) + field(tr, 5) + ptype + spare


def group_header(number, quantiser, spare="0"):
    """The header of a group of blocks, with these bits from the first bit that tells of a spare byte on."""
    return field(1, 16) + field(number, 4) + field(quantiser, 5) + spare


def intra(luminance, colour):
    """An Intra macroblock with these bits in each block of luminance and of colour, before the end of the block."""
    return "1" + "0001" + 4 * (luminance + "10") + 2 * (colour + "10")


def grey_macroblocks():
    """The macroblocks of a group whose blocks send nothing but INTRADC 11111111."""
    return 33 * [intra(field(255, 8), field(255, 8))]


def striped_macroblocks():
    """The macroblocks of a group that is brighter to the right, in whose luminance blocks stands one coefficient of
    level 1."""
    return 3 * [intra(field(20 + 20 * column, 8) + "110", field(255, 8)) for column in range(11)]


def grey_picture():
    """A QCIF picture of 6,545 bits whose 99 macroblocks are grey."""
    group = "".join(grey_macroblocks())
    return picture_header(1, "000011") + "".join(group_header(number, 8) + group for number in NUMBERS)


def striped_picture():
    """A striped QCIF picture with all that a sender may add: the freeze picture release is on, a spare byte stands
    behind each header, stuffing before each row of macroblocks, and three zero bits at the end."""
    spare = "1" + field(0xA5, 8) + "0"
    stuffing = "00000001111"
    macroblocks = striped_macroblocks()
    rows = "".join(stuffing + "".join(macroblocks[at : at + 11]) for at in (0, 11, 22))
    groups = "".join(group_header(number, 6, spare) + rows for number in NUMBERS)
    return picture_header(7, "001011", spare) + groups + "000"


def small_picture():
    """A QCIF picture of 120 bits that makes one block a little brighter: macroblock 1 of group 1, Inter, sends its first
    block of luminance with the level 1 at place 0, and nothing else."""
    macroblock = "1" + "1" + "1010" + "10" + "10"
    groups = group_header(1, 8) + macroblock + group_header(3, 8) + group_header(5, 8)
    return picture_header(1, "000011") + groups


def packet(bits, number=0, stamp=0):
    """One RTP packet with the marker bit that carries the bits, behind the payload header of RFC 4587."""
    spare = -len(bits) % 8
    octets = int(bits + spare * "0", 2).to_bytes((len(bits) + spare) // 8, "big")
    fixed = bytes([0x80, 0x80 | 31]) + number.to_bytes(2, "big") + stamp.to_bytes(4, "big") + bytes(4)
    return fixed + bytes([spare << 2 | 1, 0, 0, 0]) + octets


def header(lanes):
    """The header of a conference file."""
    return b"H261CONF" + bytes([1, lanes])


def order(line):
    """The entry of a line of the chair."""
    return b"C" + bytes([len(line)]) + line.encode()


def sent(lane, rtp):
    """The entry of a packet that came in a lane."""
    return b"P" + bytes([lane]) + len(rtp).to_bytes(2, "big") + rtp


def tick(step):
    """The entry of a tick."""
    return b"T" + bytes([step])


END = b"E"


def conference(place, rtp, step):
    """One lane, shown in one place, sends one packet, and one tick follows."""
    return header(1) + order(f"place {place} 0") + sent(0, rtp) + tick(step) + END


def ordinary_call():
    """Three conferees send sixty pictures each, ten a second; two are shown from the start, and the third comes in by
    speaking. One packet of the second one is lost, so that its quadrant stands still from there to its next refresh."""
    entries = [header(3), order("place 1 0"), order("place 2 1")]
    for count in range(1, 61):
        bits = grey_picture() if count % 20 == 1 else small_picture()
        for lane in range(3):
            if (lane, count) != (1, 25):
                entries.append(sent(lane, packet(bits, count - 1, 9009 * count)))
        entries.append(tick(3))
        if count == 30:
            entries.append(order("speaker 2"))
    return b"".join(entries) + END


# The words of MBA for a step of 1 to 33 (H.261, table 1).
ADDRESS_STEPS = (
    "1 011 010 0011 0010 00011 00010 0000111 0000110 00001011 00001010 00001001 00001000 00000111 00000110 0000010111 "
    "0000010110 0000010101 0000010100 0000010011 0000010010 00000100011 00000100010 00000100001 00000100000 00000011111 "
    "00000011110 00000011101 00000011100 00000011011 00000011010 00000011001 00000011000"
).split()

# A face, a letter for each block of luminance: background, hair, skin, eye, mouth, clothes.
FACE = """
    bbbbbbbbbbbbbbbbbbbbbb
    bbbbbbbhhhhhhhhbbbbbbb
    bbbbbhhhhhhhhhhhhbbbbb
    bbbbhhhhhhhhhhhhhhbbbb
    bbbbhhhsssssssshhhbbbb
    bbbbhhsssssssssshhbbbb
    bbbbhsssssssssssshbbbb
    bbbbhsseesssseesshbbbb
    bbbbhsseesssseesshbbbb
    bbbbbssssssssssssbbbbb
    bbbbbssssssssssssbbbbb
    bbbbbssssssssssssbbbbb
    bbbbbbssmmmmmmssbbbbbb
    bbbbbbssssssssssbbbbbb
    bbbbbbbbssssssbbbbbbbb
    bbbbcccccsssscccccbbbb
    bbccccccccccccccccccbb
    bccccccccccccccccccccb
""".split()

# Of each letter the luminance, CB and CR. Background, hair and clothes are the conferee's own.
SKIN = {"s": (170, 112, 150), "e": (40, 128, 127), "m": (90, 118, 180), "o": (50, 122, 165)}
CONFEREES = (
    {"b": (120, 150, 110), "h": (60, 110, 145), "c": (60, 160, 120)},
    {"b": (150, 110, 120), "h": (190, 80, 145), "c": (80, 110, 170)},
    {"b": (100, 120, 140), "h": (30, 127, 129), "c": (190, 127, 129)},
    {"b": (180, 115, 125), "h": (110, 90, 175), "c": (70, 110, 100)},
)


def face(speaks):
    """The letters of a face, whose mouth is open where it speaks."""
    rows = list(FACE)
    if speaks:
        rows[12], rows[13] = "bbbbbbssmoooomssbbbbbb", "bbbbbbsssmmmmsssbbbbbb"
    return rows


def flat_macroblock(rows, colours, across, down):
    """An Intra macroblock whose blocks send INTRADC alone: a luminance for each letter, and the mean of their colours."""
    letters = [colours[rows[2 * down + below][2 * across + right]] for below in (0, 1) for right in (0, 1)]
    means = [sum(column) // 4 for column in zip(*letters)]
    samples = [luminance for luminance, _, _ in letters] + means[1:]
    return "1" + "0001" + "".join(field(255 if sample == 128 else sample, 8) + "10" for sample in samples)


def face_picture(tr, colours, rows, before=None):
    """A QCIF picture of a face. Where there is one before, only the macroblocks are sent that differ from it."""
    bits = picture_header(tr, "000011")
    for number, first in zip(NUMBERS, (0, 3, 6)):
        bits += group_header(number, 8)
        skipped = 0
        for down in range(first, first + 3):
            for across in range(11):
                macroblock = flat_macroblock(rows, colours, across, down)
                if before and macroblock == flat_macroblock(before, colours, across, down):
                    skipped += 1
                else:
                    bits += ADDRESS_STEPS[skipped] + macroblock[1:]
                    skipped = 0
    return bits


def faces_lane(lane):
    """The packets of a conferee who speaks in one second of four: ten pictures a second, the first of each a refresh."""
    colours, packets, before = {**SKIN, **CONFEREES[lane]}, [], None
    for count in range(40):
        rows = face(count // 10 == lane and count % 2)
        bits = face_picture(3 * count % 32, colours, rows, before if count % 10 else None)
        packets.append(packet(bits, 100 * lane + count, 9009 * count))
        before = rows
    return packets


def four_faces():
    """Four conferees, of whom the first two are shown at first; the chair calls each who speaks."""
    entries = [header(4), order("place 1 0"), order("place 2 1")]
    for count, packets in enumerate(zip(*map(faces_lane, range(4)))):
        if count % 10 == 0:
            entries.append(order(f"speaker {count // 10}"))
        entries += [sent(lane, rtp) for lane, rtp in enumerate(packets)]
        entries.append(tick(3))
    return b"".join(entries) + END


def main(folder):
    grey = packet(grey_picture())
    (folder / "grey_top_left.conf").write_bytes(conference(1, grey, 1))
    (folder / "grey_bottom_right.conf").write_bytes(conference(4, grey, 1))
    (folder / "striped_top_right.conf").write_bytes(conference(2, packet(striped_picture()), 3))
    (folder / "ordinary_call.conf").write_bytes(ordinary_call())
    (folder / "four_faces.conf").write_bytes(four_faces())


if __name__ == "__main__":
    told(__doc__, sys.argv[1:], len(sys.argv) == 1)
    main(pathlib.Path(__file__).parent)

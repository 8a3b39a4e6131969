"""Writes a conference and its pictures: conference.py LANES PICTURES SEED FOLDER [STREAM]

The conference goes to FOLDER/LANES.conf, and its pictures, in the order in which they come, to FOLDER/LANES.pictures, framed as
pictures.py frames them. With each tick every lane sends one QCIF picture. The first of each lane is a refresh; the others are of
pictures.py, 9,000 to 11,000 bits each. With STREAM, a file of H.261 as an encoder writes it, which begins with a refresh, they
are its pictures. Lanes 0 to 3 stand in the places 1 to 4, as far as there are lanes.
"""
import pathlib
import random
import struct
import sys

import codes
import pictures

# how many different pictures are made, which are sent over and over; each lane begins at another of them
POOL = 400
REFRESH_COEFFICIENTS = 0.55
GREATEST_PACKET = 1400
RTP_HEADER = 12
# V alone: a packet begins with a picture's or a group's header
PAYLOAD_HEADER = bytes((0, 0, 0))


def refresh(rng):
    """A picture of 99 Intra macroblocks."""
    words = [codes.PICTURE_START, pictures.field(0, 5), "000011", "0"]
    for number in (1, 3, 5):
        words += [codes.GROUP_START, pictures.field(number, 4), pictures.field(8, 5), "0"]
        for _ in range(33):
            words += [pictures.MBA[1], pictures.MTYPE["Intra"]]
            words += [pictures.block(rng, True, REFRESH_COEFFICIENTS) for _ in range(6)]
    return "".join(words)


def starts_of(digits, word):
    at = digits.find(word)
    while at >= 0:
        yield at
        at = digits.find(word, at + len(word))


def octets_of(digits):
    octets = (len(digits) + 7) // 8
    return int(digits + "0" * (8 * octets - len(digits)), 2).to_bytes(octets, "big")


def digits_of(octets):
    return format(int.from_bytes(octets, "big"), f"0{8 * len(octets)}b")


def made(seed):
    """A refresh, and pictures to follow it."""
    rng = random.Random(seed)
    return [refresh(rng)] + [pictures.picture(rng, False, tr, "ten_kbit") for tr in range(1, POOL + 1)]


def sent(path):
    """The pictures of a stream. A start code stands nowhere else in one."""
    digits = digits_of(path.read_bytes())
    starts = [*starts_of(digits, codes.PICTURE_START), len(digits)]
    return [digits[begin:end] for begin, end in zip(starts, starts[1:])]


def payloads(digits):
    """The packets of a picture: all of it, or as many of its groups in each as have room."""
    octets = octets_of(digits)
    room = GREATEST_PACKET - RTP_HEADER - len(PAYLOAD_HEADER) - 1
    # the first start code is the picture's, and its first group is not parted from it
    ends = [*starts_of(digits, codes.GROUP_START)][2:] + [len(digits)]
    begin = 0
    while begin < len(digits):
        fitting = [end for end in ends if end > begin and (end + 7) // 8 - begin // 8 <= room]
        end = fitting[-1] if fitting else min(end for end in ends if end > begin)
        sbit, ebit = begin % 8, -end % 8
        yield bytes((sbit << 5 | ebit << 2 | 1,)) + PAYLOAD_HEADER + octets[begin // 8 : (end + 7) // 8]
        begin = end


class Lane:
    """What a lane sends: the refresh first, then the others from a place of its own on."""

    def __init__(self, number, lanes, pool):
        self.number = number
        self.pool = pool
        self.next = number * (len(pool) - 1) // lanes
        self.sequence = 0

    def entries(self, tick):
        """The picture's number in the pool, and its entries in the file."""
        chosen = 0 if tick == 0 else 1 + (self.next + tick - 1) % (len(self.pool) - 1)
        packets = self.pool[chosen]
        out = []
        for i, payload in enumerate(packets):
            marker = 128 if i + 1 == len(packets) else 0
            header = struct.pack(">BBHII", 0x80, marker | 31, self.sequence, tick * 3003 % 2**32, self.number + 1)
            self.sequence = (self.sequence + 1) % 65536
            out.append(struct.pack(">cBH", b"P", self.number, len(header) + len(payload)) + header + payload)
        return chosen, b"".join(out)


def main():
    lanes, count, seed, folder = int(sys.argv[1]), int(sys.argv[2]), int(sys.argv[3]), pathlib.Path(sys.argv[4])
    texts = sent(pathlib.Path(sys.argv[5])) if len(sys.argv) > 5 else made(seed)
    frames = [len(digits).to_bytes(4, "big") + octets_of(digits) for digits in texts]
    pool = [list(payloads(digits)) for digits in texts]
    senders = [Lane(number, lanes, pool) for number in range(lanes)]
    with open(folder / f"{lanes}.conf", "wb") as conference, open(folder / f"{lanes}.pictures", "wb") as plain:
        conference.write(b"H261CONF" + bytes((1, lanes)))
        for place in range(1, min(lanes, 4) + 1):
            line = f"place {place} {place - 1}".encode()
            conference.write(b"C" + bytes((len(line),)) + line)
        for tick in range(count // lanes):
            for sender in senders:
                chosen, entries = sender.entries(tick)
                conference.write(entries)
                plain.write(frames[chosen])
            conference.write(b"T\x01")
        conference.write(b"E")


if __name__ == "__main__":
    main()

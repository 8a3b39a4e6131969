#!/usr/bin/env python3
"""Writes streams for checks/examples.sh: lanes.py many|bare|cut|short|lost|unusable|jumping|junk|numbered|renumbered|frames|noisy|
cif|pcapng; or tells a free UDP port: lanes.py port; or sends datagrams there: lanes.py sent PORT."""
import io
import pathlib
import random
import socket
import struct
import sys

sys.dont_write_bytecode = True
sys.path.insert(0, str(pathlib.Path(__file__).parent.parent / "examples"))
import udp_lane  # noqa: E402
from make_examples import group_header, intra, grey_picture, picture_header, striped_picture  # noqa: E402

PICTURES = [striped_picture(), grey_picture(), striped_picture()]


def octets_of(bits):
    return bytes(int(bits[at : at + 8].ljust(8, "0"), 2) for at in range(0, len(bits), 8))


def packet(number, stamp, is_last, bits, begin, end, padded):
    """A packet with the bits of a picture from `begin` to `end`, which has the octets that hold them. It may have a
    source, an extension of a word and four octets of padding."""
    payload = bytes([begin % 8 << 5 | -end % 8 << 2 | 1, 0, 0, 0]) + octets_of((begin % 8 * "1" + bits[begin:end]).ljust(1, "1"))
    first, extra, behind = (0xB1, bytes(4) + bytes([1, 2, 0, 1]) + bytes(4), bytes([9, 9, 9, 4])) if padded else (0x80, b"", b"")
    fixed = bytes([first, 0x80 * is_last | 31]) + number.to_bytes(2, "big") + stamp.to_bytes(4, "big") + b"lane"
    return fixed + extra + payload + behind


def many():
    """Three pictures, each cut into pieces of 1,001 bits, with a piece of an earlier picture before them."""
    packets = [packet(0, 0, True, grey_picture(), 4000, 6000, False)]
    for count, bits in enumerate(PICTURES, 1):
        for begin in range(0, len(bits), 1001):
            end = min(begin + 1001, len(bits))
            packets.append(packet(len(packets), 3003 * count, end == len(bits), bits, begin, end, len(packets) % 3 == 1))
    return packets


def framed(packets):
    return b"".join(len(it).to_bytes(2, "big") + it for it in packets)


def rtp(number, source, stamp=0, more=b""):
    """An RTP packet of a source with nothing that a picture has."""
    return b"\x80\x1f" + number.to_bytes(2, "big") + stamp.to_bytes(4, "big") + source + more


RTP = [rtp(7, b"lane"), rtp(8, b"lane", more=bytes(8))]
RTCP = [b"\x80\xc8" + bytes(26), b"\x81\xc9" + bytes(6)]
DATAGRAMS = [RTP[0], RTCP[0], RTP[1], RTCP[1], b"\x80\x1f"]

# What comes of a sender that ends, of another that begins, of the first one again at once, and of it after a silence; each with
# its second, and the number that it is to have, or None where it is to be left out.
SENDERS = [
    (0.0, rtp(65535, b"left"), 65535),
    (0.1, rtp(0, b"left"), 0),
    (0.2, rtp(65534, b"left"), 65534),
    (0.3, rtp(30000, b"next"), 2),
    (0.4, rtp(30001, b"next"), 3),
    (0.5, rtp(1, b"left"), None),
    (0.6, rtp(29999, b"next"), 1),
    (1.7, rtp(2, b"left"), 5),
    (1.8, rtp(3, b"left"), 6),
]


def noisy(tr):
    """A picture whose groups are longer than the shortest packet, with coefficients that are drawn."""
    chosen = random.Random(tr)
    groups = []
    for number in (1, 3, 5):
        macroblocks = (intra("01000000" + "".join(escape(chosen) for _ in range(3)), "01000000") for _ in range(33))
        groups.append(group_header(number, 8) + "".join(macroblocks))
    return picture_header(tr, "000011") + "".join(groups)


def escape(chosen):
    """A coefficient behind an escape, with a run and a level that are drawn."""
    return "000001" + format(chosen.randrange(1, 4), "06b") + format(chosen.randrange(1, 100), "08b")


def udp(packet, port):
    return struct.pack(">HHHH", 9, port, 8 + len(packet), 0) + packet


def ip(datagram, fragment=0x4000):
    return struct.pack(">BBHHHBBH8x", 0x46, 0, 24 + len(datagram), 0, fragment, 9, 17, 0) + bytes(4) + datagram


def ip6(datagram):
    return struct.pack(">IHBB32x", 6 << 28, len(datagram), 17, 9) + datagram


def block(kind, body):
    body += bytes(-len(body) % 4)
    return struct.pack(">II", kind, 12 + len(body)) + body + struct.pack(">I", 12 + len(body))


def pcapng():
    """A capture of two interfaces, one that counts in nanoseconds, with two streams and what is passed over."""
    ethernet = bytes(12) + b"\x81\0\0\7\x08\0"
    cooked = b"\x86\xdd" + bytes(18)
    frames = [
        (0, 1500000000 * 10**9, ethernet + ip(udp(RTP[0], 5004))),
        (1, 1500000000 * 10**6 + 250000, cooked + ip6(udp(RTP[0], 5006))),
        (0, 1500000000 * 10**9 + 500, ethernet + ip(udp(RTCP[0], 5004))),
        (0, 1500000000 * 10**9 + 600, ethernet + ip(udp(RTP[1], 5004), 0x2000)),
        (0, 1500000000 * 10**9 + 700, bytes(12) + b"\x08\x06" + bytes(28)),
        (0, 1500000001 * 10**9 + 1600, ethernet + ip(udp(RTP[1], 5004))),
    ]
    yield block(0x0A0D0D0A, struct.pack(">IHHq", 0x1A2B3C4D, 1, 0, -1))
    yield block(1, struct.pack(">HHIHHB3x", 1, 0, 65535, 9, 1, 9) + bytes(4))
    yield block(1, struct.pack(">HHI", 276, 0, 65535))
    for interface, time, frame in frames:
        yield block(6, struct.pack(">IIIII", interface, time >> 32, time & 0xFFFFFFFF, len(frame), len(frame)) + frame)


def main(name, sink):
    if name == "many":
        sink.write(framed(many()))
    elif name == "bare":
        sink.write(b"".join(octets_of(bits) for bits in PICTURES))
    elif name == "cut":
        sink.write(framed(many())[:-1])
    elif name == "short":
        sink.write(framed([bytes(11)]))
    elif name == "lost":
        packets = many()
        sink.write(framed(packets[:4] + packets[5:]))
    elif name == "unusable":
        packets = many()
        sink.write(framed([*packets[:4], b"junk", *packets[4:]]))
    elif name == "jumping":
        stamps = [0, 3003, 900000000, 900003003]
        sink.write(framed([rtp(count, b"lane", stamp) for count, stamp in enumerate(stamps)] + [rtp(9, b"next", 77)]))
    elif name == "junk":
        sink.write(framed([b"junk", *RTCP, *many()]))
    elif name == "numbered":
        times = io.StringIO()
        counts = udp_lane.record(((second, packet) for second, packet, _ in SENDERS), sink, times)
        print("packets: %d; left out: %d; senders: %d; times:" % counts, *times.getvalue().split(), file=sys.stderr)
    elif name == "noisy":
        sink.write(b"".join(octets_of(noisy(tr)) for tr in (3, 4, 8, 7)))
    elif name == "cif":
        sink.write(octets_of(picture_header(0, "000111") + group_header(1, 8)))
    elif name == "pcapng":
        sink.writelines(pcapng())
    elif name == "port":
        with socket.socket(socket.AF_INET, socket.SOCK_DGRAM) as its:
            its.bind(("", 0))
            print(its.getsockname()[1])
    elif name == "sent":
        with socket.socket(socket.AF_INET, socket.SOCK_DGRAM) as its:
            for datagram in DATAGRAMS:
                its.sendto(datagram, ("127.0.0.1", int(sys.argv[2])))
    elif name == "renumbered":
        sink.write(framed([packet[:2] + number.to_bytes(2, "big") + packet[4:] for _, packet, number in SENDERS if number is not None]))
    elif name == "frames":
        sink.write(framed(RTP))


if __name__ == "__main__":
    main(sys.argv[1], sys.stdout.buffer)

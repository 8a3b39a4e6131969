#!/usr/bin/env python3
"""Makes a lane of bare H.261 video: lane_of_h261.py [--mtu=N] < VIDEO.h261 > LANE

VIDEO.h261 has QCIF pictures, as `ffmpeg -f h261` writes them. LANE gets them as framed RTP packets (RFC 4571, RFC 4587), each
picture cut before groups of blocks, where a packet needs nothing of those before it: as many groups in a packet as N octets
hold (1000 to 65535, else 1400), and a longer group in a packet of its own. Timestamps go by the pictures' temporal references,
in picture times of 1,001 / 30,000 seconds."""
import sys

from rtp_frames import Fault, framed
from words import number, options, told

START = "0000000000000001"
HEADERS = 16  # octets of the RTP header and the payload header
PICTURE_TIME = 3003  # ticks of the clock of 90 kHz
SOURCE = b"H261"


def starts(bits):
    """Where each start code begins, and the number behind it: 0 for a picture, else that of a group of blocks."""
    at = bits.find(START)
    while at >= 0:
        yield at, int(bits[at + 16 : at + 20] or "0", 2)
        at = bits.find(START, at + 16)


def pictures(bits):
    """The places at which a picture may be cut, and its end, for each picture."""
    places = []
    for at, group in starts(bits):
        if group == 0:
            if places:
                yield [*places, at]
            places = [at]
        # the first group goes with the picture's header
        elif group > 1 and places:
            places.append(at)
    if places:
        yield [*places, len(bits)]


def pieces(places, most):
    """The begin and end of each packet's bits: as many pieces as fit into so many octets, or one."""
    begin = places[0]
    for end, behind in zip(places[1:], [*places[2:], None]):
        if behind is None or octets(begin, behind) > most:
            yield begin, end
            begin = end


def octets(begin, end):
    """How many octets hold these bits."""
    return -(-end // 8) - begin // 8


def packet(count, stamp, is_last, video, begin, end):
    """An RTP packet with these bits of the video."""
    fixed = bytes([0x80, 0x80 * is_last | 31]) + count.to_bytes(2, "big") + stamp.to_bytes(4, "big") + SOURCE
    payload = bytes([begin % 8 << 5 | -end % 8 << 2 | 1, 0, 0, 0]) + video[begin // 8 : -(-end // 8)]
    if len(payload) > 65535 - 12:
        raise Fault("a group is longer than a packet")
    return fixed + payload


def packets(video, mtu):
    """The packets of all pictures."""
    bits = "".join(format(octet, "08b") for octet in video)
    count = stamp = 0
    before = None
    for number, places in enumerate(pictures(bits), 1):
        header = bits[places[0] + 20 : places[0] + 31].ljust(11, "0")
        reference = int(header[:5], 2)
        if header[8] == "1":
            raise Fault(f"picture {number} is CIF, and a lane has QCIF")
        if before is not None:
            stamp += PICTURE_TIME * ((reference - before) % 32 or 32)
        before = reference
        for begin, end in pieces(places, mtu - HEADERS):
            yield packet(count % (1 << 16), stamp % (1 << 32), end == places[-1], video, begin, end)
            count += 1
    if before is None:
        raise Fault("there is no picture")


if __name__ == "__main__":
    asked, names = options(sys.argv[1:], {"mtu": number(1000, 65535)})
    told(__doc__, sys.argv[1:], asked is not None and not names)
    written = 0
    try:
        for its in packets(sys.stdin.buffer.read(), asked.get("mtu", 1400)):
            sys.stdout.buffer.write(framed(its))
            written += 1
    except Fault as fault:
        sys.exit(f"lane_of_h261.py: after {written} packets: {fault}")
    print(f"lane_of_h261.py: {written} packets", file=sys.stderr)

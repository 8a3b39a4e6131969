#!/usr/bin/env python3
"""Writes the bare H.261 video of framed RTP packets: h261_of_frames.py < PACKETS > VIDEO.h261

Framing, RTP headers and payload headers go, and the bits of a picture's packets are joined. Each picture begins with an
octet of its own: zeros fill up the last one of the picture before. Players such as ffplay take the result. Each picture is
written as soon as it is there. One of which a packet is lost or not usable is left out, and the next one follows."""
import sys

from rtp_frames import Fault, bits_of, octets_of, pictures
from words import told

if __name__ == "__main__":
    told(__doc__, sys.argv[1:], len(sys.argv) == 1)
    count = 0
    try:
        for packets in pictures(sys.stdin.buffer):
            sys.stdout.buffer.write(octets_of(bits_of(packets))[0])
            sys.stdout.buffer.flush()
            count += 1
    except Fault as fault:
        sys.exit(f"h261_of_frames.py: after {count} pictures: {fault}")
    except BrokenPipeError:
        sys.exit(f"h261_of_frames.py: after {count} pictures: nobody reads any more")
    print(f"h261_of_frames.py: {count} picture{'s' * (count != 1)}", file=sys.stderr)

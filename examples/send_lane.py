#!/usr/bin/env python3
"""Sends the packets of recorded lanes as if they came now: send_lane.py LANE > FIFO

LANE holds framed RTP packets with QCIF video, and LANE.times beside it, where it is there, the second at which each came
(udp_lane.py writes both); else the packets' timestamps say it. Each packet is written at once when its time has come,
counted from the first one."""
import sys
import time

from conference_of_lanes import read_lanes
from rtp_frames import Fault, framed
from words import told


def send(packets, out):
    """Writes each packet when its time has come."""
    began = time.monotonic()
    for due, packet in packets:
        time.sleep(max(0.0, began + float(due) - time.monotonic()))
        out.write(framed(packet))
        out.flush()


if __name__ == "__main__":
    told(__doc__, sys.argv[1:], len(sys.argv) == 2)
    try:
        send(next(read_lanes(sys.argv[1:])), sys.stdout.buffer)
    except BrokenPipeError:
        sys.exit("send_lane.py: nobody reads any more")
    except (Fault, OSError) as fault:
        sys.exit(f"send_lane.py: {fault}")

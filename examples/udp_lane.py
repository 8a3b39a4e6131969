#!/usr/bin/env python3
"""Takes RTP packets from a UDP port and writes them as frames: udp_lane.py [--silence=SECONDS] PORT LANE

Each packet is written as a frame (RFC 4571) as soon as it comes. LANE is a FIFO that `live` reads, a file for a recording,
or - for standard output. Beside a file, LANE.times gets a line for each packet with the second at which it came, counted
from midnight of 1 January 1970, so that lanes that are recorded side by side stay in step.

It says when it listens; where the port is taken, LANE is left as it was. It ends at an interrupt or SIGTERM, where LANE is
read no more, or where nothing more comes for so many seconds after a packet.

Left out are RTCP packets that share the port (RFC 5761), since a reader of frames takes them for RTP, and what is no RTP.
Where another sender begins (a new SSRC), its packets are numbered on from those before, with one number left out: a
receiver sees a loss, and not packets that are late for minutes. The former sender is left out until the new one has been
silent for a second."""
import os
import select
import signal
import socket
import stat
import sys
import time

from rtp_frames import framed, is_rtcp, is_rtp, number_of, ssrc_of
from words import number, options, seconds, told

SILENT = 1.0  # seconds after which a former sender may come back


class Sender:
    """The sender whose packets are taken, and how they are numbered."""

    def __init__(self):
        self.ssrc = None
        self.senders = 0
        self.shift = 0
        self.newest = None
        self.heard = 0.0
        self.former = set()

    def numbered(self, second, packet):
        """The packet with its number among those of all senders, or None where it is of a former one."""
        if self.ssrc != ssrc_of(packet) and not self.begins(second, packet):
            return None
        self.heard = second
        number = (number_of(packet) + self.shift) % (1 << 16)
        if self.newest is None or (number - self.newest) % (1 << 16) < 1 << 15:
            self.newest = number
        return packet[:2] + number.to_bytes(2, "big") + packet[4:]

    def begins(self, second, packet):
        """Whether the packet's sender takes over from the one before."""
        if ssrc_of(packet) in self.former and second < self.heard + SILENT:
            return False
        if self.ssrc is not None:
            self.former.add(self.ssrc)
            self.shift = self.newest + 2 - number_of(packet)
        self.ssrc = ssrc_of(packet)
        self.former.discard(self.ssrc)
        self.senders += 1
        return True


def record(datagrams, lane, times):
    """Writes each packet as a frame, and its time as a line where there is a file of times. Gives how many were written and
    how many left out, and how often a sender began."""
    sender = Sender()
    written = left_out = 0
    for second, datagram in datagrams:
        packet = sender.numbered(second, datagram) if is_rtp(datagram) and not is_rtcp(datagram) else None
        if packet is None:
            left_out += 1
            continue
        lane.write(framed(packet))
        lane.flush()
        if times:
            times.write(f"{second:.6f}\n")
            times.flush()
        written += 1
    return written, left_out, sender.senders


def ended_by_signals():
    """A socket that has something to read once the script is to end."""
    reader, writer = socket.socketpair()
    writer.setblocking(False)
    signal.set_wakeup_fd(writer.fileno())
    for its in (signal.SIGINT, signal.SIGTERM):
        signal.signal(its, lambda *_: None)
    return reader, writer


def received(port, silence):
    """The datagrams that come to a socket, each with its second, until a signal ends it or they cease."""
    ended, writer = ended_by_signals()
    wait = None
    while True:
        ready, _, _ = select.select([port, ended], [], [], wait)
        if port not in ready:
            break
        yield time.time(), port.recv(65535)
        wait = silence
    writer.close()


def opened(name):
    """The file or FIFO of a lane, and the file of times beside a file."""
    if name == "-":
        return sys.stdout.buffer, None
    lane = open(name, "wb", buffering=0)
    if stat.S_ISREG(os.fstat(lane.fileno()).st_mode):
        return lane, open(name + ".times", "w", encoding="ascii")
    return lane, None


def main(port, name, silence=None):
    with socket.socket(socket.AF_INET, socket.SOCK_DGRAM) as its:
        its.bind(("", port))
        print(f"udp_lane.py: listening on port {port}", file=sys.stderr, flush=True)
        lane, times = opened(name)
        counts = record(received(its, silence), lane, times)
    print("udp_lane.py: RTP packets: %d; left out: %d; senders: %d" % counts, file=sys.stderr)


if __name__ == "__main__":
    asked, names = options(sys.argv[1:], {"silence": seconds})
    is_port = number(1, 65535)
    told(__doc__, sys.argv[1:], asked is not None and len(names) == 2 and is_port(names[0]))
    try:
        main(int(names[0]), names[1], **asked)
    except BrokenPipeError:
        sys.exit("udp_lane.py: nobody reads any more")
    except OSError as fault:
        sys.exit(f"udp_lane.py: {fault}")

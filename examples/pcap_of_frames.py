#!/usr/bin/env python3
"""Makes a capture of a lane: pcap_of_frames.py [--port=N] LANE > CAPTURE

LANE holds framed RTP packets (RFC 4571), a lane or what the program wrote. CAPTURE is a pcap file as Wireshark and tshark read
it: each packet over UDP from this computer to itself, to port N (1 to 65535, else 5004). Where a file LANE.times stands beside
it, it says when each packet came; else the packets' timestamps say it, from the second 0 on. Wireshark shows RTP where it is
told so: Decode As, or tshark -d udp.port==5004,rtp."""
import struct
import sys

from conference_of_lanes import read_lane, times_by_stamps
from rtp_frames import Fault
from words import number, options, told

RAW_IP = 101
HOST = bytes([127, 0, 0, 1])
MOST = 65507  # octets of a UDP datagram over IPv4


def checksum(octets):
    """The checksum of a header (RFC 791)."""
    total = sum(struct.unpack(f">{len(octets) // 2}H", octets))
    while total >> 16:
        total = (total & 0xFFFF) + (total >> 16)
    return ~total & 0xFFFF


def ip_packet(packet, port):
    """An RTP packet over UDP over IPv4."""
    if len(packet) > MOST:
        raise Fault("a packet is longer than a datagram")
    udp = struct.pack(">HHHH", port, port, 8 + len(packet), 0) + packet
    header = struct.pack(">BBHHHBBH4s4s", 0x45, 0, 20 + len(udp), 0, 0x4000, 64, 17, 0, HOST, HOST)
    return header[:10] + checksum(header).to_bytes(2, "big") + header[12:] + udp


def record(second, packet):
    """A packet with its second as a pcap file has it."""
    parts = round(second * 10**6)
    return struct.pack("<IIII", parts // 10**6, parts % 10**6, len(packet), len(packet)) + packet


def capture(name, port):
    """A pcap file of a lane."""
    packets, times = read_lane(name)
    seconds = times or list(times_by_stamps(name, packets))
    begins = min(0, *seconds) if seconds else 0
    yield struct.pack("<IHHiIII", 0xA1B2C3D4, 2, 4, 0, 0, 65535, RAW_IP)
    for second, packet in zip(seconds, packets):
        yield record(second - begins, ip_packet(packet, port))


if __name__ == "__main__":
    asked, names = options(sys.argv[1:], {"port": number(1, 65535)})
    told(__doc__, sys.argv[1:], asked is not None and len(names) == 1)
    try:
        sys.stdout.buffer.writelines(capture(names[0], asked.get("port", 5004)))
    except (Fault, OSError) as fault:
        sys.exit(f"pcap_of_frames.py: {fault}")

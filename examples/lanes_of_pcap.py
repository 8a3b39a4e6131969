#!/usr/bin/env python3
"""Takes lanes out of a capture: lanes_of_pcap.py [--type=N] CAPTURE PREFIX

CAPTURE is what Wireshark, tshark or tcpdump write (pcap or pcapng; Ethernet, Linux cooked, loopback or raw IP). Each stream of
RTP packets with payload type N (0 to 127, else 31, H.261) over UDP, told by the port to which it goes and its SSRC, becomes a
lane PREFIX-PORT-SSRC.rtp of frames (RFC 4571), and PREFIX-PORT-SSRC.rtp.times has a line for each packet with its second.
RTCP, fragments of IP packets, and all else are passed over."""
import collections
import fractions
import struct
import sys

from rtp_frames import Fault, framed, is_rtcp, is_rtp, ssrc_of
from words import number, options, told

ETHERNET, LOOPBACK, OPEN_LOOPBACK, RAW, COOKED, COOKED_2 = 1, 0, 108, (12, 14, 101, 228, 229), 113, 276
VLAN, IP = (0x8100, 0x88A8), (0x0800, 0x86DD)

SECTION, INTERFACE, PACKET = 0x0A0D0D0A, 1, 6
RESOLUTION = 9  # the option of an interface that tells of what its times are counted


def pcap(octets):
    """The packets of a pcap file, each with its second and its kind of link."""
    order = {b"\xd4\xc3\xb2\xa1": "<", b"\xa1\xb2\xc3\xd4": ">", b"\x4d\x3c\xb2\xa1": "<", b"\xa1\xb2\x3c\x4d": ">"}[octets[:4]]
    parts = 10**9 if b"\x3c" in octets[1:3] else 10**6
    (link,) = struct.unpack_from(order + "I", octets, 20)
    at = 24
    while at + 16 <= len(octets):
        whole, part, size, _ = struct.unpack_from(order + "IIII", octets, at)
        yield whole + fractions.Fraction(part, parts), link & 0xFFFF, octets[at + 16 : at + 16 + size]
        at += 16 + size


def blocks(octets):
    """The blocks of a pcapng file: the order of their octets, their kind and what they hold."""
    at, order = 0, "<"
    while at + 12 <= len(octets):
        if octets[at : at + 4] == b"\x0a\x0d\x0d\x0a":
            order = "<" if octets[at + 8 : at + 12] == b"\x4d\x3c\x2b\x1a" else ">"
        kind, size = struct.unpack_from(order + "II", octets, at)
        if size < 12 or size % 4 or at + size > len(octets):
            raise Fault(f"the block at {at} is not whole")
        yield order, kind, octets[at + 8 : at + size - 4]
        at += size


def unit(order, body):
    """Of what the times of an interface are counted, in seconds."""
    at = 8
    while at + 4 <= len(body):
        code, size = struct.unpack_from(order + "HH", body, at)
        if code == RESOLUTION:
            value = body[at + 4]
            return fractions.Fraction(1, 2 ** (value & 127) if value & 128 else 10**value)
        at += 4 + size + -size % 4
    return fractions.Fraction(1, 10**6)


def pcapng(octets):
    """The packets of a pcapng file in the same way."""
    interfaces = []
    for order, kind, body in blocks(octets):
        if kind == SECTION:
            interfaces = []
        elif kind == INTERFACE:
            interfaces.append((struct.unpack_from(order + "H", body)[0], unit(order, body)))
        elif kind == PACKET:
            which, high, low, size, _ = struct.unpack_from(order + "IIIII", body)
            link, its = interfaces[which]
            yield (high << 32 | low) * its, link, body[20 : 20 + size]


def captured(octets):
    if octets[:4] == b"\x0a\x0d\x0d\x0a":
        return pcapng(octets)
    if octets[:4] in (b"\xd4\xc3\xb2\xa1", b"\xa1\xb2\xc3\xd4", b"\x4d\x3c\xb2\xa1", b"\xa1\xb2\x3c\x4d"):
        return pcap(octets)
    raise Fault("this is no capture")


def ip_packet(link, frame):
    """The IP packet of a frame, or nothing."""
    if link == ETHERNET:
        at = 12
        while int.from_bytes(frame[at : at + 2], "big") in VLAN:
            at += 4
        return frame[at + 2 :] if int.from_bytes(frame[at : at + 2], "big") in IP else b""
    if link == COOKED:
        return frame[16:] if int.from_bytes(frame[14:16], "big") in IP else b""
    if link == COOKED_2:
        return frame[20:] if int.from_bytes(frame[:2], "big") in IP else b""
    if link in (LOOPBACK, OPEN_LOOPBACK):
        return frame[4:]
    return frame if link in RAW else b""


def udp_datagram(packet):
    """The UDP datagram of an IP packet, or nothing."""
    if len(packet) >= 20 and packet[0] >> 4 == 4:
        is_whole = int.from_bytes(packet[6:8], "big") & 0x3FFF == 0
        end = int.from_bytes(packet[2:4], "big") or len(packet)
        return packet[4 * (packet[0] & 15) : end] if packet[9] == 17 and is_whole else b""
    if len(packet) >= 40 and packet[0] >> 4 == 6 and packet[6] == 17:
        return packet[40:]
    return b""


def streams(octets, kind):
    """The RTP packets of this payload type, by port and SSRC, each with its second."""
    found = collections.defaultdict(list)
    for second, link, frame in captured(octets):
        datagram = udp_datagram(ip_packet(link, frame))
        packet = datagram[8 : int.from_bytes(datagram[4:6], "big")]
        if is_rtp(packet) and not is_rtcp(packet) and packet[1] & 127 == kind:
            found[int.from_bytes(datagram[2:4], "big"), ssrc_of(packet)].append((second, packet))
    return found


def main(capture, prefix, kind):
    with open(capture, "rb") as file:
        found = streams(file.read(), kind)
    for (port, ssrc), packets in found.items():
        name = f"{prefix}-{port}-{ssrc:08x}.rtp"
        with open(name, "wb") as lane, open(name + ".times", "w", encoding="ascii") as times:
            for second, packet in packets:
                lane.write(framed(packet))
                times.write(f"{float(second):.6f}\n")
        length = float(packets[-1][0] - packets[0][0])
        print(f"lanes_of_pcap.py: {name}: {len(packets)} packets, {length:.1f} seconds", file=sys.stderr)
    if not found:
        raise Fault(f"no RTP packet has payload type {kind}")


if __name__ == "__main__":
    asked, names = options(sys.argv[1:], {"type": number(0, 127)})
    told(__doc__, sys.argv[1:], asked is not None and len(names) == 2)
    try:
        main(*names, asked.get("type", 31))
    except (struct.error, IndexError):
        sys.exit("lanes_of_pcap.py: the capture is not whole")
    except (Fault, OSError) as fault:
        sys.exit(f"lanes_of_pcap.py: {fault}")

"""Frames of RTP packets with H.261 video (RFC 4571, RFC 3550, RFC 4587), for the scripts of this folder."""
import collections
import struct

# An RTP packet with H.261 video: its octets, whether it is the last one of a picture, and its bits as digits 0 and 1.
Packet = collections.namedtuple("Packet", "octets marker bits")

PICTURE_START = "00000000000000010000"


class Fault(Exception):
    """What is wrong with a stream or one of its packets."""


def frames(stream):
    """The packets of a stream, each with its length in two octets before it."""
    while head := stream.read(2):
        packet = stream.read(int.from_bytes(head, "big")) if len(head) == 2 else b""
        if len(head) < 2 or len(packet) < int.from_bytes(head, "big"):
            raise Fault("the stream ends inside a frame")
        yield packet


def framed(packet):
    """A packet with its length before it."""
    return struct.pack(">H", len(packet)) + packet


def is_rtcp(octets):
    """Whether the second octet is the type of an RTCP packet (RFC 5761, section 4)."""
    return len(octets) > 1 and 192 <= octets[1] <= 223


def is_rtp(octets):
    """Whether the fixed header of an RTP packet of version 2 is there."""
    return len(octets) >= 12 and octets[0] >> 6 == 2


def number_of(octets):
    """The sequence number of an RTP packet."""
    return int.from_bytes(octets[2:4], "big")


def stamp_of(octets):
    """The timestamp of an RTP packet."""
    return int.from_bytes(octets[4:8], "big")


def ssrc_of(octets):
    """The synchronization source of an RTP packet."""
    return int.from_bytes(octets[8:12], "big")


def payload_of(octets):
    """What stands between the headers of an RTP packet and its padding."""
    if not is_rtp(octets):
        raise Fault("no RTP packet of version 2")
    begin, end = 12 + 4 * (octets[0] & 15), len(octets)
    if octets[0] & 0x10:
        begin += 4 + 4 * int.from_bytes(octets[begin + 2 : begin + 4], "big")
    if octets[0] & 0x20:
        end -= octets[-1]
    if begin > end:
        raise Fault("an RTP packet ends inside its headers or its padding")
    return octets[begin:end]


def packet_of(octets):
    """The packet of these octets, with the bits that SBIT and EBIT leave of its payload."""
    payload = payload_of(octets)
    if len(payload) < 4:
        raise Fault("a packet has no H.261 payload header")
    first, last = payload[0] >> 5, payload[0] >> 2 & 7
    data = payload[4:]
    digits = format(int.from_bytes(data, "big"), f"0{8 * len(data)}b") if data else ""
    return Packet(octets, octets[1] >= 0x80, digits[first : len(digits) - last])


def pictures(stream):
    """The packets of each picture of a stream that is there whole, in its order. A packet that is missing or not usable costs
    the picture around it, and no more; what stands before a picture start is passed over."""
    packets, due = [], None
    for octets in frames(stream):
        try:
            packet = packet_of(octets)
        except Fault:
            packets, due = [], None
            continue
        if packet.bits.startswith(PICTURE_START):
            packets = [packet]
        elif packets and number_of(octets) == due:
            packets.append(packet)
        else:
            packets = []
        due = (number_of(octets) + 1) % (1 << 16)
        if packets and packet.marker:
            yield packets
            packets = []


def bits_of(packets):
    """The bits of a picture, from its packets."""
    return "".join(packet.bits for packet in packets)


def octets_of(bits):
    """Bits as octets, filled up with zeros, and how many zeros these are."""
    spare = -len(bits) % 8
    return int("0" + bits + spare * "0", 2).to_bytes((len(bits) + spare) // 8, "big"), spare

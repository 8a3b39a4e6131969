#!/usr/bin/env python3
"""Writes a conference file from recorded lanes: conference_of_lanes.py [--step=N] [--chair=FILE] LANE.. > CONFERENCE

Each LANE, up to 16 of them, holds framed RTP packets with QCIF video. Where a file LANE.times stands beside it, as
udp_lane.py writes it, it says when each packet came: one line of seconds for each, by one clock for all lanes. Else
the packets' timestamps say it, 90,000 a second from the lane's first packet on, which came when the conference began; where
another sender (SSRC) begins, time goes on from the packet before. A timestamp that jumps is told. RTCP packets and what is
no RTP are passed over.

Lanes are shown in places 1 to 4 in the order in which they are named, and those behind the fourth are not shown until
the chair calls them. FILE has the chair's commands (docs/CHAIR.md), one a line behind the second at which it is given, such
as "12.5 speaker 4", counted from the first packet of all; then nothing else places a lane. A line that says no command is
told, and nothing is written. A tick comes each N picture times of 1,001 / 30,000 seconds, from 1 to 31, else each one; the
last one comes behind the last packet."""
import fractions
import itertools
import pathlib
import sys

import words
from make_examples import END, header, order, sent, tick
from rtp_frames import Fault, frames, is_rtcp, is_rtp, ssrc_of, stamp_of

PICTURE_TIME = fractions.Fraction(1001, 30000)

# A jump of timestamps that is told of, in seconds.
JUMP = 10

# The commands of the chair, each with the ranges of its numbers: a place, or a lane.
PLACE, LANE = range(1, 5), range(16)
COMMANDS = {
    "place": (PLACE, LANE),
    "clear": (PLACE,),
    "swap": (PLACE, PLACE),
    "speaker": (LANE,),
    "pin": (PLACE,),
    "unpin": (PLACE,),
}

# What comes first where two come at the same time.
COMMAND, PACKET = 0, 1


def say(text):
    print(f"conference_of_lanes.py: {text}", file=sys.stderr)


def times_by_stamps(name, packets):
    """When each packet came, by its timestamp, which may wrap and run backwards."""
    time = 0
    for number, (before, packet) in enumerate(zip([*packets[:1], *packets], packets), 1):
        step = (stamp_of(packet) - stamp_of(before)) % (1 << 32)
        step -= (1 << 32) * (step >= 1 << 31)
        if ssrc_of(packet) != ssrc_of(before):
            say(f"{name}: another sender begins with packet {number}")
        else:
            time += step
            if abs(step) > 90000 * JUMP:
                say(f"{name}: the timestamp of packet {number} jumps by {step / 90000:.1f} seconds")
        yield fractions.Fraction(time, 90000)


def recorded_times(file, count):
    """When each packet of a lane came by the file beside it."""
    times = [seconds(line) for line in file.read_text().split()]
    if len(times) != count:
        raise Fault(f"{file} has {len(times)} times, and the lane has {count} packets")
    return times


def seconds(word):
    try:
        return fractions.Fraction(word)
    except (ValueError, ZeroDivisionError):
        raise Fault(f"{word} is no number of seconds") from None


def read_lane(name):
    """The RTP packets of a lane, with their recorded times or None."""
    with open(name, "rb") as stream:
        packets = list(frames(stream))
    beside = pathlib.Path(name + ".times")
    times = recorded_times(beside, len(packets)) if beside.exists() else None
    chosen = [is_rtp(packet) and not is_rtcp(packet) for packet in packets]
    if not all(chosen):
        say(f"{name}: {chosen.count(False)} packets are no RTP, and are passed over")
    return list(itertools.compress(packets, chosen)), times and list(itertools.compress(times, chosen))


def read_lanes(names):
    """The packets of each lane, each with its time from the beginning of the conference."""
    lanes = [read_lane(name) for name in names]
    began = min((times[0] for _, times in lanes if times), default=0)
    for name, (packets, times) in zip(names, lanes):
        known = (time - began for time in times) if times else times_by_stamps(name, packets)
        # what came behind another packet of its lane stays behind it
        yield list(zip(itertools.accumulate(known, max), packets))


def lane_events(number, packets):
    """The packets of a lane, each with its time, what it is, and its entry."""
    return [(time, PACKET, sent(number, packet)) for time, packet in packets]


def is_number(word, values):
    """Whether a word is one to three digits that say one of these values."""
    return word.isascii() and word.isdecimal() and len(word) <= 3 and int(word) in values


def is_command(line):
    """Whether a line says a command of the chair."""
    name, *numbers = line.split() or [""]
    ranges = COMMANDS.get(name, ())
    return name in COMMANDS and len(numbers) == len(ranges) and all(map(is_number, numbers, ranges))


def chair_events(file):
    """The commands of the chair in the same way."""
    for number, line in enumerate(pathlib.Path(file).read_text(encoding="utf-8").splitlines(), 1):
        second, command = [*line.split(maxsplit=1), "", ""][:2]
        if not second:
            continue
        if not is_command(command) or len(command.strip()) > 255:
            raise Fault(f"{file}, line {number}: no second with a command behind it: {line.strip()}")
        try:
            yield seconds(second), COMMAND, order(command.strip())
        except Fault as fault:
            raise Fault(f"{file}, line {number}: {fault}") from None


def opening(lanes):
    """The first four lanes are shown from the start."""
    return [(fractions.Fraction(0), COMMAND, order(f"place {lane + 1} {lane}")) for lane in range(min(lanes, 4))]


def conference(lanes, events, step):
    """The conference of these events, with a tick at each step until the last of them is behind, and its ticks."""
    entries = [header(lanes)]
    ticks = 0
    for time, _, entry in sorted(events, key=lambda event: event[:2]):
        while time >= (ticks + 1) * step * PICTURE_TIME:
            entries.append(tick(step))
            ticks += 1
        entries.append(entry)
    return b"".join([*entries, tick(step), END]), ticks + 1


def main(names, step=1, chair=None):
    events = opening(len(names)) if chair is None else list(chair_events(chair))
    for number, packets in enumerate(read_lanes(names)):
        events += lane_events(number, packets)
    written, ticks = conference(len(names), events, step)
    sys.stdout.buffer.write(written)
    say(f"{len(names)} lanes, {len(events)} packets and commands, {ticks} ticks, {float(ticks * step * PICTURE_TIME):.1f} seconds")


if __name__ == "__main__":
    asked, lanes = words.options(sys.argv[1:], {"step": words.number(1, 31), "chair": words.name})
    words.told(__doc__, sys.argv[1:], asked is not None and 1 <= len(lanes) <= 16)
    try:
        main(lanes, **asked)
    except (Fault, OSError, UnicodeDecodeError) as fault:
        sys.exit(f"conference_of_lanes.py: {fault}")

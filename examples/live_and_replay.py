#!/usr/bin/env python3
"""Shows that a live conference writes what its replay writes: live_and_replay.py PROGRAM CONFERENCE

The RTP packets of lane 0 of the conference file are sent to the program's command `live` through a FIFO by a process of
their own, and its ticks' steps through another one by a third; the chair places the lane. Which step came when is not
written down anywhere, but what a tick took shows in its picture. So a history is looked for that shows the same: between
two ticks so many packets come until, by the rule of takes (docs/TAKES.md), the next tick takes what its picture shows,
or nothing where that shows nothing. What comes to the lane with each packet is read off the program's `check` and
`replay`. The conference file of this history has to be replayed as the very octets that `live` wrote."""
import collections
import io
import multiprocessing
import os
import pathlib
import subprocess
import sys
import tempfile
import time

from make_examples import END, group_header, header, order, sent, tick
from rtp_frames import Fault, bits_of, framed, pictures
from words import told

PLACED = "place 1 0"
PICTURE_HEADER = 32
RING = 8  # pictures that a lane holds at most

# Seconds between the packets of a lane, and between ticks.
PACE = 0.01

# What comes to a lane: a picture, a refresh or not, with what follows the header of a CIF picture that shows it; or a gap.
Item = collections.namedtuple("Item", "is_picture is_refresh shown")

# The lane after so many packets and ticks: the serial that was taken last, and the one up to which all are taken or passed.
State = collections.namedtuple("State", "fed last low")


def entries(file):
    """The RTP packets of lane 0 and the steps of the ticks of a conference file."""
    packets, steps = [], []
    file.read(10)
    while (kind := file.read(1)) not in (b"E", b""):
        if kind == b"P":
            lane, packet = file.read(1)[0], file.read(int.from_bytes(file.read(2), "big"))
            is_rtp = len(packet) >= 12 and packet[0] >> 6 == 2 and not 192 <= packet[1] <= 223
            packets += [packet] * (lane == 0 and is_rtp)
        elif kind == b"C":
            file.read(file.read(1)[0])
        else:
            steps.append(file.read(1)[0])
    return packets, steps


def send(pieces, path):
    """Writes pieces to a FIFO, one after another at the pace, as long as they are read."""
    try:
        with open(path, "wb", buffering=0) as out:
            for piece in pieces:
                out.write(piece)
                time.sleep(PACE)
    except BrokenPipeError:
        pass


def live(program, packets, steps):
    """What the program writes of a conference of one lane with these packets and steps."""
    with tempfile.TemporaryDirectory() as room:
        lane, timer, chair, output = (pathlib.Path(room, name) for name in ("lane", "timer", "chair", "output"))
        os.mkfifo(lane)
        os.mkfifo(timer)
        chair.write_text(PLACED + "\n")
        senders = [
            multiprocessing.Process(target=send, args=([framed(packet) for packet in packets], lane)),
            multiprocessing.Process(target=send, args=([b"%d\n" % step for step in steps], timer)),
        ]
        for sender in senders:
            sender.start()
        words = [program, "live", f"--lanes={lane}", f"--chair={chair}"]
        with open(timer, "rb") as ticks, open(output, "wb") as written:
            subprocess.run(words, stdin=ticks, stdout=written, check=True)
        for sender in senders:
            sender.join()
        return output.read_bytes()


def answer(program, command, octets):
    """What a command of the program writes."""
    return subprocess.run([program, command], input=octets, stdout=subprocess.PIPE, stderr=subprocess.DEVNULL, check=False).stdout


def shown_in(written):
    """What follows the header of each picture that was written."""
    return [bits_of(packets)[PICTURE_HEADER:] for packets in pictures(io.BytesIO(written))]


def is_refresh(line):
    """Whether a line of a report tells a picture with all macroblocks, each of them Intra."""
    return line[0] == b"picture" and line[-3] == b"99" and line[-1] == b"99"


def items_of(program, packets):
    """What comes to the lane with each of the packets: what `check` tells after it and not before. What a picture looks
    like is what a conference shows with a tick after each packet, for which no picture comes too late."""
    reports = [answer(program, "check", b"".join(map(framed, packets[:count]))).splitlines() for count in range(len(packets) + 1)]
    one_by_one = [header(1), order(PLACED), *(sent(0, packet) + tick(1) for packet in packets), END]
    shown = shown_in(answer(program, "replay", b"".join(one_by_one)))
    for before, now, picture in zip(reports, reports[1:], shown):
        lines = [line.split() for line in now[len(before) :]]
        if sum(line[0] == b"picture" for line in lines) > 1:
            raise Fault("two pictures end with one packet")
        yield [Item(line[0] == b"picture", is_refresh(line), picture) for line in lines]


def held_after(came, state):
    """The pictures of the lane that a tick looks at, with their serials: the newest eight that were not taken or passed."""
    items = [item for items in came[: state.fed] for item in items]
    return [(serial, item) for serial, item in enumerate(items, 1) if item.is_picture and serial > state.low][-RING:]


def ticked(came, state):
    """What a tick takes, and the state after it."""
    held = held_after(came, state)
    for serial, item in held:
        if item.is_refresh or serial == state.last + 1:
            return item.shown, State(state.fed, serial, serial)
    return None, State(state.fed, state.last, held[-1][0] if held else state.low)


def history(came, shown):
    """How many packets came before each tick, so that each tick shows what was shown; None where no such numbers are."""
    nothing = bits_of_nothing()
    tried = set()
    ways = [(State(0, -1, 0), iter(range(len(came) + 1)))]
    fed = []
    while len(fed) < len(shown):
        state, counts = ways[-1]
        for count in counts:
            taken, after = ticked(came, state._replace(fed=count))
            if (taken or nothing) == shown[len(fed)] and (len(fed), after) not in tried:
                tried.add((len(fed), after))
                fed.append(count)
                ways.append((after, iter(range(count, len(came) + 1))))
                break
        else:
            ways.pop()
            if not fed:
                return None
            fed.pop()
    return fed


def bits_of_nothing():
    """What follows the header of a CIF picture for which nothing was taken: twelve groups without macroblocks."""
    return "".join(group_header(number, 1) for number in range(1, 13))


def rebuilt(packets, steps, fed):
    """The conference file in which so many packets came before each tick."""
    entries = [header(1), order(PLACED)]
    for before, now, step in zip([0, *fed], fed, steps):
        entries += [*(sent(0, packet) for packet in packets[before:now]), tick(step)]
    return b"".join([*entries, END])


def main(program, name):
    with open(name, "rb") as file:
        packets, steps = entries(file)
    came = list(items_of(program, packets))
    written = live(program, packets, steps)
    shown = shown_in(written)
    if len(shown) != len(steps):
        raise Fault(f"{len(steps)} ticks and {len(shown)} pictures")
    fed = history(came, shown)
    if fed is None:
        raise Fault("no history of the lane shows what was written")
    again = answer(program, "replay", rebuilt(packets, steps, fed))
    taken = sum(picture != bits_of_nothing() for picture in shown)
    print(f"live_and_replay.py: {len(steps)} ticks took {taken} pictures; the replay has "
          f"{'the same' if again == written else 'OTHER'} octets: {len(written)}", file=sys.stderr)
    return again != written


if __name__ == "__main__":
    told(__doc__, sys.argv[1:], len(sys.argv) == 3)
    try:
        sys.exit(main(*sys.argv[1:]))
    except (Fault, OSError, subprocess.CalledProcessError) as fault:
        sys.exit(f"live_and_replay.py: {fault}")

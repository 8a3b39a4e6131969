#!/usr/bin/env python3
"""Reads a conference file and the lines that `history` writes of it, and ends with status 1 where a line is wrong, is missing
or stands too much: history.py CONFERENCE LINES

Made from docs/FORMATS.md, docs/CHAIR.md and docs/TAKES.md alone. It follows the packets of each lane to the units that they
make, the chair's commands to their replies, and the ticks to what they take. What a unit is, it does not judge, since it reads
no H.261: that it is a picture, of which kind and size, or a gap, why and at which bit, it takes from the line."""
import re
import sys

LANES, PLACES, HELD, SENT = 16, (1, 2, 3, 4), 8, 99
START = "00000000000000010000"
WHYS = """NoStart WrongFormat StillImage BadGroup BadQuant TooLong NoCode Cut BadAddress BadVector VectorOutside BadDc BadLevel
TooMany""".split()
PICTURE = re.compile(r"picture lane (\d+) serial (\d+) (refresh|change) bits (\d+) macroblocks (\d+)")
FAULT = re.compile(r"gap lane (\d+) serial (\d+) (\w+) at (\d+)")
COMMANDS = {"place": "qc", "clear": "q", "swap": "qq", "speaker": "c", "pin": "q", "unpin": "q"}


class Wrong(Exception):
    """What is the matter with the lines."""


# ---- the conference file


def entries(octets):
    """The number of lanes, then the whole entries: the place of each, its kind and what it holds."""
    if octets[:9] != b"H261CONF\1" or not 1 <= (octets[9:10] or b"\0")[0] <= LANES:
        return
    yield octets[9]
    at = 10
    while at < len(octets):
        kind, size = octets[at : at + 1], 1
        if kind == b"P":
            size = 4 + int.from_bytes(octets[at + 2 : at + 4], "big")
        elif kind == b"C":
            size = 2 + int.from_bytes(octets[at + 1 : at + 2], "big")
        elif kind == b"T":
            size = 2
        entry = octets[at : at + size]
        if len(entry) < size or kind == b"P" and (size < 4 or entry[1] >= octets[9]):
            return
        if kind == b"P":
            yield at, kind, (entry[1], entry[4:])
        elif kind == b"C" and (command := command_of(entry[2:])):
            yield at, kind, command
        elif kind == b"T" and 1 <= entry[1] <= 31:
            yield at, kind, entry[1]
        elif kind == b"E":
            yield at, kind, None
            return
        else:
            return
        at += size


def command_of(line):
    """The name and the numbers that a line of the chair says, or None."""
    name, *numbers = [word.decode("latin-1") for word in re.split(rb"[ \t\r]+", line) if word] or [""]
    kinds = COMMANDS.get(name)
    if kinds is None or len(numbers) != len(kinds) or not all(re.fullmatch("[0-9]{1,3}", n) for n in numbers):
        return None
    values = [int(n) for n in numbers]
    in_range = all(1 <= v <= 4 if kind == "q" else v < LANES for kind, v in zip(kinds, values))
    return (name, *values) if in_range else None


# ---- packets


def payload_of(packet):
    """What stands between the headers of an RTP packet and its padding, or None where it is none."""
    if len(packet) < 12 or packet[0] >> 6 != 2:
        return None
    at = 12 + 4 * (packet[0] & 15)
    if packet[0] & 16:
        if at + 4 > len(packet):
            return None
        at += 4 + 4 * int.from_bytes(packet[at + 2 : at + 4], "big")
    if at > len(packet):
        return None
    rest = packet[at:]
    if packet[0] & 32:
        if not rest or not 1 <= rest[-1] <= len(rest):
            return None
        rest = rest[: -rest[-1]]
    return rest


def bits_of(packet):
    """The bits that a packet brings, as digits, or None where it is not usable."""
    payload = payload_of(packet)
    if payload is None or len(payload) < 4:
        return None
    front, back = payload[0] >> 5, payload[0] >> 2 & 7
    digits = "".join(f"{octet:08b}" for octet in payload[4:])
    return digits[front : len(digits) - back] if front + back <= len(digits) else None


class Lane:
    """What came in a lane."""

    def __init__(self):
        self.last = None  # the number of the packet that counted last
        self.unit = None  # the timestamp and the number of bits of the unit that is not complete yet
        self.was_whole = False  # the packet that counted last completed a unit
        self.kinds = []  # of each serial: is it a refresh, or None for a gap
        self.low = 0  # the serials up to this one were taken or passed

    def hear(self, packet):
        """Why a packet does not count, or None; whether a loss is seen at it; and the bits of the unit that ends with it."""
        bits = bits_of(packet)
        if bits is None:
            return "unusable", False, None
        number, stamp, marker = int.from_bytes(packet[2:4], "big"), packet[4:8], packet[1] >> 7
        past = 0 if self.last is None else (number - self.last - 1) % 65536
        if past >= 32768:
            return ("repeated" if number == self.last else "late"), False, None
        self.last = number
        begins = bits.startswith(START)
        if self.unit and past == 0 and self.unit[0] == stamp:
            lost, size = False, self.unit[1] + len(bits)
        else:
            lost = bool(self.unit) or self.was_whole and not (past == 0 and begins)
            size = len(bits) if begins else None
        self.was_whole = size is not None and bool(marker)
        self.unit = None if size is None or marker else (stamp, size)
        return None, lost, size if self.was_whole else None

    def held(self):
        """The serials of the pictures that the lane holds."""
        return [s for s in range(self.low + 1, len(self.kinds) + 1) if self.kinds[s - 1] is not None][-HELD:]


# ---- the screen


class Screen:
    """Who stands where, and what was taken there last."""

    def __init__(self, lanes):
        self.lanes = [Lane() for _ in range(lanes)]
        self.at = dict.fromkeys(PLACES)
        self.last = dict.fromkeys(PLACES)
        self.pins = set()
        self.spoke = []  # the speakers, the newest first
        self.total = 0

    def place_of(self, lane):
        return next((q for q in PLACES if self.at[q] == lane), None)

    def refusal(self, name, numbers):
        if name in ("place", "speaker") and numbers[-1] >= len(self.lanes):
            return "NoLane"
        there = [self.at[q] for q in numbers] if name in ("clear", "swap") else None
        if (
            name == "place" and self.at[numbers[0]] == numbers[1]
            or name == "clear" and there == [None]
            or name == "swap" and (numbers[0] == numbers[1] or there == [None, None])
        ):
            return "SamePlace"
        if name == "speaker" and self.place_of(numbers[0]) is None and len(self.pins) == len(PLACES):
            return "AllPinned"
        return None

    def for_speaker(self):
        """The place that a speaker gets who stands in none."""
        free = [q for q in PLACES if q not in self.pins]
        empty = [q for q in free if self.at[q] is None]
        turns = {lane: turn for turn, lane in reversed(list(enumerate(self.spoke)))}
        return empty[0] if empty else max(free, key=lambda q: (turns.get(self.at[q], len(self.spoke)), -q))

    def put(self, lane, place):
        if (former := self.place_of(lane)) is not None:
            self.at[former] = None
        self.at[place] = lane

    def order(self, name, *numbers):
        """The reply to a command, which is carried out."""
        if refusal := self.refusal(name, numbers):
            return refusal
        before = dict(self.at)
        if name == "place":
            self.put(numbers[1], numbers[0])
        elif name == "clear":
            self.at[numbers[0]] = None
        elif name == "swap":
            p, q = numbers
            self.at[p], self.at[q] = self.at[q], self.at[p]
        elif name == "speaker":
            if self.place_of(numbers[0]) is None:
                self.put(numbers[0], self.for_speaker())
            self.spoke.insert(0, numbers[0])
        else:
            self.pins ^= {numbers[0]} if (name == "pin") != (numbers[0] in self.pins) else set()
        for q in PLACES:
            if self.at[q] != before[q]:
                self.last[q] = None
        return "Done"

    def take(self, place):
        """What a place takes: the lane and the serial, or None."""
        if (number := self.at[place]) is None:
            return None
        lane, last = self.lanes[number], self.last[place]
        held = lane.held()
        taken = next((s for s in held if lane.kinds[s - 1] or last is not None and s == last + 1), None)
        if held:
            lane.low = taken or held[-1]
        if taken is None:
            return None
        self.last[place] = taken
        return number, taken

    def waits(self, place):
        """Whether the lane of a place can go on there but by a refresh."""
        if (number := self.at[place]) is None:
            return False
        lane, last = self.lanes[number], self.last[place]
        return last is None or last < len(lane.kinds) and last + 1 not in lane.held()

    def tick(self, step):
        """The words of a tick."""
        self.total += step
        takes = [self.take(q) for q in PLACES]
        taken = " ".join("%d:%d" % take if take else "-" for take in takes)
        waiting = " ".join(str(c) for c in sorted({self.at[q] for q in PLACES if self.waits(q)})) or "-"
        return f"tick step {step} total {self.total} taken {taken} waiting {waiting}"


# ---- the lines


class Lines:
    """The lines that were written, one after the other."""

    def __init__(self, text):
        self.lines = text.split("\n")
        self.next = 0
        if self.lines.pop():
            raise Wrong(f"line {len(self.lines) + 1} has no end")

    def take(self, place):
        """The words of the next line, behind the place, which is judged."""
        if self.next == len(self.lines):
            raise Wrong(f"line {self.next + 1} is missing, of the entry at {place}")
        self.next += 1
        front, _, words = self.lines[self.next - 1].partition(" ")
        if front != str(place):
            raise Wrong(f"line {self.next}: of the entry at {front}, but it is at {place}")
        return words

    def want(self, place, words):
        found = self.take(place)
        if found != words:
            raise Wrong(f"line {self.next}: it says '{found}', but it should be '{words}'")

    def unit(self, place, number, lane, size):
        """A line of a unit of so many bits, which is a serial of its lane."""
        words, serial = self.take(place), len(lane.kinds) + 1
        if (found := PICTURE.fullmatch(words)) and words == words_again(found):
            kind, sent = found[3], int(found[5])
            is_right = sent <= SENT and (kind == "change" or sent == SENT)
            lane.kinds.append(kind == "refresh")
        elif (found := FAULT.fullmatch(words)) and words == words_again(found):
            is_right = found[3] in WHYS and int(found[4]) <= size
            lane.kinds.append(None)
        else:
            raise Wrong(f"line {self.next}: '{words}' is no unit")
        if not is_right or (int(found[1]), int(found[2])) != (number, serial):
            raise Wrong(f"line {self.next}: '{words}', at lane {number}, serial {serial}, of {size} bits")


def words_again(found):
    """The words of a line with its numbers written anew: without leading zeros."""
    return re.sub(r"\d+", lambda n: str(int(n[0])), found[0])


def told(screen, lines, place, number, packet):
    """Reads the lines of a packet."""
    lane = screen.lanes[number]
    idle, lost, size = lane.hear(packet)
    if idle:
        lines.want(place, f"packet lane {number} {idle}")
    if lost:
        lane.kinds.append(None)
        lines.want(place, f"gap lane {number} serial {len(lane.kinds)} lost")
    if size is not None:
        lines.unit(place, number, lane, size)


def read(octets, text):
    """Reads the lines of a conference, and gives their number."""
    lines, rows = Lines(text), entries(octets)
    screen = Screen(next(rows, 0))
    for place, kind, held in rows:
        if kind == b"P":
            told(screen, lines, place, *held)
        elif kind == b"C":
            lines.want(place, " ".join(["command", *map(str, held), screen.order(*held)]))
        else:
            lines.want(place, screen.tick(held) if kind == b"T" else "end")
    if lines.next != len(lines.lines):
        raise Wrong(f"line {lines.next + 1} stands too much: '{lines.lines[lines.next]}'")
    return lines.next


if __name__ == "__main__":
    if len(sys.argv) != 3:
        print(__doc__, file=sys.stderr)
        sys.exit(0 if sys.argv[1:] == ["--help"] else 2)
    with open(sys.argv[1], "rb") as conference, open(sys.argv[2], newline="") as written:
        try:
            count = read(conference.read(), written.read())
        except Wrong as wrong:
            sys.exit(f"history.py: {sys.argv[1]}: {wrong}")
    print(f"history.py: {count} lines are right")

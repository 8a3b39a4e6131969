#!/usr/bin/env python3
"""Draws the history of a conference as one SVG: timeline.py < LINES > SVG

LINES are what the program's command history writes. From left to right goes the time, a picture time of 1,001 / 30,000 seconds
a step. Above stands a row for each lane of which something came: a tall bar is a refresh, a short one another picture, a red
one a gap, and a dot below a packet that gave nothing. Below stands a row for each place of the screen, in the colour of the lane
that stands there: dark where a tick took a picture, pale where the place stood still, and hatched red where the conference
waited for a refresh of its lane. A grey line through all rows is a command, a red one a command that was refused. What a mark is
about stands in its title, which a viewer shows under the pointer."""
import re
import sys
from xml.sax.saxutils import escape

from words import told

SECOND = 30000 / 1001  # steps
LEFT, TOP, ROW, BAR, WIDTH = 90, 34, 30, 22, 1100
COLOURS = ["#1b6ca8", "#b5651d", "#2e7d4f", "#7b4ba0", "#8c6d1f", "#23807f", "#a03a6c", "#55606e"]
PLACES = ["top left", "top right", "bottom left", "bottom right"]
LINE = re.compile(r"(\d+) (packet|gap|picture|command|tick|end)(?: (.*))?")


class Unread(Exception):
    """A line that is none."""


class Screen:
    """Who stands where, by the commands that were done and by what was taken."""

    def __init__(self):
        self.at = [None] * 4

    def order(self, name, numbers):
        at = self.at
        if name == "place":
            self.at = [None if lane == numbers[1] else lane for lane in at]
            self.at[numbers[0] - 1] = numbers[1]
        elif name == "clear":
            at[numbers[0] - 1] = None
        elif name == "swap":
            p, q = (n - 1 for n in numbers)
            at[p], at[q] = at[q], at[p]


class Conference:
    """What is drawn of a conference: for each kind of mark a list, with the time of each."""

    def __init__(self):
        self.now = 0
        self.came, self.idle, self.orders, self.spans = [], [], [], []
        self.screen, self.speakers = Screen(), Speakers()

    def read(self, number, line):
        found = LINE.fullmatch(line)
        if not found:
            raise Unread(f"line {number} is none of a history: {line}")
        kind, words = found[2], (found[3] or "").split()
        try:
            getattr(self, kind)(line, words)
        except (IndexError, ValueError):
            raise Unread(f"line {number} is none of a history: {line}") from None

    def packet(self, line, words):
        self.idle.append((self.now, int(words[1]), line))

    def gap(self, line, words):
        self.came.append((self.now, int(words[1]), "gap", line))

    def picture(self, line, words):
        self.came.append((self.now, int(words[1]), words[4], line))

    def command(self, line, words):
        name, *numbers, reply = words
        numbers = [int(n) for n in numbers]
        if reply == "Done":
            self.speakers.order(name, numbers, self.screen)
            self.screen.order(name, numbers)
        self.orders.append((self.now, reply == "Done", line))

    def tick(self, line, words):
        step, taken = int(words[1]), words[5:9]
        waiting = [int(lane) for lane in words[10:] if lane != "-"]
        for place, take in enumerate(taken):
            lane = self.screen.at[place] if take == "-" else int(take.split(":")[0])
            self.screen.at[place] = lane
            state = "taken" if take != "-" else "waits" if lane in waiting else "still"
            if lane is not None:
                self.spans.append((self.now, self.now + step, place, lane, state, line))
        self.now += step

    def end(self, line, words):
        pass


class Speakers:
    """Which place a speaker gets."""

    def __init__(self):
        self.pins, self.turns = set(), []

    def order(self, name, numbers, screen):
        if name == "pin":
            self.pins.add(numbers[0] - 1)
        elif name == "unpin":
            self.pins.discard(numbers[0] - 1)
        elif name == "speaker":
            lane = numbers[0]
            if lane not in screen.at:
                screen.at[self.free(screen)] = lane
            self.turns = [lane] + [turn for turn in self.turns if turn != lane]

    def free(self, screen):
        open_places = [q for q in range(4) if q not in self.pins]
        empty = [q for q in open_places if screen.at[q] is None]
        age = {lane: turn for turn, lane in enumerate(self.turns)}
        return empty[0] if empty else max(open_places, key=lambda q: (age.get(screen.at[q], len(age)), -q))


# ---- drawing


def colour(lane):
    return COLOURS[lane % len(COLOURS)]


def mark(shape, title, **values):
    """A mark with its title."""
    words = " ".join(f'{name.replace("_", "-")}="{value}"' for name, value in values.items())
    return f"<{shape} {words}><title>{escape(title)}</title></{shape}>"


def box(x, y, width, height, fill, title):
    return mark("rect", title, x=f"{x:.1f}", y=f"{y:.1f}", width=f"{max(width, 1):.1f}", height=height, fill=fill)


def text(x, y, words, anchor="start", fill="#222"):
    return f'<text x="{x:.1f}" y="{y:.1f}" text-anchor="{anchor}" fill="{fill}">{escape(words)}</text>'


def line(x, top, bottom, stroke, title):
    ends = dict(x1=f"{x:.1f}", x2=f"{x:.1f}", y1=top, y2=bottom)
    return mark("line", title, **ends, stroke=stroke, stroke_width=1.5, stroke_dasharray="3 2")


def joined(spans):
    """Spans of one place that follow one another and are alike, as one; its title is that of the first."""
    made = []
    for span in spans:
        begins, ends, place, lane, state, words = span
        if made and state != "taken" and made[-1][1:5] == (begins, place, lane, state):
            made[-1] = (made[-1][0], ends, place, lane, state, made[-1][5])
        else:
            made.append(span)
    return made


def drawn(conference):
    """The drawing."""
    lanes = sorted({lane for _, lane, *_ in conference.came + conference.idle})
    places = sorted({place for _, _, place, *_ in conference.spans})
    scale = WIDTH / max(conference.now, 1)
    rows = {("lane", lane): TOP + ROW * n for n, lane in enumerate(lanes)}
    below = TOP + ROW * len(lanes) + 14
    rows.update({("place", place): below + ROW * n for n, place in enumerate(places)})
    bottom = below + ROW * len(places)

    def at(time):
        return LEFT + time * scale

    parts = [
        text(LEFT, 16, "refresh: tall; other picture: short; gap: red; packet that gave nothing: dot; command: dashed", fill="#555"),
        *(text(LEFT - 8, rows["lane", lane] + 16, f"lane {lane}", "end", colour(lane)) for lane in lanes),
        *(text(LEFT - 8, rows["place", place] + 16, PLACES[place], "end") for place in places),
    ]
    for place in places:
        for begins, ends, _, lane, state, words in joined([s for s in conference.spans if s[2] == place]):
            x, y, width = at(begins), rows["place", place], (ends - begins) * scale
            shade = box(x, y, width, BAR, colour(lane), f"lane {lane}: {words}")
            parts.append(shade if state == "taken" else shade.replace("<rect ", '<rect fill-opacity="0.25" ', 1))
            if state == "waits":
                parts.append(box(x, y, width, BAR, "url(#waits)", f"waits for lane {lane}: {words}"))
    for time, lane, kind, words in conference.came:
        height = BAR if kind != "change" else BAR // 2
        fill = "#c62828" if kind == "gap" else colour(lane)
        parts.append(box(at(time), rows["lane", lane] + BAR - height, 1.5, height, fill, words))
    for time, lane, words in conference.idle:
        parts.append(mark("circle", words, cx=f"{at(time):.1f}", cy=rows["lane", lane] + BAR + 4, r=2, fill="#c62828"))
    for time, is_done, words in conference.orders:
        parts.append(line(at(time), TOP - 8, bottom, "#999" if is_done else "#c62828", words))
    seconds = conference.now / SECOND
    every = next((n for n in (1, 2, 5, 10, 30, 60, 300, 600) if seconds / n <= 20), 3600)
    for n in range(int(seconds / every) + 1):
        parts.append(text(at(n * every * SECOND), bottom + 16, f"{n * every} s", "middle", "#555"))
    size = f'width="{LEFT + WIDTH + 20}" height="{bottom + 28}"'
    hatch = '<pattern id="waits" width="6" height="6" patternUnits="userSpaceOnUse" patternTransform="rotate(45)">'
    hatch += '<rect width="2" height="6" fill="#c62828" fill-opacity="0.6"/></pattern>'
    head = f'<svg xmlns="http://www.w3.org/2000/svg" {size} font-family="sans-serif" font-size="12">'
    return "\n".join([head, f"<defs>{hatch}</defs>", '<rect width="100%" height="100%" fill="white"/>', *parts, "</svg>", ""])


if __name__ == "__main__":
    told(__doc__, sys.argv[1:], len(sys.argv) == 1)
    conference = Conference()
    try:
        for number, row in enumerate(sys.stdin, 1):
            conference.read(number, row.rstrip("\n"))
    except Unread as unread:
        sys.exit(f"timeline.py: {unread}")
    sys.stdout.write(drawn(conference))

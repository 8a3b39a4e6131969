"""Checks what the program `compose` of a folder writes, and prints how its time compares to those of the programs `mover`
and `parse` there for the same pictures: measure_compose.py RUNS FOLDER"""
import pathlib
import sys

import codes
from measure import numbers, run

# the pictures of a file, and how often each program goes through them; what it does besides is taken from a run of one round
FILES = {"ten_kbit": 1000, "limit": 200}
ROUNDS = {"compose": 401, "mover": 4001, "parse": 21}
TR = 9


def texts(path):
    """The bits of each framed picture, as digits."""
    rest = path.read_bytes()
    while rest:
        length = int.from_bytes(rest[:4], "big")
        octets = (length + 7) // 8
        yield "".join(f"{octet:08b}" for octet in rest[4 : 4 + octets])[:length]
        rest = rest[4 + octets :]


def composed(four):
    """The composed picture of four strict texts. A start code stands nowhere else in a text; a picture's has one of groups in it."""
    places = [text.split(codes.GROUP_START)[2:] for text in four]
    words = [codes.PICTURE_START, f"{TR:05b}", "000111", "0"]
    for number in range(1, 13):
        row, column = divmod(number - 1, 2)
        group = places[2 * (row // 3) + column][row % 3]
        words += [codes.GROUP_START, f"{number:04b}", group[4:]]
    return "".join(words)


def check(folder, name):
    """That the composed pictures are the right ones, and that as many octets are moved. Gives the number of the latter."""
    pictures = list(texts(folder / name))
    wholes = [composed(pictures[i : i + 4]) for i in range(0, len(pictures), 4)]
    digest = 0x811C9DC5
    for digits in wholes:
        digits += "0" * (-len(digits) % 8)
        for octet in int(digits, 2).to_bytes(len(digits) // 8, "big"):
            digest = (digest ^ octet) * 0x01000193 % 2**32
    wanted = {"bits": sum(map(len, wholes)), "digest": digest}
    found = numbers(run(folder / "compose", 1, folder / name)[0])
    if found != wanted:
        sys.exit(f"measure_compose.py: {name}: composed {found}, which should be {wanted}")
    octets = sum((len(digits) + 7) // 8 for digits in wholes)
    if numbers(run(folder / "mover", 1, folder / name)[0]) != {"octets": octets}:
        sys.exit(f"measure_compose.py: {name}: the mover moves something else than {octets} octets")
    if numbers(run(folder / "parse", 1, folder / name)[0])["accepted"] != FILES[name]:
        sys.exit("measure_compose.py: some of the pictures are at fault")
    return octets


def main():
    runs, folder = int(sys.argv[1]), pathlib.Path(sys.argv[2])
    for name, pictures in FILES.items():
        ticks = pictures // 4
        octets = check(folder, name)
        times = {program: [] for program in ROUNDS}
        once = {program: [] for program in ROUNDS}
        for _ in range(runs):
            for program, rounds in ROUNDS.items():
                once[program].append(run(folder / program, 1, folder / name)[1])
                times[program].append(run(folder / program, rounds, folder / name)[1])
        # microseconds a tick
        best = {
            program: (min(times[program]) - min(once[program])) / (rounds - 1) / ticks * 1e6
            for program, rounds in ROUNDS.items()
        }
        print(
            f"{name}: {octets / ticks:.0f} octets a tick; compose {best['compose']:.2f} µs, memmove {best['mover']:.2f},"
            f" parse {best['parse']:.1f}, best of {runs} runs each: compose takes {best['compose'] / best['mover']:.1f}"
            f" times as long as memmove, and {best['compose'] / best['parse']:.3f} of the time of parse"
        )


if __name__ == "__main__":
    main()

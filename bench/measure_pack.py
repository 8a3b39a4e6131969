"""Checks what the program `pack` of a folder writes, and prints how its time and that of `compose` compare to those of the
programs `mover` and `parse` there for the same pictures: measure_pack.py RUNS FOLDER"""
import pathlib
import subprocess
import sys

from measure import numbers, run
from measure_compose import FILES, composed, texts

MTU = 1400
# how often each program goes through the pictures; what it does besides is taken from a run of one round
ROUNDS = {"compose": 401, "pack": 401, "mover": 4001, "parse": 21}


def framed(digits):
    """A CIF picture as the programs read it."""
    octets = (len(digits) + 7) // 8
    return (0x80000000 + len(digits)).to_bytes(4, "big") + int(digits.ljust(8 * octets, "0"), 2).to_bytes(octets, "big")


def brought(octets):
    """The bits that framed packets bring, of each run of packets up to one with the marker bit, and how many packets they are.
    Each picture is packed by a packer of its own, so its packets are numbered from 0."""
    pictures, digits, number, count = [], "", 0, 0
    while octets:
        length = int.from_bytes(octets[:2], "big")
        packet, octets = octets[2 : 2 + length], octets[2 + length :]
        first, second, *_ = packet
        if length > MTU or len(packet) < length or first != 0x80 or second % 128 != 31:
            sys.exit("measure_pack.py: that is no packet")
        if int.from_bytes(packet[2:4], "big") != number % 65536:
            sys.exit("measure_pack.py: the sequence numbers do not rise by 1")
        number, count = number + 1, count + 1
        before, behind = packet[12] >> 5, packet[12] >> 2 & 7
        bits = "".join(f"{octet:08b}" for octet in packet[16:])
        digits += bits[before : len(bits) - behind]
        if second >= 128:
            pictures.append(digits)
            digits, number = "", 0
    return pictures, count


def check(folder, name):
    """That the packets bring the composed pictures. Gives the number of octets, of packets, and of the composed pictures."""
    pictures = list(texts(folder / name))
    wholes = [composed(pictures[i : i + 4]) for i in range(0, len(pictures), 4)]
    (folder / f"{name}.cif").write_bytes(b"".join(map(framed, wholes)))
    with open(folder / f"{name}.cif", "rb") as input:
        octets = subprocess.run([folder / "pack", "0"], stdin=input, stdout=subprocess.PIPE, check=True).stdout
    found, packets = brought(octets)
    if found != wholes:
        sys.exit(f"measure_pack.py: {name}: the packets bring other pictures than were composed")
    if numbers(run(folder / "pack", 1, folder / f"{name}.cif")[0])["octets"] != len(octets):
        sys.exit(f"measure_pack.py: {name}: other octets are counted than were written")
    if numbers(run(folder / "parse", 1, folder / name)[0])["accepted"] != FILES[name]:
        sys.exit("measure_pack.py: some of the pictures are at fault")
    return len(octets), packets, len(wholes)


def main():
    runs, folder = int(sys.argv[1]), pathlib.Path(sys.argv[2])
    for name, pictures in FILES.items():
        octets, packets, ticks = check(folder, name)
        times = {program: [] for program in ROUNDS}
        once = {program: [] for program in ROUNDS}
        for _ in range(runs):
            for program, rounds in ROUNDS.items():
                path = folder / (f"{name}.cif" if program == "pack" else name)
                once[program].append(run(folder / program, 1, path)[1])
                times[program].append(run(folder / program, rounds, path)[1])
        # microseconds a tick
        best = {
            program: (min(times[program]) - min(once[program])) / (rounds - 1) / ticks * 1e6
            for program, rounds in ROUNDS.items()
        }
        both = best["compose"] + best["pack"]
        print(
            f"{name}: {packets / ticks:.1f} packets and {octets / ticks:.0f} octets a tick; compose {best['compose']:.2f} µs,"
            f" pack {best['pack']:.2f}, memmove {best['mover']:.2f}, parse {best['parse']:.1f}, best of {runs} runs each:"
            f" pack takes {best['pack'] / best['mover']:.1f} times as long as memmove, and compose and pack together"
            f" {both / best['parse']:.3f} of the time of parse"
        )


if __name__ == "__main__":
    main()

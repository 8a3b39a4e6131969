"""Checks what replay says of the conferences of a folder, and prints how it compares to the scanner there, which scans the same
pictures: measure_replay.py RUNS PROGRAM FOLDER"""
import pathlib
import subprocess
import sys

LANES = (1, 4, 8, 16)


def timed(folder, program, *words, source):
    """What the program wrote to its standard error and output, its processor time in seconds and its most resident memory in MB."""
    figures = folder.parent / "figures"
    with open(source, "rb") as octets:
        said = subprocess.run(
            [folder.parent / "timed", figures, program, *words], stdin=octets, capture_output=True, check=True
        )
    time, memory, status = map(int, figures.read_text().split())
    if status != 0:
        sys.exit(f"measure_replay.py: {program} ended with status {status}: {said.stderr.decode()}")
    return said, time / 1e6, memory / 1024


def replay(folder, program, lanes):
    """As `timed`, for a conference; its octets are not kept."""
    conference = folder / f"{lanes}.conf"
    return timed(folder, "/bin/sh", "-c", 'exec "$0" replay > /dev/null', program, source=conference)


def scan(folder, lanes):
    return timed(folder, folder.parent / "scanner", source=folder / f"{lanes}.pictures")


def tally(line):
    words = line.split()
    if words[:1] != ["done"]:
        sys.exit(f"measure_replay.py: replay said: {line}")
    return dict(zip(words[1::2], map(int, words[2::2])))


def ticks(folder, program, lanes):
    """How many ticks the conference has, in each of which each place that is taken shows another picture."""
    done = tally(replay(folder, program, lanes)[0].stderr.decode())
    accepted = int(scan(folder, lanes)[0].stdout.split()[1])
    found = done["pictures"], done["gaps"], done["refused"], done["taken"]
    wanted = accepted, 0, 0, min(lanes, 4) * done["ticks"]
    if found != wanted or accepted != lanes * done["ticks"]:
        sys.exit(f"measure_replay.py: {folder.name}, {lanes} lanes: {done}, and the scanner accepted {accepted} pictures")
    return done["ticks"]


def main():
    runs, program, top = int(sys.argv[1]), sys.argv[2], pathlib.Path(sys.argv[3])
    for folder in sorted(path for path in top.iterdir() if path.is_dir()):
        for lanes in LANES:
            count = ticks(folder, program, lanes)
            measured = [(replay(folder, program, lanes)[1:], scan(folder, lanes)[1]) for _ in range(runs)]
            mine = min(time for (time, _), _ in measured)
            its = min(time for _, time in measured)
            ratios = sorted(scanned / time for (time, _), scanned in measured)
            memory = max(most for (_, most), _ in measured)
            print(
                f"{folder.name}, {lanes} lanes: replay {count / mine:.0f} CIF pictures a CPU-second, the scanner {count / its:.0f}:"
                f" ratio {its / mine:.2f}, best of {runs} runs each (run by run {ratios[0]:.2f} to {ratios[-1]:.2f});"
                f" at most {memory:.1f} MB resident"
            )


if __name__ == "__main__":
    main()

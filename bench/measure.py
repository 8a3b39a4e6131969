"""Checks that two programs find the same in the files of a folder, and prints how their times compare:
measure.py RUNS PROGRAM WALKER FOLDER"""
import os
import pathlib
import subprocess
import sys

ROUNDS = 40


def run(program, rounds, path):
    """What the program prints, and the processor time that it takes."""
    with open(path, "rb") as pictures:
        child = subprocess.Popen([program, str(rounds)], stdin=pictures, stdout=subprocess.PIPE, text=True)
        line = child.stdout.read()
        _, status, usage = os.wait4(child.pid, 0)
    child.returncode = os.waitstatus_to_exitcode(status)
    if child.returncode != 0:
        sys.exit(f"measure.py: {program} ended with status {child.returncode}")
    return line, usage.ru_utime


def numbers(line):
    words = line.split()
    return dict(zip(words[::2], map(int, words[1::2])))


def main():
    runs, program, walker, folder = sys.argv[1:]
    folder = pathlib.Path(folder)
    for name in ("qcif", "cif", "qcif.damaged", "cif.damaged"):
        found, wanted = (run(it, 1, folder / name)[0] for it in (program, walker))
        print(f"{name}: {found.strip()}")
        if found != wanted:
            sys.exit(f"measure.py: the walker found something else: {wanted.strip()}")
        if name in ("qcif", "cif") and numbers(found)["accepted"] != 1000:
            sys.exit("measure.py: some of the pictures are at fault")
    for name in ("qcif", "cif"):
        times = [[run(it, ROUNDS, folder / name)[1] for it in (program, walker)] for _ in range(int(runs))]
        of_program, of_walker = (min(column) for column in zip(*times))
        ratios = sorted(mine / its for mine, its in times)
        print(
            f"{name}: parse takes {of_program / of_walker:.2f} times as long as the walker, best of {runs} runs each"
            f" (run by run {ratios[0]:.2f} to {ratios[-1]:.2f})"
        )


if __name__ == "__main__":
    main()

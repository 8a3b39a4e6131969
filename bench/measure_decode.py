"""Prints how decode compares to ffmpeg's decoder over streams of a folder, and in how many samples they differ:
measure_decode.py RUNS PROGRAM FOLDER NAME.."""
import pathlib
import subprocess
import sys

FFMPEG = "ffmpeg -nostdin -v quiet -threads 1 -f h261 -i {} -f rawvideo -pix_fmt yuv420p -vsync 0 -y {}"


def seconds(folder, *words, source=None):
    """The processor time of a program in seconds."""
    octets = open(source, "rb") if source else subprocess.DEVNULL
    figures = folder / "figures"
    subprocess.run([folder / "timed", figures, *words], stdin=octets, capture_output=True, check=True)
    time, _, status = map(int, figures.read_text().split())
    if status != 0:
        sys.exit(f"measure_decode.py: {words} ended with status {status}")
    return time / 1e6


def decode(folder, program, name, planes):
    line = f'exec "$0" decode > {planes}'
    return seconds(folder, "/bin/sh", "-c", line, program, source=folder / f"{name}.rtp")


def ffmpeg(folder, name, planes):
    return seconds(folder, "/usr/bin/env", *FFMPEG.format(folder / f"{name}.h261", planes).split())


def main():
    runs, program, folder = int(sys.argv[1]), sys.argv[2], pathlib.Path(sys.argv[3])
    for name in sys.argv[4:]:
        mine, its = folder / "mine.yuv", folder / "its.yuv"
        decode(folder, program, name, mine)
        ffmpeg(folder, name, its)
        differ = subprocess.run([folder / "differ", mine, its], capture_output=True, check=True, text=True).stdout.strip()
        for planes in (mine, its):
            planes.unlink()
        measured = [
            (decode(folder, program, name, "/dev/null"), ffmpeg(folder, name, "/dev/null")) for _ in range(runs)
        ]
        ours, theirs = min(time for time, _ in measured), min(time for _, time in measured)
        print(f"{name}: decode {ours:.3f} s, ffmpeg {theirs:.3f} s: ratio {ours / theirs:.2f}, best of {runs} runs each; {differ}")


if __name__ == "__main__":
    main()

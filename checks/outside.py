#!/usr/bin/env python3
"""An outside that fails, for the checks:

outside.py room OCTETS COMMAND..          runs a command whose files take no more than so many octets
outside.py source FILE OCTETS COMMAND..   runs one whose input gives so many octets of a file, and then fails
outside.py threads COMMAND..              runs one that can start no thread
outside.py ticks CONFERENCE PACKETS OCTETS
                                          prints how many octets of the packets the ticks give that stand whole in so many
                                          octets of the conference file"""
import os
import pty
import resource
import signal
import subprocess
import sys
import threading
import tty


def room(octets, *command):
    """What the command says is handed on, so that the limit is not one of standard error."""

    def limit():
        signal.signal(signal.SIGXFSZ, signal.SIG_IGN)
        resource.setrlimit(resource.RLIMIT_FSIZE, (int(octets), int(octets)))

    run = subprocess.run(command, stderr=subprocess.PIPE, preexec_fn=limit)
    sys.stderr.buffer.write(run.stderr)
    return run.returncode


def source(name, octets, *command):
    """A terminal that is closed at its other end fails once what was sent has been read."""
    with open(name, "rb") as file:
        front = file.read(int(octets))
    reader, writer = pty.openpty()
    tty.setraw(writer)

    def send():
        sent = 0
        while sent < len(front):
            sent += os.write(writer, front[sent : sent + 512])
        os.close(writer)

    sending = threading.Thread(target=send)
    sending.start()
    run = subprocess.run(command, stdin=reader)
    sending.join()
    return run.returncode


def threads(*command):
    """The limit of processes binds no user with all rights, so such a one goes on as another."""
    program = os.open(command[0], os.O_RDONLY)
    if os.getuid() == 0:
        os.setgid(65534)
        os.setuid(65534)
    resource.setrlimit(resource.RLIMIT_NPROC, (0, 0))
    os.execve(program, command, os.environ)


def ticks(conference, packets, octets):
    """Entries and frames are read by their lengths alone."""
    with open(conference, "rb") as file:
        entries = file.read()
    with open(packets, "rb") as file:
        frames = file.read()
    place, pictures = 10, 0
    while place < len(entries):
        kind = entries[place : place + 1]
        if kind == b"P":
            place += 4 + int.from_bytes(entries[place + 2 : place + 4], "big")
        elif kind == b"C":
            place += 2 + entries[place + 1]
        else:
            place += 2 if kind == b"T" else 1
        if kind == b"T" and place <= int(octets):
            pictures += 1
    front = 0
    while pictures > 0:
        pictures -= frames[front + 3] >> 7
        front += 2 + int.from_bytes(frames[front : front + 2], "big")
    print(front)
    return 0


if __name__ == "__main__":
    sys.exit({"room": room, "source": source, "threads": threads, "ticks": ticks}[sys.argv[1]](*sys.argv[2:]))

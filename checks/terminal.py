#!/usr/bin/env python3
"""terminal.py COMMAND ..: runs the command with a terminal as its standard error, and hands on what was written there to
standard error, with the command's status."""
import os
import pty
import subprocess
import sys

terminal, end = pty.openpty()
process = subprocess.Popen(sys.argv[1:], stderr=end)
os.close(end)
told = b""
while True:
    try:
        piece = os.read(terminal, 4096)
    except OSError:  # no process has the other end any more
        break
    if not piece:
        break
    told += piece
sys.stderr.buffer.write(told.replace(b"\r\n", b"\n"))
sys.exit(process.wait())

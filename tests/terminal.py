#!/usr/bin/env python3
"""Runs a command whose standard error is a terminal, prints what it wrote there, and ends with its status.

usage: tests/terminal.py [--stdout] COMMAND ARG..
       --stdout  standard output is the terminal, in place of standard error
"""

import os
import pty
import subprocess
import sys


def pieces(terminal):
    """Yields what a terminal gets, until nobody has its other end open any more."""
    while True:
        try:
            piece = os.read(terminal, 65536)
        except OSError:
            return
        if not piece:
            return
        yield piece


def run(words, stdout=None, env=None, shows_output=False, shows_all=False):
    """Runs a command with standard error on a terminal, or standard output, or both. Returns its status, and what the terminal
    got."""
    ours, theirs = pty.openpty()
    streams = {"stdout": theirs if shows_output or shows_all else stdout}
    if not shows_output:
        streams["stderr"] = theirs
    child = subprocess.Popen(words, stdin=subprocess.DEVNULL, env=env, **streams)
    os.close(theirs)
    got = b"".join(pieces(ours))
    os.close(ours)
    return child.wait(), got


def left_of(got):
    """Returns the lines that are left on a terminal, without spaces at their ends. A carriage return goes back to the line's first
    column, and characters stand over those before."""
    lines, row, at = [], [], 0
    for byte in got:
        if byte == 10:
            lines.append(bytes(row).rstrip(b" "))
            row, at = [], 0
        elif byte == 13:
            at = 0
        else:
            row[at : at + 1] = [byte]
            at += 1
    last = bytes(row).rstrip(b" ")
    return b"\n".join([*lines, last])


if __name__ == "__main__":
    words = sys.argv[1:]
    shows_output = words[:1] == ["--stdout"]
    status, got = run(words[1:] if shows_output else words, shows_output=shows_output)
    sys.stdout.buffer.write(got.replace(b"\r\n", b"\n"))
    sys.exit(status)

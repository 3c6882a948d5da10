#!/usr/bin/env python3
"""Measures what the progress line costs: `sync` on a terminal beside the same with --quiet.

First syncs of 20,000 files of 1 to 8 KiB, and syncs with nothing to do, are run in turn with the line and without it, in the
folder that TMPDIR names. For each kind it prints the median and the least of the time and of the processor time, in milliseconds,
and how many bytes were drawn. It measures, and is no part of the gate.

usage: tests/progress_cost.py PROGRAM [PAIRS]
"""

import os
import pty
import shutil
import statistics
import subprocess
import sys
import tempfile
import time

import terminal


def make(root):
    """Writes the files, each with bytes of its own."""
    for folder in range(200):
        os.makedirs(f"{root}/{folder}")
        for number in range(100):
            with open(f"{root}/{folder}/{number}", "wb") as file:
                file.write(os.urandom(1024 + folder * 36))


def timed(words):
    """Runs a command whose standard error is a terminal. Returns seconds, processor seconds, and how many bytes were drawn."""
    ours, theirs = pty.openpty()
    begun = time.monotonic()
    child = subprocess.Popen(words, stdin=subprocess.DEVNULL, stdout=subprocess.DEVNULL, stderr=theirs)
    os.close(theirs)
    drawn = sum(len(piece) for piece in terminal.pieces(ours))
    _, status, usage = os.wait4(child.pid, 0)
    took = time.monotonic() - begun
    child.returncode = os.waitstatus_to_exitcode(status)
    os.close(ours)
    if child.returncode:
        raise SystemExit(f"status {child.returncode}: {' '.join(words)}")
    return took, usage.ru_utime + usage.ru_stime, drawn


def forget():
    """Leaves the first folder alone, as before a first sync."""
    for folder in ("second", "first/.twosync"):
        shutil.rmtree(folder, ignore_errors=True)
    os.mkdir("second")
    if os.path.exists("archive"):
        os.remove("archive")


def main(program, pairs):
    found = {}
    make("first")
    for turn in range(pairs):
        for quiet in (["--quiet"], []) if turn % 2 else ([], ["--quiet"]):
            forget()
            for kind in ("first sync", "nothing to do"):
                name = f"{kind}, quiet" if quiet else kind
                found.setdefault(name, []).append(timed([program, "sync", "first", "second", "archive", *quiet]))
    for name, runs in sorted(found.items()):
        took, used, drawn = zip(*runs)
        print(f"{name:22} {1000 * statistics.median(took):6.0f} ms, least {1000 * min(took):6.0f}"
              f"   processor {1000 * statistics.median(used):6.0f} ms, least {1000 * min(used):6.0f}"
              f"   {statistics.median(drawn):4.0f} bytes drawn")


if __name__ == "__main__":
    if len(sys.argv) not in (2, 3):
        raise SystemExit(__doc__)
    chosen = os.path.realpath(sys.argv[1])
    with tempfile.TemporaryDirectory() as top:
        os.chdir(top)
        main(chosen, int(sys.argv[2]) if len(sys.argv) == 3 else 10)
        os.chdir("/")

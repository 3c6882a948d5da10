#!/usr/bin/env python3
"""Measures what it costs that many small files lie in one new folder: a first sync of 20,000 files of 1 to 8 KiB in one, beside as
many in 200.

Both are synced in turn, in the folder that TMPDIR names. It prints the median and the least of the time of each in milliseconds,
the ratio of the medians, and the median of what each round's two runs say. It measures, and is no part of the gate.

usage: tests/one_folder_cost.py PROGRAM [ROUNDS [WORKERS]]
"""

import os
import shutil
import statistics
import subprocess
import sys
import tempfile
import time

FILES = 20_000
FOLDERS = 200


def make(root):
    """Writes the same files into one folder and into 200, each with bytes of its own."""
    os.makedirs(f"{root}/one/first/folder")
    for folder in range(FOLDERS):
        os.makedirs(f"{root}/many/first/{folder}")
    for number in range(FILES):
        data = os.urandom(1024 + number % FOLDERS * 36)
        for place in (f"one/first/folder/{number:05}", f"many/first/{number % FOLDERS}/{number:05}"):
            with open(f"{root}/{place}", "wb") as file:
                file.write(data)


def timed(program, workers):
    """Makes a first sync of the folder that it stands in, and returns how many milliseconds it took."""
    for folder in ("second", "first/.twosync"):
        shutil.rmtree(folder, ignore_errors=True)
    os.mkdir("second")
    if os.path.exists("archive"):
        os.remove("archive")
    words = [program, "sync", "first", "second", "archive", "--quiet", "--workers", str(workers)]
    begun = time.monotonic()
    subprocess.run(words, stdin=subprocess.DEVNULL, stdout=subprocess.DEVNULL, check=True)
    return 1000 * (time.monotonic() - begun)


def main(program, top, rounds, workers):
    make(top)
    found = {"one": [], "many": []}
    for turn in range(rounds):
        for kind in ("one", "many") if turn % 2 else ("many", "one"):
            os.chdir(f"{top}/{kind}")
            found[kind].append(timed(program, workers))
    os.chdir("/")
    for kind, folders in (("one", "one folder"), ("many", f"{FOLDERS} folders")):
        print(f"{folders:12} median {statistics.median(found[kind]):6.0f} ms, least {min(found[kind]):6.0f} ms")
    medians = statistics.median(found["one"]) / statistics.median(found["many"])
    rounds_say = statistics.median(one / many for one, many in zip(found["one"], found["many"]))
    print(f"{medians:.3f} by medians, {rounds_say:.3f} by the median round; {rounds} rounds, {workers} workers")


if __name__ == "__main__":
    if len(sys.argv) not in (2, 3, 4):
        raise SystemExit(__doc__)
    rounds, workers = [int(it) for it in sys.argv[2:]] + [20, 4][len(sys.argv) - 2 :]
    with tempfile.TemporaryDirectory() as top:
        main(os.path.realpath(sys.argv[1]), top, rounds, workers)

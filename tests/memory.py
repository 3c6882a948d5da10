"""How much memory a sync holds: it doesn't grow with the bytes that are copied, only with the number of paths.

Each set is synced into an empty folder by 1, 4 and 64 workers. The program may hold 64 MiB, and 300 bytes for each path; then both
folders have to be alike, and nothing of the run may be left beside the file `archives`. It works in the folder that it is run in.

With `--large` it takes other sets: nearly as many files as a plan can have, at the top and in one new directory. After each first
sync comes one with nothing to do. That takes 9 GiB of room, and isn't part of the gate.

usage: tests/memory.py PROGRAM [--large]
"""

import os
import shutil
import subprocess
import sys

from runs import hold, names_beside_archives, write_counts

PROGRAM = sys.argv[1]
IS_LARGE = sys.argv[2:] == ["--large"]
MIB = 1 << 20
BASE = 64 * MIB
EACH = 300


def write(path, size, seed):
    """Writes a file of this size. No two seeds give the same bytes."""
    length = min(size, MIB)
    block = (f"{seed} ".encode() * (length // 2 + 1))[:length]
    os.makedirs(os.path.dirname(path), exist_ok=True)
    with open(path, "wb") as file:
        while size > 0:
            file.write(block[:size])
            size -= len(block)


def one_file(root):
    write(f"{root}/large", 192 * MIB + 5, 1)
    return 1


def one_directory(root):
    for number in range(12):
        write(f"{root}/new/{number}", 16 * MIB + number, number)
    return 13


def many_files(root):
    for number in range(20_000):
        write(f"{root}/new/{number % 100}/{number}", 1 + number % 3000, number)
    return 20_101


def at_the_top(root, count):
    for number in range(count):
        write(f"{root}/{number:06}", 100, number)
    return count


def files_at_the_top(root):
    """So many that the bound isn't kept where each action takes 56 bytes."""
    return at_the_top(root, 300_000)


def most_files_at_the_top(root):
    """Nearly as many as a plan can have."""
    return at_the_top(root, 349_000)


def most_files_in_one_directory(root):
    """Nearly as many as a plan can have."""
    for number in range(1_040_000):
        write(f"{root}/new/{number:07}", 100, number)
    return 1_040_001


# The sets by their names.
SETS = {
    "one file": one_file,
    "one new directory": one_directory,
    "20,000 files in new directories": many_files,
    "300,000 files at the top": files_at_the_top,
}
LARGE_SETS = {
    "349,000 files at the top": most_files_at_the_top,
    "1,040,000 files in one new directory": most_files_in_one_directory,
}


def held(words):
    """Runs the program. Returns its status, and the most bytes that it held."""
    child = subprocess.Popen([PROGRAM, *words], stdin=subprocess.DEVNULL, stdout=subprocess.DEVNULL, stderr=subprocess.DEVNULL)
    _, status, usage = os.wait4(child.pid, 0)
    child.returncode = os.waitstatus_to_exitcode(status)
    return child.returncode, usage.ru_maxrss * 1024


def alike(first, second):
    """Whether two folders hold the same, but for what the program keeps there."""
    return subprocess.run(["diff", "-rq", "-x", ".twosync", first, second], stdout=subprocess.DEVNULL).returncode == 0


def sync(case, paths, workers):
    """Syncs the two folders, and looks at what was held."""
    words = ["sync", "first", "second", "archive", "--workers", str(workers), "--quiet"]
    status, bytes_held = held(words)
    hold(case, f"status {status}" if status else None)
    print(f"{case}: {bytes_held / MIB:.1f} of {(BASE + EACH * paths) / MIB:.1f} MiB", flush=True)
    hold(case, f"{bytes_held / MIB:.1f} MiB were held" if bytes_held > BASE + EACH * paths else None)


def main():
    for name, make in (LARGE_SETS if IS_LARGE else SETS).items():
        shutil.rmtree("first", ignore_errors=True)
        os.mkdir("first")
        paths = make("first")
        for workers in (1, 4, 64):
            shutil.rmtree("second", ignore_errors=True)
            os.mkdir("second")
            if os.path.exists("archive"):
                os.remove("archive")
            shutil.rmtree("first/.twosync", ignore_errors=True)
            case = f"{name} by {workers}"
            sync(case, paths, workers)
            hold(case, None if alike("first", "second") else "the folders differ")
            left = [it for side in ("first", "second") for it in names_beside_archives(f"{side}/.twosync")]
            hold(case, f"{left} is left" if left else None)
            if IS_LARGE:
                sync(f"{case}, with nothing to do", paths, workers)
    write_counts()


main()

"""Has the program synchronize folders with links, pipes, sockets, replicas below them, and names that aren't UTF-8, while
`--hold-special` holds these; and compares what it reports with what the definitions say of a reading of its own.

It reads the folders with Python's own calls, with a stand-in for each path that can't be synchronized. Each path's
reason is that of tests/preview.py. Then nothing that can't be synchronized, or is skipped, may have been touched, and all else
has to be alike. It works in the folder that it is run in.

usage: tests/special.py PROGRAM
"""

import hashlib
import os
import random
import shutil
import socket
import stat
import sys

from preview import compare, entries_of, path_text, read_archive, read_rules, run
from runs import counts, names_beside_archives, write_counts

STAND_IN = b"twosync: what is here can't be synchronized\n"
HELD = (len(STAND_IN), hashlib.sha256(STAND_IN).hexdigest())
OWN = b".twosync"


# ---- reading

def stand_in(name):
    """Returns the name by which what has this name is reported, and whether that is another one."""
    try:
        return name, name.decode() is None
    except UnicodeDecodeError:
        cut = name.decode(errors="replace").encode()[:255]
        return cut.decode(errors="ignore").encode(), True


def read_folder(place):
    """Returns what a folder has, by the lists of names: None for a folder, size and digest of a file; and which are special."""
    found, special = {}, set()

    def mark(path):
        found[path] = HELD
        special.add(path)

    def walk(at, names):
        children = {}
        for name in os.listdir(at):
            if name == OWN:
                if names:
                    return False
                continue
            told, is_other = stand_in(name)
            mode = os.lstat(at + b"/" + name).st_mode
            is_special = is_other or not (stat.S_ISDIR(mode) or stat.S_ISREG(mode))
            children[told] = None if is_special or told in children else mode
        for told, mode in sorted(children.items()):
            path = (*names, told)
            if mode is None:
                mark(path)
            elif stat.S_ISDIR(mode):
                found[path] = None
                if not walk(at + b"/" + told, path):
                    mark(path)
            else:
                with open(at + b"/" + told, "rb") as file:
                    content = file.read()
                found[path] = (len(content), hashlib.sha256(content).hexdigest())
        return True

    walk(os.fsencode(place), ())
    return found, special


def look_of(place, seen):
    """Adds what a place has, and all below it, by the system's own calls."""
    at = os.lstat(place)
    told = os.readlink(place) if stat.S_ISLNK(at.st_mode) else None
    if stat.S_ISREG(at.st_mode):
        with open(place, "rb") as file:
            told = file.read()
    seen[place] = (at.st_ino, at.st_mode, at.st_mtime_ns, told)
    if stat.S_ISDIR(at.st_mode):
        for name in os.listdir(place):
            look_of(place + b"/" + name, seen)


def looks(entries):
    """Returns what each skipped entry has in both replicas, and every special path, with inodes, modes, times and contents."""
    seen = {}
    for place in (b"first", b"second"):
        for it in entries:
            if it["reason"] in ("conflict", "held"):
                for name in children_told(place, it["path"]):
                    look_of(name, seen)
        for path in read_folder(place)[1]:
            for name in children_told(place, path):
                look_of(name, seen)
    return seen


def children_told(place, path):
    """Returns the places of what is reported by this path: more than one where a name stands for several."""
    at = b"/".join((place, *path[:-1]))
    if not os.path.isdir(at) or os.path.islink(at):
        return []
    return sorted(at + b"/" + it for it in os.listdir(at) if stand_in(it)[0] == path[-1])


# ---- what has to be said

def seen():
    """Returns the entries that a plan has to have, and the special paths."""
    (first, special), (second, more) = read_folder("first"), read_folder("second")
    special |= more
    named = read_rules("holds")
    return entries_of(read_archive("archive"), first, second, lambda it: named(it) or it in special), special


def report_of(entries):
    skips = [it["reason"] in ("conflict", "held") for it in entries]
    lines = [f"{'skip' if skip else 'done'} {it['reason']} {path_text(it['path'])}" for skip, it in zip(skips, entries)]
    total = f"total {len(entries)} done {len(entries) - sum(skips)} skipped {sum(skips)} failed 0 blocked 0"
    return 1 if any(skips) else 0, ("\n".join([*lines, total]) + "\n").encode(), b""


def carry_out(name, draw):
    """Plans, checks and runs, or does it at once, and looks at what became of it."""
    entries, special = seen()
    before = looks(entries)
    words = ["first", "second", "archive"]
    rules = [*(["--holds", "holds"] if os.path.exists("holds") else []), "--workers", str(draw.choice([1, 2, 5]))]
    if special:
        told = run("plan", *words, *rules)
        is_fault = told[2].startswith((b"twosync: fault 10", b"twosync: fault 4"))
        compare(f"{name}: refused without the option", (3, b"", True), (*told[:2], is_fault))
    if draw.random() < 0.5:
        got = run("sync", *words, *rules, "--hold-special")
    else:
        told = run("plan", *words, *rules, "--hold-special")
        compare(f"{name}: planned", (0, b""), (told[0], told[2]))
        with open("plan", "wb") as file:
            file.write(told[1])
        compare(f"{name}: checked", (0, b"valid\n", b""), run("check", *words, "plan", *rules, "--hold-special"))
        if special:
            compare(f"{name}: not run without the option", 3, run("run", *words, "plan", *rules)[0])
        got = run("run", *words, "plan", *rules, "--hold-special")
    compare(f"{name}: the report", report_of(entries), got)
    compare(f"{name}: what is skipped or special is untouched", before, looks(entries))
    left, _ = seen()
    compare(f"{name}: all else is done", [it["path"] for it in entries if it["reason"] in ("conflict", "held")], [it["path"] for it in left])
    compare(f"{name}: nothing is left", [], [it for it in ("first", "second") if names_beside_archives(f"{it}/.twosync")])


# ---- cases

def remove(place):
    if os.path.isdir(place) and not os.path.islink(place):
        shutil.rmtree(place)
    elif os.path.lexists(place):
        os.remove(place)


def put_socket(place):
    top = os.getcwd()
    os.chdir(os.path.dirname(place))
    with socket.socket(socket.AF_UNIX) as it:
        it.bind(os.path.basename(place))
    os.chdir(top)


def put_replica(place):
    os.mkdir(place)
    os.mkdir(place + b"/" + OWN)
    with open(place + b"/below", "wb") as file:
        file.write(b"below")


def put_file(content):
    def put(place):
        with open(place, "wb") as file:
            file.write(content)
    return put


SPECIAL = [
    lambda place: os.symlink(b"nowhere", place),
    lambda place: os.symlink(b"a", place),
    lambda place: os.symlink(b"/etc/passwd", place),
    lambda place: os.symlink(b"..", place),
    os.mkfifo,
    put_socket,
    put_replica,
]
NAMES = [b"a", b"b", b"a.b", b"c d", b"t.tmp", "x\ufffd".encode()]
BAD_NAMES = [b"x\xff", b"x\xfe", b"\xc3", b"caf\xe9", b"a\xf0\x9f\x91"]


def change_something(draw):
    """Changes a path of one replica or of both, in the same way or not."""
    names = [draw.choice(NAMES) for _ in range(draw.choice([1, 1, 2, 2, 3]))]
    if draw.random() < 0.15:
        names[-1] = draw.choice(BAD_NAMES)
    for place in draw.choice([[b"first"], [b"second"], [b"first", b"second"]]):
        at = b"/".join((place, *names))
        parent = os.path.dirname(at)
        if not os.path.isdir(parent) or os.path.realpath(parent) != os.path.join(os.getcwdb(), parent):
            continue
        remove(at)
        drawn = draw.random()
        if drawn < 0.3:
            draw.choice(SPECIAL)(at)
        elif drawn < 0.55:
            os.mkdir(at)
        elif drawn < 0.85:
            put_file(bytes([draw.choice(b"abc")]) * draw.choice([0, 1, 1, 5000]))(at)


def generated(seed):
    draw = random.Random(seed)
    for place in ("first", "second"):
        remove(place)
        os.mkdir(place)
    remove("archive")
    for _ in range(draw.randrange(2, 16)):
        change_something(draw)
    for turn in range(3):
        remove("holds")
        if draw.random() < 0.3:
            put_file(draw.choice([b"path /a\n", b"path /b/a\n", b"name *.tmp\n", b"name a*\npath /c%20d\n"]))("holds")
        carry_out(f"seed {seed}, turn {turn}", draw)
        for _ in range(draw.randrange(10)):
            change_something(draw)


def main():
    for seed in range(80):
        generated(seed)
    write_counts()
    return 1 if counts["failed"] else 0


if __name__ == "__main__":
    sys.exit(main())

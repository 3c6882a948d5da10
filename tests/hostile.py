"""Hostile inputs for the built program, for `tests/hostile.sh`. The word is the program.

Random words: whatever stands on the command line, the program ends by itself, with a status and an answer as README has them.
Large texts: an archive of 2,000,000 lines, paths as long and as deep as they may be, and sizes of 2^64 - 1 bytes take no more
memory than a small multiple of the text, and come to an end soon."""

import hashlib
import os
import random
import subprocess
import sys

from runs import hold, write_counts

PROGRAM = sys.argv[1]
LINES = int(os.environ.get("LINES_OF_ARCHIVE", 2000000))
HUGE = 2**64 - 1
MIB = 1 << 20
COMMANDS = ["trial", "scan", "show", "plan", "check", "run", "sync"]
OTHER_WORDS = ["", "-", "--", "---", "=", "a", "b", "c", "d", "help", "--help", "-h", "-V", "--version", "--holds", "--holds=", "--holds=r",
               "--workers", "--workers=", "--workers=0", "--workers=1", "--workers=64", "--workers=65", "--workers=-1", "-w", "0", "1", "4",
               "64", "65", "18446744073709551616", "x" * 5000, "--" + "y" * 5000, "\u00e4", "\u202e", "%2A", "\n", "~", "sync "]


def end_line(front, count):
    return b"end %d %s\n" % (count, hashlib.sha256(front).hexdigest().encode())


def archive_of(lines):
    front = b"twosync-archive 1\n" + b"".join(lines)
    return front + end_line(front, len(lines))


# What runs the program and writes down the most memory that it held. It is small itself: a process that is started counts as
# having held what the one that started it does.
MEASURING = """import resource, subprocess, sys
try:
    status = subprocess.run(sys.argv[1:], timeout=60).returncode
except subprocess.TimeoutExpired:
    status = 'none in a minute'
with open('measured', 'w') as file:
    file.write('%s\\n%d' % (status, resource.getrusage(resource.RUSAGE_CHILDREN).ru_maxrss * 1024))
"""


def answer(words, given=b""):
    """Runs the program, a minute at most; answers its status, what it printed, and the most memory that it held, in bytes."""
    with open("in", "wb") as file:
        file.write(given)
    with open("in", "rb") as file, open("out", "w+b") as out, open("err", "w+b") as err:
        subprocess.run([sys.executable, "-SEc", MEASURING, PROGRAM, *words], stdin=file, stdout=out, stderr=err, check=True)
        status, held = open("measured").read().split("\n")
        os.remove("measured")
        out.seek(0)
        err.seek(0)
        return int(status) if status.lstrip("-").isdigit() else status, out.read(), err.read(), int(held)


# ---- random words
def line_of_words(draw):
    words = [draw.choice(COMMANDS if draw.random() < 0.7 else OTHER_WORDS)] if draw.random() < 0.97 else []
    return words + [draw.choice(OTHER_WORDS + COMMANDS[:1]) for _ in range(draw.choice([0, 1, 2, 3, 3, 4, 4, 5, 6, 9]))]


def problem_of_words(status, out, err):
    if status not in (0, 3):
        return "status %s" % status
    if status == 0:
        return not out and "it says nothing" or err and "it says %r" % err[:200]
    if out and out != b"malformed\n":
        return "status 3, and it prints %r" % out[:200]
    if not out and not err.rstrip(b"\n").split(b"\n")[-1].startswith(b"twosync: fault "):
        return "status 3, and it says %r" % err[-200:]
    return None


draw = random.Random(20261125)
statuses = {0: 0, 3: 0}
for _ in range(800):
    words = line_of_words(draw)
    status, out, err, _ = answer(words, b"x\n")
    hold("the words %r" % [word[:20] for word in words], problem_of_words(status, out, err) or "")
    statuses[status] = statuses.get(status, 0) + 1
hold("words are taken and refused", min(statuses[0], statuses[3]) < 20 and "%s" % statuses)
hold("nothing was made", sorted(os.listdir(".")) != ["err", "in", "out"] and "%s" % os.listdir("."))


# ---- large texts
def small(what, words, given, status, wanted, most):
    """The program answers so, and holds at most so many bytes."""
    got, out, err, held = answer(words, given)
    problem = got != status and "status %s, %r" % (got, err[:200])
    hold(what + ", its answer", problem or (out != wanted and "%r" % out[:200]))
    hold(what + ", its memory", held > most and "%d MiB, and %d MiB are enough" % (held // MIB, most // MIB))


def shown(what, lines, multiple):
    text = archive_of(lines)
    with open("archive", "wb") as file:
        file.write(text)
    small(what, ["show", "archive"], b"", 0, b"".join(lines), multiple * len(text) + 32 * MIB)


digest = hashlib.sha256(b"a").hexdigest().encode()
shown("an archive of many lines", [b"f /file%08d %d %s\n" % (k, k, digest) for k in range(LINES)], 4)
# 64 names of 64 bytes, most bytes written by three; all directories above the files stand before them
names = [b"/" + b"%01" * 63 + b"%d" % (k % 10) for k in range(63)]
deep = [b"d %s\n" % b"".join(names[:k]) for k in range(1, 64)]
last = [b"/" + b"%01" * 61 + bytes([97 + k // 676, 97 + k // 26 % 26, 97 + k % 26]) for k in range(4000)]
shown("paths that are as long as may be", deep + [b"f %s %d %s\n" % (b"".join(names) + name, HUGE, digest) for name in last], 4)
shown("files of 2^64 - 1 bytes", [b"f /%04d %d %s\n" % (k, HUGE, digest) for k in range(5000)], 40)
# a tree's file that gives this size and goes on with one line is malformed, and no room is made for its size
bundle = b"twosync-bundle 1\narchive\nfirst\nf /a %d\nx 61\nsecond\nholds\nplan\ntwosync-plan 1\nend 0 0\n" % HUGE
small("a bundle with a file of 2^64 - 1 bytes", ["trial"], bundle, 3, b"malformed\n", 32 * MIB)
# a line without an end
small("a line of 64 MiB", ["trial"], b"x" * (64 * MIB), 3, b"malformed\n", 32 * MIB)
write_counts()

"""Runs of the program while a source changes, for `tests/sources.sh`. The word is the program. What is wanted follows from the
case's own trees."""

import os
import shutil
import signal
import subprocess
import sys
import time

from runs import NOTHING, WORDS, archive_of, calls, hold, make_known, outcome, own_names, read_tree, run, text, tree, write_counts, write_tree

program = sys.argv[1]
READS = ["read", "pread64", "readv", "preadv"]
FILE = "try/first/d/a"
OLD, SCANNED = text(1, 70000), text(2, 2500000)


def write(place, content):
    with open(place, "wb") as file:
        file.write(content)


def grow():
    with open(FILE, "ab") as file:
        file.write(text(3, 1500000))


def other_byte():
    with open(FILE, "r+b") as file:
        file.seek(1200000)
        file.write(b"another byte")


def replace():
    write("try/beside", text(4, 1000))
    os.rename("try/beside", FILE)


CHANGES = {
    "grows": grow,
    "shrinks": lambda: os.truncate(FILE, 1000),
    "is emptied": lambda: os.truncate(FILE, 0),
    "goes": lambda: os.unlink(FILE),
    "is replaced": replace,
    "gets other bytes": other_byte,
}


def fresh(is_new):
    """A pair whose file is new in the first replica, or has changed there."""
    shutil.rmtree("try", ignore_errors=True)
    os.mkdir("try")
    old = tree(("/d/b", b"b")) if is_new else tree(("/d/a", OLD), ("/d/b", b"b"))
    archive = archive_of(old)
    for replica in ("first", "second"):
        write_tree("try/" + replica, old)
        make_known(archive, "try/" + replica)
    write("try/archive", archive)
    write(FILE, SCANNED)


def reads(is_new):
    """The reads of the file in a whole run: each one's name, and which one of that name it is."""
    fresh(is_new)
    strace = ["strace", "-qq", "-f", "-y", "-s", "1", "-e", "signal=none", "-o", "../log", "-e", "trace=" + ",".join(READS)]
    status, said = run(program, strace)
    hold("undisturbed", (status, said[1]) != (0, "") and "status %s, %s" % (status, " ".join(said)))
    place = os.path.realpath(FILE)
    return [(call, number) for _, call, number, rest in calls("log") if place in rest]


def held_up(call, number, change):
    """Runs the program, changes the file when the program enters this read, and lets it go on. Answers its status and what it
    said, or none where it doesn't come to that read."""
    stop = "inject=%s:signal=STOP:when=%d" % (call, number)
    words = ["strace", "-f", "-o", "../log", "-e", "trace=" + call, "-e", stop, program, *WORDS]
    write("log", b"")
    pipe = subprocess.PIPE
    with subprocess.Popen(words, cwd="try", stdout=pipe, stderr=pipe, text=True, start_new_session=True) as child:
        end = time.monotonic() + 30
        stopped = []
        while not stopped and child.poll() is None and time.monotonic() < end:
            time.sleep(0.002)
            stopped = [line for line in open("log", errors="replace") if "stopped by SIGSTOP" in line]
        if stopped:
            change()
            os.kill(int(stopped[0].split()[0]), signal.SIGCONT)
        found = outcome(child)
    return found if stopped else (None, ("", "it doesn't come to that read"))


def problem(is_new, status, said):
    """What is wrong after a run in which the file changed."""
    there = read_tree("try/second")
    before, after = None if is_new else OLD, read_tree("try/first").get("/d/a")
    now = there.get("/d/a")
    if now not in (before, SCANNED, after) or there.get("/d/b") != b"b":
        return "the target is torn, it has %s bytes" % (None if now is None else len(now))
    done = "done first /d/a\n" in said[0]
    if status == 0 and (not done or said[1]):
        return "status 0, and it says %s" % " ".join(said)
    if status == 2 and (done or not any(line.endswith(" /d/a") for line in said[1].splitlines())):
        return "status 2, and it says %s" % " ".join(said)
    if status == 3 and (said[0] or len(said[1].splitlines()) != 1):
        return "status 3, and it says %s" % " ".join(said)
    if status not in (0, 2, 3):
        return "status %s, %s" % (status, said[1])
    if done != (now != before):
        return "it says %s, and the target has %s bytes" % (" ".join(said), None if now is None else len(now))
    left = own_names("second")
    return left and "%s is left in .twosync" % left


tried = 0
for is_new in (True, False):
    found = reads(is_new)
    hold("the file is read in parts", len(found) < 6 and "by %d reads" % len(found))
    places = sorted({0, 1, len(found) // 4, len(found) // 2, 3 * len(found) // 4, len(found) - 1})
    for place in places:
        for what, change in CHANGES.items():
            name = "a %s file %s at read %d of %d" % ("new" if is_new else "changed", what, place, len(found))
            fresh(is_new)
            status, said = held_up(*found[place], change)
            hold(name, problem(is_new, status, said))
            status, said = run(program)
            hold(name + ", the next run", (status, said[1]) != (0, "") and "status %s, %s" % (status, " ".join(said)))
            hold(name + ", both are alike", read_tree("try/first") != read_tree("try/second") and "they differ")
            hold(name + ", and one more", run(program) != (0, (NOTHING, "")) and "it isn't done")
            tried += 1
print("%d runs in which a source changes" % tried)
write_counts()

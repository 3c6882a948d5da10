"""Runs of the program that write their archive meanwhile, for `tests/checkpoints.sh`.

The word is the program. All that is wanted comes from the trees of a pair, and from the rules of README.md: 60 new files are 180
actions, a piece, a commit and a mark for each, so one worker makes nine checkpoints, after 20 of them each."""

import os
import re
import subprocess
import sys
import time

from runs import NOTHING, Case, archive_of, calls, hold, in_order, make_known, outcome, run, run_to_stop, traced, tree, write_counts

PROGRAM = sys.argv[1]
FILES = 30  # of each replica
EVERY = 20
SYNC = ["sync", "first", "second", "archive", "--workers", "1"]
KEEPING = [*SYNC, "--checkpoint", str(EVERY)]
OTHER = ["sync", "third", "fourth", "archive", "--workers", "1"]
ERRORS = ["ENOSPC", "EIO"]
PAUSE = 4  # seconds that a run is held up
RENAMES = ["rename", "renameat", "renameat2"]
# a root of the pair, the program's own directory there, or the file `archives` in it, by its name or as an open file
ABOUT = re.compile(r"\b(first|second)(/\.twosync(/archives(\.new)?)?)?[\">]")
IN_TIME = 30  # seconds within which a run has to come to its first checkpoint


def pair():
    """A pair with new files in both replicas, and no archive."""
    first = {"/a%02d" % k: b"first %d" % k for k in range(FILES)}
    second = {"/b%02d" % k: b"second %d" % k for k in range(FILES)}
    entries = [("first", path) for path in first] + [("second", path) for path in second]
    return Case("new files", tree(*first.items()), tree(*second.items()), None, entries)


def report(case):
    """What a whole run reports."""
    lines = ["done %s %s\n" % entry for entry in sorted(case.entries, key=lambda entry: entry[1])]
    return "".join(lines) + "total %d done %d skipped 0 failed 0 blocked 0\n" % (len(lines), len(lines))


def is_rename(call, rest):
    return call in RENAMES and "archive.new" in rest


def renames(case):
    """The renames of a whole run by which an archive came to its place: the checkpoints' and the last one's."""
    case.fresh()
    status, said, found = traced(case.name, PROGRAM, is_rename, command=KEEPING)
    hold("undisturbed", case.problem_at_end(status, said) or said != (report(case), "") and "it reports %s" % said[0])
    hold("undisturbed, nothing is left", os.path.exists("try/archive.new") and "archive.new is")
    checkpoints = len(case.entries) * 3 // EVERY
    hold("a checkpoint after each %d actions" % EVERY, len(found) - 1 != checkpoints and "there are %d" % (len(found) - 1))
    return found


def all_calls():
    """All calls of the last run that was traced: the name, which one of that name it is, and what stands behind the name."""
    return [(call, number, rest) for _, call, number, rest in calls("log")]


def window(found, rename):
    """The calls of a checkpoint, by that one which puts it in place: from the first flush before it to that of the archive's
    directory after it."""
    first = last = next(k for k, (call, number, _) in enumerate(found) if (call, number) == rename)
    while first > 0 and is_before(*found[first - 1]):
        first -= 1
    while found[last][0] != "fsync":
        last += 1
    return found[first : last + 1]


def is_before(call, _number, rest):
    """Whether a call is about a new archive, about what replicas know of it, or about a root of the pair, in which all files stand."""
    return "archive.new" in rest or ABOUT.search(rest) is not None


# ---- what a stop leaves


def rows_of(archive):
    """The paths that an archive file names, after its sum was looked at."""
    lines = archive.decode().split("\n")[1:-2]
    return [line.split(" ")[1] for line in lines]


def problem_after_stop(case):
    """What is wrong with the archive after a stop: it names files alone that are in both replicas, and almost all of those."""
    problem = case.problem_in("first") or case.problem_in("second")
    if problem:
        return problem
    if not os.path.exists("try/archive"):
        return "there is no archive"
    archive = open("try/archive", "rb").read()
    named = rows_of(archive)
    if archive != archive_of({path: case.new["first"][path] for path in named}):
        return "it isn't the archive of the files that it names"
    status, said = run(PROGRAM, command=["show", "archive"])
    if status != 0 or [line.split(" ")[1] for line in said[0].splitlines()] != named:
        return "`show` says %s" % " ".join(said)
    both = [path for path in in_order(case.new["first"]) if all(os.path.exists("try/%s%s" % (it, path)) for it in ("first", "second"))]
    if not set(named) <= set(both):
        return "it names %s, of which one replica has none" % sorted(set(named) - set(both))[:3]
    return None


def stop_after(case, rename, found):
    """Stops a run right after its first checkpoint came to its place. Of the 20 actions six are marks, and one more file may be
    in place, whose mark is still to come."""
    at = next(k for k, (call, number, _) in enumerate(found) if (call, number) == rename)
    call, number, _ = found[at + 1]
    case.fresh()
    hold("a stop after the first checkpoint", not run_to_stop(PROGRAM, call, number, KEEPING) and "it doesn't come to that")
    hold("after that stop", problem_after_stop(case))
    named = rows_of(open("try/archive", "rb").read())
    both = [path for path in case.new["first"] if all(os.path.exists("try/%s%s" % (it, path)) for it in ("first", "second"))]
    hold("the archive names what is in place and marked",
         (len(named) != EVERY // 3 or not 0 <= len(both) - len(named) <= 1) and "it names %d of %d" % (len(named), len(both)))
    return named


def is_deleted(case, path):
    """Deletes a finished file in one replica, and answers whether the next run deletes it in the other one."""
    os.remove("try/first" + path)
    status, said = run(PROGRAM, command=SYNC)
    hold("the run after the stop", status != 0 and "status %s, %s" % (status, " ".join(said)))
    hold("the run after the stop leaves nothing", os.path.exists("try/archive.new") and "archive.new is left")
    there = [os.path.exists("try/%s%s" % (it, path)) for it in ("first", "second")]
    hold("the run after the stop makes both alike", there[0] != there[1] and "they aren't at %s" % path)
    rest = [p for p in case.new["first"] if p != path and not all(os.path.exists("try/%s%s" % (it, p)) for it in ("first", "second"))]
    hold("the run after the stop brings the rest", rest and "%s isn't in both" % rest[:3])
    return not there[1]


def try_use(case, rename, found):
    """What a checkpoint is for: a file that was finished, and then deleted on one side, is deleted on the other one, too. Without
    the checkpoint's archive it counts as new."""
    path = stop_after(case, rename, found)[0]
    hold("a deletion after the stop", not is_deleted(case, path) and "%s came back" % path)
    stop_after(case, rename, found)
    os.remove("try/archive")
    hold("a deletion after the stop without the archive", is_deleted(case, path) and "%s doesn't come back" % path)


def stop_in(case, calls_of_it):
    """Stops a run before each call of a checkpoint, and lets the next one bring all to the end."""
    for call, number, _ in calls_of_it:
        name = "a stop before %s %d" % (call, number)
        case.fresh()
        hold(name, not run_to_stop(PROGRAM, call, number, KEEPING) and "the run doesn't come to that")
        hold(name + ", the archive", os.path.exists("try/archive") and problem_after_stop(case))
        hold(name + ", the next run", case.problem_at_end(*run(PROGRAM, command=KEEPING)))
        hold(name + ", archive.new", os.path.exists("try/archive.new") and "it is left")
        hold(name + ", and one more", run(PROGRAM) != (0, (NOTHING, "")) and "it isn't done")


# ---- calls that fail


def fail(case, call, error, when):
    """A run in which some calls of a name fail."""
    case.fresh()
    inject = "inject=%s:error=%s:when=%s" % (call, error, when)
    return run(PROGRAM, ["strace", "-qq", "-f", "-o", "/dev/null", "-e", "trace=" + call, "-e", inject], command=KEEPING)


def fail_each(case, calls_of_it):
    """Lets each call of a checkpoint fail alone: the run ends as without it."""
    for call, number, _ in calls_of_it:
        for error in ERRORS:
            name = "%s %d fails with %s" % (call, number, error)
            status, said = fail(case, call, error, number)
            hold(name, case.problem_at_end(status, said) or said != (report(case), "") and "it reports %s" % said[0])
            hold(name + ", archive.new", os.path.exists("try/archive.new") and "it is left")


def lose_place(case, found, rename):
    """Lets the lock of the place fail from a checkpoint on: the archive is that of the checkpoint, and only the last one's loss is
    reported."""
    calls_of_it = window(found, rename)
    number = next(number for call, number, _ in calls_of_it if call == "flock")
    status, said = fail(case, "flock", "EIO", "%d+" % number)
    name = "no lock from a checkpoint on"
    hold(name, (status, said) != (2, (report(case), "twosync: fault 5\n")) and "status %s, %s" % (status, " ".join(said)))
    hold(name + ", the archive", problem_after_stop(case))
    hold(name + ", the next run", case.problem_at_end(*run(PROGRAM)[:1], ("", "")))


# ---- two runs at once


def hold_up(case, rename, when):
    """Starts a run that is held up at a rename."""
    case.fresh()
    for folder in ("third", "fourth"):
        os.mkdir("try/" + folder)
    call, number = rename
    inject = "inject=%s:%s=%d:when=%d" % (call, when, PAUSE * 1000000, number)
    every = ["strace", "-qq", "-f", "-o", "/dev/null", "-e", "trace=" + call, "-e", inject, PROGRAM, *KEEPING]
    pipe = subprocess.PIPE
    return subprocess.Popen(every, cwd="try", stdout=pipe, stderr=pipe, text=True, start_new_session=True)


def wait_for(what):
    """Waits until something holds, but not forever."""
    end = time.monotonic() + IN_TIME
    while not what():
        if time.monotonic() > end:
            return False
        time.sleep(0.01)
    return True


def size(place):
    return os.path.getsize(place) if os.path.exists(place) else -1


def try_second(case, rename, name, has_archive):
    """Another run on the same archive, while the first one is about to put a new one in its place."""
    with hold_up(case, rename, "delay_enter") as first:
        found = wait_for(lambda: os.path.exists("try/archive") == has_archive and size("try/archive.new") > 0)
        hold(name, not found and "the first run doesn't come to that")
        status, said = run(PROGRAM, command=OTHER)
        hold(name + ", the second run", (status, said) != (3, ("", "twosync: fault 8\n")) and "status %s, %s" % (status, said))
        status, said = outcome(first)
        hold(name + ", the first run", (status, said) != (0, (report(case), "")) and "status %s, %s" % (status, said[1]))


def take_place(case, rename):
    """Another run takes the archive in the instant between a checkpoint and the next claim: the first one writes it no more."""
    name = "the place is taken after a checkpoint"
    with hold_up(case, rename, "delay_exit") as first:
        hold(name, not wait_for(lambda: os.path.exists("try/archive")) and "the first run doesn't come to that")
        for replica in ("third", "fourth"):
            make_known(open("try/archive", "rb").read(), "try/" + replica)
        status, said = run(PROGRAM, command=OTHER)
        hold(name + ", the second run", status != 0 and "status %s, %s" % (status, said))
        theirs = open("try/archive", "rb").read()
        status, said = outcome(first)
        hold(name + ", the first run", (status, said) != (2, (report(case), "twosync: fault 8\n")) and "status %s, %s" % (status, said[1]))
        hold(name + ", the archive", open("try/archive", "rb").read() != theirs and "it isn't that of the second run")
        hold(name + ", archive.new", os.path.exists("try/archive.new") and "it is left")


def main():
    case = pair()
    found = renames(case)
    first, second = found[0], found[1]
    every = all_calls()
    of_first = window(every, first)
    print("%d checkpoints; the first one's calls: %s" % (len(found) - 1, " ".join(call for call, _, _ in of_first)), flush=True)
    try_use(case, first, every)
    stop_in(case, of_first + window(every, second))
    fail_each(case, of_first + window(every, second))
    lose_place(case, every, first)
    try_second(case, first, "before a checkpoint", False)
    try_second(case, second, "after a checkpoint", True)
    take_place(case, first)
    write_counts()


main()

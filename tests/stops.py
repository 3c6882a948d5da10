"""Runs of the program that are killed before one of their calls, for `tests/stops.sh`.

The word is the program. Large pairs are stopped at many calls of a run, and small ones twice in a row: at each call of the
first run, and then at calls of the run that goes on. All that is wanted comes from a pair's own trees, and from the rules of
docs/FORMATS.md and README.md."""

import os
import random
import shutil
import stat
import subprocess
import sys
import time

from runs import NOTHING, OPENS, WORDS, WRITING, Case, cases, changes, hold, own_names, points, run, run_to_stop
from runs import spread, tell_calls, traced, tree, write_counts

PROGRAM = sys.argv[1]
EACH = os.environ.get("STOPS") == "all"
LARGE = int(os.environ.get("LARGE", 3145728))
MOST, WRITES = 110, 16  # how many calls are tried of one run, and how many writes at most are among them
# Where nothing is left to recover, one in so many calls of the run that goes on is tried, another one after each stop.
STEP = 5
# What no other process sees: a stop before one of these leaves what a stop before the next call leaves.
UNSEEN = ["fsync", "fdatasync", "flock"]
RUN = ["run", "first", "second", "archive", "plan", "--workers", "1"]


def keep_recent(case):
    """Has each file look as if it had been written in an hour. What was written in the last seconds is read once more when it
    lies aside, so whenever a run is made, it makes the same calls."""
    ahead = time.time() + 3600
    for folder, _, names in os.walk(case.base):
        for name in names:
            os.utime(os.path.join(folder, name), (ahead, ahead))
    return case


# ---- large pairs


def chosen(found):
    if EACH:
        return found
    writes = spread([p for p in found if p[0] in WRITING], WRITES)
    others = spread([p for p in found if p[0] not in WRITING], MOST - len(writes))
    return [p for p in found if p in writes or p in others]


def stop_at_many(case, rng):
    """Stops a run at many of its calls, and some of the runs after it once more; answers how many runs were stopped."""
    stops = 0
    found = points(case, PROGRAM)
    kinds = tell_calls(case.name, found)
    for index, (call, number) in enumerate(chosen(found)):
        name = "%s, before %s %d" % (case.name, call, number)
        case.fresh()
        stops += stop(case, name, call, number)
        if index % 3 == 0:
            # once early, at a call that brings the first run to its end, and once at any other
            again, number = rng.choice(found)
            if index % 6 == 0:
                again = rng.choice([k for k in kinds if k not in OPENS + WRITING])
                number = rng.randrange(1, 6)
            name += ", and then %s %d" % (again, number)
            stops += run_to_stop(PROGRAM, again, number)
            hold(name + ", after the second stop", case.problem())
        go_on(case, name)
    return stops


def stop(case, name, call, number, command=WORDS):
    """Kills a run before this call, which it has to come to. Answers whether it did."""
    is_stopped = run_to_stop(PROGRAM, call, number, command)
    hold(name, not is_stopped and "the run doesn't come to that")
    hold(name + ", after the stop", case.problem())
    return is_stopped


def go_on(case, name):
    """A run to the end, and one that has nothing to do."""
    hold(name + ", the next run", case.problem_at_end(*run(PROGRAM)))
    hold(name + ", and one more", run(PROGRAM) != (0, (NOTHING, "")) and "it isn't done")


# ---- small pairs, stopped twice in a row


class Planned(Case):
    """A pair with a plan, which its first run carries out."""

    command = RUN

    def __init__(self, name, first, second, archive, entries, plan):
        super().__init__(name, first, second, archive, entries)
        with open(self.base + "/plan", "w") as file:
            file.write(plan)


class InSwap(Planned):
    """A pair whose run was stopped in a swap, when the old file lay aside: the first run recovers. Of the new directory
    only the empty place is there."""

    command = WORDS

    def __init__(self, *words):
        super().__init__(*words)
        for replica in ("first", "second"):
            shutil.copy(self.base + "/plan", "%s/%s/.twosync/plan" % (self.base, replica))
        os.rename(self.base + "/second/a", self.base + "/second/.twosync/old-0")
        os.mkdir(self.base + "/second/.twosync/new-0")


def small_cases():
    """Pairs with plans that are written by hand, and what has to come of them."""
    directory = "twosync-plan 1\nentry first /a\npiece 0 0 1 /a/b\ncommit 0\np 0\nmark 0\np 1\nend 1 3\n"
    replaced = (tree(("/a/b", b"b")), tree(("/a", b"a")), tree(("/a", b"a")), [("first", "/a")], directory)
    yield Planned("a file replaced by a directory", *replaced)
    yield InSwap("a file replaced by a directory, in the swap", *replaced)
    parts = "twosync-plan 1\nentry dir /d\nentry first /d/x\nentry second /d/y\nmark 0\n"
    parts += "piece 1 0 1 /d/x\n%scommit 1\np 1\nmark 1\np 0\np 2\npiece 2 0 1 /d/y\n%scommit 2\np 4\nmark 2\np 0\np 5\nend 3 7\n"
    both = (tree(("/d/x", b"a")), tree(("/d/y", b"b")), {}, [("first", "/d/x"), ("second", "/d/y")])
    yield Planned("a new directory on both sides", *both, parts % ("", ""))
    yield Planned("a new directory on both sides, each action after the one before it", *both, parts % ("p 0\n", "p 3\n"))
    files = "twosync-plan 1\nentry first /a\nentry first /b\npiece 0 0 1 /a\ncommit 0\np 0\nmark 0\np 1\n"
    files += "piece 1 0 1 /b\ncommit 1\np 3\nmark 1\np 4\nend 2 6\n"
    yield Planned("two new files", tree(("/a", b"a"), ("/b", b"b")), {}, None, [("first", "/a"), ("first", "/b")], files)


def is_seen(call, rest):
    return call not in UNSEEN and changes(call, rest)


def state():
    """All that lies in the copy of a pair, by its place: kinds, permission bits and bytes, the program's own names among it."""
    found = []
    for folder, folders, files in os.walk("try"):
        for place in (os.path.join(folder, name) for name in folders + files):
            mode = os.lstat(place).st_mode
            found.append((place, mode, open(place, "rb").read() if stat.S_ISREG(mode) else b""))
    return tuple(sorted(found))


def copy(source, target):
    shutil.rmtree(target, ignore_errors=True)
    subprocess.run(["cp", "-a", source, target], check=True)


def is_in_swap():
    """Whether the program's own directories have something that a swap has left, so that the next run recovers."""
    return any(name.startswith(("new-", "old-")) for replica in ("first", "second") for name in own_names(replica))


def stop_twice(case):
    """Stops a run at each of its calls, and then the run that goes on; answers how many pairs of stops that makes. What an
    earlier stop left, too, is only gone on with to the end."""
    found, seen, pairs = points(case, PROGRAM, is_seen, command=case.command), set(), 0
    tell_calls(case.name, found)
    for call, number in found:
        name = "%s, before %s %d" % (case.name, call, number)
        case.fresh()
        stop(case, name, call, number, case.command)
        left = state()
        if left in seen:
            go_on(case, name)
        else:
            pairs += stop_again(case, name, len(seen))
            seen.add(left)
    print("%s: %d pairs of stops, after %d different first ones" % (case.name, pairs, len(seen)), flush=True)
    return pairs


def stop_again(case, name, turn):
    """Stops the run that goes on from here at its calls; answers at how many. Each time the run after that comes to the end."""
    is_each = EACH or is_in_swap()
    copy("try", "stopped")
    status, said, found = traced(name, PROGRAM, is_seen)
    hold(name + ", the next run", case.problem_at_end(status, said))
    found = found if is_each else found[turn % STEP :: STEP]
    for call, number in found:
        both = "%s, and then %s %d" % (name, call, number)
        copy("stopped", "try")
        stop(case, both, call, number)
        go_on(case, both)
    return len(found)


def main():
    rng = random.Random(7)
    stops = sum(stop_at_many(keep_recent(case), rng) for case in cases(LARGE))
    hold("there are 200 stops or more", stops < 200 and "only %d" % stops)
    print("%d stops" % stops)
    pairs = sum(stop_twice(keep_recent(case)) for case in small_cases())
    hold("there are 1,500 pairs of stops or more", pairs < 1500 and "only %d" % pairs)
    print("%d times two stops in a row" % pairs)
    write_counts()


main()

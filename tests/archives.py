"""Runs of the program that are killed, or whose calls fail, while they note in both replicas which archive is written, for
`tests/archives.sh`.

The word is the program. Both replicas have to know each archive before it comes to its place, and that has to be on the disk by
then. So whenever a run stops or fails, the next one isn't refused, and brings all to its end. All that is wanted comes from a
pair's own trees, and from the rules of docs/FORMATS.md and README.md."""

import os
import re
import sys

from runs import NOTHING, OPENS, WORDS, WRITING, Case, archive_of, calls, changes, digest_of, hold, points, problem_of_known, read_tree
from runs import run, run_to_stop, spread, tell_calls, traced, tree, write_counts

PROGRAM = sys.argv[1]
KEEPING = [*WORDS, "--checkpoint", "1"]
LOOKS = ["stat", "lstat", "newfstatat", "statx"]
READS = ["read", "pread64", "lseek"]
RENAMES = ["rename", "renameat", "renameat2"]
ERRORS = ["EIO", "ENOSPC"]
MOST = 60  # how many calls of a run are tried to be killed at
# what is noted in the replicas, and the archive itself, by their names or as open files
OWN = re.compile(r'\b(first|second)/\.twosync(/archives(?:\.new)?)?[">]')
ARCHIVE = re.compile(r'(?<![\w.])archive(?:\.new)?[">]')
TEXT = re.compile(r'"((?:[^"\\]|\\.)*)"')
FAULT = re.compile(r"twosync: fault \d+(?: /\S*)?")
BOTH = ("first", "second")


class Pair(Case):
    """A pair, and the words by which it is run."""

    def __init__(self, name, first, second, archive, entries, command=WORDS):
        self.known = archive or {}
        self.command = command
        super().__init__(name, first, second, archive, entries)

    def problem_of_archive(self, now):
        """What is wrong with an archive, which may also be one that was written meanwhile."""
        if now in self.archives:
            return None
        if now is None:
            return "the archive is gone"
        new = rows_of(self.archives[1])
        there = {}
        for path, line in rows_of(now).items():
            there[path] = self.new["first"][path] if line == new.get(path) else self.known.get(path)
        return now != archive_of(there) and "the archive isn't the old one, nor the new one, nor one in between"

    def problem_after_stop(self):
        """What is wrong after a run that came to no good end: its replicas know the archive that is there."""
        if not os.path.exists("try/archive"):
            return self.problem()
        return self.problem() or problem_of_known("first") or problem_of_known("second")

    def is_alike(self):
        return all(read_tree("try/" + it) == self.new[it] for it in BOTH)

    def has_unfinished(self):
        return not self.is_alike() or open("try/archive", "rb").read() != self.archives[1]

    def has_changed(self):
        now = open("try/archive", "rb").read() if os.path.exists("try/archive") else None
        return now != self.archives[0] or any(read_tree("try/" + it) != self.old[it] for it in BOTH)


def rows_of(archive):
    return {line.split(" ")[1]: line for line in archive.decode().split("\n")[1:-2]}


def pairs():
    """A pair that was synchronized and has changed on both sides, and one that wasn't; both also with archives meanwhile."""
    both = tree(("/d/x", b"x"), ("/f", b"f"), ("/g", b"g"), ("/kept", b"kept"))
    first = {**both, **tree(("/f", b"longer"), ("/new/in", b"new"))}
    second = {**both, **tree(("/d/x", b"changed"), ("/other", b"other"))}
    del second["/g"]
    changed = (first, second, both, [("second", "/d/x"), ("first", "/f"), ("second", "/g"), ("first", "/new"), ("second", "/other")])
    yield Pair("changes", *changed)
    yield Pair("changes with checkpoints", *changed, KEEPING)
    fresh = (tree(("/a", b"a"), ("/b/c", b"c")), tree(("/d", b"d")), None, [("first", "/a"), ("first", "/b"), ("second", "/d")])
    yield Pair("a first sync", *fresh)
    yield Pair("a first sync with checkpoints", *fresh, KEEPING)


def is_about(rest):
    return OWN.search(rest) is not None or ARCHIVE.search(rest) is not None


# ---- runs that are killed


def stops_of(case):
    """The calls of a whole run that change what is noted or the archive, and the one after each of these."""
    found = points(case, PROGRAM, command=case.command)
    about = [(call, number) for _, call, number, rest in calls("log") if changes(call, rest) and is_about(rest)]
    tell_calls(case.name, about, "change what is noted, or the archive")
    for renamed, least in (("archives", 2), ("archive", 1)):
        count = sum(call in RENAMES and '%s.new"' % renamed in rest for _, call, _, rest in calls("log"))
        hold("%s: %s comes to its place" % (case.name, renamed), count < least and "%d times" % count)
    return spread([point for k, point in enumerate(found) if point in about or (k > 0 and found[k - 1] in about)], MOST)


def stop(case, name, call, number):
    hold(name, not run_to_stop(PROGRAM, call, number, case.command) and "the run doesn't come to that")
    hold(name + ", after the stop", case.problem_after_stop())


def go_on(case, name):
    """A run to the end, and one that has nothing to do."""
    hold(name + ", the next run", case.problem_at_end(*run(PROGRAM)))
    hold(name + ", and one more", run(PROGRAM) != (0, (NOTHING, "")) and "it isn't done")


def stop_each(case):
    """Kills a run at each of these calls; where it is a rename, the next run is killed at its renames, too."""
    found = stops_of(case)
    for call, number in found:
        name = "%s, before %s %d" % (case.name, call, number)
        case.fresh()
        stop(case, name, call, number)
        go_on(case, name)
        if call in RENAMES and case.command == WORDS:
            stop_again(case, name, call, number, [it for it in found if it[0] in RENAMES])
    return len(found)


def stop_again(case, name, call, number, renames):
    for again in range(1, len(renames) + 3):
        case.fresh()
        run_to_stop(PROGRAM, call, number, case.command)
        run_to_stop(PROGRAM, renames[0][0], again)
        both = "%s, and then %s %d" % (name, renames[0][0], again)
        hold(both + ", after both stops", case.problem_after_stop())
        go_on(case, both)


# ---- calls that fail


def may_fail(call, rest):
    """Of those that only look at something, those that look at what is noted or at the archive, and not at the folder in which
    all is that the program keeps."""
    return is_about(rest) and (call not in LOOKS or "archive" in rest)


def failing(call, error, when):
    return ["strace", "-qq", "-f", "-o", "../log", "-e", "signal=none", "-e", "trace=" + call,
            "-e", "inject=%s:error=%s:when=%s" % (call, error, when)]


def fail_each(case):
    """Lets each call fail that is about what is noted or the archive, alone, and from then on where it opens or changes something."""
    case.fresh()
    _, _, found = traced(case.name, PROGRAM, may_fail, more=[*LOOKS, *READS], command=case.command)
    tell_calls(case.name, found, "may fail")
    for call, number in found:
        for error in ERRORS:
            for when in [str(number)] + ([] if call in LOOKS + READS else ["%d+" % number]):
                fail(case, call, error, when)
    return len(found)


def fail(case, call, error, when):
    name = "%s, %s %s fails with %s" % (case.name, call, when, error)
    case.fresh()
    status, said = run(PROGRAM, failing(call, error, when), command=case.command)
    hold(name, "(INJECTED)" not in open("log", errors="replace").read() and "the run doesn't come to that")
    hold(name + ", what lies there", case.problem_after_stop())
    hold(name + ", what is said", problem_of_answer(case, status, said, call, when))
    go_on(case, name)


def problem_of_answer(case, status, said, call, when):
    """What is wrong with the status and what was said, beside what lies there. A run that can't write is mute."""
    out, err = said
    told = err.split("\n")[:-1]
    if status == 0:
        # what couldn't be removed is left for the next run
        return err or case.has_unfinished() and "status 0, and it isn't done"
    is_mute = call in WRITING and when.endswith("+")
    if status not in (2, 3) or not (told or is_mute) or not all(FAULT.fullmatch(line) for line in told):
        return "status %s, and it says %s" % (status, repr(err))
    if status == 3:
        return (out or len(told) != 1 or case.has_changed()) and "status 3, %s, and something has changed" % repr(out + err)
    # a fault without a path is of the archive, which wasn't written then, or wasn't flushed
    is_done = "failed 0 blocked 0\n" in out
    if is_done and not case.is_alike():
        return "all is reported as done, and isn't"
    return is_done and told and all(" /" in line for line in told) and "status 2, though all is done: %s" % repr(err)


# ---- calls that fail where a run is refused


def make_odd(case, odd):
    """A replica that isn't the one that the archive is about, since it knows another one."""
    case.fresh()
    with open("try/%s/.twosync/archives" % odd, "wb") as file:
        file.write(digest_of(archive_of({})) + b"\n")


def refuse_each(case):
    """Lets each call fail by which a run finds out that it is to be refused: it is refused all the same."""
    for odd in BOTH:
        make_odd(case, odd)
        status, said, found = traced(case.name, PROGRAM, may_fail, more=[*LOOKS, *READS], command=case.command)
        hold("%s, %s is another one" % (case.name, odd), problem_of_refusal(case, status, said))
        for call, number in found:
            for error in [*ERRORS, "EMFILE"]:
                make_odd(case, odd)
                status, said = run(PROGRAM, failing(call, error, str(number)), command=case.command)
                name = "%s, %s is another one, %s %d fails with %s" % (case.name, odd, call, number, error)
                hold(name, problem_of_refusal(case, status, said))


def problem_of_refusal(case, status, said):
    if status != 3 or said[0]:
        return "status %s, %s" % (status, " ".join(said))
    return case.has_changed() and "something has changed"


# ---- the order of what reaches the disk


class Noted:
    """What one replica has noted, as a trace tells it."""

    def __init__(self, replica):
        place = "try/%s/.twosync/archives" % replica
        self.text = open(place, "rb").read() if os.path.exists(place) else b""
        self.written = b""
        self.is_flushed = False
        self.is_settled = True  # the name has reached the disk, too


def text_of(rest):
    """What a call writes, as strace spells it."""
    return TEXT.search(rest).group(1).encode("ascii").decode("unicode_escape").encode("latin-1")


def look_at_own(name, noted, call, rest):
    """Takes over what a call does to what a replica has noted."""
    place = OWN.search(rest)
    it, what = noted[place.group(1)], place.group(2) or ""
    if call in OPENS and "O_CREAT" in rest:
        hold(name + ": the file isn't written in its place", what == "/archives" and rest)
        it.written = b""
    elif call in WRITING:
        hold(name + ": it is written beside its place", what != "/archives.new" and rest)
        it.written, it.is_flushed = it.written + text_of(rest), False
    elif call in ("fsync", "fdatasync"):
        it.is_flushed = it.is_flushed or what == "/archives.new"
        it.is_settled = it.is_settled or what == ""
    elif call in RENAMES and what == "/archives.new":
        hold(name + ": it is flushed before it comes to its place", not it.is_flushed and "%s isn't" % place.group(1))
        it.text, it.written, it.is_flushed, it.is_settled = it.written, b"", False, False


def look_at_archive(name, noted, digest):
    """An archive comes to its place now: both replicas have to know it, and that has to be on the disk."""
    for replica, it in noted.items():
        hold(name + ": both know the archive that comes", digest not in it.text.split() and "%s doesn't" % replica)
        hold(name + ": that is on the disk", not it.is_settled and "of %s it isn't" % replica)


def look_at_order(case, name):
    """Traces a whole run, and looks at each archive that comes to its place."""
    noted = {replica: Noted(replica) for replica in BOTH}
    every = ",".join([*OPENS, *WRITING, *RENAMES, "fsync", "fdatasync"])
    strace = ["strace", "-qq", "-f", "-y", "-s", "65536", "-e", "signal=none", "-o", "../log", "-e", "trace=" + every]
    status, said = run(PROGRAM, strace, command=case.command)
    hold(name, case.problem_at_end(status, said))
    archive, digest, count = b"", None if case.archives[0] is None else digest_of(case.archives[0]), 0
    for _, call, _, rest in calls("log"):
        if " = -1 " in rest:
            continue
        if OWN.search(rest):
            look_at_own(name, noted, call, rest)
            if call in RENAMES and "archives" in rest:
                unknown = [replica for replica, it in noted.items() if digest and it.text and digest not in it.text.split()]
                hold(name + ": both know the archive that is there", unknown and "%s don't" % unknown)
        elif call in OPENS and 'archive.new"' in rest and "O_CREAT" in rest:
            archive = b""
        elif call in WRITING and "archive.new>" in rest:
            archive += text_of(rest)
        elif call in RENAMES and 'archive.new"' in rest:
            digest, count = digest_of(archive), count + 1
            look_at_archive(name, noted, digest)
    least = 3 if case.command == KEEPING else 1
    hold(name + ": archives come to their place", count < least and "only %d do" % count)
    hold(name + ": the last one is there", digest != digest_of(case.archives[1]) and "it is another one")


def look_at_orders(case):
    case.fresh()
    look_at_order(case, case.name + ", in order")


def main():
    for case in pairs():
        look_at_orders(case)
        print("%s: stopped at %d calls" % (case.name, stop_each(case)), flush=True)
        if case.command == WORDS:
            print("%s: %d calls fail" % (case.name, fail_each(case)), flush=True)
        if case.name == "changes":
            refuse_each(case)
    write_counts()


main()

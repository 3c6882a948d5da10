"""Runs of the program in which calls fail, for `tests/failing_calls.sh`.

The words are the program, and then those by which it is run as an ordinary user, if it can be. All that is wanted comes from
a case's own trees, and from the rules of docs/FORMATS.md and README.md."""

import os
import re
import shutil
import stat
import subprocess
import sys

import runs
from runs import OPENS, WRITING, Case, archive_of, cases, hold, in_order, own_names, points, read_tree, run, sub, tree

PROGRAM, *ORDINARY = sys.argv[1:]
EACH = os.environ.get("FAILURES") == "all"
LARGE = int(os.environ.get("LARGE", 200000))
NOBODY = "65534:65534"
ERRORS = ["EIO", "ENOSPC", "EACCES"]
OPEN_ERRORS = ERRORS + ["EMFILE"]
# a call that was interrupted may be made again at once, so it isn't interrupted for ever
INTERRUPTED = "EINTR"
LISTS = ["getdents64"]
MODES = ["chmod", "fchmod", "fchmodat"]
LOOKS = ["stat", "lstat", "fstat", "newfstatat", "statx"]
# How many calls fail: one; three of its name, one after the other; all of its name from then on; all calls from then on.
ONCE, THRICE, ON, ALL = "once", "three times", "from then on", "and all from then on"
BEFORE, LATER = 981173106, 4102444800  # seconds since 1970, long ago and long from now
LEAST = 6  # how many ways at least are tried of the calls of one name in a case
PARTS = 12  # at how many calls of a case all begin to fail
LINE = re.compile(r"(done|failed|blocked|skip) (\w+) (/\S+)$")
FAULT = re.compile(r"twosync: fault (\d+)(?: (/\S+))?$")
KEPT = re.compile(r"twosync: kept (/\S+) as (\S+)$")
OWN = re.compile(r"(lock|plan|plan\.new|archives\.new|(new|old|kept|made|trash|left)-\d+)$")


def modes_at(place):
    """The permission bits of a place and of all below it, without the program's own directory."""
    found = {"": stat.S_IMODE(os.lstat(place).st_mode)}
    for path in read_tree(place):
        found[path] = stat.S_IMODE(os.lstat(place + path).st_mode)
    return found


class Failing(Case):
    """A case with paths that are left alone, with hold rules, and with permission bits."""

    # what may be left of an original where one call fails alone
    strict_asides = ()
    # whether a run finds the pair as it was before any run
    is_begun = False

    def __init__(self, name, first, second, archive, entries, skipped=(), holds=None, bits=()):
        self.skipped = {path: reason for reason, path in skipped}
        self.known = {} if archive is None else archive
        # where both have a directory, and the archive has none
        self.dirs = {path: "dir" for path in first if first[path] is None and second.get(path, 0) is None
                     and self.known.get(path, 0) is not None}
        super().__init__(name, first, second, archive, entries)
        self.reasons = {**{path: source for source, path in entries}, **self.skipped, **self.dirs}
        self.order = in_order(self.reasons)
        self.words = []
        if holds is not None:
            self.words = ["--holds", "holds"]
            with open(self.base + "/holds", "w") as file:
                file.write(holds)
        self.set_times()
        for path, mode in bits:
            os.chmod(self.base + "/" + path, mode)
        self.old_modes = {replica: modes_at("%s/%s" % (self.base, replica)) for replica in ("first", "second")}
        self.new_modes = {replica: self.wanted_modes(replica) for replica in ("first", "second")}
        self.status = 1 if self.skipped else 0
        # looks change nothing, and fail here nevertheless: permission bits come of some, and others say what lies where
        self.looks = LISTS + (LOOKS if bits else [])
        self.copy_for_nobody()
        # whether one call fails alone, so that all that was begun can be undone
        self.is_strict = True
        # whether permission bits may be missing, since a call by which they are given failed
        self.lacks_bits = False

    def copy_for_nobody(self):
        """Makes the pair that an ordinary user's run is given."""
        subprocess.run(["cp", "-a", self.base, self.base + " of nobody"], check=True)
        if ORDINARY:
            subprocess.run(["chown", "-R", NOBODY, self.base + " of nobody"], check=True)

    def new_archive(self, archive):
        """That of the new pair, but at and below the paths that are left alone, where it is as it was."""
        there = dict(self.new["first"])
        for path in self.skipped:
            for each in sub(there, path):
                del there[each]
            there.update(sub(self.known, path))
        return archive_of(there)

    def set_times(self):
        """Gives every second file a time long ago, and the others one to come. The bytes of these are read once more before
        they are removed, in each run alike."""
        for replica in ("first", "second"):
            for k, path in enumerate(in_order(p for p, content in self.old[replica].items() if content is not None)):
                time = LATER if k % 2 else BEFORE
                os.utime("%s/%s%s" % (self.base, replica, path), (time, time))

    def wanted_modes(self, replica):
        """A new file or directory has the bits of its source; a file that replaces one keeps that one's."""
        found = dict(self.old_modes[replica])
        for source, path in self.entries:
            if source == replica:
                continue
            kept = found.get(path)
            for each in sub(found, path):
                del found[each]
            for each in sub(self.old[source], path):
                found[each] = self.old_modes[source][each] & 0o777
            if self.old[replica].get(path) is not None and self.old[source].get(path) is not None:
                found[path] = kept
        return found

    def report(self, word):
        """The report where all entries that are carried out end so."""
        lines = ["%s %s %s" % ("skip" if path in self.skipped else word, self.reasons[path], path) for path in self.order]
        return self.with_totals(lines)

    def with_totals(self, lines):
        words = [line.split(" ")[0] for line in lines]
        counts = tuple(words.count(word) for word in ("done", "skip", "failed", "blocked"))
        return "".join(line + "\n" for line in lines) + "total %d done %d skipped %d failed %d blocked %d\n" % (
            len(lines), *counts)

    def nothing(self):
        """What a run says where nothing is left to be done."""
        return self.with_totals(["skip %s %s" % (self.skipped[path], path) for path in self.order if path in self.skipped])

    def fresh(self, is_ordinary=False):
        if os.getuid() != 0:
            subprocess.run(["chmod", "-Rf", "u+rwx", "try"], check=False)
        shutil.rmtree("try", ignore_errors=True)
        subprocess.run(["cp", "-a", self.base + " of nobody" if is_ordinary else self.base, "try"], check=True)

    # ---- what lies there

    def problem_in(self, replica):
        problem = super().problem_in(replica) or self.problem_of_modes(replica)
        # where more calls failed than one, what was stored may stay for the next run
        other = [name for name in own_names(replica) if not OWN.match(name) and (self.is_strict or not name.startswith("stage-"))]
        return problem or (other and "%s lies in .twosync of %s" % (other, replica))

    def may_stay(self, replica, name):
        # what couldn't be put back is kept for good, where more calls failed than one
        into = [path for source, path in self.entries if source != replica]
        return not self.is_strict and name.startswith("left-") and any(self.is_old_self(replica, p, name) for p in into)

    def problem_of_modes(self, replica):
        now, old, new = modes_at("try/" + replica), self.old_modes[replica], self.new_modes[replica]
        there = read_tree("try/" + replica)
        put = [path for source, path in self.entries if source != replica and sub(there, path) == sub(self.new[replica], path)]
        for path, mode in now.items():
            is_put = any(path == top or path.startswith(top + "/") for top in put)
            wanted = new[path] if is_put else old.get(path)
            if mode == wanted or (is_put and self.lacks_bits and mode & 0o077 & ~wanted == 0):
                continue
            return "%s%s has the mode %o" % (replica, path, mode)
        return None

    def problem_of_archive(self, now):
        """It is as it was, or as the run made it: each entry's part is the old or the new one, and what is new in it is so in
        both replicas."""
        if now == self.archives[0]:
            return None
        if now is None:
            return "the archive is gone"
        lines = now.decode().split("\n")
        rows = {line.split(" ")[1]: line for line in lines[1:-2]}
        body = "\n".join(lines[:-2]) + "\n"
        if lines[-1] != "" or archive_end(body) != lines[-2] or list(rows) != in_order(rows):
            return "the archive isn't one"
        old, new = (rows_of(self.archives[k]) for k in (0, 1))
        first, second = (rows_of(archive_of(read_tree("try/" + replica))) for replica in ("first", "second"))
        for path in {**old, **rows}:
            if rows.get(path) == old.get(path) or rows.get(path) == first.get(path) == second.get(path):
                continue
            return "the archive says of %s what isn't so in both replicas" % path
        for path in self.order:
            if sub(rows, path) not in (sub(old, path), sub(new, path)) and path not in self.dirs:
                return "the archive has a part of %s" % path
        return None

    # ---- what is said

    def problem_of_answer(self, status, said, is_mute):
        """What is wrong with the status and with what was said, beside what lies there. A run that can't write is mute."""
        if status not in (0, 1, 2, 3):
            return "status %s, %s" % (status, said[1].replace("\n", " "))
        out, err = said
        told = err.split("\n")[:-1]
        problem = self.problem_of_kept([line for line in told if KEPT.match(line)], is_mute)
        if problem:
            return problem
        faults = [FAULT.match(line) for line in told if not KEPT.match(line)]
        if not all(faults) or (err and not err.endswith("\n")):
            return "it says %s" % repr(err)
        if status == 3:
            return self.problem_of_refusal(out, faults, is_mute)
        lines = out.split("\n")[:-2]
        is_whole = out != "" and out == self.with_totals(lines)
        if is_whole:
            found = [LINE.match(line) for line in lines]
            if not all(found) or [m.group(2, 3) for m in found] != [(self.reasons[p], p) for p in self.order]:
                return "the report is of other entries: %s" % repr(out)
            became = {m.group(3): m.group(1) for m in found}
            problem = self.problem_of_fates(became, faults, is_mute)
            if problem:
                return problem
        elif not is_mute:
            return "there is no whole report: %s" % repr(out)
        is_done = is_whole and all(word in ("done", "skip") for word in became.values())
        is_archive_lost = any(fault.group(2) is None for fault in faults)
        if status != 2:
            if status != self.status or not is_done:
                return "status %d, %s, %s" % (status, repr(out[-60:]), repr(err))
            problem = self.problem_of_trash(faults)
            if problem:
                return "%s: %s" % (problem, repr(err))
            if open("try/archive", "rb").read() != self.archives[1]:
                return "status %d, and the archive isn't the new one" % status
            return None
        if is_mute or not is_done or is_archive_lost:
            return None
        return "status 2, though all is done: %s" % repr(err)

    def problem_of_kept(self, lines, is_mute):
        """What is kept for good is reported, and what is reported as kept is there."""
        places = {KEPT.match(line).group(2) for line in lines}
        there = {"%s/.twosync/%s" % (replica, name) for replica in ("first", "second") for name in own_names(replica)
                 if name.startswith("left-")}
        if places - there or (there - places and not is_mute):
            return "%s is kept, and %s is reported as kept" % (sorted(there), sorted(places))
        return None

    def problem_of_trash(self, faults):
        """What is wrong with the faults of a run that has done all: they are of what it couldn't remove."""
        if any(fault.group(1) != "8" or fault.group(2) is None for fault in faults):
            return "a fault, though all is done"
        paths = [fault.group(2) for fault in faults]
        if len(set(paths)) != len(paths):
            return "a path is reported twice"
        for replica in ("first", "second"):
            into = [path for path in paths if self.reasons.get(path) == ("second" if replica == "first" else "first")]
            trash = [name for name in own_names(replica) if name.startswith("trash-")]
            if len(into) > len(trash) or (trash and not into):
                return "%s lie in .twosync of %s" % (trash, replica)
        return None

    def problem_of_refusal(self, out, faults, is_mute):
        if out != "" or (len(faults) != 1 and not (is_mute and not faults)):
            return "status 3, and it says %s and %d faults" % (repr(out), len(faults))
        for replica in ("first", "second"):
            if read_tree("try/" + replica) != self.old[replica] or modes_at("try/" + replica) != self.old_modes[replica]:
                return "status 3, and %s has changed" % replica
        now = open("try/archive", "rb").read() if os.path.exists("try/archive") else None
        return now != self.archives[0] and "status 3, and the archive has changed"

    def problem_of_fates(self, became, faults, is_mute):
        """What is wrong with a whole report: what is done is in place; what failed isn't, and its fault is reported."""
        named = {fault.group(2) for fault in faults}
        archive = open("try/archive", "rb").read() if os.path.exists("try/archive") else None
        rows, new = rows_of(archive), rows_of(self.archives[1])
        for path, word in became.items():
            if (word == "skip") != (path in self.skipped):
                return "%s %s" % (word, path)
            if word == "failed" and path not in named and not is_mute:
                return "no fault of %s is reported" % path
            if word != "done" or path in self.dirs:
                continue
            for replica in ("first", "second"):
                if sub(read_tree("try/" + replica), path) != sub(self.new[replica], path):
                    return "%s is reported as done, and isn't in %s" % (path, replica)
            if archive != self.archives[0] and sub(rows, path) != sub(new, path):
                return "%s is reported as done, and the archive doesn't know of it" % path
        for source, path in self.entries:
            target = "second" if source == "first" else "first"
            there = sub(read_tree("try/" + target), path)
            if became[path] in ("failed", "blocked") and self.is_strict and there != sub(self.old[target], path):
                return "%s is reported as %s, and %s has changed there" % (path, became[path], target)
        return None

    # ---- the runs after it

    def problem_at_end(self, status, said):
        told = [line for line in said[1].split("\n")[:-1] if self.is_strict or not KEPT.match(line)]
        if status != self.status or told:
            return "status %s, %s" % (status, " ".join((said[0] + said[1]).split("\n")))
        for replica in ("first", "second"):
            problem = self.problem_of_modes(replica)
            if problem:
                return problem
        return self.problem_of_pair()


class Stopped(Failing):
    """A case whose run was killed in the middle of a swap, so that the next run has to recover first."""

    strict_asides = ("old-",)
    is_begun = True

    def __init__(self, *words):
        super().__init__("a recovery", *words)
        for number in range(1, 200):
            self.fresh()
            stop = "inject=rename:signal=KILL:when=%d" % number
            run(PROGRAM, ["strace", "-qq", "-f", "-o", "/dev/null", "-e", "trace=rename", "-e", stop])
            asides = [name for replica in ("first", "second") for name in own_names(replica) if name.startswith("old-")]
            # something was put in place before, and an original lies aside
            if asides and read_tree("try/second").get("/a") == self.new["second"]["/a"]:
                break
        hold("a run is killed in the middle of a swap", not asides and "no original lies aside")
        for place in (self.base, self.base + " of nobody"):
            shutil.rmtree(place)
        os.rename("try", self.base)
        self.copy_for_nobody()

    def problem_of_answer(self, status, said, is_mute):
        out, err = said
        told = [line for line in err.split("\n")[:-1] if not KEPT.match(line)]
        faults = [FAULT.match(line) for line in told]
        if not all(faults) or status not in (0, 2, 3):
            return "status %s, and it says %s" % (status, repr(err))
        # what recovery can't remove is reported before why the run is refused
        if status == 3 and (out or not told or any(it.group(1) != "8" or it.group(2) is None for it in faults[:-1])) and not is_mute:
            return "status 3, and it says %s and %s" % (repr(out), repr(err))
        if status == 2 and not told and not is_mute:
            return "status 2 without a fault"
        if status == 0 and any(read_tree("try/" + replica) != self.new[replica] for replica in ("first", "second")):
            return "status 0, and the replicas aren't what they have to be"
        if status == 0 and open("try/archive", "rb").read() != self.archives[1]:
            return "status 0, and the archive isn't the new one"
        return None


def stopped(name, *words):
    """The one case that is also run to recover."""
    return Stopped(*words) if name == "changes" else None


def archive_end(body):
    """The line that ends an archive with this body."""
    return "end %d %s" % (body.count("\n") - 1, runs.hashlib.sha256(body.encode()).hexdigest())


def rows_of(archive):
    """An archive's rows by their paths."""
    return {} if archive is None else {line.split(" ")[1]: line for line in archive.decode().split("\n")[1:-2]}


def may_fail(call, rest):
    """Whether a call of the program is one that is to fail: of those that open, all that open what a case is about, and of
    those that write also those of the report."""
    if call in LISTS:
        return os.path.realpath("try") in rest
    if call in OPENS + LOOKS:
        return '"' in rest and '"/' not in rest and '""' not in rest
    if call in WRITING:
        return os.path.realpath("try") in rest or re.match(r"[12]<", rest)
    return True


def failures(found, position, way, error):
    """The words for strace, so that the call at this position fails, and more calls by the way."""
    call, number = found[position]
    if way != ALL:
        which = {ONCE: "%d" % number, THRICE: "%d..%d" % (number, number + 2), ON: "%d+" % number}[way]
        return ["-e", "inject=%s:error=%s:when=%s" % (call, error, which)]
    words = []
    for name in sorted({name for name, _ in found}):
        later = [k for n, k in found[position:] if n == name]
        first = later[0] if later else max(k for n, k in found if n == name) + 1
        words += ["-e", "inject=%s:error=%s:when=%d+" % (name, error, first)]
    return words


def ways(found, tried):
    """Which calls fail, and how: (position, way, error, whether an ordinary user runs it). In turn each error and each way
    comes for each name of a call, and every second time it is the ordinary user."""
    for position, (call, _) in enumerate(found):
        errors = OPEN_ERRORS if call in OPENS else ERRORS
        every = [(way, error, user) for error in errors for way in (ONCE, ON, THRICE) for user in (False, True)]
        every += [(way, INTERRUPTED, user) for way in (ONCE, THRICE) for user in (False, True)]
        count = max(1, -(-LEAST // sum(name == call for name, _ in found)))
        if call in LOOKS:
            # each fails alone, and with the two after it
            every = [(way, error, user) for user in (False, True) for error in errors for way in (ONCE, THRICE)]
            count = 2
        if EACH:
            count = len(every)
        for _ in range(count):
            # 5 has no factor in common with the number of ways, so all of them come
            stride = 1 if EACH or call in LOOKS else 5
            yield (position, *every[tried.setdefault(call, 0) * stride % len(every)])
            tried[call] += 1
    # all from then on
    for k, position in enumerate(runs.spread(list(range(len(found))), len(found) if EACH else PARTS)):
        yield position, ALL, ERRORS[k % 3], k // 3 % 2 == 1


def fail(case, found, position, way, error, is_ordinary):
    """One run in which calls fail, and the two runs after it."""
    call, number = found[position]
    is_ordinary = is_ordinary and bool(ORDINARY)
    name = "%s, %s %d, %s %s%s" % (case.name, call, number, error, way, ", an ordinary user" if is_ordinary else "")
    before = ORDINARY if is_ordinary else []
    case.fresh(is_ordinary)
    case.is_strict = way == ONCE
    case.asides = case.strict_asides if way == ONCE else ("old-", "trash-", "left-", "kept-")
    case.lacks_bits = way == ALL or call in MODES + OPENS + LOOKS
    words = failures(found, position, way, error)
    trace = "trace=" + ",".join(sorted({name for name, _ in found}) if way == ALL else [call])
    strace = ["strace", "-qq", "-f", "-o", "../log", "-e", "signal=none", "-e", trace, *words]
    status, said = run(PROGRAM, before + strace, case.words)
    hold(name, "(INJECTED)" not in open("log", errors="replace").read() and "the run doesn't come to that")
    is_mute = way == ALL or call in WRITING
    hold(name + ", what lies there", case.problem())
    hold(name + ", what is said", case.problem_of_answer(status, said, is_mute))
    status, said = run(PROGRAM, before, case.words)
    hold(name + ", the next run", case.problem_at_end(status, said))
    hold(name + ", and one more", run(PROGRAM, before, case.words) != (case.status, (case.nothing(), "")) and "it isn't done")


def more_cases():
    """What is left alone, and permission bits: conflicts, held paths, a mode that was changed alone."""
    both = tree(("/a", b"a"), ("/b", b"b"), ("/c", b"c"), ("/e", b"e"), ("/f/x", b"x"), ("/f/y", b"y"), ("/h/one", b"1"),
                ("/h/two", b"2"), ("/k", b"k"), ("/m", b"m"), ("/s/t", b"t"))
    first = {**both, **tree(("/a", b"A"), ("/c", b"one"), ("/f/x", b"changed"), ("/h/one", b"held"), ("/new/ro/x", b"x"),
                            ("/new/run", b"run"), ("/k/l", b"l"))}
    second = {**both, **tree(("/b", b"longer"), ("/c", b"another"), ("/e", b"edited"), ("/f/y", b"changed"),
                             ("/draft.tmp", b"draft"), ("/v", b"v"))}
    for gone in ("/e", "/f/y"):
        del first[gone]
    for gone in ("/s", "/s/t"):
        del second[gone]
    bits = [("first/a", 0o755), ("second/a", 0o640), ("first/m", 0o600), ("second/m", 0o664), ("first/new", 0o750),
            ("first/new/ro", 0o555), ("first/new/ro/x", 0o444), ("first/new/run", 0o755), ("first/k", 0o711),
            ("second/k", 0o600), ("second/v", 0o400), ("first/h", 0o700), ("second/c", 0o444)]
    yield Failing(
        "conflicts", first, second, both,
        [("first", "/a"), ("second", "/b"), ("first", "/f/x"), ("first", "/k"), ("first", "/new"), ("second", "/s"),
         ("second", "/v")],
        [("conflict", "/c"), ("conflict", "/e"), ("conflict", "/f/y"), ("held", "/h/one"), ("held", "/draft.tmp")],
        "path /h\nname *.tmp\n", bits)


def main():
    with open("log", "w"):
        os.chmod("log", 0o666)
    tried, failed = {}, 0
    for case in [*cases(LARGE, Failing), *more_cases(), *filter(None, cases(LARGE, stopped))]:
        found = points(case, PROGRAM, may_fail, case.words, case.nothing(), case.looks)
        runs.tell_calls(case.name, found, "may fail")
        if not case.is_begun:
            case.fresh()
            said = run(PROGRAM, words=case.words)[1]
            hold("%s, its report" % case.name, said != (case.report("done"), "") and " ".join(said))
        for each in ways(found, tried):
            fail(case, found, *each)
            failed += 1
    print("%d runs in which calls fail" % failed)
    runs.write_counts()


main()

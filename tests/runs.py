"""What the scripts share that stop runs of the program, or fail its calls: pairs of replicas with what has to become of them,
runs on copies of them, and the calls of a whole run. It works in the folder that it is run in."""

import hashlib
import os
import random
import re
import shutil
import signal
import stat
import subprocess

NOTHING = "total 0 done 0 skipped 0 failed 0 blocked 0\n"
OPENS = ["open", "openat", "creat"]
WRITING = ["write", "writev", "pwrite64", "pwritev", "copy_file_range", "sendfile"]
OTHERS = ["mkdir", "mkdirat", "ftruncate", "rename", "renameat", "renameat2", "link", "linkat", "unlink", "unlinkat"]
OTHERS += ["rmdir", "chmod", "fchmod", "fchmodat", "fsync", "fdatasync", "flock"]
WORDS = ["sync", "first", "second", "archive", "--workers", "1"]
# the text of the file `archives` that a replica has
KNOWN = re.compile(rb"((pair:[0-9a-f]{64} )?[0-9a-f]{64}( [0-9a-f]{64})?\n){1,1024}")
counts = {"passed": 0, "failed": 0}


def hold(what, problem):
    """Counts one thing that has to hold; a problem is a text that says what is wrong."""
    counts["failed" if problem else "passed"] += 1
    if problem and counts["failed"] <= 25:
        print("FAILED: %s: %s" % (what, problem), flush=True)


def write_counts():
    """Leaves the counts for the script that started this."""
    with open("counts", "w") as file:
        file.write("%d %d\n" % (counts["passed"], counts["failed"]))


# A tree is a dictionary from paths to bytes, or None for a folder.
def tree(*lines):
    found = {}
    for path, content in lines:
        parts = path.split("/")
        for k in range(2, len(parts)):
            found["/".join(parts[:k])] = None
        found[path] = content
    return found


def write_tree(place, there):
    os.mkdir(place)
    for path in sorted(there):
        if there[path] is None:
            os.mkdir(place + path)
        else:
            with open(place + path, "wb") as file:
                file.write(there[path])


def read_tree(place):
    """What lies at a place and below it: the place itself is "" where it is a file."""
    if not os.path.lexists(place):
        return {}
    if not os.path.isdir(place):
        return {"": open(place, "rb").read()}
    found = {}
    for folder, folders, files in os.walk(place):
        if folder == place and ".twosync" in folders:
            folders.remove(".twosync")
        for name in folders:
            found[os.path.join(folder, name)[len(place):]] = None
        for name in files:
            path = os.path.join(folder, name)
            found[path[len(place):]] = open(path, "rb").read()
    return found


def digest_of(archive):
    """The digest in an archive's last line, by which replicas know it."""
    return archive.split()[-1]


def make_known(archive, replica):
    """Makes the program's own directory in a replica, as a run leaves it that wrote this archive: so the replica knows it."""
    own = replica + "/.twosync"
    os.mkdir(own, 0o700)
    with open(own + "/archives", "wb", opener=lambda name, flags: os.open(name, flags, 0o600)) as file:
        file.write(digest_of(archive) + b"\n")


def names_beside_archives(own):
    """What lies in a directory of the program's own, but for the file `archives`, which stays there."""
    names = os.listdir(own) if os.path.isdir(own) else []
    return sorted(name for name in names if name != "archives" or not is_private_file(own + "/" + name))


def is_private_file(place):
    mode = os.lstat(place).st_mode
    return stat.S_ISREG(mode) and stat.S_IMODE(mode) == 0o600


def own_names(replica):
    """What else lies in the program's own directory of a replica."""
    return names_beside_archives("try/%s/.twosync" % replica)


def problem_of_known(replica):
    """What is wrong with the file by which a replica knows the archive that is there."""
    place = "try/%s/.twosync/archives" % replica
    known = open(place, "rb").read() if os.path.exists(place) else b""
    if not KNOWN.fullmatch(known):
        return "the file archives of %s is %r" % (replica, known[:200])
    if digest_of(open("try/archive", "rb").read()) not in known.split():
        return "%s doesn't know the archive" % replica
    return None


def sub(there, top):
    return {path: there[path] for path in there if path == top or path.startswith(top + "/")}


def in_order(paths):
    """Paths, each folder right before what is in it."""
    return sorted(paths, key=lambda path: path.encode().split(b"/"))


def archive_of(there):
    body = "twosync-archive 1\n"
    for path in in_order(there):
        content = there[path]
        body += "d %s\n" % path if content is None else "f %s %d %s\n" % (
            path, len(content), hashlib.sha256(content).hexdigest())
    return (body + "end %d %s\n" % (len(there), hashlib.sha256(body.encode()).hexdigest())).encode()


class Case:
    """A pair before a run, and what has to become of it. The entries are written by hand: where each is copied from."""

    # what may be left of an original that can't be put back
    asides = ("old-",)

    def __init__(self, name, first, second, archive, entries):
        self.name, self.entries = name, entries
        self.old = {"first": first, "second": second}
        self.new = {"first": dict(first), "second": dict(second)}
        for source, path in entries:
            target = "second" if source == "first" else "first"
            for gone in sub(self.new[target], path):
                del self.new[target][gone]
            self.new[target].update(sub(self.old[source], path))
        self.archives = [None if archive is None else archive_of(archive), self.new_archive(archive)]
        self.base = "base " + name
        os.mkdir(self.base)
        for replica in ("first", "second"):
            write_tree("%s/%s" % (self.base, replica), self.old[replica])
            if archive is not None:
                make_known(self.archives[0], "%s/%s" % (self.base, replica))
        if archive is not None:
            with open(self.base + "/archive", "wb") as file:
                file.write(self.archives[0])

    def new_archive(self, _archive):
        """The archive of a whole run, by the one before it."""
        assert self.new["first"] == self.new["second"]
        return archive_of(self.new["first"])

    def fresh(self):
        shutil.rmtree("try", ignore_errors=True)
        subprocess.run(["cp", "-a", self.base, "try"], check=True)

    def problem(self):
        """What is wrong with the pair after a run that came to no good end."""
        for replica in ("first", "second"):
            problem = self.problem_in(replica)
            if problem:
                return problem
        beside = set(os.listdir("try")) - set(os.listdir(self.base)) - {"archive", "archive.new"}
        if beside:
            return "%s lies beside the archive" % beside
        now = open("try/archive", "rb").read() if os.path.exists("try/archive") else None
        return self.problem_of_archive(now)

    def problem_in(self, replica):
        """What is wrong with a replica: each target is its old or its new self, or its old self lies aside."""
        now, old, new = read_tree("try/" + replica), self.old[replica], self.new[replica]
        aside = [n for n in own_names(replica) if n.startswith(self.asides)]
        rest = dict(now)
        kept = dict(old)
        for source, path in self.entries:
            for each in sub(now, path):
                del rest[each]
            for each in sub(old, path):
                kept.pop(each, None)
            if source == replica:
                if sub(now, path) != sub(old, path):
                    return "%s%s, the source, has changed" % (replica, path)
                continue
            if sub(now, path) in (sub(old, path), sub(new, path)):
                continue
            if sub(now, path) or not any(self.is_old_self(replica, path, name) for name in aside):
                return "%s%s is neither its old nor its new self, and .twosync has %s" % (replica, path, aside)
        return rest != kept and "%s has changed beside the entries" % replica

    def is_old_self(self, replica, path, name):
        """Whether what has this name in the program's own directory is what the replica had at a path, whole."""
        old = self.old[replica]
        whole = {each[len(path):]: content for each, content in sub(old, path).items() if each != path}
        if old.get(path) is not None:
            whole[""] = old[path]
        return path in old and read_tree("try/%s/.twosync/%s" % (replica, name)) == whole

    def may_stay(self, _replica, _name):
        """Whether what has this name in the program's own directory may be there where nothing is left to be done."""
        return False

    def problem_of_archive(self, now):
        return None if now in self.archives else "the archive is neither the old nor the new one"

    def problem_at_end(self, status, said):
        """What is wrong after a run that wasn't disturbed."""
        if status != 0 or said[1]:
            return "status %s, %s" % (status, " ".join((said[0] + said[1]).split("\n")))
        return self.problem_of_pair()

    def problem_of_pair(self):
        """What is wrong where nothing may be left to be done."""
        for replica in ("first", "second"):
            now = read_tree("try/" + replica)
            if now != self.new[replica]:
                apart = [p for p in sorted(set(now) | set(self.new[replica])) if now.get(p, 0) != self.new[replica].get(p, 0)]
                return "%s isn't what it has to be at %s" % (replica, apart[:3])
            left = [name for name in own_names(replica) if not self.may_stay(replica, name)]
            if left:
                return "%s is left in .twosync of %s" % (left, replica)
        # a stopped run may have left its new archive beside the old one
        if set(os.listdir("try")) != set(os.listdir(self.base)) - {"archive.new"} | {"archive"}:
            return "something is left beside the archive: %s" % os.listdir("try")
        if open("try/archive", "rb").read() != self.archives[1]:
            return "the archive isn't what it has to be"
        return problem_of_known("first") or problem_of_known("second")


def outcome(child):
    """The status of a program that was started, none where it came to no end, and what it said. It has a session of its own."""
    try:
        said = child.communicate(timeout=60)
    except subprocess.TimeoutExpired:
        # what strace has started ends with it
        os.killpg(child.pid, signal.SIGKILL)
        child.communicate()
        return None, ("", "it came to no end in 60 s")
    return child.returncode, said


def run(program, before=(), words=(), command=WORDS):
    """Runs the program on the copy of a pair; answers its status, none where it came to no end, and what it said. `before`
    stands before the program, and `words` after the command."""
    pipe = subprocess.PIPE
    every = [*before, program, *command, *words]
    with subprocess.Popen(every, cwd="try", stdout=pipe, stderr=pipe, text=True, start_new_session=True) as child:
        return outcome(child)


def run_to_stop(program, call, number, command=WORDS):
    """Runs the program, and kills it before this call. Answers whether it came to that."""
    stop = "inject=%s:signal=KILL:when=%d" % (call, number)
    strace = ["strace", "-qq", "-f", "-o", "/dev/null", "-e", "trace=" + call, "-e", stop]
    status, _ = run(program, strace, command=command)
    return status in (-9, 137)


def calls(log):
    """The calls in a log of strace: the thread, the name, which one of that name it is, and what stands behind the name."""
    seen = {}
    for line in open(log, errors="replace"):
        match = re.match(r"(\d+)\s+(\w+)\((.*)", line)
        if match:
            thread, call, rest = match.groups()
            seen[call] = seen.get(call, 0) + 1
            yield thread, call, seen[call], rest


def changes(call, rest):
    """Whether a call changes something in the pair or beside it."""
    if call in OPENS and call != "creat":
        return "O_CREAT" in rest or "O_TRUNC" in rest
    return call not in WRITING or os.path.realpath("try") in rest


def traced(name, program, matters=changes, words=(), more=(), command=WORDS):
    """Runs the program to its end on the copy of a pair as it stands. Answers its status, what it said, and its calls that
    matter: each one's name, and which one of that name it is. `more` names those that are looked at beside those that open
    or change something."""
    every = ",".join([*OPENS, *WRITING, *OTHERS, *more])
    strace = ["strace", "-qq", "-f", "-y", "-s", "1", "-e", "signal=none", "-o", "../log", "-e", "trace=" + every]
    status, said = run(program, strace, words, command)
    found, threads = [], set()
    for thread, call, number, rest in calls("log"):
        threads.add(thread)
        if matters(call, rest):
            found.append((call, number))
    hold("%s: one thread does all" % name, len(threads) != 1 and "%d threads" % len(threads))
    return status, said, found


def points(case, program, matters=changes, words=(), again=NOTHING, more=(), command=WORDS):
    """The calls that matter of a whole run on a fresh copy of a pair, as `traced` answers them."""
    case.fresh()
    status, said, found = traced(case.name, program, matters, words, more, command)
    hold("%s, undisturbed" % case.name, case.problem_at_end(status, said))
    status, said = run(program, words=words)
    hold("%s, undisturbed, and once more" % case.name, said != (again, "") and " ".join(said))
    return found


def spread(all_of_them, most):
    """At most so many of them, evenly, with the first and the last one."""
    if len(all_of_them) <= most:
        return all_of_them
    return [all_of_them[k * (len(all_of_them) - 1) // (most - 1)] for k in range(most)]


def tell_calls(name, found, what="change something"):
    """Prints how many calls there are of each name; answers the names."""
    kinds = sorted({call for call, _ in found})
    each = ", ".join("%d %s" % (sum(c == k for c, _ in found), k) for k in kinds)
    print("%s: %d calls %s: %s" % (name, len(found), what, each), flush=True)
    return kinds


def text(seed, size):
    return random.Random(seed).randbytes(size)


def cases(large_size, kind=Case):
    """The pairs that both scripts run, with a large file of this size."""
    large = text(1, large_size)
    yield kind(
        "a first sync",
        tree(("/a", b"a"), ("/c/x", b"x"), ("/d/e/f", b"f"), ("/d/e/g", text(2, large_size // 40)), ("/d/h", None),
             ("/empty", b""), ("/large", large), ("/o/p/q/r", b"r"), ("/s", b"s"), ("/t/u", b"")),
        tree(("/b", b"bb"), ("/c/y", b"y"), ("/h/i/j", b"j"), ("/h/k", b""), ("/m/n", text(3, 1000)), ("/v", b"v"), ("/w", None)),
        None,
        [("first", "/a"), ("second", "/b"), ("first", "/c/x"), ("second", "/c/y"), ("first", "/d"), ("first", "/empty"),
         ("second", "/h"), ("first", "/large"), ("second", "/m"), ("first", "/o"), ("first", "/s"), ("first", "/t"),
         ("second", "/v"), ("second", "/w")],
    )
    both = tree(("/a", b"a"), ("/b", b"b"), ("/c/x", b"x"), ("/c/y", b"y"), ("/d/e/f", b"f"), ("/d/e/g", b"g"), ("/empty", b""),
                ("/k", b"k"), ("/l", text(4, 2000)), ("/large", large), ("/m/n/o", b"o"), ("/m/p", b"p"), ("/p", b"p"),
                ("/q/r/s", b"s"), ("/q/t", b"t"), ("/z", b"z"))

    def changed(gone, lines):
        there = dict(both)
        for top in gone:
            for path in sub(there, top):
                del there[path]
        there.update(tree(*lines))
        return there

    yield kind(
        "changes",
        changed(["/k", "/p", "/l"], [("/a", b"A"), ("/c/x", b"longer"), ("/k/l", b"l"), ("/k/o/p", text(5, 5000)),
                                     ("/n/o/p", b"n"), ("/empty", b"no more"), ("/l/m", b"m")]),
        changed(["/m", "/q", "/c/y"], [("/b", b"B"), ("/d/e/f", b"changed"), ("/large", text(6, large_size * 2 // 3 + 7)),
                                       ("/m", b"a file now"), ("/u", b"u")]),
        both,
        [("first", "/a"), ("second", "/b"), ("first", "/c/x"), ("second", "/c/y"), ("second", "/d/e/f"), ("first", "/empty"),
         ("first", "/k"), ("first", "/l"), ("second", "/large"), ("second", "/m"), ("first", "/n"), ("first", "/p"),
         ("second", "/q"), ("second", "/u")],
    )

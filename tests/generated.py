"""What the scripts share that draw cases, judge them, and compare the answers of the program `cases` with that: dice, the reasons
of paths by their definitions, the texts of prints and plans, and the run of the program."""

import subprocess

from runs import hold

REASONS = ["Same", "First", "Second", "Conflict", "Held", "Dir"]
# Entries of these reasons are copied from a replica, and nothing is done about those.
COPIED = ["First", "Second"]
SKIPPED = ["Conflict", "Held"]
BITS = (1 << 64) - 1


class Dice:
    """Draws numbers that look random, the same ones in each run."""

    def __init__(self, seed, stream):
        self.increment = (stream << 1) | 1
        self.state = (seed + self.increment) & BITS
        self.step()

    def step(self):
        self.state = (self.state * 6364136223846793005 + self.increment) & BITS

    def next(self):
        old = self.state
        self.step()
        word = (((old >> 18) ^ old) >> 27) & 0xFFFFFFFF
        turn = old >> 59
        return ((word >> turn) | (word << (-turn & 31))) & 0xFFFFFFFF

    def below(self, end):
        return self.next() % end


# ---- what a plan is made for
# A path is a tuple of names. A tree is a dictionary from all paths to what stands there: None for nothing, "dir" for a directory,
# and the number of its filling for a file.
def is_above(path, other):
    """Whether a path is above another one, or the same."""
    return other[:len(path)] == path


def all_below(paths):
    """For each path those that are below it, and itself."""
    return {path: [other for other in paths if is_above(path, other)] for path in paths}


class World:
    """An archive, two replicas, and the paths that hold rules name. A rule holds a path only where something stands."""

    def __init__(self, archive, first, second, named, below):
        self.archive, self.first, self.second, self.below = archive, first, second, below
        self.held = [path for path in named if any(tree[path] is not None for tree in (archive, first, second))]
        reasons = {path: self.reason_of(path) for path in below}
        self.reasons = {path: reason for path, reason in reasons.items() if reason}

    def differ(self, one, other, path):
        """Whether two trees have something else at a path or below it."""
        return any(one[place] != other[place] for place in self.below[path])

    def changed(self, replica, path):
        return self.differ(replica, self.archive, path)

    def agree(self, path):
        return not self.differ(self.first, self.second, path)

    def touches_held(self, path):
        """Whether a held path is above this one, below it or the same."""
        return any(is_above(held, path) or is_above(path, held) for held in self.held)

    def is_shared(self, path):
        return self.first[path] == "dir" and self.second[path] == "dir"

    def source(self, reason):
        """The replica that an entry of this reason is copied from, if it is copied."""
        return {"First": self.first, "Second": self.second}.get(reason)

    def reason_of(self, path):
        """The reason of a path, or None."""
        if not path or not self.is_shared(path[:-1]):
            return None
        if self.is_shared(path):
            return None if self.archive[path] == "dir" else "Dir"
        first, second = self.changed(self.first, path), self.changed(self.second, path)
        if self.agree(path):
            return "Same" if first else None
        held = self.touches_held(path)
        if (first or held) and not (second or held):
            return "First"
        if (second or held) and not (first or held):
            return "Second"
        return "Conflict" if first and second else "Held"


# ---- texts
def text_of_path(path):
    return "".join("/" + name for name in path)


def text_of_print(tree, stamps):
    """The lines of a tree's print. A filling's stamp is its size and its digest."""
    lines = []
    for path, content in tree.items():
        if path and content == "dir":
            lines.append("d %s\n" % text_of_path(path))
        elif path and content is not None:
            lines.append("f %s %d %s\n" % (text_of_path(path), *stamps[content]))
    return "".join(lines).encode()


def text_of_plan(entries, actions=(), lines=()):
    """A plan's text, of entries, and of the lines of its actions. No plan's text can name the root: `/root` stands for it."""
    front = ["entry %s %s\n" % (reason.lower(), text_of_path(path or ("root",))) for path, reason in entries]
    return "".join(["twosync-plan 1\n", *front, *lines, "end %d %d\n" % (len(entries), len(actions))]).encode()


# ---- the program
def stream_of(cases):
    """What the program reads: the kind and the parts of each case, each behind its length."""
    return b"".join(len(part).to_bytes(8, "little") + part for case in cases for part in case)


def answers(program, cases):
    """Asks the program about cases, each a kind and its parts. Returns an answer for each: a line, or, for `marks`, all lines up to an
    empty one. The answers that a program doesn't give which ended too early are empty."""
    done = subprocess.run([program, "answers"], input=stream_of(cases), capture_output=True)
    hold("the program's end", done.returncode and "status %d: %s" % (done.returncode, done.stderr.decode(errors="replace").strip()))
    lines = done.stdout.decode().split("\n")
    found, at = [], 0
    for case in cases:
        end = at + 1
        if case[0] == b"marks" and at < len(lines):
            end = lines.index("", at) + 1
        found.append("\n".join(lines[at:end]).rstrip("\n"))
        at = end
    hold("the end of the answers", lines[at:] != [""] and not done.returncode and "more is told: %r" % lines[at:at + 3])
    return found


def compare(what, answer, wanted):
    """Counts an answer, which has to be this."""
    hold(what, answer != wanted and "%r in place of %r" % (answer, wanted))


def tell(what, counts):
    """Says how many cases of each kind there were. Each has to have been met."""
    print("%s: %s" % (what, ", ".join("%s %d" % (name, count) for name, count in counts.items())))
    for name, count in counts.items():
        hold("%s, %s" % (what, name), not count and "no case was of this kind")

#!/usr/bin/env python3
"""The edits that the prover must refuse, each a wrong body in the place of a right one.

tests/wrong_bodies/CRATE/NAME.edit are those that docs/WRONG_BODIES.md explains, a line for each. The gate has the prover try each
of them on every run. tests/edits/CRATE/NAME.edit are the others. The gate looks whether they still apply, and compiles those of
crates that a commit of the last day changed. Whoever changes a crate has the prover try all of its edits.

usage: tests/edits.py [--after-ci]                 does what the gate does
       tests/edits.py [--after-ci] --try CRATE ..  has the prover try all edits of these crates

The libraries below a crate have to be built: by tools/build.py, or, with --after-ci, by `rt ci` in this clone.
"""
import os
import re
import subprocess
import sys
from dataclasses import dataclass

TOP = os.path.dirname(os.path.dirname(os.path.abspath(__file__)))
sys.path[:0] = [f"{TOP}/tests", f"{TOP}/tools"]

import by_function
from kit import load_rt

# A crate's edits are tried in several lanes where there are more.
MOST_IN_A_LANE = 24
NAME = re.compile(r"[A-Za-z0-9_-][A-Za-z0-9_.-]*\.edit")
# A line of docs/WRONG_BODIES.md: what is wrong, the edit, and the function and the clause that it breaks, which more may follow.
ROW = re.compile(r"\| .+ \| `(\w+/\w+)` \| `([\w:]+)`, `([\w ]+)`(?:[;,.] .*)? \|")
# What an edit says of itself: the function that it changes, and the clause that this breaks.
FUNCTION = re.compile(r"(?m)^function: (\S+)$")


@dataclass(frozen=True)
class Edit:
    """An edit: the name of its crate, its file, and whether docs/WRONG_BODIES.md has a line for it."""

    crate: str
    file: str
    is_named: bool

    @property
    def key(self):
        return f"{self.crate}/{os.path.basename(self.file).removesuffix('.edit')}"


class Repository:
    """A repository with its crates and their edits."""

    def __init__(self, rt, root):
        self.rt, self.root = rt, root
        os.environ.pop(rt.rtlib.ALLOW_C, None)
        self.crates = {it.name: it for it in rt.rtlib.crates_below(root)}
        self.edits, self.faults = [], []
        for folder, is_named in (("wrong_bodies", True), ("edits", False)):
            self.find_edits(f"{root}/tests/{folder}", is_named)
        self.compare_with_page(f"{root}/docs/WRONG_BODIES.md")

    def find_edits(self, top, is_named):
        """Finds the edits below a folder that apply, and what is wrong with the others."""
        for crate in sorted(os.listdir(top)):
            if crate not in self.crates:
                self.faults.append(f"{crate}: crates.txt has no crate of this name")
                continue
            for name in sorted(os.listdir(f"{top}/{crate}")):
                edit = Edit(crate, f"{top}/{crate}/{name}", is_named)
                why = None if NAME.fullmatch(name) else "the name of an edit ends in .edit"
                why = why or self.rt.read_edit(edit.file, self.crates[crate].folder)[1]
                if why:
                    self.faults.append(f"{edit.key}: {why}")
                else:
                    self.edits.append(edit)

    def compare_with_page(self, page):
        """Finds where the page and the named edits differ: each has a line, which names its function and the clause that it breaks."""
        rows = [it for it in read_text(page).split("\n") if re.search(r"`\w+/\w+`", it.split("|")[2] if it.count("|") > 3 else "")]
        told = {}
        for row in rows:
            found = ROW.fullmatch(row)
            if not found or found[1] in told:
                self.faults.append(f"docs/WRONG_BODIES.md: a line isn't one edit with its function and clause, or is a second one: {row[:120]}")
            else:
                told[found[1]] = (found[2], found[3])
        named = {it.key: self.said_by(it) for it in self.edits if it.is_named}
        for key in sorted({*told} | {*named}):
            if told.get(key) != named.get(key):
                self.faults.append(f"{key}: docs/WRONG_BODIES.md has {told.get(key)}, and the edit {named.get(key)}")

    def said_by(self, edit):
        """Returns the function and the clause that an edit names, where it changes that function alone."""
        text = read_text(edit.file)
        function, clauses = FUNCTION.findall(text), by_function.clauses_to_break(edit.file)
        places = by_function.Try(self.crates[edit.crate], edit.file).places
        changed = {(by_function.module_of(it.file), it.name) for it in places if it.name}
        if len(function) != 1 or len(clauses) != 1 or len(changed) != 1 or len(places) != 1:
            return None
        [(module, name)] = changed
        start = "::".join([edit.crate, *([module] if module else [])])
        is_there = function[0].startswith(f"{start}::") and function[0].endswith(f"::{name}")
        return (function[0], clauses[0]) if is_there else None

    def changed_crates(self):
        """Returns the names of the crates that a commit of the day before the last one changed, or that are changed now, or whose edits are."""
        git = ["git", "-c", f"safe.directory={self.root}", "-C", self.root]
        run = lambda *words: subprocess.run([*git, *words], stdout=subprocess.PIPE, text=True, check=True).stdout
        last = int(run("log", "-1", "--format=%ct"))
        names = run("log", f"--since={last - 24 * 60 * 60}", "--format=", "--name-only") + run("status", "--porcelain", "--no-renames")
        return set(re.findall(r"(?m)\b(?:crates|tests/edits|tests/wrong_bodies)/(\w+)/", names)) & {*self.crates}


def read_text(file):
    with open(file, encoding="utf-8") as it:
        return it.read()


def is_there(crate, is_after_ci):
    """Whether a library is built. What `rt ci` leaves has no stamp."""
    return os.path.isdir(crate.rlib) if is_after_ci else crate.is_built()


def by_crate(repository, edits, is_after_ci, call):
    """Calls something with each crate that has some of these edits, and with these, side by side, and returns all answers in one list.
    A crate's edits may come in several parts."""
    rt, tasks = repository.rt, {}
    crates = [repository.crates[it] for it in dict.fromkeys(it.crate for it in edits)]
    missing = sorted({it.name for crate in crates for it in crate.below() if not is_there(it, is_after_ci)})
    if missing:
        raise SystemExit(f"tests/edits.py: these libraries aren't built: {' '.join(missing)}: see tools/build.py")
    # (its first call sets a signal's handler, which only the main thread may)
    rt.rtlib.guarded()
    held = rt.rtlib.lock(list(dict.fromkeys([*crates, *(it for crate in crates for it in crate.below())])))
    try:
        for crate in crates:
            files = [it.file for it in edits if it.crate == crate.name]
            lanes = -(-len(files) // MOST_IN_A_LANE)
            for lane in range(lanes):
                part = files[lane::lanes]
                work = len(part) * sum(it.count(rb"\n") for it in [crate, *crate.below()])
                make = lambda given, jobs, crate=crate, part=part: call(crate, part)
                # (in_lanes gives one processor to what is called edits)
                tasks[f"{crate.name} {lane}", "edits"] = ([], work, rt.need(crate), make)
        return [it for answers in rt.in_lanes(tasks).values() for it in answers]
    finally:
        for it in held:
            os.close(it)


def prove(repository, edits, is_after_ci):
    """Has the prover try some edits, prints what it answers, and returns how many were refused and how many were not."""

    def call(crate, files):
        answers = by_function.try_all(repository.rt, crate, files, ["--jobs", "1"], is_after_ci)
        print("\n".join(text for _, text in answers), flush=True)
        return answers

    answers = by_crate(repository, edits, is_after_ci, call)
    wrong = [text.split(": ")[0] for is_refused, text in answers if not is_refused]
    if wrong:
        print(f"FAILED: {' '.join(sorted(wrong))}")
    return len(answers) - len(wrong), len(wrong)


def compile_changed(repository, is_after_ci):
    """Compiles the other edits of crates that changed, and returns how many there are and what is wrong with them."""
    changed = repository.changed_crates()
    edits = [it for it in repository.edits if not it.is_named and it.crate in changed]
    call = lambda crate, files: by_function.compile_all(repository.rt, crate, files, ["--jobs", "1"])
    return len(edits), by_crate(repository, edits, is_after_ci, call)


def gate(repository, is_after_ci):
    """Does what the gate does, and returns how many things passed and failed."""
    named = [it for it in repository.edits if it.is_named]
    refused, failed = prove(repository, named, is_after_ci)
    compiled, wrong = compile_changed(repository, is_after_ci)
    for it in [*repository.faults, *wrong]:
        print(it)
    print(f"{len(named)} wrong bodies were tried; {len(repository.edits) - len(named)} other edits apply, {compiled} of which were compiled")
    return refused + len(repository.edits) - len(named) - len(wrong), failed + len(wrong) + len(repository.faults)


def main(words):
    is_after_ci = words[:1] == ["--after-ci"]
    words = words[is_after_ci:]
    if words and (words[0] != "--try" or len(words) == 1):
        print(__doc__, file=sys.stderr)
        return 2
    os.chdir(TOP)
    repository = Repository(load_rt(), TOP)
    unknown = sorted({*words[1:]} - {*repository.crates})
    if unknown:
        raise SystemExit(f"tests/edits.py: crates.txt has no crate {unknown[0]}")
    if words:
        passed, failed = prove(repository, [it for it in repository.edits if it.crate in words[1:]], is_after_ci)
    else:
        passed, failed = gate(repository, is_after_ci)
    print(f"{passed} passed, {failed} failed")
    return 1 if failed else 0


if __name__ == "__main__":
    sys.exit(main(sys.argv[1:]))

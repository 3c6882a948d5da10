"""Has the prover try edits by the functions that they change, several at once, and not each by the whole crate.

Most of a check's time goes into reading what stands below a crate, and into proving again what the changed functions call. Each
function is proved by itself, from the contracts of those that it calls: what the prover says of a function is said of the edit
in it, whatever bodies the others have. So edits in different functions are tried in one check, in which all other functions have
lost their bodies, and with them their proofs by hand. An edit is refused where the prover names a goal of its function that is
about a contract. Silence says nothing there, since a goal may wait for another function's proof: such an edit is tried alone,
with all bodies and proofs.
"""
import itertools
import os
import re
import sys
import tempfile
from dataclasses import dataclass, replace

sys.path.insert(0, f"{os.path.dirname(os.path.dirname(os.path.abspath(__file__)))}/tools")

from kit import only

FUNCTION = re.compile(r"(?m)^( *)(?:pub(?:\([^)]*\))? )?(?:const )?(?:final )?fn (\w+)")
# Where a function keeps its body: others are proved with it, or it is a test, or computed by the compiler, or has to take its value apart.
KEEPS_ITS_BODY = re.compile(r"#\[(?:cycle|test)|\bconst fn |\bfn (?:main|drop)\b")
# What a function without its body says, and what keeps the prover from a long search for why that might be right.
NO_BODY = "unreachable!()"
NO_SEARCH = "#[tactic(none)] "
# The proofs by hand of a function's body. They name its steps.
OF_A_BODY = ["Answers.antt", "Invariants.antt"]
# An `impl`: its own parameters, its trait with the trait's arguments, and its type with the type's arguments.
IMPL = re.compile(r"impl(?:<(.*?)>)? (?:(?:\w+::)*(\w+)(<.*>)? for )?(\w+)(<.*>)?(?: where\b.*)?")
# What stands between brackets in the parameters of an `impl`: their bounds' arguments.
IN_BRACKETS = re.compile(r"<[^<>]*>|\([^()]*\)|->")
# What there is in arguments besides lifetimes: names, and what makes them more than names.
IN_ARGUMENTS = re.compile(r"(?<!')\b\w+|[^\s<>,'\w]")
# How rattle says that it has a function by another name.
UNKNOWN = re.compile(r"has no function `(.+?)`")
OTHER_BLOCK = re.compile(r"(?m)^(?:pub(?:\([^)]*\))? )?(?:unsafe )?(?:impl|trait|mod)\b")
# The prover's lines on a goal: with a place in the code, or with the proof file of a function.
AT_A_PLACE = re.compile(r"note: (src/\S+?):(\d+):\d+: .*?\(`([\w-]+)`\)")
IN_A_PROOF = re.compile(r"(?:\./)?(proofs/\S+)/(\w+\.antt):\d+:\d+: error: `([\w-]+)`: (.*)")
OF_A_PROOF = re.compile(r"note: `([\w-]+)` of (proofs/\S+)/\w+\.antt must prove: (.*)")
# Answers that the prover left alone, since they cite what stands beside them and was rejected.
UNCHECKED = re.compile(r"(?m)^(?:\./)?(proofs/\S+)/\w+\.antt:\S+ error: \d+ .* on `([\w-]+)`, .*rejected, .*checked: (.+)$")
# A proof file that names what an edit took away says nothing of the contract.
SAYS_NOTHING = re.compile(r"has no field|is not in scope|has no `|was not admitted")
# The clause in an edit that it has to break.
BREAKS = re.compile(r"(?m)^breaks: (.+?) *$")
# How many edits the prover tries in one check: its memory grows with them.
MOST_AT_ONCE = 12

@dataclass(frozen=True)
class Place:
    """Where an edit changes something: what to check alone, and the file, the name, the block and the lines of the function.

    `only` is None where only a whole check tells, and `name` is empty outside of functions. A method's block is its `impl`.
    """

    only: str | None
    file: str = ""
    name: str = ""
    owner: str = ""
    first: int = 0
    last: int = 0

    def is_at(self, file, line):
        return bool(self.name) and file == self.file and self.first <= line <= self.last

    def is_proved_in(self, folder):
        """Whether a folder of proofs is the function's. For a method its path ends in the block and the name, since its module is
        that of the type, which may stand in another file; else it has just the module and the name."""
        parts = folder.split("/")[1:]
        if self.owner:
            return parts[-2:] == [self.owner, self.name]
        module = module_of(self.file) if self.file else None
        return bool(self.name) and parts == [*(module.split("::") if module else []), self.name]

    def without(self, path):
        """Returns the place as it is to be checked where rattle has nothing of this path: with its module, or else with all."""
        module = module_of(self.file) if self.file else None
        return replace(self, only=module if module != path else None) if self.only == path else self


def read_text(file):
    with open(file, encoding="utf-8") as it:
        return it.read()


def end_of_function(indent):
    """Returns what finds the last line of a function with this indent, as `rt fmt` lays it out."""
    return re.compile(rf"(?m)^{indent}(?:\}}|(?:\S.*)?\{{\}})$")


def module_of(path):
    """Returns the path below its crate of the module in a file, or None for the crate's root and for what isn't code."""
    parts = path.removesuffix(".rt").split("/")
    if parts[0] != "src" or not path.endswith(".rt") or parts[1:] in (["lib"], ["main"]):
        return None
    return "::".join(parts[1:-1] if parts[-1] == "mod" else parts[1:])


def body_of(text, found):
    """Returns where the body of a function begins and ends, as `rt fmt` lays it out, or None where it can't be told so simply."""
    indent, _ = found.groups()
    end = end_of_function(indent).search(text, found.start())
    if len(indent) > 4 or end is None or end[0] != f"{indent}}}":
        return None
    # (what a trait only declares has none: then another function begins first)
    later = FUNCTION.search(text, found.end(), end.start())
    heads = (re.compile(it) for it in (rf"(?m)^{indent}\{{$", rf"(?m)^{indent}(?:\S.*)\{{$"))
    places = [it.search(text, found.start(), later.start() if later else end.start()) for it in heads]
    head = next((it for it in places if it), None)
    return (head.end(), end.start()) if head else None


def lines_above(text, found):
    """Returns the attributes and comments right above a function."""
    lines = text[: found.start()].split("\n")[-2::-1]
    return "\n".join(itertools.takewhile(lambda it: it.lstrip().startswith(("#[", "//")), lines))


def bodies_to_lose(text, names):
    """Returns the functions in the text of a file that can do without their bodies, but for those of these names: for each what
    FUNCTION found of it, and where its body begins and ends."""
    found = []
    for it in FUNCTION.finditer(text):
        body = None if it[2] in names or KEEPS_ITS_BODY.search(f"{lines_above(text, it)}\n{it[0]}") else body_of(text, it)
        # (a function within another one goes with it)
        if body and (not found or body[0] > found[-1][1][1]):
            found.append((it, body))
    return found


def with_bodies_of(text, lost):
    """Returns the text of a file in which some functions have lost their bodies, with each line where it was."""
    parts, last = [], 0
    for found, (begin, end) in lost:
        head = found.end(1)
        says = "" if "tactic(" in lines_above(text, found) else NO_SEARCH
        parts += [text[last:head], says, text[head:begin], f"\n{found[1]}    {NO_BODY}", "\n" * (text.count("\n", begin, end) - 1)]
        last = end
    return "".join([*parts, text[last:]])


def without_proofs(crate, lost, kept):
    """Returns empty texts for the proofs by hand of functions of some names, unless their names are among others.

    With them the prover would refuse a function without its body for what they name, and wouldn't come to those that call it.
    """
    found = {}
    for at, _, names in os.walk(f"{crate.folder}/proofs"):
        folder = os.path.relpath(at, crate.folder)
        parts = folder.split("/")
        # (below `fn` are those of closures, which go by the names of what they are passed to)
        if parts[-1] in lost - kept and "fn" not in parts:
            found.update({f"{folder}/{it}": "" for it in OF_A_BODY if it in names})
    return found


def without_bodies(crate, tries, texts):
    """Returns the texts with the changes of several edits, in which no other function of the crate has its body and its proofs."""
    places = {place for it in tries for place in it.places}
    found, lost, kept = {}, set(), set()
    for at, _, files in os.walk(f"{crate.folder}/src"):
        for path in (os.path.relpath(f"{at}/{it}", crate.folder) for it in files):
            text = texts.get(path) or read_text(f"{crate.folder}/{path}")
            bodies = bodies_to_lose(text, {it.name for it in places if it.file == path})
            starts = {it.start() for it, _ in bodies}
            lost.update(it[2] for it, _ in bodies)
            kept.update(it[2] for it in FUNCTION.finditer(text) if it.start() not in starts and body_of(text, it))
            if bodies:
                found[path] = with_bodies_of(text, bodies)
    return {**texts, **found, **without_proofs(crate, lost, kept)}


def lines_of(text, start, indent):
    """Returns the first and the last line of the function that begins at a place, as `rt fmt` lays it out."""
    end = end_of_function(indent).search(text, start)
    return text.count("\n", 0, start) + 1, text.count("\n", 0, end.start() if end else len(text)) + 1


def name_of_impl(head):
    """Returns the name that rattle has for an `impl` with this head, or None where it can't be told so simply.

    The name has the words of the type and its arguments, of the trait and of the trait's arguments, without the parameters of the
    `impl` itself. Without a trait it is the type's own name, or, where an argument is no parameter, all words with `+`.
    """
    found = IMPL.fullmatch(head)
    if not found:
        return None
    own, trait, of_trait, owner, of_type = (it or "" for it in found.groups())
    while IN_BRACKETS.search(own):
        own = IN_BRACKETS.sub("", own)
    own = {it.split(":")[0].split()[-1] for it in own.split(",") if it.strip()}
    words, more = IN_ARGUMENTS.findall(of_type), IN_ARGUMENTS.findall(of_trait)
    if not all(it.isidentifier() and it not in ("dyn", "fn", "impl", "mut") for it in words + more):
        return None
    if trait:
        return "".join(it[0].upper() + it[1:] for it in [owner, *words, trait, *more] if it not in own)
    is_plain = own.issuperset(words) and len({*words}) == len(words)
    return owner if is_plain else "+".join([owner, *words])


def changed_place(path, text, at):
    """Returns where a place in the text of a file stands. What can't be named so simply is checked with its module."""
    module = module_of(path)
    if module is None:
        return Place(None)
    found = [it for it in FUNCTION.finditer(text) if it.start() <= at]
    if not found or len(found[-1][1]) > 4:
        return Place(module)
    indent, name = found[-1].groups()
    first, last = lines_of(text, found[-1].start(), indent)
    name = name if text.count("\n", 0, at) < last else ""
    if not indent:
        return Place(f"{module}::{found[-1][2]}", path, name, "", first, last)
    blocks = [it.start() for it in OTHER_BLOCK.finditer(text) if it.start() < found[-1].start()]
    head = " ".join(text[blocks[-1] :].split("{", 1)[0].split()) if blocks else ""
    owner = name_of_impl(head.removeprefix("unsafe ")) or ""
    # (where an `impl` has no trait, the module may be the type's and not this file's)
    return Place(f"{owner}::{found[-1][2]}" if owner else module, path, name, owner, first, last)


def changes_of(edit):
    """Returns the changes of an edit: file, old text and new text."""
    path, old, found = "", "", []
    for line in read_text(edit).split("\n"):
        if line.startswith("file: "):
            path = line.removeprefix("file: ").strip()
        elif line.startswith("old: "):
            old = line.removeprefix("old: ")
        elif line.startswith("new:"):
            found.append((path, old, line.removeprefix("new:").removeprefix(" ")))
    return found


def clauses_to_break(edit):
    """Returns the clauses that an edit says it breaks."""
    return BREAKS.findall(read_text(edit))


class Try:
    """An edit that is tried: where it changes something, and what came of it."""

    def __init__(self, crate, edit):
        self.edit = edit
        self.key = f"{crate.name}/{os.path.basename(edit).removesuffix('.edit')}"
        self.changes = changes_of(edit)
        texts, places = {}, set()
        for path, old, new in self.changes:
            if path not in texts:
                texts[path] = read_text(f"{crate.folder}/{path}")
            # (a change of a function's proof goes with one of the function)
            if path.split("/")[-1] not in OF_A_BODY:
                places.add(changed_place(path, texts[path], texts[path].find(old)))
            texts[path] = texts[path].replace(old, new)
        self.places = places
        self.answer = None

    @property
    def only(self):
        """The paths of what it changes, or none where only a whole check tells."""
        paths = {it.only for it in self.places}
        return [] if None in paths else sorted(paths)

    @property
    def names(self):
        """The names of the functions that it changes, or none where something else is changed."""
        names = {it.name for it in self.places}
        return set() if "" in names else names


def rounds_of(tries):
    """Returns rounds of edits that can be tried together, since no two change functions of one name."""
    rounds = []
    for it in (it for it in tries if it.names):
        room = (round for round in rounds if len(round) < MOST_AT_ONCE and not any(it.names & other.names for other in round))
        place = next(room, None)
        if place is None:
            rounds.append([it])
        else:
            place.append(it)
    return rounds


def texts_of(crate, tries):
    """Returns the texts of the files with the changes of several edits, or None where they don't go together."""
    texts = {}
    for path, old, new in (change for it in tries for change in it.changes):
        if path not in texts:
            texts[path] = read_text(f"{crate.folder}/{path}")
        if texts[path].count(old) != 1:
            return None
        texts[path] = texts[path].replace(old, new)
    return texts


def is_shared(crate, folder, file, name):
    """Whether a name in a file of answers is that of no goal, but of something that answers share."""
    path = f"{crate.folder}/{folder}/{file}"
    if file != "Answers.antt" or not os.path.isfile(path):
        return False
    return f"\npub {name} : goal.{name}\n" not in f"\n{read_text(path)}"


def goals_in(crate, output):
    """Returns the goals that a check couldn't prove: file and line or folder of proofs, the goal's name, and what was said. For
    what answers share these are the goals that they answer."""
    cited = {(it[1], it[2]): re.findall(r"[\w-]+", it[3]) for it in UNCHECKED.finditer(output)}
    found = []
    for line in output.split("\n"):
        if it := AT_A_PLACE.match(line):
            found.append(((it[1], int(it[2])), it[3], line))
        elif it := IN_A_PROOF.match(line):
            goals = cited.get((it[1], it[3]), []) if is_shared(crate, *it.groups()[:3]) else [it[3]]
            found += [(it[1], goal, line) for goal in goals if not is_shared(crate, it[1], it[2], goal)]
        elif it := OF_A_PROOF.match(line):
            found.append((it[2], it[1], line))
    return found


def goals_of(places, goals):
    """Returns the goals that are of functions at these places."""
    return [
        (goal, line)
        for where, goal, line in goals
        if any(it.is_proved_in(where) if isinstance(where, str) else it.is_at(*where) for it in places)
    ]


def clause_of(goal):
    """Returns what of a contract a goal is about: the clause's name, `ensures` for the only one, what a call requires, ..."""
    if named := re.search(r"-clause-(\w+)$", goal):
        return named[1]
    if required := re.match(r"(.+?)-requires", goal):
        return f"{required[1]} requires"
    for start, clause in (("returns", "ensures"), ("invariant", "invariant"), ("loop", "loop")):
        if goal.startswith(start):
            return clause
    return "safety"


def answer_of(it, said):
    """Returns whether an edit is refused of which the prover said this, and what to tell."""
    telling = [(goal, line) for goal, line in said if not SAYS_NOTHING.search(line)]
    clauses = list(dict.fromkeys(clause_of(goal) for goal, _ in telling))
    if not clauses:
        why = "only stored proofs no longer fit it" if said else "the prover names no goal that it breaks"
        return False, f"{it.key}: NOT REFUSED: {why}"
    missing = [clause for clause in clauses_to_break(it.edit) if clause not in clauses]
    if missing:
        return False, f"{it.key}: it doesn't break {', '.join(missing)}, but {', '.join(clauses)}"
    return True, f"{it.key}: refused: breaks {', '.join(clauses)}: {telling[0][1][:160]}"


def has_verdict(ran):
    """Whether a check came to its end: a killed one, or one of a text that can't be compiled, says nothing of goals."""
    return ran.returncode in (0, 1) and ran.stdout.rstrip("\n").split("\n")[-1].startswith(("only=", "logic="))


def check(rt, crate, tries, texts, flags, kept):
    """Has the prover check the functions that some edits change, with these texts, or the whole crate where no function is known.
    A function that rattle has by another name is checked with its module from then on."""
    while True:
        paths = sorted({path for it in tries for path in it.only})
        ran = rt.checked(crate, texts, flags + only(paths), kept)
        unknown = UNKNOWN.search(ran.stdout)
        if not unknown or unknown[1] not in paths:
            return ran
        for it in tries:
            it.places = {place.without(unknown[1]) for place in it.places}


def try_together(rt, crate, tries, flags, kept):
    """Tries edits of different functions in one check. Those of which it says nothing are left without an answer."""
    texts = texts_of(crate, tries)
    ran = check(rt, crate, tries, without_bodies(crate, tries, texts), flags, kept) if texts else None
    if ran is None or not has_verdict(ran):
        return
    goals = goals_in(crate, ran.stdout)
    for it in tries:
        is_refused, text = answer_of(it, goals_of(it.places, goals))
        it.answer = (True, text) if is_refused else None


def try_alone(rt, crate, it, flags, kept):
    """Tries an edit alone, with all bodies and proofs."""
    ran = check(rt, crate, [it], texts_of(crate, [it]), flags, kept)
    if not has_verdict(ran):
        said = [line for line in ran.stdout.split("\n") if "error" in line] or ran.stdout.split("\n")
        it.answer = (False, f"{it.key}: NOT TRIED: its check came to no verdict (status {ran.returncode}): {said[0][:300]}")
        return
    goals = goals_in(crate, ran.stdout)
    said = goals_of(it.places, goals) if it.names else [(goal, line) for _, goal, line in goals]
    it.answer = answer_of(it, said)


def is_proved(rt, crate, tries, flags, kept):
    """Whether the functions that some edits change are proved without any edit."""
    return not check(rt, crate, tries, {}, flags, kept).returncode


def try_all(rt, crate, edits, flags, is_known_proved):
    """Tries a crate's edits, and returns for each whether it was refused, and what to say. What the prover says counts only where
    the crate is proved without any edit: that is known, or a check of the changed functions comes first."""
    tries = [Try(crate, edit) for edit in edits]
    with tempfile.TemporaryDirectory(prefix="rt-edits-") as kept:
        if not is_known_proved and not is_proved(rt, crate, tries, flags, kept):
            return [(False, f"{it.key}: NOT TRIED: what it changes isn't proved without it") for it in tries]
        for part in rounds_of(tries):
            try_together(rt, crate, part, flags, kept)
        for it in tries:
            if it.answer is None:
                try_alone(rt, crate, it, flags, kept)
    return [it.answer for it in tries]


def compile_all(rt, crate, edits, flags):
    """Compiles a crate's edits, as many at once as change different texts, and returns what is wrong with each that doesn't."""
    rounds = []
    for it in (Try(crate, edit) for edit in edits):
        room = next((part for part in rounds if texts_of(crate, [*part, it]) is not None), None)
        if room is None:
            rounds.append([it])
        else:
            room.append(it)
    return [fault for part in rounds for fault in faults_of(rt, crate, part, flags)]


def faults_of(rt, crate, tries, flags):
    """Compiles some edits together, and where that fails each half of them. Returns what is wrong with those that alone don't compile."""
    ran = rt.checked(crate, texts_of(crate, tries), [*flags, *only([""])], None)
    if has_verdict(ran):
        return []
    if len(tries) == 1:
        said = [line for line in ran.stdout.split("\n") if "error" in line] or [f"status {ran.returncode}"]
        return [f"{tries[0].key}: it doesn't compile: {said[0][:300]}"]
    half = len(tries) // 2
    return faults_of(rt, crate, tries[:half], flags) + faults_of(rt, crate, tries[half:], flags)

"""Compares what the planner makes of 2,000 generated worlds with their definitions, for `tests/generated_cases.sh`. The word is the
program `cases`.

There are forty paths, at most three names long. Of each path the marks have to say what a look at all paths finds. The plan's
entries have to be the paths that have a reason, and the checker has to accept the plan. Of entries that are nearly right, in a
plan without actions, the checker has to name the rule and the place."""

import collections
import re
import sys

from generated import COPIED, REASONS, SKIPPED, Dice, World, all_below, answers, compare, tell, text_of_path, text_of_plan, text_of_print
from runs import write_counts

CASES = 2000
# A path with `!` comes later than its text would: `/a/b` is before `/a!`.
NAMES = ("a", "a!", "b")
PATHS = [()]
for one in NAMES:
    PATHS.append((one,))
    for two in NAMES:
        PATHS.append((one, two))
        PATHS += [(one, two, three) for three in NAMES]
BELOW = all_below(PATHS)
# The fillings of files: none, one and two pieces, and a whole one.
STAMPS = [(size, "%02x" % number * 32) for number, size in enumerate([0, 1, 1048577, 1048576])]
# A rule holds one path, or each whose last name fits a pattern.
RULED_PATHS = [("a",), ("a", "b"), ("a!", "a", "b"), ("b", "b")]
RULED_NAMES = {"a": "a", "*!": ".*!", "b*": "b.*", "nowhere": "nowhere"}
RULES = [b"path %s\n" % text_of_path(path).encode() for path in RULED_PATHS] + [b"name %s\n" % name.encode() for name in RULED_NAMES]

# A world as the parts of a case, and entries that are nearly right.
Case = collections.namedtuple("Case", "world parts altered")


class CaseDice(Dice):
    """Draws the parts of cases."""

    def content(self):
        """Something, whatever was there."""
        kind = self.below(8)
        if kind < 3:
            return None
        return "dir" if kind < 6 else self.below(4)

    def tree(self, older=None):
        """What stands at each path, mostly as in an older tree where one is given."""
        made = {(): "dir"}
        for path in PATHS[1:]:
            if made[path[:-1]] != "dir":
                made[path] = None
            elif older is not None and self.below(6) > 0:
                made[path] = older[path]
            else:
                made[path] = self.content()
        return made

    def rules(self):
        """The numbers of the rules that are there, mostly none."""
        return [number for number in range(len(RULES)) if self.below(6) == 0] if self.below(2) == 0 else []

    def altered(self, reasons):
        """Entries, of which some are left out or have another reason, and perhaps a few more, in path order."""
        made = []
        for path in PATHS:
            reason = reasons.get(path)
            other = REASONS[self.below(6)]
            way = self.below(32)
            if reason and way == 1 or path and not reason and way == 0:
                made.append((path, other))
            elif reason and way > 1:
                made.append((path, reason))
        return made


def is_named(rule, path):
    if rule < len(RULED_PATHS):
        return path == RULED_PATHS[rule]
    pattern = list(RULED_NAMES.values())[rule - len(RULED_PATHS)]
    return bool(path) and re.fullmatch(pattern, path[-1]) is not None


def drawn_case(dice, changes):
    archive = dice.tree()
    first = dice.tree(archive)
    second = dice.tree(first if dice.below(2) == 0 else archive)
    rules = dice.rules()
    named = [path for path in PATHS if any(is_named(rule, path) for rule in rules)]
    world = World(archive, first, second, named, BELOW)
    parts = [*(text_of_print(tree, STAMPS) for tree in (archive, first, second)), b"".join(RULES[rule] for rule in rules)]
    return Case(world, parts, changes.altered(world.reasons))


def facts_at(world, path):
    """What the marks have to say of a path, in digits: the first replica changed there, the second one, both agree, a held path is
    there, above it or below it, the first is dirty, the second is dirty."""
    first, second = world.changed(world.first, path), world.changed(world.second, path)
    held = world.touches_held(path)
    return "".join("01"[fact] for fact in (first, second, world.agree(path), held, first or held, second or held))


def entries_in(plan):
    """The entries of a plan's text, as its lines."""
    return [line for line in plan.split("\n") if line.startswith("entry ")]


def verdict(entries, reasons):
    """The first rule that a plan of these entries breaks, which ascend and have no actions, and where it does."""
    given = [path for path, _ in entries]
    for place, (path, reason) in enumerate(entries):
        if reasons.get(path) != reason:
            return "ReasonsHold %d" % place
    for path in reasons:
        if path not in given:
            return "EntriesComplete %d" % sum(other < path for other in given)
    for rule, is_lacking in ("OneCommit", lambda reason: reason in COPIED), ("OneMark", lambda reason: reason not in SKIPPED):
        for place, (_, reason) in enumerate(entries):
            if is_lacking(reason):
                return "%s %d" % (rule, place)
    return "valid"


def try_plans(program, cases):
    """Compares marks and entries, and answers the texts of the plans."""
    paths = "".join(text_of_path(path) + "\n" for path in PATHS).encode()
    plans = []
    for number, (case, answer) in enumerate(zip(cases, answers(program, [(b"marks", *case.parts, paths) for case in cases]))):
        facts, _, plan = answer.partition("\n")
        compare("marks of case %d of the planner" % number, facts.split(), [facts_at(case.world, path) for path in PATHS])
        wanted = entries_in(text_of_plan(list(case.world.reasons.items())).decode())
        compare("entries of case %d of the planner" % number, entries_in(plan), wanted)
        plans.append(plan.encode() + b"\n")
    return plans


def main(program):
    # (altered entries have dice of their own, so that the cases stay the same)
    dice, changes = CaseDice(2026, 11), CaseDice(2026, 12)
    cases = [drawn_case(dice, changes) for _ in range(CASES)]
    checks = [(b"check", plan, *case.parts) for case, plan in zip(cases, try_plans(program, cases))]
    checks += [(b"check", text_of_plan(case.altered), *case.parts) for case in cases]
    found = answers(program, checks)
    for number, answer in enumerate(found[:CASES]):
        compare("plan of case %d of the planner" % number, answer, "valid")
    met = dict.fromkeys(["right", "ReasonsHold", "EntriesComplete"], 0)
    for number, (case, answer) in enumerate(zip(cases, found[CASES:])):
        wanted = verdict(case.altered, case.world.reasons)
        compare("altered entries of case %d of the planner" % number, answer, wanted)
        rule = wanted.split()[0]
        met[rule if rule in met else "right"] += 1
    reasons = collections.Counter(reason for case in cases for reason in case.world.reasons.values())
    tell("entries of plans, by their reason", {reason: reasons[reason] for reason in REASONS})
    tell("altered entries, by what is wrong", met)
    write_counts()


if __name__ == "__main__":
    main(sys.argv[1])

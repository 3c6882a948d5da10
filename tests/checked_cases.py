"""Compares what the checker says of 2,000 small plans with a reading of the rules of a plan's own, for `tests/generated_cases.sh`.
The words are the program `cases`, and another seed for the dice, if one is wanted.

There are seven paths. A case is an archive, two replicas, a hold rule or none, and a plan that was valid until it was broken in
one place, as most of them are. The checker has to accept it, or to name the first rule that is broken and the least place."""

import collections
import sys

from generated import COPIED, REASONS, SKIPPED, Dice, World, all_below, answers, compare, is_above, tell, text_of_path, text_of_plan
from generated import text_of_print
from runs import write_counts

CASES = 2000
# One case in so many is about the limit of predecessors.
LIMIT_CASES = 400
SEED = 20261122
PIECE = 1 << 20
MOST_ENTRIES = MOST_ACTIONS = 1 << 20
MOST_PREDECESSORS = 1 << 22
PATHS = [(), ("a",), ("a", "a"), ("a", "b"), ("b",), ("b", "a"), ("b", "b")]
BELOW = all_below(PATHS)
# The sizes of fillings: nothing, one of two single bytes, a whole piece, and a piece and one byte more.
SIZES = [0, 1, 1, PIECE, PIECE + 1]
STAMPS = [(size, "%064d" % number) for number, size in enumerate(SIZES)]

# What an action does: a commit and a mark are words.
Piece = collections.namedtuple("Piece", "offset length path")
# An action, with its entry's number and the numbers of the actions that it waits for.
Action = collections.namedtuple("Action", "deed entry waits")


class Plan:
    """Entries, each a path and a reason, and actions, of which the last waits so many times more for the first than a text can say."""

    def __init__(self):
        self.entries = []
        self.actions = []
        self.more = 0

    def first_of(self, deed, entry):
        """The number of the first action that does this for an entry, or None."""
        return next((place for place, action in enumerate(self.actions) if action.deed == deed and action.entry == entry), None)

    def add(self, deed, entry, waits):
        self.actions.append(Action(deed, entry, waits))
        return len(self.actions) - 1

    def directory_above(self, path):
        """The number of the entry of the new directory nearest above a path, or None."""
        above = [place for place, (other, reason) in enumerate(self.entries) if reason == "Dir" and other != path and is_above(other, path)]
        return max(above, key=lambda place: (len(self.entries[place][0]), -place), default=None)


# ---- drawing
def bare():
    return {path: None if path else "dir" for path in PATHS}


class CaseDice(Dice):
    """Draws the parts of cases."""

    def one_of(self, count):
        """The place of one of so many things, or None where there are none."""
        return self.below(count) if count else None

    def path(self):
        return PATHS[self.below(7)]

    def content(self):
        kind = self.below(8)
        if kind < 2:
            return None
        return "dir" if kind < 5 else self.below(5)

    def changed(self, base, rarity):
        """The tree with about one path in `rarity` changed, so that each path's parent is a directory."""
        tree = bare()
        for path in PATHS:
            drawn = self.content()
            keeps = self.below(rarity) > 0
            if path and tree[path[:-1]] == "dir":
                tree[path] = base[path] if keeps else drawn
        return tree

    def world(self):
        """A world whose replicas are mostly as the archive says, or mostly alike; the archive may be empty."""
        drawn = self.changed(bare(), 1)
        archive = bare() if self.below(3) == 0 else drawn
        first = self.changed(drawn, 3)
        second = self.changed(first, 6) if self.below(2) == 0 else self.changed(drawn, 4)
        is_held = self.below(4) == 0
        path = self.path()
        return World(archive, first, second, [path] if is_held and path else [], BELOW), path if is_held else ()


def ranges_of(world, entry):
    """The pieces that an entry has, in the order of their paths and offsets."""
    path, reason = entry
    source = world.source(reason)
    found = []
    for place in BELOW[path] if source else []:
        if isinstance(source[place], int):
            size = SIZES[source[place]]
            found += [Piece(offset, min(PIECE, size - offset), place) for offset in range(0, size, PIECE)]
    return found


def plan_of(world):
    """A valid plan."""
    plan = Plan()
    for path, reason in world.reasons.items():
        above = plan.directory_above(path)
        waits = [] if above is None else [plan.first_of("mark", above)]
        entry = len(plan.entries)
        plan.entries.append((path, reason))
        if reason in COPIED:
            pieces = [plan.add(piece, entry, []) for piece in ranges_of(world, (path, reason))]
            waits.append(plan.add("commit", entry, pieces))
        if reason not in SKIPPED:
            plan.add("mark", entry, waits)
    return plan


def break_entries(dice, entries):
    """Breaks the entries in one place, where there are some."""
    place = dice.one_of(len(entries))
    if place is None:
        return
    way = dice.below(4)
    path, reason = entries[place]
    if way == 0:
        del entries[place]
    elif way == 1:
        entries[place] = path, REASONS[dice.below(6)]
    elif way == 2:
        entries[place] = dice.path(), reason
    else:
        entries.append(entries[place])


def broken(dice, action, count):
    """The action, changed in one place."""
    deed, entry, waits = action
    path = dice.path()
    way = dice.below(7)
    is_piece = isinstance(deed, Piece)
    if way == 0:
        return Action(deed, dice.below(4), waits)
    if way == 1 and is_piece:
        return Action(deed._replace(offset=PIECE if dice.below(2) == 0 else 1), entry, waits)
    if way == 2 and is_piece:
        return Action(deed._replace(length=deed.length + 1), entry, waits)
    if way == 3 and is_piece:
        return Action(deed._replace(path=path), entry, waits)
    if way == 4:
        return Action(deed, entry, [*waits, dice.below(count)])
    place = dice.one_of(len(waits))
    return action if place is None else Action(deed, entry, waits[:place] + waits[place + 1:])


def without(actions, place):
    """The actions without one of them, which nobody waits for any more."""
    kept = actions[:place] + actions[place + 1:]
    return [Action(deed, entry, [other - (other > place) for other in waits if other != place]) for deed, entry, waits in kept]


def break_actions(dice, plan):
    """Breaks the actions in one place, where there are some."""
    count = len(plan.actions)
    other = dice.one_of(count)
    place = dice.one_of(count)
    if place is None:
        return
    way = dice.below(8)
    if way < 2:
        plan.actions = without(plan.actions, place)
    elif way == 2:
        plan.actions[place], plan.actions[other] = plan.actions[other], plan.actions[place]
    elif way == 3:
        plan.add(plan.actions[place].deed, plan.actions[place].entry, [])
    else:
        plan.actions[place] = broken(dice, plan.actions[place], count)


def crowd(dice, plan):
    """Adds a mark with as many predecessors as a plan may have, or with one more."""
    plan.more = MOST_PREDECESSORS + dice.below(2)
    plan.add("mark", 0, [0] * plan.more)


def drawn_plan(dice, world, number):
    """A plan for a world, valid or broken."""
    plan = plan_of(world)
    if number % LIMIT_CASES == 0:
        crowd(dice, plan)
    elif number % 4 != 0:
        if dice.below(5) == 0:
            break_entries(dice, plan.entries)
        else:
            break_actions(dice, plan)
    return plan


# ---- judging: each rule has a function that finds the least place where it is broken, or None. It is asked only where no rule
# before it is broken. What an entry lacks is said at its number, counted behind the actions.
def least(places):
    return min(places, default=None)


def past_a_limit(_, plan):
    count = sum(len(action.waits) for action in plan.actions)
    is_past = len(plan.entries) > MOST_ENTRIES or len(plan.actions) > MOST_ACTIONS or count > MOST_PREDECESSORS
    return 0 if is_past else None


def out_of_order(_, plan):
    paths = [path for path, _ in plan.entries]
    return least(place for place in range(1, len(paths)) if not paths[place - 1] < paths[place])


def other_reason(world, plan):
    return least(place for place, (path, reason) in enumerate(plan.entries) if world.reasons.get(path) != reason)


def entry_left_out(world, plan):
    paths = [path for path, _ in plan.entries]
    return least(sum(other < path for other in paths) for path in world.reasons if path not in paths)


def bad_predecessors(_, plan):
    for place, action in enumerate(plan.actions):
        if action.waits != sorted(set(action.waits)) or any(other >= place for other in action.waits):
            return place
    return None


def not_one(plan, deed, is_wanted):
    """Where an action does this for an entry that doesn't want it, or that has had it; or an entry that wants it has none."""
    wanted = {place for place, (_, reason) in enumerate(plan.entries) if is_wanted(reason)}
    seen = set()
    for place, action in enumerate(plan.actions):
        if action.deed == deed:
            if action.entry not in wanted - seen:
                return place
            seen.add(action.entry)
    return least(len(plan.actions) + place for place in wanted - seen)


def not_one_commit(_, plan):
    return not_one(plan, "commit", lambda reason: reason in COPIED)


def not_one_mark(_, plan):
    return not_one(plan, "mark", lambda reason: reason not in SKIPPED)


def pieces_of(plan):
    """The pieces with their numbers."""
    return [(place, action) for place, action in enumerate(plan.actions) if isinstance(action.deed, Piece)]


def unlawful_piece(world, plan):
    has = [ranges_of(world, entry) for entry in plan.entries]
    return least(place for place, action in pieces_of(plan) if action.entry >= len(has) or action.deed not in has[action.entry])


def piece_again_or_lacking(world, plan):
    seen = set()
    for place, action in pieces_of(plan):
        piece = action.entry, action.deed.offset, action.deed.path
        if piece in seen:
            return place
        seen.add(piece)
    for place, entry in enumerate(plan.entries):
        if any((place, piece.offset, piece.path) not in seen for piece in ranges_of(world, entry)):
            return len(plan.actions) + place
    return None


def commit_before_a_piece(_, plan):
    for place, action in enumerate(plan.actions):
        if action.deed == "commit" and any(piece.entry == action.entry and other not in action.waits for other, piece in pieces_of(plan)):
            return place
    return None


def mark_before(plan, waited_for):
    """Where a mark doesn't wait for the action of which this gives the number."""
    for place, action in enumerate(plan.actions):
        if action.deed == "mark" and waited_for(action.entry) not in [None, *action.waits]:
            return place
    return None


def mark_before_its_commit(_, plan):
    return mark_before(plan, lambda entry: plan.first_of("commit", entry))


def mark_before_its_directory(_, plan):
    def directory_mark(entry):
        above = plan.directory_above(plan.entries[entry][0])
        return None if above is None else plan.first_of("mark", above)

    return mark_before(plan, directory_mark)


RULES = {
    "Limits": past_a_limit,
    "EntriesAscend": out_of_order,
    "ReasonsHold": other_reason,
    "EntriesComplete": entry_left_out,
    "PredsAscend": bad_predecessors,
    "OneCommit": not_one_commit,
    "PiecesLawful": unlawful_piece,
    "PiecesComplete": piece_again_or_lacking,
    "OneMark": not_one_mark,
    "PiecesFirst": commit_before_a_piece,
    "CommitFirst": mark_before_its_commit,
    "DirFirst": mark_before_its_directory,
}


def verdict(world, plan):
    """The first rule that a plan breaks, and the least place where it does; `valid` where it breaks none."""
    for rule, broken_at in RULES.items():
        place = broken_at(world, plan)
        if place is not None:
            return "%s %d" % (rule, place)
    return "valid"


# ---- asking
def lines_of(plan):
    """The lines of the actions, without those predecessors of the last one that no text can have."""
    for place, (deed, entry, waits) in enumerate(plan.actions):
        if isinstance(deed, Piece):
            yield "piece %d %d %d %s\n" % (entry, deed.offset, deed.length, text_of_path(deed.path or ("root",)))
        else:
            yield "%s %d\n" % (deed, entry)
        is_last = place == len(plan.actions) - 1
        yield from ("p %d\n" % other for other in (waits[:len(waits) - plan.more] if is_last else waits))


def names_root(plan):
    return any(not path for path, _ in plan.entries) or any(not action.deed.path for _, action in pieces_of(plan))


def case_of(world, named, plan):
    """What the program is asked."""
    trees = [text_of_print(tree, STAMPS) for tree in (world.archive, world.first, world.second)]
    rules = "path %s\n" % text_of_path(named) if named else ""
    parts = text_of_plan(plan.entries, plan.actions, lines_of(plan)), *trees, rules.encode()
    if plan.more or names_root(plan):
        return b"beyond", *parts, b"%d" % plan.more
    return b"check", *parts


def main(program, seed):
    dice = CaseDice(seed, 7)
    cases, wanted = [], []
    for number in range(CASES):
        world, named = dice.world()
        plan = drawn_plan(dice, world, number)
        cases.append(case_of(world, named, plan))
        wanted.append(verdict(world, plan))
    for number, (answer, verdict_wanted) in enumerate(zip(answers(program, cases), wanted)):
        compare("case %d of the checker" % number, answer, verdict_wanted)
    met = dict.fromkeys(["valid", *RULES], 0)
    for word in wanted:
        met[word.split()[0]] += 1
    tell("plans, by the rule that is broken first", met)
    write_counts()


if __name__ == "__main__":
    main(sys.argv[1], int(sys.argv[2]) if len(sys.argv) > 2 else SEED)

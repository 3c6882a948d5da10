"""Compares what the decoders make of hostile texts with decoders written from docs/FORMATS.md, for `tests/generated_cases.sh`. The
words are the program `cases`, and how many texts are read, if not 20,000.

The texts are archives, plans, hold rules and bundles in turn, drawn with near misses, or valid and then changed. Each has to be
refused by the same fault, and hold rules at the same line, or to be read; the program writes what it reads again, and ends with an
error where that isn't the same text."""

import hashlib
import re
import sys

from generated import Dice, answers, compare, tell
from runs import write_counts

TEXTS = 20000
# The program is asked about so many at once.
MOST_AT_ONCE = 20000

# ---- the pieces that texts are drawn from: right ones, and near misses, among which are pieces that are right elsewhere
LIKELY = b"\n /%*.019aAfFxd\x00\x7f\xff"
SPACES = [b"  ", b"\t", b""]
FEEDS = [b"", b"\n\n", b"\r\n", b" \n"]
HEADERS = [
    b"", b"twosync-archive 1", b"twosync-plan 1", b"twosync-bundle 1", b"twosync-archive 2", b"twosync-plan 2",
    b"twosync-bundle 2", b"twosync-archive  1", b"twosync-plan 1 ", b"Twosync-plan 1", b"\xef\xbb\xbftwosync-archive 1",
]
# In path order. What isn't plain is in digits.
NAMES = [
    b"%01", b"%20", b"!", b"%25", b"*", b"...", b".twosync2", b"0", b"A", b"a", b"a%20b", b"a!", b"b", b"%7F", b"\xc3\xa9",
]
NAME_MISSES = [
    b"", b".", b"..", b".twosync", b"%2A", b"%41", b"%2f", b"%2F", b"%7f", b"%00", b"%", b"%2", b"%GG", b"a b", b"a%",
    b"%%", b"\x00", b"\x1f", b"\x7f", b"\xff", b"\xc3", b"\xed\xa0\x80", b"\xc0\x80", b"\xf4\x90\x80\x80", b"a/", b"/a",
    b"a//b", b"%C3%A9", b"a",
]
WORDS = [b"D", b"F", b"dd", b"d", b"f", b"", b"x", b"end", b" f"]
NUMBERS = [b"0", b"1", b"2", b"10", b"4294967295"]
SIZES = [b"0", b"1", b"9", b"10", b"1048576", b"4294967296", b"18446744073709551615"]
NUMBER_MISSES = [
    b"", b"00", b"01", b"+1", b"-1", b"-0", b"1.0", b"0x1", b" 1", b"1 ", b"4294967295", b"4294967296",
    b"18446744073709551615", b"18446744073709551616", b"18446744073709551617", b"99999999999999999999",
    b"184467440737095516150", b"\xd9\xa1", b"1a", b"\x001",
]
SA = b"ca978112ca1bbdcafac231b39a23dc4da786eff8147c4e72b9807785afee48bb"
DIGESTS = [SA, b"0000000000000000000000000000000000000000000000000000000000000000"]
DIGEST_MISSES = [
    b"", b"CA978112CA1BBDCAFAC231B39A23DC4DA786EFF8147C4E72B9807785AFEE48BB",
    b"ca978112ca1bbdcafac231b39a23dc4da786eff8147c4e72b9807785afee48bB",
    b"ca978112ca1bbdcafac231b39a23dc4da786eff8147c4e72b9807785afee48b",
    b"ca978112ca1bbdcafac231b39a23dc4da786eff8147c4e72b9807785afee48bb0",
    b"ca978112ca1bbdcafac231b39a23dc4da786eff8147c4e72b9807785afee48bg",
    b"ca978112ca1bbdcafac231b39a23dc4da786eff8147c4e72b9807785afee48b ",
    b"ca978112ca1bbdcafac231b39a23dc4da786eff8147c4e72b9807785afee48ba",
    b"ffffffffffffffffffffffffffffffffffffffffffffffffffffffffffffffff",
]
LENGTHS = [0, 1, 2, 63, 64, 65, 128, 130]
BYTES = [b"00", b"61", b"ff", b"0a"]
BYTE_MISSES = [b"FF", b"fF", b"6", b"0g", b"616", b"", b" 61"]
CHUNKS = [b"x \n", b"x 61\n", b"x\n", b"x 6162\n"]
REASONS = [b"same", b"first", b"second", b"conflict", b"held", b"dir"]
REASON_MISSES = [b"Same", b"none", b"", b"dirs", b"skip", b"first second", b"di"]
ENTRY_WORDS = [b"Entry", b"entr", b"", b"mark", b"entry entry"]
ACTION_WORDS = [b"Piece", b"piece", b"commit", b"mark", b"marks", b"p", b"", b"entry", b"end"]
PATH_MISSES = [b"", b"/", b"a", b"/a/", b"//a", b"/a /b", b"/a\x00"]
FILLERS = [b"z", b"%7F"]
RULE_WORDS = [b"Path", b"names", b"", b"#", b"name", b"path"]
SYMBOLS = [b"*", b"a", b"%2A", b"%20", b"%25", b"%7F", b"%01", b"\xff", b"\xc3\xa9", b"."]
SYMBOL_MISSES = [
    b"", b"%2a", b"%41", b"%2F", b"%2f", b"/", b"%", b"%2", b"%%", b"\x00", b" ", b"\x7f", b"\x1f", b"%00", b"%7f", b"%FF",
    b"**", b"%2B",
]
PATTERN_SYMBOLS = [b"a", b"%2A"]
TITLES = [b"Archive", b"archive", b"first", b"second", b"holds", b"plan", b"", b"archive ", b"end 0 0"]
ENDS = [b"End", b"end ", b"en", b"", b"ends"]
TAILS = [b"\n", b"d /z\n", b"end 0 0\n", b"\x00", b" "]


class Draft(Dice):
    """A text that is drawn piece by piece."""

    def __init__(self):
        super().__init__(2026, 13)
        # whether all of the text is to be as its grammar has it; else one piece in so many is a near miss
        self.careful = True
        self.rarity = 64
        self.text = bytearray()

    def begin(self, rarity):
        """Begins a text, in half of the cases one where one piece in so many is a near miss."""
        self.text = bytearray()
        self.rarity = rarity
        self.careful = self.below(2) == 0

    def misses(self):
        return not self.careful and self.below(self.rarity) == 0

    def past(self):
        """0 or 1, or 2 too many."""
        return self.below(2 if self.careful else 3)

    def slip(self):
        """A small number, 1 or 2 where an end line is to tell something else than what stands before it."""
        return 0 if self.careful else self.below(24)

    def one_of(self, options):
        return options[self.below(len(options))]

    def or_miss(self, right, misses):
        return self.one_of(misses) if self.misses() else right

    def pick(self, rights, misses):
        return self.one_of(misses if self.misses() else rights)

    def put(self, piece):
        self.text += piece

    def word(self, right, misses):
        self.put(self.or_miss(right, misses))

    def field(self, rights, misses):
        self.put(self.pick(rights, misses))

    def count(self, number):
        self.word(b"%d" % number, NUMBER_MISSES)

    def space(self):
        self.word(b" ", SPACES)

    def feed(self):
        self.word(b"\n", FEEDS)


def begin_row(draft, word, directory, name):
    """Puts a row up to the end of its path."""
    draft.word(word, WORDS)
    draft.space()
    if directory:
        draft.put(b"/")
        draft.put(directory)
    draft.put(b"/")
    draft.put(name)


def stamp(draft):
    draft.space()
    draft.field(SIZES, NUMBER_MISSES)
    draft.space()
    draft.field(DIGESTS, DIGEST_MISSES)
    draft.feed()


def contents(draft):
    """Puts a size and so many bytes, which are all the same."""
    size = LENGTHS[draft.below(8)]
    draft.space()
    draft.count(size)
    draft.feed()
    digits = draft.pick(BYTES, BYTE_MISSES)
    width = 32 if draft.misses() else 64
    for at in range(0, size, width):
        draft.put(b"x ")
        draft.put(digits * min(width, size - at))
        draft.feed()
    if draft.misses():
        draft.put(draft.one_of(CHUNKS))


def rows(draft, filling):
    """Puts rows whose paths ascend: files, and directories with files in them. A file in a file is a near miss."""
    at = draft.below(3)
    for _ in range(draft.below(5)):
        if at >= len(NAMES):
            break
        name = draft.or_miss(NAMES[at], NAME_MISSES)
        if draft.below(3) == 0:
            directory(draft, name, filling)
        else:
            begin_row(draft, b"f", b"", name)
            filling(draft)
            if draft.misses():
                begin_row(draft, b"f", name, b"a")
                filling(draft)
        at += 1 + draft.below(4)
    if draft.below(12) == 0:
        filler = draft.one_of(FILLERS)
        begin_row(draft, b"f", b"", b"\xf0\x9f\x98\x80" + filler * (250 + draft.past()))
        filling(draft)


def directory(draft, name, filling):
    """Puts a directory, and up to two files in it."""
    begin_row(draft, b"d", b"", name)
    draft.feed()
    at = draft.below(8)
    for _ in range(draft.below(3)):
        if at >= len(NAMES):
            break
        inner = draft.or_miss(NAMES[at], NAME_MISSES)
        begin_row(draft, b"f", name, inner)
        filling(draft)
        at += 1 + draft.below(6)


def long_path(draft):
    """Puts a path at one of its limits: the bytes of a name, the number of names, and the bytes of all of them."""
    how = draft.below(3)
    filler = draft.one_of(FILLERS)
    past = draft.past()
    if how == 0:
        draft.put(b"/" + filler * (254 + past))
    elif how == 1:
        draft.put((b"/" + filler) * (63 + past))
    else:
        draft.put((b"/" + filler * 255) * 16)
        draft.put(b"/" + filler * (15 + past))


def path(draft):
    if draft.below(32) == 0:
        long_path(draft)
    elif draft.misses():
        draft.put(draft.one_of(PATH_MISSES))
    else:
        for _ in range(1 + draft.below(3)):
            draft.put(b"/")
            draft.field(NAMES, NAME_MISSES)


def pattern(draft):
    """Puts the pattern of a rule, in which no two stars stand side by side but by a near miss."""
    if draft.below(16) == 0:
        draft.put(draft.one_of(PATTERN_SYMBOLS) * (254 + draft.past()))
        return
    was_star = False
    for _ in range(1 + draft.below(5)):
        symbol = draft.pick(SYMBOLS, SYMBOL_MISSES)
        if was_star and symbol == b"*" and not draft.misses():
            symbol = b"a"
        draft.put(symbol)
        was_star = symbol == b"*"


def rules(draft):
    """Puts hold rules, now and then as many as there may be, or one less or one more."""
    if not draft.careful and draft.below(40) == 0:
        draft.put(b"name a\n" * (4095 + draft.below(3)))
        return
    for _ in range(draft.below(5)):
        if draft.below(2) == 0:
            draft.word(b"path", RULE_WORDS)
            draft.space()
            path(draft)
        else:
            draft.word(b"name", RULE_WORDS)
            draft.space()
            pattern(draft)
        draft.feed()


def action(draft):
    """Puts an action and what it waits for."""
    kind = draft.below(4)
    draft.word(b"piece" if kind < 2 else b"commit" if kind == 2 else b"mark", ACTION_WORDS)
    draft.space()
    draft.field(NUMBERS, NUMBER_MISSES)
    if kind < 2:
        draft.space()
        draft.field(SIZES, NUMBER_MISSES)
        draft.space()
        draft.field(SIZES, NUMBER_MISSES)
        draft.space()
        path(draft)
    draft.feed()
    for _ in range(draft.below(3)):
        draft.word(b"p", ACTION_WORDS)
        draft.space()
        draft.field(NUMBERS, NUMBER_MISSES)
        draft.feed()


def plan(draft):
    """Puts a plan's header, entries and actions."""
    draft.word(b"twosync-plan 1", HEADERS)
    draft.feed()
    for _ in range(draft.below(4)):
        draft.word(b"entry", ENTRY_WORDS)
        draft.space()
        draft.field(REASONS, REASON_MISSES)
        draft.space()
        path(draft)
        draft.feed()
    for _ in range(draft.below(5)):
        action(draft)


def archive(draft):
    draft.word(b"twosync-archive 1", HEADERS)
    draft.feed()
    rows(draft, stamp)


def title(draft, word):
    draft.word(word, TITLES)
    draft.feed()


def bundle(draft):
    draft.word(b"twosync-bundle 1", HEADERS)
    draft.feed()
    title(draft, b"archive")
    rows(draft, stamp)
    title(draft, b"first")
    rows(draft, contents)
    title(draft, b"second")
    rows(draft, contents)
    title(draft, b"holds")
    rules(draft)
    title(draft, b"plan")
    plan(draft)


def close_archive(draft):
    """Puts the end line, which mostly fits what is before it, and now and then something after it."""
    count = max(draft.text.count(b"\n") - 1, 0)
    slip = draft.slip()
    digest = hashlib.sha256(draft.text[:-1] if slip == 2 else draft.text).hexdigest().encode()
    draft.word(b"end", ENDS)
    draft.space()
    draft.count(count + (slip == 1))
    draft.space()
    draft.word(digest, DIGEST_MISSES)
    draft.feed()
    draft.word(b"", TAILS)


def close_plan(draft):
    """The same of a plan, which ends a bundle, too."""
    lines = draft.text.split(b"\n")
    entries = sum(line.startswith(b"entry ") for line in lines)
    actions = sum(line.startswith((b"piece ", b"commit ", b"mark ")) for line in lines)
    slip = draft.slip()
    draft.word(b"end", ENDS)
    draft.space()
    draft.count(entries + (slip == 1))
    draft.space()
    draft.count(actions + (slip == 2))
    draft.feed()
    draft.word(b"", TAILS)


def change_bytes(draft, way):
    """Inserts, replaces or deletes a byte, gives it the other case, or cuts the text there."""
    text = draft.text
    at = draft.below(len(text) + 1)
    byte = LIKELY[draft.below(len(LIKELY))] if draft.below(2) == 0 else draft.below(256)
    if way == 0:
        text.insert(at, byte)
    elif way == 4:
        del text[at:]
    elif at < len(text):
        if way == 1:
            text[at] = byte
        elif way == 2:
            del text[at]
        else:
            text[at] ^= 32


def change_lines(draft, way):
    """Doubles or deletes a line, or swaps two. What follows the last line feed counts as one."""
    lines = draft.text.split(b"\n")
    at = draft.below(len(lines))
    other = draft.below(len(lines))
    if way == 5:
        lines.insert(at, lines[at])
    elif way == 6:
        del lines[at]
    else:
        lines[at], lines[other] = lines[other], lines[at]
    draft.text = bytearray(b"\n").join(lines)


def change(draft):
    """Changes a text in one to three places."""
    for _ in range(1 + draft.below(3)):
        way = draft.below(8)
        if way < 5:
            change_bytes(draft, way)
        else:
            change_lines(draft, way)


def text_of(draft, body, close):
    """A valid text that is changed, before it gets its end line or after, or one that is drawn with near misses."""
    draft.begin(256 if body is bundle else 64)
    body(draft)
    if not draft.careful:
        close(draft)
    elif draft.below(2) == 0:
        change(draft)
        close(draft)
    else:
        close(draft)
        change(draft)
    return bytes(draft.text)


# ---- reading, by docs/FORMATS.md

class Refused(Exception):
    """The text isn't one of its kind. `line` counts from 1, where it is known."""
    def __init__(self, fault, line=0):
        super().__init__()
        self.fault = fault
        self.line = line


ESCAPE = rb"%(?:0[1-9A-F]|1[0-9A-F]|20|7F|25)"
NAME = re.compile(rb"(?:[^\x00-\x20\x7f/%]|" + ESCAPE + rb")+")
SYMBOL = rb"(?:\*|[^\x00-\x20\x7f/%*]|" + ESCAPE + rb"|%2A)"
PATTERN = re.compile(SYMBOL + rb"{1,255}")
DECIMAL = re.compile(rb"0|[1-9][0-9]*")
DIGEST = re.compile(rb"[0-9a-f]{64}")
OCTETS = re.compile(rb"(?:[0-9a-f]{2}){1,64}")


def lines_of(text, fault):
    """The lines without their line feeds. Each has one, the last too, and at most 16,384 bytes before it."""
    if not text:
        return []
    if text[-1:] != b"\n":
        raise Refused(fault)
    lines = text[:-1].split(b"\n")
    if any(len(line) > 16384 for line in lines):
        raise Refused(fault)
    return lines


def read_path(text):
    """The names of a path, or nothing."""
    if text[:1] != b"/":
        return None
    names = []
    for part in text[1:].split(b"/"):
        if not NAME.fullmatch(part):
            return None
        name = re.sub(rb"%(..)", lambda m: bytes([int(m[1], 16)]), part)
        try:
            name.decode("utf-8")
        except UnicodeDecodeError:
            return None
        if len(name) > 255 or name in (b".", b"..", b".twosync"):
            return None
        names.append(name)
    if len(names) > 64 or sum(map(len, names)) > 4096:
        return None
    return names


def read_number(field, end):
    """A decimal below `end`, or nothing."""
    if not DECIMAL.fullmatch(field):
        return None
    number = int(field)
    return number if number < end else None


class Listing:
    """The rows of a print or a tree: paths ascend, and parents are directories."""
    def __init__(self):
        self.last = None
        self.dirs = {()}

    def takes(self, text, is_dir):
        names = read_path(text)
        if names is None or (self.last is not None and not self.last < names) or tuple(names[:-1]) not in self.dirs:
            return False
        self.last = names
        if is_dir:
            self.dirs.add(tuple(names))
        return True


def is_print(lines):
    listing = Listing()
    for line in lines:
        fields = line.split(b" ")
        if fields[0] == b"d" and len(fields) == 2:
            good = listing.takes(fields[1], True)
        elif fields[0] == b"f" and len(fields) == 4:
            good = read_number(fields[2], 1 << 64) is not None and DIGEST.fullmatch(fields[3])
            good = good and listing.takes(fields[1], False)
        else:
            good = False
        if not good:
            return False
    return True


def is_tree(lines):
    listing = Listing()
    left = 0
    for line in lines:
        fields = line.split(b" ")
        if left > 0:
            count = min(left, 64)
            if len(fields) != 2 or fields[0] != b"x" or not OCTETS.fullmatch(fields[1]) or len(fields[1]) != 2 * count:
                return False
            left -= count
        elif fields[0] == b"d" and len(fields) == 2:
            if not listing.takes(fields[1], True):
                return False
        elif fields[0] == b"f" and len(fields) == 3:
            left = read_number(fields[2], 1 << 64)
            if left is None or not listing.takes(fields[1], False):
                return False
        else:
            return False
    return left == 0


def is_rule(line):
    word, space, rest = line.partition(b" ")
    if word == b"path":
        return read_path(rest) is not None
    return word == b"name" and PATTERN.fullmatch(rest) is not None and b"**" not in rest


def is_entry(line):
    fields = line.split(b" ")
    return len(fields) == 3 and fields[0] == b"entry" and fields[1] in REASON_WORDS and read_path(fields[2]) is not None


REASON_WORDS = (b"same", b"first", b"second", b"conflict", b"held", b"dir")


def is_action(line):
    fields = line.split(b" ")
    if fields[0] == b"piece":
        return (
            len(fields) == 5 and read_number(fields[1], 1 << 32) is not None
            and all(read_number(field, 1 << 64) is not None for field in fields[2:4]) and read_path(fields[4]) is not None
        )
    return len(fields) == 2 and fields[0] in (b"commit", b"mark") and read_number(fields[1], 1 << 32) is not None


def is_pred(line):
    fields = line.split(b" ")
    return len(fields) == 2 and fields[0] == b"p" and read_number(fields[1], 1 << 32) is not None


def is_plan(lines):
    """Whether these are a plan's lines. The texts made here are far from its limits."""
    if len(lines) < 2 or lines[0] != b"twosync-plan 1":
        return False
    entries = actions = 0
    for line in lines[1:-1]:
        if is_entry(line) and actions == 0:
            entries += 1
        elif is_action(line):
            actions += 1
        elif not (is_pred(line) and actions > 0):
            return False
    return lines[-1] == b"end %d %d" % (entries, actions)


def read_archive(text):
    lines = lines_of(text, 6)
    if len(lines) < 2 or lines[0] != b"twosync-archive 1" or not is_print(lines[1:-1]):
        raise Refused(6)
    end = lines[-1].split(b" ")
    if len(end) != 3 or end[0] != b"end" or read_number(end[1], 1 << 64) is None or not DIGEST.fullmatch(end[2]):
        raise Refused(6)
    front = text[:-len(lines[-1]) - 1]
    if int(end[1]) != len(lines) - 2 or end[2] != hashlib.sha256(front).hexdigest().encode():
        raise Refused(7)


def read_plan(text):
    if not is_plan(lines_of(text, 6)):
        raise Refused(6)


def read_rules(text):
    lines = text.split(b"\n")
    for number, line in enumerate(lines[:-1], 1):
        if number > 4096 or not is_rule(line):
            raise Refused(11, number)
    if lines[-1]:
        raise Refused(11, len(lines))


def read_bundle(text):
    lines = lines_of(text, 17)
    parts = [[]]
    titles = [b"twosync-bundle 1", b"archive", b"first", b"second", b"holds", b"plan"]
    if lines[:2] != titles[:2]:
        raise Refused(17)
    for line in lines[2:]:
        if len(parts) < 5 and line == titles[len(parts) + 1]:
            parts.append([])
        else:
            parts[-1].append(line)
    if len(parts) < 5:
        raise Refused(17)
    archive_lines, first, second, holds, plan_lines = parts
    good = is_print(archive_lines) and is_tree(first) and is_tree(second) and is_plan(plan_lines)
    if not good or len(holds) > 4096 or not all(is_rule(line) for line in holds):
        raise Refused(17)


# Each kind's name to the program and its title, what draws its texts and their end lines, and what reads them.
KINDS = [
    (b"archive", "archives", archive, close_archive, read_archive),
    (b"plan", "plans", plan, close_plan, read_plan),
    (b"rules", "hold rules", rules, lambda draft: None, read_rules),
    (b"bundle", "bundles", bundle, close_plan, read_bundle),
]


def answer_to(read, text):
    """The fault that a text has to be refused with and its bad line, zero each where there is none."""
    try:
        read(text)
    except Refused as refused:
        return "%d %d" % (refused.fault, refused.line)
    return "0 0"


def read_some(program, draft, numbers, met):
    """Has the program read the texts of these numbers, and counts what comes of them."""
    cases, wanted = [], []
    for number in numbers:
        kind, title, body, close, read = KINDS[number % len(KINDS)]
        text = text_of(draft, body, close)
        cases.append((kind, text))
        wanted.append(answer_to(read, text))
        fault = wanted[-1].split()[0]
        came = "read" if fault == "0" else "refused with fault %s" % fault
        met[title][came] = met[title].get(came, 0) + 1
    for number, answer, answer_wanted in zip(numbers, answers(program, cases), wanted):
        compare("hostile text %d" % number, answer, answer_wanted)


def main(program, count):
    draft = Draft()
    met = {title: {"read": 0} for _, title, *_ in KINDS}
    for begin in range(0, count, MOST_AT_ONCE):
        read_some(program, draft, range(begin, min(begin + MOST_AT_ONCE, count)), met)
    for title, counts in met.items():
        tell(title, counts)
    write_counts()


if __name__ == "__main__":
    main(sys.argv[1], int(sys.argv[2]) if len(sys.argv) > 2 else TEXTS)

"""What commands draw on a terminal while they work, and what is left of it.

Each command is run twice: with standard error on a terminal, and without one. What the terminal got is read as a terminal shows
it: a carriage return goes back to the line's first column, and characters stand over those before. So what is left has to be
what the other run wrote to standard error with `--explain`, and all that was drawn has to be gone. The sizes are such that a
scan takes longer than the third of a second before which nothing is drawn; beyond that no time is looked at. It works in the
folder that it is run in.

usage: tests/progress.py PROGRAM
"""

import os
import re
import shutil
import subprocess
import sys

import terminal
from runs import hold, write_counts

PROGRAM = sys.argv[1]
SCANNED = re.compile(r"scanning: ([\d,]+) files?, ([\d.]+) (B|kB|MB|GB|TB)(, [\d.]+ [kMGT]?B/s)?")
CARRIED = re.compile(
    r"carrying out: ([\d,]+) of ([\d,]+) actions, ([\d.]+) (B|kB|MB|GB|TB) of ([\d.]+) (B|kB|MB|GB|TB)"
    r"(, [\d.]+ [kMGT]?B/s)?(, \d+ (s|min|h) left)?"
)
FLUSHED = re.compile(r"flushing: ([\d,]+) of ([\d,]+) paths")
UNITS = {"B": 1, "kB": 10**3, "MB": 10**6, "GB": 10**9, "TB": 10**12}


def on_terminal(words, columns=None):
    """Runs the program with standard error on a terminal. Returns its status, what it printed, and what the terminal got."""
    env = {name: value for name, value in os.environ.items() if name != "COLUMNS"}
    if columns:
        env["COLUMNS"] = str(columns)
    with open("printed", "wb") as printed:
        status, got = terminal.run([PROGRAM, *words], printed, env)
    with open("printed", "rb") as printed:
        return status, printed.read(), got


def elsewhere(*words):
    """Runs the program without a terminal. Returns its status and what it printed on both."""
    ran = subprocess.run([PROGRAM, *words], stdin=subprocess.DEVNULL, capture_output=True)
    return ran.returncode, ran.stdout, ran.stderr


def drawn_in(got):
    """Returns the lines that were drawn over one another, each without spaces at its end, and the columns that the widest took."""
    # the first return begins a line, and what stands behind the last one wasn't drawn
    parts = got.split(b"\r\n")[0].split(b"\r")[1:-1]
    return [it.rstrip(b" ").decode("latin-1") for it in parts if it.strip(b" ")], max(map(len, parts), default=0)


def shape_of(line):
    """Returns the phase of a line, and the numbers of it that never fall; or None where it is no line."""
    if line == "checking the plan":
        return "checking", ()
    if found := SCANNED.fullmatch(line):
        return "scanning", (number(found[1]), float(found[2]) * UNITS[found[3]])
    if (found := FLUSHED.fullmatch(line)) and number(found[1]) <= number(found[2]):
        return "flushing", (number(found[1]), number(found[2]))
    if found := CARRIED.fullmatch(line):
        return "carrying out", (number(found[1]), float(found[3]) * UNITS[found[4]])
    return None


def number(text):
    groups = text.split(",")
    assert len(groups[0]) <= 3 and all(len(it) == 3 for it in groups[1:]), text
    return int("".join(groups))


def look_at_lines(name, got, columns=79):
    """Holds that lines were drawn, each as it should be, and that no number falls within a phase. Returns the phases."""
    lines, widest = drawn_in(got)
    hold(f"{name}: a line was drawn", None if lines else "none")
    hold(f"{name}: each fits", None if widest <= columns else f"{widest} columns")
    strange = [it for it in lines if any(not " " <= character <= "~" for character in it)]
    hold(f"{name}: printable characters alone", strange and repr(strange[0]))
    if columns < 79:
        return []
    shapes = [shape_of(it) for it in lines]
    hold(f"{name}: each says how far it is", None if all(shapes) else repr(lines[shapes.index(None)]))
    falls = [
        (one, two)
        for one, two in zip(filter(None, shapes), filter(None, shapes[1:]))
        if one[0] == two[0] and any(more < less for less, more in zip(one[1], two[1]))
    ]
    hold(f"{name}: no number falls", falls and repr(falls[0]))
    return [it[0] for it in shapes if it]


def look_at_rest(name, words, prepare=lambda: None):
    """Runs words on a terminal and elsewhere, and holds that nothing is left but what the other run wrote. Returns what was got."""
    prepare()
    status, printed, got = on_terminal(words)
    prepare()
    other_status, other_printed, said = elsewhere(*words, "--explain")
    hold(f"{name}: the status is the same", None if status == other_status else f"{status} and {other_status}")
    hold(f"{name}: it prints the same", None if printed == other_printed else f"{printed[-200:]} and {other_printed[-200:]}")
    left = terminal.left_of(got)
    hold(f"{name}: what was drawn is gone", None if left == said else f"{left!r} is left, and {said!r} was said")
    prepare()
    quiet_status, quiet_printed, quiet_got = on_terminal([*words, "--quiet"])
    hold(f"{name}, quiet: nothing is drawn", None if quiet_got.replace(b"\r\n", b"\n") == said else repr(quiet_got[:200]))
    hold(f"{name}, quiet: it prints the same", None if (quiet_status, quiet_printed) == (other_status, other_printed) else "it doesn't")
    for more in [], ["--quiet"]:
        prepare()
        plain = elsewhere(*words, *more)
        last_lines = said.splitlines()[1::2] if said else []
        same = plain[:2] == (other_status, other_printed) and plain[2].splitlines() == last_lines
        hold(f"{name}, no terminal, {more}: nothing is drawn", None if same else repr(plain[2][:200]))
    return got


def make_folder(place, sizes):
    """Makes a folder with files of these sizes, which have no bytes of their own on the disk."""
    os.mkdir(place)
    for name, size in sizes:
        with open(f"{place}/{name}", "wb") as file:
            file.write(name.encode())
            file.truncate(size)


def clear():
    for it in "first", "second":
        shutil.rmtree(it, ignore_errors=True)
    if os.path.exists("archive"):
        os.remove("archive")


SIZES = [(f"file {k}", 40_000_000) for k in range(6)] + [(f"small {k}", 7) for k in range(1200)]


def fresh():
    clear()
    make_folder("first", SIZES)
    os.mkdir("second")


def fresh_alike():
    clear()
    for it in "first", "second":
        make_folder(it, SIZES)


def scans():
    make_folder("large", [("one", 600_000_000), ("two", 5)])
    got = look_at_rest("a scan", ["scan", "large", "--workers", "1"])
    phases = look_at_lines("a scan", got)
    hold("a scan scans alone", None if set(phases) <= {"scanning"} else repr(phases))
    hold("the last write erases it", None if got.endswith(b" \r") else repr(got[-100:]))
    narrow = on_terminal(["scan", "large", "--workers", "1"], columns=24)[2]
    look_at_lines("a scan on a narrow terminal", narrow, columns=23)
    hold("nothing is left of it", terminal.left_of(narrow) and repr(terminal.left_of(narrow)))
    os.mkdir("large/z")
    os.mkfifo("large/z/pipe")
    got = look_at_rest("a scan that fails", ["scan", "large", "--workers", "1"])
    look_at_lines("a scan that fails", got)
    shutil.rmtree("large")


def on_pairs():
    fresh()
    got = look_at_rest("a plan", ["plan", "first", "second", "archive", "--workers", "1"])
    look_at_lines("a plan", got)
    got = look_at_rest("a preview", ["preview", "first", "second", "archive", "--workers", "1"])
    look_at_lines("a preview", got)
    with open("plan", "wb") as file:
        file.write(elsewhere("plan", "first", "second", "archive")[1])
    got = look_at_rest("a check", ["check", "first", "second", "archive", "plan", "--workers", "1"])
    look_at_lines("a check", got)
    got = look_at_rest("a run", ["run", "first", "second", "archive", "plan", "--workers", "1"], fresh)
    hold("a run carries out", None if "carrying out" in look_at_lines("a run", got) else "no line says so")
    got = look_at_rest("a sync", ["sync", "first", "second", "archive", "--workers", "2"], fresh)
    hold("a sync carries out", None if "carrying out" in look_at_lines("a sync", got) else "no line says so")
    got = look_at_rest("a sync of what is alike", ["sync", "first", "second", "archive", "--workers", "1"], fresh_alike)
    flushes = [shape_of(it)[1] for it in drawn_in(got)[0] if shape_of(it) and shape_of(it)[0] == "flushing"]
    look_at_lines("a sync of what is alike", got)
    hold("a sync of what is alike flushes it", None if any(it[1] == 2 * len(SIZES) for it in flushes) else repr(flushes))


def undrawn():
    got = on_terminal(["show", "archive"])[2]
    hold("`show` draws nothing", got and repr(got))
    got = on_terminal(["trial"])[2]
    hold("`trial` draws nothing", got and repr(got))


scans()
on_pairs()
undrawn()
write_counts()

"""What `preview` has to say of two folders, an archive and hold rules, from a reading of its own; and what it says.

It reads the folders with Python's own calls, knows each path's reason by the definitions (docs/DEFINITIONS.md), and writes both
forms of a preview by docs/FORMATS.md. Then it compares them with what the program prints, and with the report of the `sync`
that follows. It works in the folder that it is run in.

usage: tests/preview.py PROGRAM
"""

import hashlib
import json
import os
import random
import re
import shutil
import subprocess
import sys

from runs import counts, hold, write_counts

PROGRAM = sys.argv[1]
MARKS = [0x200E, 0x200F, *range(0x202A, 0x202F), *range(0x2066, 0x206A)]


# ---- reading

def read_folder(place):
    """Returns what a folder has, by the lists of names: None for a folder, size and digest of a file."""
    found = {}
    for at, folders, files in os.walk(os.fsencode(place)):
        below = os.path.relpath(at, os.fsencode(place)).split(b"/") if at != os.fsencode(place) else []
        if not below and b".twosync" in folders:
            folders.remove(b".twosync")
        for name in folders:
            found[*below, name] = None
        for name in files:
            with open(os.path.join(at, name), "rb") as file:
                content = file.read()
            found[*below, name] = (len(content), hashlib.sha256(content).hexdigest())
    return found


def read_path(text):
    """Returns the names that a path's text has."""
    return tuple(re.sub(rb"%([0-9A-F]{2})", lambda it: bytes([int(it[1], 16)]), it) for it in text.split(b"/")[1:])


def read_archive(place):
    """Returns what an archive has; one that isn't there has nothing."""
    found = {}
    if os.path.exists(place):
        with open(place, "rb") as file:
            for line in file.read().split(b"\n")[1:-2]:
                words = line.split(b" ")
                found[read_path(words[1])] = None if words[0] == b"d" else (int(words[2]), words[3].decode())
    return found


def read_rules(place):
    """Returns a test of whether a path is named."""
    paths, patterns = set(), []
    if os.path.exists(place):
        for line in open(place, "rb").read().split(b"\n")[:-1]:
            kind, value = line.split(b" ")
            if kind == b"path":
                paths.add(read_path(value))
            else:
                patterns.append(re.compile(b".*".join(re.escape(it) for it in value.split(b"*")), re.DOTALL))
    return lambda path: path in paths or any(it.fullmatch(path[-1]) for it in patterns)


# ---- what has to be said

def below(there, path):
    """Returns what is at a path and below it, by the rest of the path."""
    return {it[len(path):]: there[it] for it in there if it[:len(path)] == path}


def kind(there, path):
    return "nothing" if path not in there else "folder" if there[path] is None else "file"


def change(old, new, path):
    """Returns what became of a path and of what is below it."""
    if below(old, path) == below(new, path):
        return "unchanged"
    told = {
        ("file", "folder"): "file becomes directory",
        ("folder", "file"): "directory becomes file",
    }
    before, after = kind(old, path), kind(new, path)
    if before == "nothing":
        return "new"
    return "deleted" if after == "nothing" else told.get((before, after), "changed")


def reason(archive, first, second, held, path):
    """Returns why a path needs attention, or None."""
    if any(there.get(path[:k], 0) is not None for there in (first, second) for k in range(1, len(path))):
        return None
    if first.get(path, 0) is None and second.get(path, 0) is None:
        return None if archive.get(path, 0) is None else "dir"
    changes = [change(archive, it, path) != "unchanged" for it in (first, second)]
    if below(first, path) == below(second, path):
        return "same" if changes[0] else None
    if all(changes):
        return "conflict"
    if any(it[:len(path)] == path or path[:len(it)] == it for it in held):
        return "held"
    return "first" if changes[0] else "second"


def state(archive, replica, path):
    files = [it for it in below(replica, path).values() if it is not None]
    return {"change": change(archive, replica, path), "files": len(files), "bytes": sum(it[0] for it in files)}


def entry(archive, first, second, why, path):
    """Returns what is said of an entry."""
    to = {"first": "second", "second": "first"}.get(why)
    told = {"path": path, "reason": why, "to": to, "change": "unchanged", "lost": 0}
    if to:
        source, target = (first, second) if to == "second" else (second, first)
        kept = {it for it, what in source.items() if what is not None}
        lost = [it for it, what in target.items() if what is not None and it[:len(path)] == path and it not in kept]
        told.update(change=change(target, source, path), lost=len(lost))
    told.update(first=state(archive, first, path), second=state(archive, second, path))
    return told


def entries_of(archive, first, second, named):
    paths = sorted({*archive, *first, *second})
    held = [it for it in paths if named(it)]
    found = [(reason(archive, first, second, held, it), it) for it in paths]
    return [entry(archive, first, second, why, path) for why, path in found if why]


def totals_of(entries):
    count = lambda test: sum(1 for it in entries if test(it))
    return {
        "entries": len(entries),
        "to_first": count(lambda it: it["to"] == "first"),
        "to_second": count(lambda it: it["to"] == "second"),
        "agreed": count(lambda it: it["reason"] in ("same", "dir")),
        "conflicts": count(lambda it: it["reason"] == "conflict"),
        "held": count(lambda it: it["reason"] == "held"),
        "lost_in_first": sum(it["lost"] for it in entries if it["to"] == "first"),
        "lost_in_second": sum(it["lost"] for it in entries if it["to"] == "second"),
    }


# ---- how it is spelled

def path_text(path):
    escape = lambda it: b"%%%02X" % it[0][0]
    return b"".join(b"/" + re.sub(rb"[\x01-\x20\x7f%]", escape, it) for it in path).decode()


def shown(path):
    """Returns a path's text as people see it."""
    is_hidden = lambda it: 0x80 <= ord(it) <= 0x9F or ord(it) in MARKS
    return "".join("".join("%%%02X" % b for b in it.encode()) if is_hidden(it) else it for it in path_text(path))


def people(entries):
    lines = ["what       change                    files             bytes  path"]
    places = {"first": "to second", "second": "to first", "same": "agreed", "dir": "agreed"}
    for it in entries:
        place, what, files, size, why = places.get(it["reason"], it["reason"]), "-", "-", "-", ""
        if it["to"]:
            source = "second" if it["to"] == "first" else "first"
            of = it[it["to"] if it["change"] == "deleted" else source]
            what, files, size = it["change"], of["files"], of["bytes"]
        elif place == "agreed":
            what = it["first"]["change"]
        else:
            why = f" (first {it['first']['change']}, second {it['second']['change']})"
        lines.append(f"{place:<11}{what:<22}{files:>9}{size:>18}  {shown(it['path'])}{why}")
    t = totals_of(entries)
    lines.append(
        f"total {t['entries']}: to first {t['to_first']}, to second {t['to_second']}, agreed {t['agreed']}, conflicts {t['conflicts']}"
        f", held {t['held']}; files lost in first {t['lost_in_first']}, in second {t['lost_in_second']}"
    )
    return lines


# ---- what is said

def run(*words):
    ran = subprocess.run([PROGRAM, *words], capture_output=True)
    return ran.returncode, ran.stdout, ran.stderr


def marks_of(places):
    """Returns all that lies there, with its times and contents."""
    found = []
    for place in places:
        if os.path.lexists(place):
            for at, folders, files in os.walk(place):
                found += [(at, os.stat(at).st_mtime_ns, sorted(folders))]
                found += [(at, it, os.stat(f"{at}/{it}").st_mtime_ns, open(f"{at}/{it}", "rb").read()) for it in files]
            if os.path.isfile(place):
                found.append((place, os.stat(place).st_mtime_ns, open(place, "rb").read()))
    return sorted(map(repr, found))


def words_for(command):
    return [command, "first", "second", "archive", *(["--holds", "holds"] if os.path.exists("holds") else [])]


def compare(name, wanted, got):
    hold(name, None if wanted == got else f"wanted {str(wanted)[:300]}, got {str(got)[:300]}")


def look(name):
    """Compares both forms of a preview with what has to be said. Returns the entries."""
    entries = entries_of(read_archive("archive"), read_folder("first"), read_folder("second"), read_rules("holds"))
    status = 1 if any(it["reason"] in ("conflict", "held") for it in entries) else 0
    before = marks_of(["first", "second", "archive", "."])
    told = run(*words_for("preview"))
    as_json = run(*words_for("preview"), "--json")
    compare(f"{name}: nothing is changed", before, marks_of(["first", "second", "archive", "."]))
    compare(f"{name}: the status", (status, b""), (told[0], told[2]))
    compare(f"{name}: the status of JSON", (status, b""), (as_json[0], as_json[2]))
    compare(f"{name}: for people", people(entries), told[1].decode().split("\n")[:-1])
    lines = [json.loads(it) for it in as_json[1].decode().split("\n")[:-1]]
    wanted = [{**it, "path": path_text(it["path"])} for it in entries]
    compare(f"{name}: JSON", [{"text": "twosync-preview 1"}, *wanted, totals_of(entries)], lines)
    members = [[*it] for it in lines]
    compare(f"{name}: the order of members", [["text"], *([*it] for it in wanted), [*totals_of(entries)]], members)
    return entries


def carry_out(name, entries):
    """Compares the report of a sync with the entries of the preview before it."""
    lost = {}
    for place in ("first", "second"):
        lost[place] = {it for it, what in read_folder(place).items() if what is not None}
    status, report, _ = run(*words_for("sync"))
    lines = report.decode().split("\n")[:-1]
    done = lambda it: "skip" if it["reason"] in ("conflict", "held") else "done"
    compare(f"{name}: the report", [f"{done(it)} {it['reason']} {path_text(it['path'])}" for it in entries], lines[:-1])
    t = totals_of(entries)
    skipped = t["conflicts"] + t["held"]
    wanted = f"total {t['entries']} done {t['entries'] - skipped} skipped {skipped} failed 0 blocked 0"
    compare(f"{name}: the report's totals", wanted, lines[-1])
    compare(f"{name}: the report's status", 1 if skipped else 0, status)
    for place in ("first", "second"):
        now = {it for it, what in read_folder(place).items() if what is not None}
        compare(f"{name}: files lost in {place}", t[f"lost_in_{place}"], len(lost[place] - now))


# ---- cases

def fresh():
    for place in ("first", "second"):
        shutil.rmtree(place, ignore_errors=True)
        os.mkdir(place)
    for place in ("archive", "holds"):
        if os.path.exists(place):
            os.remove(place)


def remove(place):
    if os.path.isdir(place):
        shutil.rmtree(place)
    elif os.path.lexists(place):
        os.remove(place)


def put(place, is_folder, content):
    """Puts a file or a folder in place of what is there, where there is a folder to put it in."""
    if not os.path.isdir(os.path.dirname(place)):
        return
    remove(place)
    if is_folder:
        os.mkdir(place)
    else:
        with open(place, "wb") as file:
            file.write(content)


def change_something(draw, names):
    """Changes a path of one replica or of both, in the same way or not."""
    path = "/".join(draw.choice(names) for _ in range(draw.choice([1, 1, 2, 2, 3])))
    for place in draw.choice([["first"], ["second"], ["first", "second"]]):
        if draw.random() < 0.3:
            remove(f"{place}/{path}")
        else:
            put(f"{place}/{path}", draw.random() < 0.4, bytes([draw.choice(b"abc")]) * draw.choice([0, 1, 1, 5000]))


def generated(seed):
    draw = random.Random(seed)
    names = ["a", "b", "a.b", "c d", "t.tmp"]
    fresh()
    for _ in range(draw.randrange(12)):
        change_something(draw, names)
    for turn in range(3):
        name = f"folders of seed {seed}, turn {turn}"
        remove("holds")
        if draw.random() < 0.4:
            with open("holds", "w") as file:
                file.write(draw.choice(["path /a\n", "path /b/a\n", "name *.tmp\n", "name a*\npath /c%20d\n"]))
        carry_out(name, look(name))
        for _ in range(draw.randrange(10)):
            change_something(draw, names)


def odd_names():
    """A hundred names of odd widths, and others with characters that must not reach a terminal."""
    draw = random.Random(100)
    parts = ["a", "é", "e\u0301", "日本", "한글", "ｗｉｄｅ", "👩\u200d👩\u200d👧", "🇨🇭", "~", "\""]
    parts += ["\u05d0\u05d1", "\u0627\u0644", "\u200b", "\ufe0f", "\u0300\u0301"]
    fresh()
    names = []
    while len(names) < 100:
        name = "".join(draw.choice(parts) for _ in range(draw.randrange(1, 9)))
        if len(name.encode()) <= 255 and name not in names:
            names.append(name)
    for k, name in enumerate(names):
        put(f"{'first' if k % 2 else 'second'}/{name}", False, b"x" * k)
    carry_out("odd widths", look("odd widths"))
    hidden = [*range(1, 0x20), *range(0x7F, 0xA1), *MARKS, 0x2010, 0x202F, 0x2065, 0x206A, 0x25, 0x5C, 0x22]
    for code in hidden:
        put(f"first/{code} {chr(code)} end", False, b"x")
    entries = look("hidden characters")
    printed = run(*words_for("preview"))[1].decode()
    left = {it for it in printed if ord(it) < 0x20 or 0x7F <= ord(it) <= 0x9F or ord(it) in MARKS} - {"\n"}
    compare("hidden characters: none is printed", set(), left)
    carry_out("hidden characters", entries)


def main():
    odd_names()
    for seed in range(60):
        generated(seed)
    write_counts()
    return 1 if counts["failed"] else 0


if __name__ == "__main__":
    sys.exit(main())

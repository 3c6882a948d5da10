#!/usr/bin/env python3
"""Says which functions of a crate the prover takes longest for.

Each module that a check has read it writes to a file, one after another, so when a file was written, and what the check has taken
of a processor by then, tells how long that module took. Most of it goes into what a function borrows and drops (`Lts`): that grows
with the values that are dropped where a `?` may end it, with all that their types are made of. What helps is a function of its own
for what is done with such a value, or an `impl Drop` written out in the place of a derived one, where the type has enums among its
parts.

usage: tools/slow.py CLONE CRATE [COUNT] [--test]
       checks the crate from nothing over the libraries that another clone has built, by one processor, and lists the COUNT
       slowest functions (30), with the megabytes of their modules, which are the same on any machine, and the share of the time
       that went into each kind of module
       --test checks its tests, too: a crate that has nothing else is empty without them
       tools/slow.py --watch [COUNT]
       watches the proofs that run on this machine, as those of `rt ci`, and lists the COUNT slowest functions of each that ends
       (10), in seconds by the clock. These say little where a proof has several jobs or waits for a processor: each module has the
       time since any job wrote one, the first one of a job also that in which the job began
"""
import collections
import glob
import os
import re
import shutil
import subprocess
import sys
import tempfile
import time

TOP = os.path.dirname(os.path.dirname(os.path.abspath(__file__)))
# How many seconds there are between two looks, at what runs anyway, and at a check that this program makes.
INTERVAL = 4
SHORT_INTERVAL = 0.2
# What a module's name ends in, where it belongs to a function or a type.
KINDS = re.compile(r"\.(Lts|Tie|Proof|Goals|Answers\w*|Code|Mir|Named|Reads|View|Given|Layout|Kinds[\w-]*|Statement|Met|Invariants)\b.*")


def modules_in(kept):
    """Returns when each module was written that a check has left below a folder so far, and its bytes, by its file's name."""
    found = {}
    for at, _, names in os.walk(kept):
        for name in (it for it in names if it.endswith(".oantt")):
            try:
                file = os.stat(f"{at}/{name}")
            except FileNotFoundError:
                # (the check ended meanwhile)
                continue
            found[name] = file.st_mtime, file.st_size
    return found


def named(crate, modules):
    """Yields those of some modules that are a crate's, by their names there."""
    own = f"Rattle-{crate}-"
    for name, seconds, size in modules:
        if name.startswith(own):
            yield name.removeprefix(own).removesuffix(".oantt"), seconds, size


def modules_of(found):
    """Yields for each module its file's name, how many seconds after the one before it came, and its bytes."""
    files = sorted((written, name, size) for name, (written, size) in found.items())
    for (before, _, _), (written, name, size) in zip(files, files[1:]):
        yield name, written - before, size


def summed(modules):
    """Returns the seconds of each function or file, by its kinds of modules, and the bytes of each."""
    found, sizes = collections.defaultdict(collections.Counter), collections.Counter()
    for name, seconds, size in modules:
        kind = KINDS.search(name)
        function = KINDS.sub("", name).removeprefix("proofs.")
        found[function][kind.group(1) if kind else "itself"] += seconds
        sizes[function] += size
    return found, sizes


def show(found, sizes, count):
    """Prints how long all took, by kinds of modules, and the slowest functions."""
    kinds = sum(found.values(), collections.Counter())
    shares = ", ".join(f"{kind} {seconds:.0f}" for kind, seconds in kinds.most_common(8))
    whole = sum(sizes.values()) / 1e6
    print(f"{sum(kinds.values()):7.1f} s, {whole:.1f} MB in all for {len(found)} functions and files ({shares})")
    for function, kinds in sorted(found.items(), key=lambda it: -sum(it[1].values()))[:count]:
        shares = ", ".join(f"{kind} {seconds:.1f}" for kind, seconds in kinds.most_common(3))
        print(f"{sum(kinds.values()):7.1f}  {sizes[function] / 1e6:6.1f} MB  {function} ({shares})", flush=True)


def crate_of(names):
    """Returns the name of the crate that most of some modules belong to, or None where there is none."""
    owners = collections.Counter(it.split("-")[1] for it in names if it.startswith("Rattle-"))
    return owners.most_common(1)[0][0] if owners else None


def watch(count):
    """Watches the folders in which the prover keeps modules while it works, and shows what each had when it goes."""
    seen = {}
    while True:
        there = glob.glob(f"{tempfile.gettempdir()}/rattle-logic-built-locked-*")
        for at in there:
            seen.setdefault(at, {}).update(modules_in(at))
        for at in [it for it in seen if it not in there]:
            found = seen.pop(at)
            crate = crate_of(found)
            if crate:
                print(f"{crate}:")
                show(*summed(named(crate, modules_of(found))), count)
        time.sleep(INTERVAL)


def spent_by(process):
    """Returns the seconds of a processor that a process and those that it began took so far."""
    ticks, waiting = 0, [process]
    while waiting:
        at = waiting.pop()
        try:
            with open(f"/proc/{at}/stat", encoding="utf-8") as it:
                ticks += sum(int(word) for word in it.read().rsplit(")", 1)[1].split()[11:15])
            with open(f"/proc/{at}/task/{at}/children", encoding="utf-8") as it:
                waiting += it.read().split()
        except (FileNotFoundError, ProcessLookupError):
            # (it ended meanwhile)
            continue
    return ticks / os.sysconf("SC_CLK_TCK")


def shared(spent, began, modules):
    """Shares seconds of a processor among modules, each a file's name and when it was written, by how long each took since the one
    before it by the clock, the first one since `began`. Returns the names with the seconds, and when the last one was written."""
    took = []
    for name, written in sorted(modules, key=lambda it: it[1]):
        took.append((name, max(written - began, 0)))
        began = max(written, began)
    whole = sum(seconds for _, seconds in took)
    return [(name, spent * seconds / whole if whole else spent / len(took)) for name, seconds in took], began


def measured(kept, words):
    """Makes a check that keeps its modules below a folder. Returns its status, what it printed, and each module's file with the
    seconds of a processor since the one before it, and its bytes. Modules of a long check come many at a time: those that came
    between two looks share what the check took since the look before."""
    found, modules, spent, last = {}, [], 0, time.time()
    with tempfile.TemporaryFile("w+") as out:
        check = subprocess.Popen(words, stdout=out, stderr=subprocess.STDOUT)
        while check.poll() is None:
            now, there = spent_by(check.pid), modules_in(kept)
            new = [(name, there[name][0]) for name in there if name not in found]
            found.update(there)
            if new:
                parts, last = shared(max(now - spent, 0), last, new)
                modules += parts
                spent = max(now, spent)
            time.sleep(SHORT_INTERVAL)
        out.seek(0)
        said = out.read()
    return check.returncode, said, [(name, part, found[name][1]) for name, part in modules]


def main(words):
    flags = [it for it in words if it.startswith("--")]
    words = [it for it in words if it not in flags]
    if flags == ["--watch"] and len(words) <= 1 and all(it.isdigit() for it in words):
        return watch(int(words[0]) if words else 10)
    if flags not in ([], ["--test"]) or len(words) not in (2, 3):
        print(__doc__, file=sys.stderr)
        return 2
    clone, crate, count = words[0], words[1], int(words[2]) if len(words) == 3 else 30
    # (where check_over.py keeps what it has checked)
    kept = f"{TOP}/out/kept/{crate}{'_tests' if flags else ''}"
    shutil.rmtree(kept, ignore_errors=True)
    words = [f"{TOP}/tools/check_over.py", clone, crate, "--jobs", "1", *flags]
    status, said, modules = measured(kept, words)
    if status:
        print(said, end="")
    show(*summed(named(crate, modules)), count)
    return status


if __name__ == "__main__":
    sys.exit(main(sys.argv[1:]))

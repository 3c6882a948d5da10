#!/usr/bin/env python3
"""Proves and builds the libraries below some crates, side by side: each as soon as those below it are there.

`rt run` and `rt check` build them one after the other, which takes twice as long. What is built stays in each crate's
folder out/, where `rt` finds it, and a library whose sources haven't changed isn't built again.

usage: tools/build.py [CRATE ..]      the libraries below these crates; below the program, where none is named
"""
import copy
import os
import sys
import tempfile
import time
from concurrent.futures import ThreadPoolExecutor

TOP = os.path.dirname(os.path.dirname(os.path.abspath(__file__)))
sys.path.insert(0, f"{TOP}/tools")

from kit import load_rt

# How long a chain of libraries is, beside the longest, for the others to wait for it.
NEARLY = 0.95
# How many jobs a library of such a chain has at least, where there are as many processors. Any other has one. Each job reads what
# stands below, so that several take far more of the processors in all: ts_disk took 726 seconds by two, and over 1,100 by three.
JOBS = 2
# How many jobs the last library has at most, which waits for all others: nobody else uses the processors then, but each job takes memory.
LAST_JOBS = 4
# How far the other libraries give way to it, as `nice` counts that.
NICENESS = 10


def build(crate, jobs, started):
    """Builds a library where those below it are built, says how it went, and returns whether that is well."""
    begun = time.monotonic()
    crate = copy.copy(crate)
    with tempfile.TemporaryFile("w+", errors="replace") as crate.out:
        try:
            status = crate.build_rlib(["--jobs", str(jobs)], anew=False)
        except SystemExit:
            status = 1
        crate.out.seek(0)
        said = crate.out.read()
    now = time.monotonic()
    at, took = divmod(int(now - started), 60), int(now - begun)
    print(f"{at[0]:3}:{at[1]:02}  {crate.name} {'NOT PROVED' if status else 'proved'}, {took} s", flush=True)
    if status:
        print(said, flush=True)
    return not status


def giving_way(call):
    """Makes a call in a thread of its own, whose processes take what others leave of the processors. Returns what it does."""
    with ThreadPoolExecutor(1, initializer=os.nice, initargs=(NICENESS,)) as own:
        return own.submit(call).result()


def urgent(waits, lines):
    """Returns the crates through which goes a chain, each waiting for the one before it, that is nearly as long as any, by lines.
    However many processors there are, a build takes as long as the longest.

    Both arguments go by a crate's name: the crates that it waits for, and its lines. A crate comes after those that it waits for.
    """
    ahead, behind = {}, {}
    for name in waits:
        ahead[name] = max((ahead[it] + lines[it] for it in waits[name]), default=0)
    for name in reversed([*waits]):
        behind[name] = lines[name] + max((behind[it] for it in behind if name in waits[it]), default=0)
    return [name for name in waits if ahead[name] + behind[name] >= NEARLY * max(behind.values())]


def tasks_of(rt, libraries):
    """Returns a task for each library that isn't built, lowest first, as rt.in_lanes takes them.

    A library of a longest chain has several jobs from the start, and the others give way to it: rt gives a crate its jobs when it
    begins, and one that begins beside others would keep a single one to its end, while all the chain waits for it. The last one,
    which waits for all others, has more. Further jobs take no memory beyond what rt reckons for one: four jobs of ts_exec
    held 4 GB together, where it reckons 5.7.
    """
    missing = [it for it in libraries if not it.is_built()]
    names = {it.name for it in missing}
    waits = {crate.name: [it.name for it in crate.below() if it.name in names] for crate in missing}
    lines = {crate.name: crate.count(rb"\n") for crate in missing}
    first = urgent(waits, lines)
    started, tasks = time.monotonic(), {}
    for crate in missing:

        def call(given, jobs, it=crate):
            if not all(given[below, "proof"] for below in waits[it.name]):
                return False
            if len(waits[it.name]) == len(missing) - 1:
                return build(it, min(LAST_JOBS, rt.processors()), started)
            if it.name in first:
                return build(it, max(jobs, min(JOBS, rt.processors())), started)
            return giving_way(lambda: build(it, 1, started))

        tasks[crate.name, "proof"] = ([(it, "proof") for it in waits[crate.name]], lines[crate.name], rt.need(crate), call)
    return tasks


def main(words):
    os.chdir(TOP)
    rt = load_rt()
    crates = {it.name: it for it in rt.rtlib.crates_below(TOP)}
    unknown = [it for it in words if it not in crates]
    if unknown:
        print(f"tools/build.py: crates.txt has no crate {unknown[0]}\n\n{__doc__}", file=sys.stderr)
        return 2
    wanted = [crates[it] for it in words or ["twosync"]]
    libraries = list(dict.fromkeys(it for crate in wanted for it in crate.below()))
    # (its first call sets a signal's handler, which only the main thread may)
    rt.rtlib.guarded()
    held = rt.rtlib.lock(libraries)
    try:
        done = rt.in_lanes(tasks_of(rt, libraries))
    finally:
        for it in held:
            os.close(it)
    failed = [key[0] for key, well in done.items() if not well]
    print(f"{len(libraries) - len(failed)} of {len(libraries)} libraries are built")
    return 1 if failed else 0


if __name__ == "__main__":
    sys.exit(main(sys.argv[1:]))

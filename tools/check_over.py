#!/usr/bin/env python3
"""Checks a crate, or some of its functions, over the libraries that another clone has built.

A change high up is tried in minutes so, without proving what is below it again. What is checked is kept, so that the next
check of the crate takes up where this one ended. A library that stands in this clone's own out/ is taken before the other's.

usage: tools/check_over.py CLONE CRATE [--build] [RATTLE'S FLAGS ..] [FUNCTION ..]
       --build proves all of a library, and leaves it in this clone's out/ for the crates above it
       FUNCTION is a path below the crate, as lock::take_lock; `compile` compiles alone; none checks the whole crate
"""
import os
import subprocess
import sys

TOP = os.path.dirname(os.path.dirname(os.path.abspath(__file__)))
sys.path.insert(0, f"{TOP}/tools")

from kit import load_rt, only


def over(clone, word):
    """Returns a word of the command line with each path of a library that isn't built here replaced by the other clone's."""
    before, at, path = word.rpartition("=")
    is_missing = path.startswith(f"{TOP}/") and "/out/" in path and not has_library(path)
    return f"{before}{at}{clone}{path.removeprefix(TOP)}" if is_missing else word


def has_library(path):
    """Whether a library, or the folder of one, is there."""
    folder = path if not path.endswith(".rlib") else os.path.dirname(path)
    return os.path.isdir(folder) and any(it.endswith(".rlib") for it in os.listdir(folder))


def split(words):
    """Returns rattle's flags among some words, and the functions."""
    flags, functions = [], []
    for at, word in enumerate(words):
        is_value = at > 0 and words[at - 1] == "--jobs"
        (flags if is_value or word.startswith("--") else functions).append(word)
    return flags, functions


def make(rt, crate, said, flags):
    """Has rattle build a library, a program or tests, and links the latter two. Returns the status."""
    is_library = not crate.is_program and "--test" not in flags
    program = f"out/{crate.name}{'_tests' if '--test' in flags else ''}"
    made = crate.rlib if is_library else f"{program}.o"
    kit = rt.rtlib.KIT
    os.makedirs(os.path.dirname(made if is_library else f"{crate.folder}/{made}"), exist_ok=True)
    more = [] if is_library else ["--toolchain", f"{kit}/toolchain", "--backend", "llvm"]
    guarded = rt.rtlib.guarded()
    words = [*guarded, rt.rtlib.RATTLE, "build", *said, *more, "-o", made]
    status = subprocess.run(words, cwd=crate.folder).returncode
    if status or is_library:
        return status
    words = [f"{kit}/bin/rattle-link", "--target", "x86_64-unknown-linux-gnu", "--toolchain", f"{kit}/toolchain"]
    words += ["-o", program, made, f"{kit}/c/libos_c.a", f"{kit}/c/liblibc_c.a"]
    return subprocess.run([*guarded, *words], cwd=crate.folder).returncode


def main(words):
    if len(words) < 2:
        print(__doc__, file=sys.stderr)
        return 2
    clone, name, *rest = words
    clone = os.path.abspath(clone)
    flags, functions = split([it for it in rest if it != "--build"])
    os.chdir(TOP)
    rt = load_rt()
    crates = {it.name: it for it in rt.rtlib.crates_below(TOP)}
    if name not in crates or not os.path.isdir(f"{clone}/crates"):
        print(f"tools/check_over.py: {name} isn't a crate of crates.txt, or {clone} isn't a clone", file=sys.stderr)
        return 2
    crate = crates[name]
    asked = flags + only("" if it == "compile" else it for it in functions)
    kept = f"{TOP}/out/kept/{name}{'_tests' if '--test' in flags else ''}"
    os.makedirs(kept, exist_ok=True)
    said = [over(clone, it) for it in crate.words(asked, keeps=False)] + ["--incremental", kept]
    if "--build" in rest:
        return make(rt, crate, said, flags)
    return subprocess.run([*rt.rtlib.guarded(), rt.rtlib.RATTLE, "check", *said], cwd=crate.folder).returncode


if __name__ == "__main__":
    sys.exit(main(sys.argv[1:]))

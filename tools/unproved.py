#!/usr/bin/env python3
"""Builds a program without proving it, optimized, to profile it or to run scripts over it while its proof is still to come.

It takes some three minutes of one processor, where the proofs take hours. It uses what `rt try` does, whose own program is not
optimized, and runs under AddressSanitizer. What `perf` says of the parts of this one holds for the proved program, too, but its
times don't: the proved one is linked and optimized in another way, and SHA-256, for one, is several times as fast there.

usage: tools/unproved.py OUT [CRATE]     writes the program of a crate, twosync where none is named, to OUT
"""
import os
import shlex
import sys
import tempfile

TOP = os.path.dirname(os.path.dirname(os.path.abspath(__file__)))
sys.path.insert(0, f"{TOP}/tools")

from kit import load_rt

# What takes the place of the compiler: the same one, told to optimize, and without AddressSanitizer.
COMPILER = """#!/usr/bin/env bash
words=()
for word in "$@"; do
  case $word in
    -O0) words+=(-O3) ;;
    -fsanitize=address) ;;
    *) words+=("$word") ;;
  esac
done
exec {own} "${{words[@]}}"
"""
# What takes the place of the linker: it leaves AddressSanitizer out and keeps the program. It ends as if it had failed, so that
# the program isn't run.
LINKER = """#!/usr/bin/env bash
words=() is_whole=
for word in "$@"; do
  case $word in
    --whole-archive) is_whole=1 ;;
    --no-whole-archive) is_whole= ;;
    *) [ -n "$is_whole" ] || words+=("$word") ;;
  esac
done
{own} "${{words[@]}}" && cp program {out}
exit 1
"""


def write_script(file, text):
    with open(file, "w", encoding="utf-8") as it:
        it.write(text)
    os.chmod(file, 0o755)


def kit_with_own_tools(rt, top, out):
    """Makes a folder that has what the kit has, but for the compiler and the linker."""
    for name in os.listdir(rt.KIT):
        if name != "toolchain":
            os.symlink(f"{rt.KIT}/{name}", f"{top}/{name}")
    own = f"{rt.KIT}/toolchain"
    os.makedirs(f"{top}/toolchain/bin")
    os.symlink(f"{own}/lib", f"{top}/toolchain/lib")
    for name in os.listdir(f"{own}/bin"):
        if name not in ("clang", "ld.lld"):
            os.symlink(f"{own}/bin/{name}", f"{top}/toolchain/bin/{name}")
    write_script(f"{top}/toolchain/bin/clang", COMPILER.format(own=shlex.quote(f"{own}/bin/clang")))
    write_script(f"{top}/toolchain/bin/ld.lld", LINKER.format(own=shlex.quote(f"{own}/bin/ld.lld"), out=shlex.quote(out)))


def said_by(call):
    """Makes a call whose processes have nothing to read, and returns what they wrote to the standard error."""
    before = os.dup(2)
    with open(os.devnull, "rb") as nothing, tempfile.TemporaryFile("w+", errors="replace") as said:
        os.dup2(nothing.fileno(), 0)
        os.dup2(said.fileno(), 2)
        try:
            call()
        except SystemExit:
            # (rt ends where a try fails, as this one does without a program to run)
            pass
        finally:
            sys.stderr.flush()
            os.dup2(before, 2)
            os.close(before)
        said.seek(0)
        return said.read()


def main(words):
    if len(words) not in (1, 2):
        print(__doc__, file=sys.stderr)
        return 2
    out, name = os.path.abspath(words[0]), words[1] if len(words) == 2 else "twosync"
    os.chdir(TOP)
    rt = load_rt()
    crates = {it.name: it for it in rt.rtlib.crates_below(TOP)}
    if name not in crates or not crates[name].is_program:
        print(f"tools/unproved.py: crates.txt has no program {name}", file=sys.stderr)
        return 2
    if os.path.exists(out):
        os.remove(out)
    with tempfile.TemporaryDirectory() as top:
        kit_with_own_tools(rt, top, out)
        rt.rtlib.KIT = top
        os.chdir(crates[name].folder)
        said = said_by(lambda: crates[name].try_unproved(["--steps", "1", "--seconds", "1"], []))
    if not os.path.exists(out):
        print(said, end="", file=sys.stderr)
        return 1
    print(f"{out} is built, and not proved")
    return 0


if __name__ == "__main__":
    sys.exit(main(sys.argv[1:]))

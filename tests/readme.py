"""Goes through README's tour as a new user would: runs each command that stands there after `$ `, in the order of the page, on a
terminal without colours, and compares what is printed with what the page shows. What the page only tells, such as that a file was
changed in both folders, is done before the block that follows it.

usage: tests/readme.py PROGRAM README    in an empty folder; writes how many commands print what is shown, and how many don't, to `counts`
"""
import os
import re
import shutil
import subprocess
import sys

from runs import hold, write_counts
from terminal import left_of, run

BLOCK = re.compile(r"(?ms)^```text\n(\$ .*?)^```$")


def write(path, text):
    os.makedirs(os.path.dirname(path) or ".", exist_ok=True)
    with open(path, "w", encoding="utf-8") as it:
        it.write(text)


def two_folders():
    write("notes/ideas/one.txt", "Hello.\n")
    write("notes/list.txt", "9 bytes.\n")
    write("stick/todo.txt", "to do it\n")


def changed_in_both():
    write("notes/list.txt", "changed.\n")
    write("stick/list.txt", "changed too\n")
    os.remove("stick/todo.txt")


def settled_and_held():
    shutil.copy("notes/list.txt", "stick/list.txt")
    subprocess.run(["twosync", "sync", "notes", "stick", "notes.archive"], stdout=subprocess.DEVNULL, check=True)
    write("notes/draft.tmp", "not yet\n")
    write("rules", "name *.tmp\n")


def not_mounted():
    os.rename("stick", "elsewhere")
    os.mkdir("stick")


# What is done before a block, by its first command. A command that stands at the head of several blocks is the first one of these.
BEFORE = {
    "ls notes stick": two_folders,
    "twosync preview notes stick notes.archive": changed_in_both,
    "twosync sync notes stick notes.archive --holds rules": settled_and_held,
    "twosync sync notes stick notes.archive --hold-special --explain": not_mounted,
}


def commands_of(block):
    """Yields each command of a block, and what is shown below it."""
    for part in re.split(r"(?m)^\$ ", block)[1:]:
        command, _, shown = part.partition("\n")
        yield command, shown


def printed_by(command):
    """Returns what is left of a command on a terminal that is 80 columns wide: a progress line may have been drawn meanwhile."""
    _, got = run(["bash", "-c", command], shows_all=True)
    return left_of(got).decode()


def difference(command, shown):
    """Runs a command, and returns what is wrong with what it prints, or None."""
    printed = printed_by(command)
    return None if printed == shown else f"README shows\n{shown}and it prints\n{printed}"


def main(program, readme):
    os.mkdir("bin")
    os.symlink(program, "bin/twosync")
    os.environ.update(PATH=f"{os.getcwd()}/bin:{os.environ['PATH']}", NO_COLOR="1", TERM="xterm", LC_ALL="C.UTF-8")
    with open(readme, encoding="utf-8") as it:
        blocks = BLOCK.findall(it.read())
    before = dict(BEFORE)
    for block in blocks:
        commands = list(commands_of(block))
        before.pop(commands[0][0], lambda: None)()
        for command, shown in commands:
            hold(f"`{command}`", difference(command, shown))
    for command in before:
        hold(f"`{command}`", "README has no block that begins with it")
    write_counts()


if __name__ == "__main__":
    main(*sys.argv[1:])

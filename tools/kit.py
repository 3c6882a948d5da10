"""The kit's command rt, for programs that make its checks themselves."""
import importlib.machinery
import importlib.util
import os
import shutil
import sys


def load_rt():
    """Returns the kit's command rt, a Python file without that ending, as a module."""
    file = shutil.which("rt")
    if not file:
        raise SystemExit(f"{sys.argv[0]}: there is no command rt: put the kit's folder bin on the path")
    sys.dont_write_bytecode = True
    loader = importlib.machinery.SourceFileLoader("rt", os.path.realpath(file))
    made = importlib.util.module_from_spec(importlib.util.spec_from_loader("rt", loader))
    loader.exec_module(made)
    return made


def only(paths):
    """Returns rattle's flags for a check of some functions alone."""
    return [word for path in paths for word in ("--only", path)]

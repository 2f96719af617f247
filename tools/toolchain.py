"""The toolchain's own functions, from the command on the PATH."""

import importlib.util
import os
import shutil
import sys
from importlib.machinery import SourceFileLoader

TOP = os.path.dirname(os.path.dirname(os.path.realpath(__file__)))


def load():
    """The module that the command rt is made of; it may raise what an import does."""
    command = shutil.which("rt")
    if not command:
        raise ImportError("the command rt is not on the PATH")
    file = os.path.join(os.path.dirname(os.path.realpath(command)), "rtlib.py")
    sys.dont_write_bytecode = True
    loader = SourceFileLoader("rtlib", file)
    module = importlib.util.module_from_spec(importlib.util.spec_from_loader("rtlib", loader))
    loader.exec_module(module)
    return module


def crates(module, names, top=TOP):
    """The toolchain's own object of each of these crates, by its name, in the repository or in a copy of its sources."""
    known = {}
    return {name: module.Crate(f"{top}/crates/{name}", top, known) for name in names}

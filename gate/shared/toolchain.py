"""What tools share that go by the toolchain's own scripts: crates as `rt` reads them, and the words that `rt` gives to
`rattle` for them."""

import importlib.machinery
import importlib.util
import os
import shutil
import sys

FOLDER = os.path.dirname(os.path.realpath(shutil.which("rt") or sys.exit("rt is not on the path")))


def load(name, file):
    """A script of the toolchain as a module."""
    path = os.path.join(FOLDER, file)
    loader = importlib.machinery.SourceFileLoader(name, path)
    module = importlib.util.module_from_spec(importlib.util.spec_from_loader(name, loader))
    sys.modules[name] = module
    loader.exec_module(module)
    return module


sys.dont_write_bytecode = True
sys.path.insert(0, FOLDER)
rt = load("rt", "rt")
rtlib = rt.rtlib


def crate_at(root, name):
    """The crate of that name, in the repository at `root`, as `rt` has it."""
    return rtlib.Crate(os.path.join(os.path.realpath(root), "crates", name), os.path.realpath(root), {})

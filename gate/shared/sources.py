"""The source files of the repository, for the tools that read them."""

import os

from shared.gate import REPOSITORY, read_text

# The endings of files of Rattle: of sources, and of the tests of crates.
RATTLE = (".rt", ".rs")


def repository_here():
    """The repository that the program is called in, if it has the crates of this library, or else this repository."""
    folder = os.getcwd()
    while folder != os.path.dirname(folder):
        if all(os.path.exists(os.path.join(folder, name)) for name in ("crates.txt", "crates/calendar_values/src/lib.rt")):
            return folder
        folder = os.path.dirname(folder)
    return REPOSITORY


def texts(*endings, root=REPOSITORY):
    """The text of each file below crates/ with one of these endings, by its path from the repository's root."""
    found = {}
    for folder, below, names in os.walk(os.path.join(root, "crates")):
        below[:] = sorted(name for name in below if name != "out")
        for name in sorted(names):
            if name.endswith(endings):
                path = os.path.join(folder, name)
                found[os.path.relpath(path, root)] = read_text(path)
    return found


def crate_of(path):
    """The crate of a file, by its path from the repository's root."""
    return path.split("/")[1]


def is_test(path):
    """Whether a file, by its path from the repository's root, is one of the tests of a crate: beside its sources, or in a program."""
    return path.split("/")[2:3] == ["tests"] or os.path.basename(path) == "tests.rt"


def crates(root=REPOSITORY):
    """The names of the crates, in the order of crates.txt."""
    return [line.split(":")[0].split()[0] for line in read_text(os.path.join(root, "crates.txt")).split("\n") if ":" in line]

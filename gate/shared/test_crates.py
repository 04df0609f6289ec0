"""The tests of crates, which lie beside the sources in crates/NAME/tests, and the crates of tests that `rt` reads in a copy.

The tests are Rattle. Their files end as Rust's do, since `rt ci` refuses a file of Rattle that no crate of crates.txt has, and proves
each that one has. mod.rs declares the other files. In a copy of the repository the tests of libraries are modules of one crate more,
which sees the libraries as every caller does. The tests of a crate on which no crate can stand are a module of that crate.
"""

import os
import re

from shared.gate import REPOSITORY, crates, read_text, write_text

FOLDER, ROOT, ENDING = "tests", "mod.rs", ".rs"

# The ending of a file of Rattle where `rt` reads it.
OF_RATTLE = ".rt"

# The module of the tests inside a crate on which no crate can stand, and what declares it.
INSIDE = "tests"
DECLARED = "#[cfg(test)]\nmod {};\n"

# The root of a crate of tests. Each tactic of a proof may use the constants.
HEAD = """\
//! Tests of {}.
#![tactic(auto, using(calendar_values::specs::Constants::constants))]
"""

TEST = re.compile(r"^ *#\[test\]\n(?: *(?:#\[.*\]|//.*)\n)*(?: *pub)? *fn (\w+)", re.MULTILINE)
MARK = re.compile(r"^ *#\[test\]", re.MULTILINE)


def crates_with_tests(root=REPOSITORY):
    """The crates that have tests beside them, in the order of crates.txt."""
    return [name for name in crates(root) if os.path.isdir(os.path.join(root, "crates", name, FOLDER))]


def folders_of_no_crate(root=REPOSITORY):
    """The folders of tests whose crates crates.txt does not list."""
    names, listed = sorted(os.listdir(os.path.join(root, "crates"))), crates(root)
    return [name for name in names if name not in listed and os.path.isdir(os.path.join(root, "crates", name, FOLDER))]


def files_of(crate, root=REPOSITORY):
    """The text of each file of tests of a crate, by its path below their folder."""
    folder, found = os.path.join(root, "crates", crate, FOLDER), {}
    for place, below, names in os.walk(folder):
        below.sort()
        for name in sorted(names):
            path = os.path.join(place, name)
            found[os.path.relpath(path, folder)] = read_text(path)
    return found


def module_of(path):
    """The module of a file of tests below the module of its crate's tests: none for mod.rs."""
    return [] if path == ROOT else path.removesuffix(ENDING).split(os.sep)


def tests_of(crate, root=REPOSITORY):
    """The names of the tests of a crate, each by the module of its file. Raises a ValueError at a file that is no file of tests, or
    has a test without a name."""
    found = []
    for path, text in files_of(crate, root).items():
        names = TEST.findall(text)
        if not path.endswith(ENDING) or len(names) != len(MARK.findall(text)):
            raise ValueError(
                f"crates/{crate}/{FOLDER}/{path} is no file of tests: its name ends in {ENDING}, and each test has a name"
            )
        found += ["::".join([*module_of(path), name]) for name in names]
    return found


def rows_of(root):
    """The crates that each crate stands on, and whether it is a static library, by its name, as crates.txt has them."""
    found = {}
    for line in read_text(os.path.join(root, "crates.txt")).split("\n"):
        head, separator, below = line.partition(":")
        if separator and not line.startswith("#"):
            name, *words = head.split()
            found[name] = (below.split(), "staticlib" in words)
    return found


def is_no_library(root, crate):
    """Whether no crate can stand on a crate, so that its tests have their place inside."""
    return rows_of(root)[crate][1] or os.path.exists(os.path.join(root, "crates", crate, "src", "main.rt"))


def is_top(root, crate):
    """Whether no crate stands on a crate."""
    return not any(crate in below for below, _ in rows_of(root).values())


def write_module(root, crate, source, module, changes=()):
    """Writes the tests of a crate as a module into the folder of a crate's sources, with these texts in place of others."""
    for path, text in files_of(crate, root).items():
        for old, new in changes:
            text = text.replace(old, new)
        write_text(os.path.join(source, *[module, *module_of(path)][:-1], f"{[module, *module_of(path)][-1]}{OF_RATTLE}"), text)


def lay_inside(root, crate):
    """Makes the tests of a crate of a copy a module of that crate. The name of the module."""
    source = os.path.join(root, "crates", crate, "src")
    top = "main.rt" if os.path.exists(os.path.join(source, "main.rt")) else "lib.rt"
    write_module(root, crate, source, INSIDE, [(f"use {crate}::", "use crate::")])
    with open(os.path.join(source, top), "a", encoding="utf-8") as file:
        file.write("\n" + DECLARED.format(INSIDE))
    return INSIDE


def add_crate(root, name, libraries, modules):
    """Adds a crate of tests to a copy: it stands on these libraries and those below them, and has these modules. The folder of its
    sources."""
    source, rows = os.path.join(root, "crates", name, "src"), rows_of(root)
    below = {it for crate in libraries for it in (*rows[crate][0], crate)}
    lines = "".join(f"\n{DECLARED.format(module)}" for module in sorted(modules))
    write_text(os.path.join(source, "lib.rt"), HEAD.format(", ".join(f"`{crate}`" for crate in libraries)) + lines)
    with open(os.path.join(root, "crates.txt"), "a", encoding="utf-8") as file:
        file.write(f"{name}: {' '.join([*(crate for crate in rows if crate in below), *sorted(below - set(rows))])}\n")
    return source


def lay_out(root, name, libraries):
    """Adds a crate of that name to a copy, with the tests of these libraries. The module of each library's tests, by its name."""
    modules = {crate: f"{crate}_tests" for crate in libraries}
    source = add_crate(root, name, libraries, modules.values())
    for crate, module in modules.items():
        write_module(root, crate, source, module)
    return modules

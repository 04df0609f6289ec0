"""The functions of a crate, with the lines that they have in their files, and their paths as the prover names them."""

import os
from typing import NamedTuple

from .gate import read_text
from .items import BLOCK, FUNCTION


class Function(NamedTuple):
    """A function of a crate: its file, its first line with its comment and attributes, the line of its head, its last line, the type
    that it is of, and its name."""

    file: str
    first: int
    head: int
    last: int
    owner: str
    name: str


def functions(folder):
    """The functions of a crate."""
    for inside, below, names in os.walk(os.path.join(folder, "src")):
        below.sort()
        for file in (os.path.join(inside, name) for name in sorted(names) if name.endswith(".rt")):
            lines, owner = read_text(file).split("\n"), ""
            for number, line in enumerate(lines):
                block, found = BLOCK.match(line), FUNCTION.match(line)
                owner = block["type"] if block else "" if line == "}" else owner
                if found:
                    end = next((it for it in range(number, len(lines)) if lines[it] == found["indent"] + "}"), number)
                    first = number
                    while first and lines[first - 1].strip().startswith(("///", "#[")):
                        first -= 1
                    yield Function(
                        os.path.relpath(file, folder), first, number, end, owner if found["indent"] else "", found["name"]
                    )


def path_of(crate, it, name):
    """The path of a function, as the prover has it."""
    modules = [part for part in it.file.removesuffix(".rt").split("/")[1:] if part not in ("lib", "main")]
    return "::".join(part for part in (crate, *modules, it.owner, name) if part)

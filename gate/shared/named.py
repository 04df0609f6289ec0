"""The definitions of specs/ that have the name of a function of src/, and those of them that a twin in wrong/ tries."""

import os
import re
from dataclasses import dataclass

from shared.definitions import declarations
from shared.gate import read_text
from shared.wrong import FUNCTION, wrong_bodies

COMMENT = "-- "

# A line that begins a part of a file, and says nothing of one definition.
HEADING = re.compile(r"-- -{2,}")


@dataclass(frozen=True)
class Named:
    """A definition with the name of a function: its file in its crate, and the comment above it, which those above it without a
    comment between have too."""

    file: str
    name: str
    words: str


def files_of(folder, part, ending):
    """The files of a part of a crate with that ending, by their paths in the crate."""
    for place, below, names in os.walk(os.path.join(folder, part)):
        below.sort()
        for name in sorted(names):
            if name.endswith(ending):
                yield os.path.relpath(os.path.join(place, name), folder).replace(os.sep, "/")


def functions_of(folder):
    """The names of the functions of a crate."""
    found = set()
    for file in files_of(folder, "src", ".rt"):
        for line in read_text(os.path.join(folder, file)).split("\n"):
            match = FUNCTION.match(line)
            if match:
                found.add(match["name"])
    return found


def words_above(text, line):
    """The comment above a line of a file, without the marks: of several lines in a row all, and no heading of a part."""
    lines = text.split("\n")[: line - 1]
    while lines and (not lines[-1].startswith(COMMENT) or HEADING.match(lines[-1])):
        lines.pop()
    found = []
    while lines and lines[-1].startswith(COMMENT) and not HEADING.match(lines[-1]):
        found.insert(0, lines.pop().removeprefix(COMMENT))
    return " ".join(found)


def definitions_of(folder):
    """The definitions of a crate: each with its file, and the text of that."""
    for file in files_of(folder, "specs", ".antt"):
        text = read_text(os.path.join(folder, file))
        # the lines of one are known when all are read
        for it in list(declarations(file, text)):
            if it.is_definition:
                yield it, text


def named_as_functions(folder):
    """How many definitions a crate has, and those with the name of a function of it."""
    functions, found, count = functions_of(folder), [], 0
    for it, text in definitions_of(folder):
        count += 1
        if it.name in functions:
            found.append(Named(it.path, it.name, words_above(text, it.line)))
    return count, found


def tried_by_twins(folder):
    """The names of the definitions of a crate that its twins change, and those of the functions whose bodies they change with them."""
    twins = [wrong for wrong in wrong_bodies(folder) if wrong.twin]
    found = {wrong.function.rpartition("::")[2] for wrong in twins}
    for it, text in definitions_of(folder):
        for file, after, old, _ in (change for wrong in twins for change in wrong.changes):
            place = text.find(old, text.find(after) + len(after)) if file == it.path else -1
            line = text.count("\n", 0, place) + 1
            if place >= 0 and it.line <= line < it.line + it.size:
                found.add(it.name)
    return found

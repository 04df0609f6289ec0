"""Which modules of a crate have functions that can see a change of a wrong body outside of the function that it makes wrong."""

import os
import re

from shared.definitions import declarations, words_of
from shared.gate import read_text
from shared.wrong import function_at, is_in_function

# The line that begins a constant, and the clauses of a source.
CONSTANT = re.compile(r" *(?:pub(?:\([^)]*\))? )?const (?P<name>\w+):")
CLAUSE = re.compile(r"^ *(?:requires|ensures|decreases|invariant)\b.*", re.M)


def texts_of(folder):
    """The text of each source, definition and proof of a crate, by its path."""
    found = {}
    for part in ("src", "specs", "proofs"):
        for place, _, names in os.walk(os.path.join(folder, part)):
            for path in (os.path.join(place, name) for name in names):
                found[os.path.relpath(path, folder)] = read_text(path)
    return found


def constant_at(text, place):
    """The name of the constant that has that place of a text, or None."""
    lines, number = text.split("\n"), text.count("\n", 0, place)
    for first in range(number, -1, -1):
        found = CONSTANT.match(lines[first])
        if found:
            ends = (at for at, line in enumerate(lines) if at >= first and line.endswith(";"))
            return found["name"] if number <= next(ends, first) else None
    return None


def is_of_function(path):
    """Whether a file has the answers of a function, whose names no other file can cite."""
    return path.count("/") > 1


def names_of(it):
    """The names by which a declaration is cited: what takes a field of a record has the record by one that names it."""
    return {it.name} if re.match(r"(\w+ )*record ", it.lines[0]) else it.names


def users(texts, found, changed):
    """The files of functions that name this declaration, or one that names it in turn."""
    names, before = names_of(changed), 0
    while len(names) != before:
        before = len(names)
        for it in found:
            if not is_of_function(it.path) and it.words & names:
                names = names | names_of(it)
    sources = {path for path, text in texts.items() if path.endswith(".rt") and words_of(text) & names}
    return sources | {it.path for it in found if is_of_function(it.path) and it.words & names}


def is_seen_in_module(texts, found, module, wrong, change):
    """Whether functions of that module alone can see a change: one of a constant that no clause and no other file names, of a
    comment that takes the old body away, of the answers of the function, or of a definition that the module alone cites."""
    file, after, old, _ = change
    text, source = texts[file], f"src/{module}.rt"
    place, function = text.find(old, text.find(after) + len(after)), wrong.function.rpartition("::")[2]
    answers = f"proofs/{wrong.function.replace('::', '/')}/"
    if file == source:
        if function_at(text, place) == function or old.lstrip().startswith("///"):
            return True
        name = constant_at(text, place)
        others = [other for path, other in texts.items() if path != source]
        return name is not None and not any(name in words_of(it) for it in [*CLAUSE.findall(text), *others])
    if not file.startswith("specs/"):
        return file.startswith(answers)
    line = text.count("\n", 0, place) + 1
    changed = [it for it in found if it.path == file and it.line <= line < it.line + it.size]
    callers = {path for path, other in texts.items() if path.endswith(".rt") and function in words_of(other)}
    seen = callers.union(*(users(texts, found, it) for it in changed))
    return bool(changed) and all(path == source or path.startswith((answers, f"proofs/{module}/")) for path in seen)


def modules_that_see(folder, bodies):
    """The modules whose functions can see a change of wrong bodies that is not in the function that is made wrong. None where any
    function of the crate may see one."""
    bodies = [wrong for wrong in bodies if not is_in_function(folder, wrong)]
    texts, modules = texts_of(folder) if bodies else {}, set()
    found = [it for path, text in texts.items() if path.endswith(".antt") for it in declarations(path, text)]
    for wrong in bodies:
        sources = [file for file, *_ in wrong.changes if file.startswith("src/")]
        module = sources[0][len("src/") : -len(".rt")] if sources else wrong.function.rpartition("::")[0].replace("::", "/")
        if f"src/{module}.rt" not in texts or module in ("lib", "main"):
            return None
        if not all(is_seen_in_module(texts, found, module, wrong, change) for change in wrong.changes):
            return None
        modules.add(module.replace("/", "::"))
    return sorted(modules)

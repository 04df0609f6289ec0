"""Contracts of calls as text: which call a name is of, its place, its clauses, and the `ghost use` lines of the words in them."""

import os
import re
import sys

from shared.definitions import words_of
from shared.items import Item, body_from, exports_of, implementations, is_library, public_items
from shared.sources import crates, texts

IMPORT = re.compile(r"ghost use Rattle\.(?P<module>[\w.]+)\.\{(?P<names>[^}]*)\};")
PASSED_ON = re.compile(r"pub use Rattle\.[\w.]+\.\{(?P<names>[^}]*)\}")

PRELUDE = "std.specs.Prelude"


def modules_of(path):
    """The modules that lead to the items of a file, without its crate."""
    return [part for part in path.removesuffix(".rt").split("/")[3:] if part not in ("lib", "main")]


def members(path, text):
    """The traits that a file implements, each with its ghost members as clauses."""
    lines = text.split("\n")
    for owner, trait, line in implementations(text):
        body = body_from(lines, line - 1)
        ghost = [it for it in body if it.startswith("    ghost ") and " use " not in it]
        if ghost:
            name = trait.removeprefix("fmt::").split("<")[0]
            clauses = "\n".join(clause_lines(body))
            yield Item(path.split("/")[1], path, line, "impl", owner, name, f"impl {trait} for {owner}", clauses=clauses)


def clause_lines(body):
    """The lines of the ghost members in the body of an impl."""
    inside = False
    for line in body:
        if line.startswith("    ghost ") and " use " not in line:
            inside = True
        if inside:
            yield line
            inside = not line.rstrip().endswith("};")


def is_named(item, wanted):
    """Whether a name leads to an item: its own, with its type and its modules as far as they are given."""
    path = [item.crate, *modules_of(item.path), item.owner, item.name]
    found = [part for part in path if part]
    given = wanted.split("::")
    at = 0
    for part in given[:-1]:
        if part not in found[at:-1]:
            return False
        at = found.index(part, at) + 1
    return found[-1] == given[-1]


def is_used(name, words, text):
    """Whether a clause uses an imported word; an operator has its parts in the clause."""
    if name == "[]":
        return "[]" in text
    return all(part in words for part in name.replace("◌", " ").split())


def imports_of(item, files, passed_on):
    """The `ghost use` lines of the words in the clauses: by `Words` of the crate where it passes the word on, but for words of std's
    Prelude, since `rt ci` takes `◌≡◌` from there alone."""
    words, lines = words_of(item.clauses), {}
    for it in IMPORT.finditer(files[item.path]):
        for name in (name.strip() for name in it["names"].split(",")):
            if is_used(name, words, item.clauses):
                is_of_words = name in passed_on and it["module"] != PRELUDE
                module = f"{item.crate}.specs.Words" if is_of_words else it["module"]
                lines.setdefault(module, [])
                if name not in lines[module]:
                    lines[module].append(name)
    return [f"ghost use Rattle.{module}.{{{', '.join(names)}}};" for module, names in sorted(lines.items())]


def describe(item, files, passed_on):
    """The place of a call, its signature, its clauses, and the imports of their words."""
    clauses = [line for line in item.clauses.split("\n") if line.strip()]
    indent = min((len(line) - len(line.lstrip()) for line in clauses), default=0)
    lines = [f"{item.path}:{item.line}", item.signature.split("\n")[0]]
    lines += [f"    {line[indent:]}" for line in clauses]
    uses = imports_of(item, files, passed_on)
    return "\n".join([*lines, *([""] if uses else []), *uses])


def words_passed_on(crate, antt):
    """The words that the module of words of a crate passes on."""
    text = antt.get(os.path.join("crates", crate, "specs", "Words.antt"), "")
    return {name.strip() for it in PASSED_ON.finditer(text) for name in it["names"].split(",")}


class Calls:
    """The public calls of the libraries of a repository, those for other languages, and the traits that types have."""

    def __init__(self, root):
        self.files = {path: text for path, text in texts(".rt", root=root).items() if is_library(path)}
        self.antt = texts("Words.antt", root=root)
        self.items = [item for item in public_items(self.files) if item.kind == "fn"]
        for path, text in self.files.items():
            self.items += [*exports_of(path, text), *members(path, text)]
        order = crates(root)
        self.items.sort(key=lambda item: (order.index(item.crate), item.path, item.line))

    def named(self, *wanted):
        """The calls that one of these names leads to."""
        return [item for item in self.items if any(is_named(item, name) for name in wanted)]

    def describe(self, item):
        return describe(item, self.files, words_passed_on(item.crate, self.antt))

    def stop_at_missing(self, *wanted):
        """Ends the program where no call has one of these names."""
        missing = [name for name in wanted if not self.named(name)]
        if missing:
            sys.exit(f"no call has the name {', '.join(missing)}: docs/reference/REFERENCE.md lists all calls")

"""The definitions and lemmas of .antt files, and which of them the words of a text lead to."""

import re
from dataclasses import dataclass, field

# What a declaration's first line begins with; then come its lines up to the next one, or a comment before that.
HEAD = re.compile(
    r"(?P<marks>(?:(?:abbrev|unfoldable|pub) )*)(?P<kind>(?:(?:record|data|ruleset) )?)"
    r"(?P<name>[^\s:=(){}]+)(?: [^:=]*)? ?(?::|=|where)"
)
INNER = re.compile(r"  (?:pub )?(?P<name>[^\s:(){}]+) :")
IMPORT = re.compile(r"(?:pub )?(?:ghost )?(?:use|mod) ")
FIXITY = re.compile(r"infix[lr]? ")
WORD = re.compile(r"[^\s(){}\[\],;.:\"λ]+")
IMPORTED = re.compile(r"use Rattle\.(?P<module>[\w.]+?)(?:\.\{(?P<names>[^}]*)\}| as (?P<alias>\w+))")
COMMENT = re.compile(r"--.*")


@dataclass
class Declaration:
    """A definition or a lemma: its file and first line, its names (those of a record's fields too), all that it names, its
    text, and the comment above it."""

    path: str
    line: int
    names: set = field(default_factory=set)
    words: set = field(default_factory=set)
    lines: list = field(default_factory=list)
    comment: list = field(default_factory=list)
    name: str = ""
    is_definition: bool = False

    @property
    def size(self):
        return len(self.lines)

    def text(self):
        return "\n".join([*self.comment, *self.lines])


def words_of(text):
    """The words of a text, with the parts of operators, and of names that a dot or two colons lead to."""
    return set(WORD.findall(text))


def declarations(path, text):
    """The declarations of an .antt file. The lines of a definition by clauses begin with its name again."""
    current = None
    comment = []
    is_after_blank = False
    for number, line in enumerate(text.split("\n"), 1):
        if not line.strip():
            comment, is_after_blank = [], True
            continue
        if line.startswith("-- ") or IMPORT.match(line):
            comment = [*comment, line] if line.startswith("-- ") else []
            current = None
            continue
        if not line.startswith(" ") and not FIXITY.match(line):
            head = HEAD.match(line)
            # The clauses of an operator begin with what stands before it, in the lines after its head.
            if current is not None and "◌" in current.name and not is_after_blank:
                head = None
            if head and (current is None or head["name"] not in current.names):
                unfolds = "abbrev" in head["marks"] or "unfoldable" in head["marks"]
                current = Declaration(path, number, {head["name"]}, comment=comment, name=head["name"])
                current.is_definition = unfolds or head["kind"] in ("record ", "data ")
                comment = []
                yield current
        elif current is not None and line.startswith(" "):
            inner = INNER.match(line)
            if inner and " = " not in line:
                current.names.add(inner["name"])
        is_after_blank = False
        if current is not None:
            current.words |= words_of(line)
            current.lines.append(line)


def imports(text):
    """The words that a file imports, each with the module that it comes from; a name after `as` stands for its module."""
    found = {}
    for it in IMPORTED.finditer(text):
        if it["alias"]:
            found[it["alias"]] = it["module"]
        else:
            found.update((name.strip(), it["module"]) for name in it["names"].split(","))
    return found


def module_of(path):
    """The module of a file of `specs/`."""
    _, crate, *rest = path.removesuffix(".antt").split("/")
    return ".".join([crate, *rest])

"""What the clauses of calls lead to: the definitions of their words, each below those that it names, and the models of their types."""

import re
from dataclasses import dataclass

from shared.definitions import declarations, imports, module_of, words_of
from shared.gate import CRATES_OF_CALLERS
from shared.items import body_from, head_from
from shared.sources import crate_of, crates, is_test, texts

# Of a trait also its laws; an implementation has proofs of these.
MEMBER = re.compile(
    r"    ghost (?:(?:eq|cmp|partial_cmp|hash_input|instant|left|written|is_marked|Value|view|invariant)\b|(?:eq|cmp)_by_instant:)"
)
NAME = re.compile(r"\w+")
LINE_COMMENT = re.compile(r"//.*")
MODEL = re.compile(r"^impl Model for (?P<name>\w+) \{", re.MULTILINE)
DECLARED = re.compile(r"^pub (?:struct|enum) (?P<name>\w+)", re.MULTILINE)


@dataclass
class Part:
    """A part of the sources: where it begins, and its text."""

    path: str
    line: int
    shown: str

    def text(self):
        return self.shown


def doc_lines(lines, number):
    """The doc comment above a line."""
    first = number
    while lines[first - 1].strip().startswith(("///", "#[")):
        first -= 1
    return [line for line in lines[first:number] if line.strip().startswith("///")]


def undent(lines):
    indent = min(len(line) - len(line.lstrip()) for line in lines if line.strip())
    return "\n".join(line[indent:] for line in lines)


def function(path, text, name):
    """The signature and the clauses of a function."""
    lines = text.split("\n")
    number = next(number for number, line in enumerate(lines) if re.match(rf" *(?:pub )?fn {name}\b", line))
    head, clauses = head_from(lines, number)
    return Part(path, number + 1, undent([*head, *clauses]))


def members(path, text, head):
    """The head of an implementation or a trait, with its ghost members and their doc comments, and the calls of `Source` and
    `Sink` with their contracts."""
    lines = text.split("\n")
    number = next(number for number, line in enumerate(lines) if line.startswith(head))
    body = body_from(lines, number)
    if head.endswith(("Source", "Sink")):
        return Part(path, number + 1, "\n".join([*doc_lines(lines, number), *body]))
    shown = [lines[number]]
    inside = False
    for place, line in enumerate(body[1:-1], number + 1):
        if MEMBER.match(line):
            shown += doc_lines(lines, place)
            inside = True
        if inside:
            shown.append(line)
            inside = not line.endswith(";")
    return Part(path, number + 1, "\n".join([*shown, "}"]))


def declaration(path, text, line):
    """The declaration of a type that begins on a line."""
    lines = text.split("\n")
    shown = lines[line - 1] if lines[line - 1].endswith(";") else "\n".join(body_from(lines, line - 1))
    return Part(path, line, shown)


class Sources:
    """The files of the libraries, with the declarations of `specs/` by module and name, and the types of the code by name."""

    def __init__(self, root):
        self.rust = {path: text for path, text in texts(".rt", root=root).items() if not is_test(path)}
        self.specs = {path: text for path, text in texts(".antt", root=root).items() if "/specs/" in path}
        self.imports = {path: imports(text) for path, text in {**self.rust, **self.specs}.items()}
        self.declared = {path: list(declarations(path, text)) for path, text in self.specs.items()}
        self.by_name = {}
        for path, found in self.declared.items():
            for it in found:
                # Of what stands inside, the variants of a type are named elsewhere; the fields of a record go with it.
                names = it.names if it.lines[0].startswith("pub data") else {it.name}
                self.by_name.update(((module_of(path), name), it) for name in names)
        self.types = {}
        self.models = {}
        # Where two crates have a type of one name, it is that of the lower one.
        order = crates(root)
        for path, text in sorted(self.rust.items(), key=lambda item: order.index(crate_of(item[0]))):
            for it in DECLARED.finditer(text) if crate_of(path) not in CRATES_OF_CALLERS else ():
                self.types.setdefault(it["name"], (path, text.count("\n", 0, it.start()) + 1))
            for it in MODEL.finditer(text):
                self.models.setdefault(it["name"], path)

    def place(self, module, word, seen=()):
        """The module that defines a word, through those that pass it on."""
        if (module, word) in self.by_name or module is None:
            return module
        led = self.imports.get(f"crates/{'/'.join(module.split('.'))}.antt", {}).get(word)
        return self.place(led, word, (*seen, led)) if led and led not in seen else module

    def led_to(self, path, text):
        """What the words of a text in a file lead to: declarations, names of types of the code, and words of std."""
        from_here = self.imports[path]
        here = module_of(path) if path.endswith(".antt") else None
        for word in sorted(words_of(text)):
            module = self.place(from_here.get(word), word)
            operator = next((name for name in from_here if "◌" in name and word in name.split("◌")), None)
            if (here, word) in self.by_name:
                yield self.by_name[here, word]
            elif (module, word) in self.by_name:
                yield self.by_name[module, word]
            elif module and ".declared." in module:
                yield module.removesuffix(".TheVariants").split(".")[-1]
            elif operator and not module:
                defined = self.by_name.get((self.place(from_here[operator], operator), operator))
                yield defined or (from_here[operator], operator)
            elif module and module.startswith("std."):
                yield (module, word)
        if path.endswith(".rt"):
            yield from sorted(set(NAME.findall(text)) & set(self.types))

    def part_of_type(self, name):
        """The model of a type, or else its declaration."""
        if name in self.models:
            path = self.models[name]
            return members(path, self.rust[path], f"impl Model for {name} ")
        path, line = self.types[name]
        return declaration(path, self.rust[path], line)


class Reached:
    """What clauses lead to, in an order in which each part follows those that it names."""

    def __init__(self, sources):
        self.sources = sources
        self.order = []
        self.seen = set()
        self.std = set()

    def follow(self, path, text):
        """Adds what a text of a file leads to."""
        for it in self.sources.led_to(path, LINE_COMMENT.sub("", text) if path.endswith(".rt") else text):
            if isinstance(it, tuple):
                self.std.add(it)
                continue
            if isinstance(it, str):
                if it not in self.sources.types:
                    continue
                it = self.sources.part_of_type(it)
            if (it.path, it.line) not in self.seen:
                self.seen.add((it.path, it.line))
                self.follow(it.path, "\n".join(it.lines) if hasattr(it, "lines") else it.shown)
                self.order.append(it)

"""What the libraries have for callers, as it stands in their .rt files: types, constants, functions and methods."""

import re
from dataclasses import dataclass

from shared.gate import CRATES_OF_CALLERS
from shared.sources import crate_of, is_test

# Functions whose contracts are laws, or say what a constant is: no code calls them.
FOR_CONTRACTS = ("laws.rt", "constants.rt")

# Callers and programs: they have nothing for other crates.
NO_LIBRARIES = (*CRATES_OF_CALLERS, "times_bench", "stamps")

BLOCK = re.compile(r"(?P<pub>pub )?(?P<kind>impl|trait)\b(?:<[^{]*?>)? ?(?:(?P<of>\w[\w:]*(?:<[^{]*?>)?) for )?(?P<type>\w+)")
FUNCTION = re.compile(r"(?P<indent> *)(?P<pub>pub )?(?:pub\(crate\) )?(?:const |unsafe )*fn (?P<name>\w+)")
CONSTANT = re.compile(r"(?P<indent> *)pub const (?P<name>\w+): (?P<type>[^=]+) =")
EXPORT = re.compile(r'pub extern "C" fn (?P<name>\w+)')
TYPE = re.compile(r"pub (?P<kind>struct|enum|trait) (?P<name>\w+)")
REEXPORTS = re.compile(r"pub use [\w:]*?(?:(\w+);|\{([^}]*)\};)")
DERIVED = re.compile(r"#\[derive\((.*)\)\]")
CLAUSE = re.compile(r"\s*(?:requires|ensures|ghost|//|#\[)")
NAMED_LINK = re.compile(r"\[(`[^`]+`)\](?:\(crate::[^)]*\)|(?!\())")
SENTENCE = re.compile(r"(.+?\.)(?= [A-Z`\[]|$)", re.DOTALL)


@dataclass
class Item:
    """A public item: its kind (`struct`, `enum`, `trait`, `const`, `fn`), the type or trait that it is of, its name, its
    signature, its doc comment, its clauses, the traits that are derived for it, the module of a function that the root does
    not pass on, and where it begins."""

    crate: str
    path: str
    line: int
    kind: str
    owner: str
    name: str
    signature: str = ""
    doc: str = ""
    clauses: str = ""
    derived: tuple = ()
    module: str = ""

    def __str__(self):
        return f"{self.path}:{self.line}: {self.full_name()}"

    def full_name(self):
        return "::".join(word for word in (self.module, self.owner, self.name) if word)


def first_sentence(doc):
    """The first sentence of a doc comment, with its links as plain names."""
    text = " ".join(doc.split("\n\n")[0].split())
    found = SENTENCE.match(text)
    return NAMED_LINK.sub(r"\1", found[1] if found else text)


def names_passed_on(text):
    """The names that the root file of a library passes on."""
    return {name.strip() for one, more in REEXPORTS.findall(text) for name in (one or more).split(",")}


def is_public_module(path, files):
    """Whether each module on the way to a file is public."""
    crate = crate_of(path)
    modules = path.removesuffix(".rt").split("/")[3:]
    above = f"crates/{crate}/src/lib.rt"
    for number, module in enumerate(modules):
        if f"pub mod {module};" not in files[above]:
            return False
        above = "/".join(["crates", crate, "src", *modules[: number + 1]]) + ".rt"
    return True


def above(lines, number):
    """The lines of the doc comment that ends above a line, and the attributes that stand there too."""
    doc, attributes = [], []
    for line in reversed(lines[:number]):
        text = line.strip()
        if text.startswith("///"):
            doc.insert(0, text[3:].strip())
        elif text.startswith("#["):
            attributes.insert(0, text)
        else:
            break
    return doc, attributes


def doc_above(lines, number):
    """The doc comment that ends above a line, as one text; attributes may stand between."""
    return "\n".join(above(lines, number)[0])


def head_from(lines, number):
    """The head of a function that begins on a line, without its clauses, and its clauses: lists of lines."""
    head, clauses = [], []
    depth = 0
    for line in lines[number:]:
        if depth == 0 and not clauses and not CLAUSE.match(line):
            head.append(line)
            if line.rstrip().endswith(("{", ";")):
                break
            continue
        if depth == 0 and line.strip() in ("{", "}", "{}"):
            break
        clauses.append(line)
        depth += line.count("{") - line.count("}")
        if depth == 0 and line.rstrip().endswith(";"):
            break
    return head, clauses


def one_line(head):
    """A signature in one line."""
    text = " ".join(line.strip() for line in head).rstrip("{; ")
    return text.replace("( ", "(").replace(", )", ")").removeprefix("pub ")


def contracts(text):
    """All functions of a file with their clauses: the type or the trait that each is of, its name, and its clauses."""
    lines = text.split("\n")
    owner = ""
    for number, line in enumerate(lines):
        head = BLOCK.match(line)
        if head:
            owner = head["type"]
        elif line == "}":
            owner = ""
        found = FUNCTION.match(line)
        if found:
            yield owner, found["name"], "\n".join(head_from(lines, number)[1])


def body_from(lines, number):
    """The lines of a type from its first to the end of its braces."""
    depth, found = 0, []
    for line in lines[number:]:
        found.append(line)
        depth += line.count("{") - line.count("}")
        if depth == 0:
            break
    return found


def items_of(path, text, is_public, passed_on):
    """The public items of a file: those of its module if it is public, and those of names that are passed on."""
    lines = text.split("\n")
    crate = crate_of(path)
    block = None
    for number, line in enumerate(lines):
        head = BLOCK.match(line)
        if head:
            block = head
        elif line == "}":
            block = None
        found = TYPE.match(line)
        if found and (is_public or found["name"] in passed_on):
            body = "\n".join(body_from(lines, number))
            above = DERIVED.match(lines[number - 1])
            derived = tuple(above[1].split(", ")) if above else ()
            doc = doc_above(lines, number)
            yield Item(crate, path, number + 1, found["kind"], "", found["name"], body, doc, derived=derived)
        found = CONSTANT.match(line)
        if found and (block["type"] if block else found["name"]) in passed_on:
            owner = block["type"] if block else ""
            signature = f"const {found['name']}: {found['type']}"
            yield Item(crate, path, number + 1, "const", owner, found["name"], signature, doc_above(lines, number))
        found = FUNCTION.match(line)
        if not found:
            continue
        in_trait = block is not None and block["kind"] == "trait" and block["pub"]
        is_method = block is not None and found["indent"] == "    "
        if is_method and (found["pub"] or in_trait) and (is_public or block["type"] in passed_on):
            owner = block["type"]
        elif found["indent"] == "" and found["pub"] and (is_public or found["name"] in passed_on):
            owner = ""
        else:
            continue
        head, clauses = head_from(lines, number)
        item = Item(crate, path, number + 1, "fn", owner, found["name"], one_line(head), doc_above(lines, number))
        item.clauses = "\n".join(clauses)
        if not owner and found["name"] not in passed_on:
            item.module = "::".join(path.removesuffix(".rt").split("/")[3:])
        yield item


def implementations(text):
    """The traits that a file implements: the type, the trait and the line of each."""
    for number, line in enumerate(text.split("\n"), 1):
        head = BLOCK.match(line)
        if head and head["of"]:
            yield head["type"], head["of"], number


def exports_of(path, text):
    """The calls of a file for other languages."""
    lines = text.split("\n")
    for number, line in enumerate(lines):
        found = EXPORT.match(line)
        if found:
            head, clauses = head_from(lines, number)
            yield Item(
                crate_of(path),
                path,
                number + 1,
                "fn",
                "",
                found["name"],
                one_line(head),
                doc_above(lines, number),
                "\n".join(clauses),
            )


def is_library(path):
    """Whether a file is one of a library, and no test."""
    return crate_of(path) not in NO_LIBRARIES and not is_test(path)


def public_items(files):
    """All public items of the libraries."""
    found = []
    for path, text in files.items():
        root = f"crates/{crate_of(path)}/src/lib.rt"
        if root not in files or not is_library(path):
            continue
        found += items_of(path, text, is_public_module(path, files), names_passed_on(files[root]))
    return found

"""The interface for C as the source of crates/muxandu_c declares it, as data: what packages/c/interface.json has.

A source that the description cannot tell stops the tool with its file, its line and what was expected there.
"""

import itertools
import re
import sys
from pathlib import Path

from shared.items import above, body_from, first_sentence, head_from, one_line
from shared.version import version_text

ROOT = Path(__file__).resolve().parent.parent
SOURCE = ROOT / "crates/muxandu_c/src"

# The files whose declarations come first.
FIRST = ("version", "limits", "values", "refused", "status_texts", "unit", "timestamps", "date_times", "days")

# The bytes of each type of number, which are its alignment too.
SIZES = {"i8": 1, "u8": 1, "u16": 2, "u32": 4, "i32": 4, "i64": 8, "usize": 8}

# The roles of a parameter, by its form in the source. Bytes are those of texts.
ROLES = {"": "in", "&mut ": "out", "&[": "items in", "&mut [": "items out"}
BYTES = {"items in": "text", "items out": "room"}

CONSTANT = re.compile(r"pub const MUXANDU_(\w+): (usize|u32|i32|i64) = (-?[0-9_]+);$")
OTHERS = re.compile(r'^ +(?:return|None =>) "(.*)"[;,]$', re.MULTILINE)
MOST = re.compile(r"^    ensures room \{.*? length .* [≤≡] (\d+)\)? \}$")


def upper(name):
    """The name of a variant as constants are named: DAY_OF_MONTH of DayOfMonth."""
    return re.sub(r"(?<!^)([A-Z])", r"_\1", name).upper()


class Source:
    """A file of the crate."""

    def __init__(self, path):
        self.name = path.stem
        self.path = path.relative_to(ROOT)
        self.lines = path.read_text(encoding="utf-8").split("\n")

    def stop(self, at, expected):
        sys.exit(f"{self.path}:{at + 1}: {self.lines[at].strip()}: expected {expected}")

    def doc_at(self, at):
        """The doc comment above a line, in one line, and the attributes there."""
        doc, attributes = above(self.lines, at)
        if not doc:
            self.stop(at, "a doc comment above it")
        return " ".join(doc), attributes

    def group(self):
        """What the calls of the file are, as the first sentence at its head says."""
        head = itertools.takewhile(lambda line: line.startswith("//!"), self.lines)
        said = first_sentence(" ".join(line.removeprefix("//!").strip() for line in head)).rstrip(".")
        return said or self.stop(0, "a line `//!` about the calls of the file")

    def rows(self, at):
        """The places of the lines inside the braces of a type that are no comments."""
        end = at + len(body_from(self.lines, at)) - 1
        return [row for row in range(at + 1, end) if not self.lines[row].strip().startswith("///")]

    def match(self, at, pattern, expected):
        return re.match(pattern, self.lines[at]) or self.stop(at, expected)


class Interface:
    """What the files declare: `described` is the description."""

    def __init__(self):
        self.version, self.limits, self.rooms = {}, {}, {}
        self.numbers, self.enums, self.others, self.structs, self.calls = {}, {}, {}, {}, {}
        # Where each parameter, result and field is declared, and each enum, until all types are known.
        self.used, self.placed = [], []
        self.readers = {"pub const": self.constant, "pub type": self.number, "pub enum": self.enum}
        self.readers |= {"pub struct": self.struct, 'pub extern "C"': self.call}
        places = {name: place for place, name in enumerate(FIRST)}
        self.sources = [Source(path) for path in SOURCE.glob("*.rt") if path.stem != "tests"]
        self.sources.sort(key=lambda source: (places.get(source.name, len(FIRST)), source.name))
        for source in self.sources:
            self.read(source)
        for name in ("version", "enums", "structs", "calls"):
            if not getattr(self, name):
                sys.exit(f"{SOURCE.relative_to(ROOT)}: expected {name}, and there is none")
        self.compare_types()
        self.read_others()
        for struct in self.structs.values():
            self.lay_out(struct)

    def description(self):
        return {
            "version": self.version,
            "limits": self.limits,
            "rooms": self.rooms,
            "numbers": self.numbers,
            "enums": self.enums,
            "other statuses": self.others,
            "structs": self.structs,
            "calls": self.calls,
        }

    def read(self, source):
        for at, line in enumerate(source.lines):
            if "no_mangle" in line and not source.lines[at + 1].startswith('pub extern "C"'):
                source.stop(at, 'pub extern "C" in the line below it')
            if not line.startswith("pub ") or line.startswith("pub mod"):
                continue
            for start, reader in self.readers.items():
                if line.startswith(start):
                    reader(source, at)
                    break
            else:
                source.stop(at, f"one of {', '.join(self.readers)}")

    def add(self, source, at, group, name, described):
        if name in group:
            source.stop(at, f"another name than {name}, which is declared before")
        group[name] = described

    def constant(self, source, at):
        doc, _ = source.doc_at(at)
        name, kind, number = source.match(at, CONSTANT, "a constant MUXANDU_NAME: usize, u32, i32 or i64, in digits").groups()
        described = {"type": kind, "number": int(number), "doc": doc}
        if source.name == "version":
            self.version = {"name": name, **described, "text": version_text(int(number))}
        elif source.name == "limits":
            self.add(source, at, self.limits, name, described)
        elif kind == "usize":
            self.add(source, at, self.rooms, name, described)
        else:
            source.stop(at, "a usize, which is the room of a text, or a limit in limits.rt")

    def number(self, source, at):
        """A name for a number of an enum, which stands in the same file."""
        doc, _ = source.doc_at(at)
        [name] = source.match(at, r"pub type (\w+) = u32;$", "a name of u32").groups()
        enums = [found[1] for found in (re.match(r"pub enum (\w+)", line) for line in source.lines) if found]
        if len(enums) != 1:
            source.stop(at, "one enum in this file, whose numbers it has")
        self.add(source, at, self.numbers, name, {"type": "u32", "of": enums[0], "doc": doc})

    def enum(self, source, at):
        doc, _ = source.doc_at(at)
        [name] = source.match(at, r"pub enum (\w+) \{$", "an enum with a variant a line").groups()
        variants, last = {}, 0
        for row in source.rows(at):
            expected = f"a variant with a number above {last}"
            variant, number = source.match(row, r"    (\w+) = (\d+),$", expected).groups()
            if int(number) <= last:
                source.stop(row, expected)
            last = int(number)
            sentence, _ = source.doc_at(row)
            if not sentence.endswith(".") or ". " in sentence:
                source.stop(row, "one sentence above it")
            variants[upper(variant)] = {"variant": variant, "number": last, "doc": sentence}
        self.placed.append((source, at, name))
        self.add(source, at, self.enums, name, {"doc": doc, "variants": variants})

    def struct(self, source, at):
        doc, attributes = source.doc_at(at)
        [name] = source.match(at, r"pub struct (\w+) \{$", "a struct with a field a line").groups()
        if "#[repr(C)]" not in attributes:
            source.stop(at, "#[repr(C)] above it")
        fields = []
        for row in source.rows(at):
            field, kind = source.match(row, r"    pub (\w+): (\w+),$", "a public field of a number").groups()
            self.used.append((source, row, kind, "a number"))
            fields.append({"name": field, "type": kind, "doc": source.doc_at(row)[0]})
        self.add(source, at, self.structs, name, {"doc": doc, "fields": fields})

    def call(self, source, at):
        doc, attributes = source.doc_at(at)
        head, clauses = head_from(source.lines, at)
        for row, clause in enumerate(clauses, at + len(head)):
            if clause.strip().startswith("requires"):
                source.stop(row, "no requires, of which no declaration says anything")
        parts = re.match(r'extern "C" fn (muxandu_\w+)\((.*?)\)(?: -> (\w+))?$', one_line(head))
        if not parts or attributes != ["#[unsafe(no_mangle)]"]:
            source.stop(at, 'pub extern "C" fn muxandu_NAME(..) -> TYPE below #[unsafe(no_mangle)] alone')
        name, words, result = parts.groups()
        parameters = []
        for word in words.split(", ") if words else []:
            parameters += self.parameter(source, at, word)
        most = [found[1] for found in map(MOST.match, clauses) if found]
        for parameter in parameters:
            if parameter["role"] == "room" and most:
                parameter["most"] = int(most[0])
            elif parameter["role"] == "room" and not any("items" in one["role"] or one["role"] == "text" for one in parameters):
                source.stop(at, "a clause `room` with the most bytes of its text")
        if result:
            self.used.append((source, at, result, "a number or a struct"))
        group = source.group()
        self.add(source, at, self.calls, name, {"group": group, "doc": doc, "parameters": parameters, "result": result})

    def parameter(self, source, at, word):
        """A parameter of the source: one of C, or an address and how many items lie there."""
        form = re.match(r"(\w+): (&mut \[|&\[|&mut |)(\w+)(\]?)$", word)
        if not form or ("[" in form[2]) != bool(form[4]):
            source.stop(at, f"a number, a struct, &mut of one, or a slice of them, and not {word}")
        name, role, kind = form[1], ROLES[form[2]], form[3]
        self.used.append((source, at, kind, "a number or a struct"))
        if not form[4]:
            return [{"name": name, "type": kind, "role": role}]
        role = BYTES[role] if kind == "u8" else role
        return [{"name": name, "type": kind, "role": role}, {"name": f"{name}_count", "type": "usize", "role": "count"}]

    def compare_types(self):
        """Each type that is used is declared, and the numbers of each enum have a name."""
        for source, at, name in self.placed:
            if name not in (one["of"] for one in self.numbers.values()):
                source.stop(at, f"a name of u32 in this file, for the numbers of {name}")
        for source, at, kind, expected in self.used:
            if kind not in SIZES and kind not in self.numbers and (kind not in self.structs or "struct" not in expected):
                source.stop(at, f"{expected}, and {kind} is none")

    def read_others(self):
        """Reads the names and the sentences of 0, and of a number that is no status."""
        [source] = [source for source in self.sources if source.name == "status_texts"]
        others = OTHERS.findall("\n".join(source.lines))
        if len(others) != 4:
            source.stop(len(source.lines) - 1, "a name and a sentence for 0 and for other numbers")
        self.others = {name: {"doc": sentence} for name, sentence in zip(others[:2], others[2:])}

    def type_of(self, kind):
        """The type of a number, of which a name may stand."""
        return self.numbers[kind]["type"] if kind in self.numbers else kind

    def lay_out(self, struct):
        """Gives each field its offset, and the struct its size, by the rules of C."""
        end, widest = 0, 1
        for field in struct["fields"]:
            size = SIZES[self.type_of(field["type"])]
            field["offset"] = -(-end // size) * size
            end = field["offset"] + size
            widest = max(widest, size)
        struct["size"] = -(-end // widest) * widest


def description():
    """The description."""
    return Interface().description()

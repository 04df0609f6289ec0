"""Wrong bodies, as their files in the crates have them."""

import os
import re
from dataclasses import dataclass, field

from shared.gate import read_text

# The folders of a crate that have wrong bodies, and those with right bodies of another shape.
FOLDERS = ("must-fail", "wrong")
RIGHT_FOLDERS = ("right",)

# A file of a folder has one body, as `rt must-fail` reads them, or in `wrong` all bodies of one source file.
ONE, MANY = ".edit", ".edits"
ENDINGS = {"must-fail": ONE, "wrong": MANY, "right": ONE}

# The file of the verdicts of a crate's wrong bodies, which gate/refused writes.
VERDICTS = os.path.join("wrong", "VERDICTS")

# The line that begins a body in a file of many.
BEGIN = "# "

# The line that begins a function.
FUNCTION = re.compile(r"(?P<indent> *)(?:pub(?:\([^)]*\))? |const |unsafe |extern \"C\" )*fn (?P<name>\w+)")


@dataclass
class Wrong:
    """A wrong body: its file and its name, what it does in words, the function that it makes wrong, the clause that it breaks,
    and what it changes: for each text that a file of the crate has once, or first after a text that it has once, another.
    A twin changes the body and the definition that its contract cites, and `twin` is the function whose clause it breaks."""

    path: str
    name: str
    says: str = ""
    function: str = ""
    clause: str = ""
    twin: str = ""
    changes: list = field(default_factory=list)

    @property
    def place(self):
        """The file and the name in one text, which no other body has."""
        return f"{self.path}: {self.name}"


def body_of(path, name, lines, file=""):
    """The wrong body of these lines, whose changes are in that file unless a line names another."""
    wrong, after, old = Wrong(path, name), "", None
    for line in lines:
        word, _, rest = line.partition(":")
        rest = rest.removeprefix(" ")
        if word in ("says", "function", "clause", "twin"):
            setattr(wrong, word, rest.strip())
        elif word == "file":
            file = rest.strip()
        elif word == "after":
            after = rest
        elif word == "old":
            old = rest
        elif word == "new":
            wrong.changes.append((file, after, old, rest))
            after = ""
    return wrong


def read_many(path, lines):
    """The wrong bodies of a file that has a head, with the line `file:`, and a line `# NAME` before each body."""
    begins = [place for place, line in enumerate(lines) if line.startswith(BEGIN)]
    head = lines[: begins[0]] if begins else lines
    file = "".join(line.partition(":")[2].strip() for line in head if line.startswith("file:"))
    ends = [*begins[1:], len(lines)]
    return [
        body_of(path, lines[begin].removeprefix(BEGIN).strip(), lines[begin + 1 : end], file) for begin, end in zip(begins, ends)
    ]


def read(path):
    """The wrong bodies of a file: one of a file NAME.edit, all of a file NAME.edits."""
    lines = read_text(path).split("\n")
    if path.endswith(MANY):
        return read_many(path, lines)
    return [body_of(path, os.path.basename(path).removesuffix(ONE), lines)]


def files_of(folder, parts=FOLDERS):
    """The paths of all files of these parts of a crate, each with its part."""
    for part in parts:
        for place, below, names in os.walk(os.path.join(folder, part)):
            below.sort()
            for name in sorted(names):
                yield part, os.path.join(place, name)


def wrong_bodies(folder, names=(), parts=FOLDERS):
    """The wrong bodies of a crate, or those of these names."""
    found = [wrong for part, path in files_of(folder, parts) if path.endswith(ENDINGS[part]) for wrong in read(path)]
    return [wrong for wrong in found if not names or wrong.name in names]


def lack_of_twin(wrong):
    """What a twin lacks, or None: it changes a source and a definition, and names the clause that it breaks."""
    parts = {file.partition("/")[0] for file, *_ in wrong.changes}
    lacks = [part for part in ("src", "specs") if part not in parts]
    return f"a twin changes a body and its definition, and this one changes no file of {lacks[0]}/" if lacks else None


def place_of(folder, wrong):
    """The place of a wrong body in its crate, which is in that folder: its file and its name."""
    return f"{os.path.relpath(wrong.path, folder).replace(os.sep, '/')}#{wrong.name}"


def right_bodies(folder):
    """The right bodies of a crate, which are read as the wrong ones."""
    return wrong_bodies(folder, parts=RIGHT_FOLDERS)


def unread_files(folder):
    """The files of these folders of a crate that nothing reads, since their names end otherwise."""
    parts = (*FOLDERS, *RIGHT_FOLDERS)
    verdicts = os.path.join(folder, VERDICTS)
    return [path for part, path in files_of(folder, parts) if not path.endswith(ENDINGS[part]) and path != verdicts]


def put_body(folder, texts, wrong, read=read_text):
    """Puts a wrong body into the texts of files, or says why it cannot be put there. `read` reads a file that is not among them."""
    changed = dict(texts)
    for file, after, old, new in wrong.changes:
        if file not in changed:
            try:
                changed[file] = read(os.path.join(folder, file))
            except OSError:
                return f"there is no file {file}"
        before, mark, text = changed[file].rpartition(after) if after else ("", "", changed[file])
        if after and (not mark or after in before):
            return f"an `after:` text does not stand once in {file}"
        stands = text.count(old) if old else 0
        if stands < 1 or stands > 1 and not after:
            return f"an `old:` text stands {stands} times in {file}"
        changed[file] = before + mark + text.replace(old, new, 1)
    texts.update(changed)
    return None if wrong.changes else "it changes nothing"


def function_at(text, place):
    """The name of the function that has that place of a text between its first line and the brace that ends it, or None."""
    lines, number = text.split("\n"), text.count("\n", 0, place)
    for first in range(number, -1, -1):
        found = FUNCTION.match(lines[first])
        if found:
            end = found["indent"] + "}"
            is_long = not lines[first].endswith("}") and end in lines[first:]
            return found["name"] if number <= (lines.index(end, first) if is_long else first) else None
    return None


def is_in_function(folder, wrong, read=read_text):
    """Whether each change of a wrong body is within the function that it makes wrong, which no other function then sees."""
    for file, after, old, _ in wrong.changes:
        text = read(os.path.join(folder, file))
        begin = text.find(old, text.find(after) + len(after))
        ends = (begin, begin + len(old) - 1)
        if any(function_at(text, place) != wrong.function.rpartition("::")[2] for place in ends):
            return False
    return True

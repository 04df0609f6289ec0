"""The fenced blocks of the pages: which kinds there are, and which tool reads each.

A tool that runs blocks has a function `examples`, which gives them, or their texts, in groups that belong together.
gate/newcomer compares what it gives with READERS, and reads the other blocks itself.
"""

import glob
import os
import re
from typing import NamedTuple

from shared.gate import REPOSITORY, read_text

PAGES = (
    "README.md",
    "CONTRIBUTING.md",
    "SECURITY.md",
    "docs/**/*.md",
    "packages/README.md",
    "packages/*/README.md",
    "packages/*/*/README.md",
    "gate/README.md",
    "make/README.md",
    "measure/README.md",
)

# The kinds of blocks, by the tool that reads them and by the page. Of a kind that ends with `*` more words may follow.
READERS = {
    "javascript": {"docs/guide/JAVASCRIPT.md": ("js", "js packages/*", "text"), "packages/javascript/README.md": ("js", "text")},
    "library": {"docs/guide/C.md": ("c", "rust", "python", "sh", "text")},
    "newcomer": {
        "README.md": ("sh", "c", "python", "rust package", "mermaid"),
        "docs/reference/BENCHMARKS.md": ("sh",),
        "docs/guide/C.md": ("sh",),
        "docs/guide/CALLING.md": ("sh", "text crates.txt", "rust root", "rust refused", "text"),
        "docs/guide/COOKBOOK.md": ("sh",),
        "docs/guide/JAVASCRIPT.md": ("sh",),
        "docs/guide/POSTGRESQL.md": ("sh",),
        "docs/guide/PROGRAM.md": ("sh",),
        "docs/guide/PYTHON.md": ("sh",),
        "docs/guide/RUST.md": ("toml", "rust package"),
        "docs/guide/SQL.md": ("sh",),
        "docs/guide/STAMPS.md": ("sh",),
        "packages/python/README.md": ("python",),
    },
    "package_beside_time": {"docs/guide/RUST.md": ("diff", "text")},
    "pages": {
        "README.md": ("rust",),
        "CONTRIBUTING.md": ("text crates/*",),
        "packages/README.md": ("c packages/*", "rust packages/*", "python packages/*", "js packages/*", "sql packages/*"),
        "docs/guide/C.md": ("text muxandu.h",),
        "docs/guide/CALLING.md": ("rust", "rust program"),
        "docs/guide/COOKBOOK.md": ("rust", "rust program"),
        "docs/guide/PROGRAM.md": ("lines", "sh run *"),
        "docs/proofs/STATEMENT.md": ("rust", "text"),
    },
    "postgres": {"docs/guide/POSTGRESQL.md": ("sql", "text")},
    "python": {"docs/guide/PYTHON.md": ("python", "sh", "text")},
    "sqlite": {"docs/guide/SQL.md": ("python", "sql", "text")},
    "stamps": {"docs/guide/STAMPS.md": ("log *", "stamps")},
}

BLOCK = re.compile(r"^```(?P<kind>[^\n]*)\n(?P<text>.*?)^```$", re.DOTALL | re.MULTILINE)
FENCE = re.compile(r"^ *(?:```|~~~).*$", re.MULTILINE)


class Fence(NamedTuple):
    """A fenced block: its page, the line that opens it, its kind and its text, and the text of the page above and below."""

    page: str
    line: int
    kind: str
    text: str
    above: str
    below: str

    @property
    def place(self):
        return f"{self.page}:{self.line}"


def pages(root=REPOSITORY):
    """The names of the pages that may have blocks."""
    found = {name for pattern in PAGES for name in glob.glob(os.path.join(root, pattern), recursive=True)}
    return sorted(os.path.relpath(name, root) for name in found)


def page_text(page, root=REPOSITORY):
    return read_text(os.path.join(root, page))


def fences(page, root=REPOSITORY):
    """The blocks of a page, in their order."""
    text = page_text(page, root)
    return [
        Fence(
            page, text.count("\n", 0, block.start()) + 1, block["kind"], block["text"], text[: block.start()], text[block.end() :]
        )
        for block in BLOCK.finditer(text)
    ]


def prose(page, root=REPOSITORY):
    """The text of a page without its blocks."""
    return BLOCK.sub("", page_text(page, root))


def is_of_kind(fence, kind):
    return fence.kind.startswith(kind[:-1]) if kind.endswith("*") else fence.kind == kind


def groups(page, *kinds):
    """The groups of blocks of these kinds that follow each other on a page."""
    found = fences(page)
    runs = [tuple(found[first : first + len(kinds)]) for first in range(len(found) - len(kinds) + 1)]
    return [run for run in runs if all(map(is_of_kind, run, kinds))]

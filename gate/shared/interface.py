"""The interface for C as data: packages/c/interface.json, which make/bindings writes from the sources of muxandu_c."""

import json
import subprocess
import textwrap
from pathlib import Path

ROOT = Path(__file__).resolve().parents[2]
PATH = ROOT / "packages/c/interface.json"

# The widest line of what is made.
WIDTH = 100

LICENCE = "MIT OR Apache-2.0"

HEAD = (
    "Dates and times, proved: the calls of the Rattle crate muxandu_c.",
    "Made by make/bindings from crates/muxandu_c/src. Do not edit.",
)

# The groups of constants besides the version, in their order.
CONSTANTS = ("limits", "rooms")

# The duties of a caller, which nothing checks.
DUTIES = """\
Your duties, which nothing checks:
- no pointer is NULL, except one to items whose count is 0, and each is aligned for its type;
- a pointer to items has as many items as the count after it, of at most PTRDIFF_MAX bytes
  together;
- during the call nothing else reaches the memory of a pointer that is not const: no other
  pointer overlaps it, and no other thread reads or writes it. Nothing writes the memory of a
  const pointer during the call;
- the library is not older than these declarations: muxandu_version() is at least
  MUXANDU_VERSION.
A field may have any number: each call tests those that it reads. Structs go in by value, so the
result may replace one of them, as in muxandu_date_time_to_offset(at, 0, &at). A struct has
bytes between its fields, or after them: compare fields, not bytes.

A call keeps nothing, shares nothing, takes no memory, waits for nothing and ends. You may call
it from any thread, at the same time as others, from a signal handler and after fork. It takes at
most MUXANDU_STACK bytes of stack.

A call that returns a status returns 0, MUXANDU_OK, if it has written its result. Otherwise it
returns the number of an error, whose name begins with MUXANDU_REFUSED_, and leaves `out` as it
was. A call that returns a MuxanduBatch has written as many items as it counts, and leaves the
rest of `out` as it was.

As long as the library is libmuxandu.so.0, these stay: names, numbers, structs, and the
parameters and results of calls. A later version adds calls, constants and statuses, with
numbers after those of this version. A name that will go first has the attribute `deprecated`,
for one year and one version at least. The attribute names its successor. The name goes only if
the number of the library goes up."""


def duties():
    """The lines of the duties of a caller."""
    return DUTIES.split("\n")


def variants_of(interface, name):
    """The variants of an enum, each with its name and the name of its constant."""
    variants = interface["enums"][name]["variants"]
    return [{"name": key, "constant": f"{name.upper()}_{key}", **one} for key, one in variants.items()]


def type_of(interface, kind):
    """The type of a number, of which a name may stand."""
    return interface["numbers"][kind]["type"] if kind in interface["numbers"] else kind


def wrapped(text, first, later, width=WIDTH):
    return textwrap.wrap(
        text, width, initial_indent=first, subsequent_indent=later, break_on_hyphens=False, break_long_words=False
    )


def quoted(text):
    """A text as a literal of C, Rust or Python."""
    return '"' + text.replace("\\", "\\\\").replace('"', '\\"') + '"'


def read():
    """The description."""
    return json.loads(PATH.read_text(encoding="utf-8"))


def declarations(language, root=ROOT):
    """The declarations of the interface for Rust or Python, which tests have as the module muxandu_sys."""
    words = [str(Path(root) / "make" / "bindings"), language]
    return subprocess.run(words, stdin=subprocess.DEVNULL, stdout=subprocess.PIPE, encoding="utf-8", check=True).stdout

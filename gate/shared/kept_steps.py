"""Which steps passed in this clone, where no change since can break them: ./test does not run those again.

A step is kept with a sum of all that can break it: the files, as gate/changed.txt says, and the tools of the machine, by their
versions. The file `out/steps.json` has that sum for each step that passed, and what the step counted. A fresh clone has no such file.
"""

import contextlib
import hashlib
import json
import os
import platform
import subprocess
import sys

from . import changes
from .gate import write_text

KEPT = os.path.join("out", "steps.json")

# The commands that tell which tools the steps run.
TOOLS = (("rt", "version"), ("rustc", "--version"), ("dpkg-query", "--show"))


def sum_of(path):
    """A sum of a file and of whether it may run, or of the name that a link has; none where there is no file."""
    with contextlib.suppress(OSError):
        if os.path.islink(path):
            return hashlib.sha256(os.fsencode(os.readlink(path))).hexdigest()
        with open(path, "rb") as file:
            return f"{hashlib.sha256(file.read()).hexdigest()} {os.access(path, os.X_OK)}"
    return None


def said_of_tools():
    """What the tools say of their versions; nothing of one that is not installed."""
    said = [sys.version, platform.machine()]
    for words in TOOLS:
        try:
            said.append(subprocess.run(words, capture_output=True, encoding="utf-8", check=False).stdout)
        except OSError:
            said.append("")
    return said


def sums_of_steps(root, steps):
    """A sum of all that can break each of these steps, or none where git does not list the files."""
    listed = changes.git(root, "ls-files", "-z", "--cached", "--others", "--exclude-standard")
    if listed is None or not os.path.isfile(os.path.join(root, changes.TABLE)):
        return {}
    paths = sorted({*filter(None, listed.split("\0"))})
    sums = {path: sum_of(os.path.join(root, path)) for path in paths}
    found, _ = changes.broken_by(paths, changes.read_table(root), steps)
    parts = {step: repr([said_of_tools(), [(path, sums[path]) for path in found.get(step, [])]]) for step in steps}
    return {step: hashlib.sha256(text.encode(errors="surrogateescape")).hexdigest() for step, text in parts.items()}


# What the file has of a step: its sum, how many cases passed and how many were skipped, and the lines of the latter.
FIELDS = ("sum", "passed", "skipped", "skips")


def read_kept(path):
    """What the file has of each step; and what is wrong with the file, or None."""
    try:
        with open(path, encoding="utf-8") as file:
            return {step: [it[field] for field in FIELDS] for step, it in json.load(file).items()}, None
    except FileNotFoundError:
        return {}, None
    except (OSError, ValueError, TypeError, KeyError, AttributeError):
        return {}, f"{KEPT} cannot be read, so each step runs"


class KeptSteps:
    """The steps that passed here, with their sums and what each counted."""

    def __init__(self, root, steps):
        self.root, self.steps, self.sums = root, steps, sums_of_steps(root, steps)
        self.kept, self.problem = read_kept(os.path.join(root, KEPT))

    def has(self, step):
        """Whether a step passed here, and nothing since can break it."""
        return step in self.sums and step in self.kept and self.kept[step][0] == self.sums[step]

    def write(self, passed):
        """Keeps the steps that passed in this run, where the files are those of its begin. A disk that is full keeps none."""
        now = sums_of_steps(self.root, self.steps)
        self.kept |= {step: (now[step], *told) for step, told in passed.items() if step in now and now[step] == self.sums[step]}
        told = {step: dict(zip(FIELDS, it)) for step, it in sorted(self.kept.items())}
        with contextlib.suppress(OSError):
            write_text(os.path.join(self.root, KEPT), json.dumps(told, indent=1) + "\n")

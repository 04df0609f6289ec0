"""Which files have changed, as git says, and which steps each can break, as gate/changed.txt says."""

import os
import re
import subprocess

TABLE = os.path.join("gate", "changed.txt")

# The row of each file, and the word for all steps.
ANY, EVERY_STEP = "*", "every step"

# The branches of which one has what has landed.
MAIN = ("main", "origin/main")


class NoBase(Exception):
    """There is no commit with which the files can be compared."""


def git(root, *words):
    """What git prints in a repository, or None if it fails."""
    try:
        ended = subprocess.run(
            ["git", "-C", root, *words], capture_output=True, encoding="utf-8", errors="surrogateescape", check=False
        )
    except FileNotFoundError:
        return None
    return ended.stdout if ended.returncode == 0 else None


def base_of(root, named=None):
    """The commit with which the files are compared: the named one, or the last one that is in main and here."""
    if named is not None:
        found = git(root, "rev-parse", "--verify", "--quiet", f"{named}^{{commit}}")
        if not found:
            raise NoBase(f"git knows no commit '{named}': name a commit, a branch or a tag")
        return found.strip()
    for branch in MAIN:
        found = git(root, "merge-base", "HEAD", branch)
        if found:
            return found.strip()
    raise NoBase(f"there is no commit that is also in {' or '.join(MAIN)}: name one, as ./test --changed BASE")


def changed_files(root, base):
    """The files that differ from those of a commit: changed, added, removed, or not known to git yet."""
    listed = (
        git(root, "diff", "-z", "--no-renames", "--name-only", base),
        git(root, "ls-files", "-z", "--others", "--exclude-standard"),
    )
    if None in listed:
        raise NoBase(f"git does not compare the files with {base}")
    return sorted({name for names in listed for name in names.split("\0") if name})


def read_table(root):
    """The rows of the table: the steps by the path of a file, or of a folder with a `/` at its end."""
    with open(os.path.join(root, TABLE), encoding="utf-8") as file:
        lines = [line.strip().partition(": ") for line in file if line.strip() and not line.startswith("#")]
    return {path: steps.split(", ") for path, _, steps in lines}


def has(row, path):
    """Whether a row is of a file, or of a folder above it."""
    pattern = re.escape(row).replace(r"\*", "[^/]+")
    return row != ANY and re.match(pattern + ("" if row.endswith("/") else "$"), path) is not None


def row_of(path, rows):
    """The longest row of a file, by its folders; None where there is none."""
    return max((row for row in rows if has(row, path)), key=lambda row: (row.count("/"), len(row)), default=None)


def steps_of(path, rows, every):
    """The steps that a change of a file can break, by a list of every step; None where no row has it."""
    row = row_of(path, rows)
    if row is None:
        return None
    found = {*rows.get(ANY, []), *rows[row], *([path.removeprefix("gate/")] if path.startswith("gate/") else [])}
    return [*every, *(found - {*every, EVERY_STEP})] if EVERY_STEP in found else [*found]


def broken_by(paths, rows, every):
    """The files that can break each step, by its name; and the files that no row has, which can break every step."""
    found, unknown = {}, []
    for path in paths:
        steps = steps_of(path, rows, every)
        if steps is None:
            unknown.append(path)
        for step in every if steps is None else steps:
            found.setdefault(step, []).append(path)
    return found, unknown

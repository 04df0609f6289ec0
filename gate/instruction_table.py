"""The table of instructions that calls and lines take, gate/instructions.txt: how it is read, compared with counts, and written."""

import os

from shared.gate import GATE, write_text

TABLE = os.path.join(GATE, "instructions.txt")
HEAD = """\
# What a call of the library for C, or a line of a program, takes in instructions, and the reason of the last change.
# Made by gate/instructions write REASON..
"""
SEPARATOR = " | "

# A row fails at 1.03 times the table's count, and can be lowered at 0.97 times that.
TOO_MANY, FEWER = 1.03, 0.97


def read(path=TABLE):
    """The count of each row, and the reason of its last change, by the row's name."""
    if not os.path.exists(path):
        return {}
    found = {}
    with open(path, encoding="utf-8") as file:
        for line in file.read().splitlines():
            if line.startswith("#"):
                continue
            name, count, reason = line.split(SEPARATOR, 2)
            if name in found:
                raise ValueError(f"{path} has two rows of the name {name!r}")
            found[name] = float(count), reason
    return found


def compare(tally, counts, names, path=TABLE):
    """Counts each row that was counted as a case, against the table; and each row of the table that no row has the name of."""
    table = read(path)
    for name, count in counts.items():
        before = table[name][0] if name in table else None
        tally.count(name + said_of(count, before), problem_of(count, before))
    for name in table:
        if name not in names:
            tally.count(name, "the table has this row, and nothing is counted by this name: gate/instructions write REASON..")


def problem_of(count, before):
    """What is wrong with a count, by that of the table, or None."""
    if before is None:
        return f"the table has no such row, and {count:.1f} instructions are counted: gate/instructions write REASON.."
    if count < before * TOO_MANY:
        return None
    change = f"was {before:.1f} instructions, is {count:.1f}, {(count / before - 1) * 100:.1f} % more"
    return f"{change}: make it cheaper, or give the reason: gate/instructions write REASON.."


def said_of(count, before):
    """What is said of a count that passes."""
    if before is None or count >= before * TOO_MANY:
        return ""
    lower = f", {before:.1f} in the table: the table can be lowered" if count <= before * FEWER else ""
    return f": {count:.1f} instructions{lower}"


def write(counts, names, reason, path=TABLE):
    """Writes the table: rows whose count has changed with this reason, the others as they are. Says what has changed."""
    before = read(path)
    changes, rows = [], []
    for name in names:
        old = before.get(name)
        count = round(counts[name], 1) if name in counts else None
        if count is None and old is None:
            continue
        if count is not None and (old is None or count != old[0]):
            changes.append(f"{name}: {f'{old[0]:.1f}' if old else 'no row'} before, {count:.1f} now")
            old = count, reason
        rows.append(f"{name}{SEPARATOR}{old[0]:.1f}{SEPARATOR}{old[1]}\n")
    write_text(path, HEAD + "".join(rows))
    return changes + [f"{name}: no row now" for name in before if name not in names]

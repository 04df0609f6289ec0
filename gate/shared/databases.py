"""What the steps of the extensions of databases share: their shared objects, the blocks of their pages, and the names of errors."""

import os
import platform
import re

from shared.gate import REPOSITORY, read_text, run


def compare_symbols(tally, path, case, own):
    """An extension exports its own names alone, so that others can be loaded beside it, needs the C library alone, and says which
    processors it is for."""
    printed = run(["nm", "-D", "--defined-only", path]).stdout
    names = [line.split()[-1] for line in printed.splitlines()]
    others = sorted(name for name in names if not re.fullmatch(own, name))
    tally.count(case, None if names and not others else f"and {others}")
    needed = re.findall(r"\(NEEDED\).*\[(.*)\]", run(["readelf", "--dynamic", "--wide", path]).stdout)
    tally.count("it needs nothing but the C library", None if needed == ["libc.so.6"] else f"but {needed}")
    case = "it asks for x86-64-v2"
    if platform.machine() != "x86_64":
        tally.skip(case, f"this machine is {platform.machine()}")
        return
    notes = run(["readelf", "--notes", "--wide", path]).stdout
    tally.count(case, None if re.search(r"x86 ISA needed:.*x86-64-v2", notes) else "it does not", notes)


def blocks(page):
    """The fenced blocks of a page: the kind and the text of each."""
    return re.findall(r"^```(\w+)\n(.*?)^```$", read_text(page), re.MULTILINE | re.DOTALL)


def sql_examples(page):
    """The blocks ```sql of a page, each with the block ```text that follows it."""
    found = blocks(page)
    for (kind, text), (after, wanted) in zip(found, [*found[1:], ("", "")]):
        if kind == "sql":
            assert after == "text", text
            yield text, wanted


# A statement of SQL in a line of text, or a part of one: it names more than words of the language.
STATEMENT = r"(?:ALTER|COPY|CREATE|DEFAULT|DELETE|DROP|EXCLUDE|INSERT|SELECT|UPDATE|USING|WHERE) (?=.*[a-z0-9]).*"


def statements_in_text(page):
    """The statements of SQL in the text of a page, outside its blocks."""
    text = re.sub(r"^```.*?^```$", "", read_text(page), flags=re.MULTILINE | re.DOTALL)
    return [span for span in re.findall(r"`([^`\n]+)`", text) if re.fullmatch(STATEMENT, span)]


def compare_statements(tally, page, known, ask):
    """Runs each statement in the text of a page as `known` has it: in which script, where {} is the statement, and what that prints, a
    part of it. None else is there."""
    name, others = os.path.relpath(page, REPOSITORY), set(statements_in_text(page)) ^ set(known)
    tally.count(f"{name}: the statements in its text", f"nothing runs, or has, {sorted(others)}" if others else None)
    for span, (script, wanted) in known.items():
        printed = ask(script.replace("{}", span) + ";\n")
        fine = printed.strip() == wanted or (wanted and wanted in printed)
        tally.count(f"{name}: {span}", None if fine else f"must print {wanted!r}", printed)


def status_name(refusal, text):
    """The name in the header of what a text is refused by, as `OFFSET_HOUR` of `OffsetHour`; of a day of 1 to 31 that its month
    has not, `DAY_OF_MONTH`."""
    if refusal == "Day" and "01" <= text[8:10] <= "31":
        return "DAY_OF_MONTH"
    return re.sub(r"(?<!^)([A-Z])", r"_\1", refusal).upper()

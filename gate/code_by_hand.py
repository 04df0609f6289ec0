"""Counts the lines of the Rust package that are written by hand, and lists functions there that have a rule of the calendar.

    python3 gate/code_by_hand.py

A rule of the calendar is code that says how long a year, a month or a week is, or counts days: the numbers of such rules, and a
`match` on months. Tests and comments do not count there, and the lines of code are counted apart. What src/proved has is made, but
for memory.rs. It ends with status 1 where it lists a function.
"""

import os
import re
import sys

from shared.erasure import BY_HAND, FOLDER
from shared.gate import REPOSITORY, read_text

FOLDERS = ("src", "src/format_description", "src/format_description/well_known", "src/serde")

# Numbers that only rules of the calendar have: days of months, years, centuries and cycles, and the years that are leap years.
NUMBERS = r"(?<![\d_.])(?:28|29|30|31|100|365|366|400|1_?461|36_?524|36_?525|146_?097|719_?\d{3}|2_?440_?588|1970)(?![\d_.])"
RULE = re.compile(NUMBERS + r"|Month::February\s*(?:=>|\|)|% ?(?:4|7|12)\b")
FUNCTION = re.compile(r"\bfn (\w+)")


def files():
    """The files that are written by hand, by their names in the repository."""
    for folder in FOLDERS:
        place = os.path.join(FOLDER, folder)
        yield from sorted(
            os.path.join(place, name) for name in os.listdir(os.path.join(REPOSITORY, place)) if name.endswith(".rs")
        )
    yield from sorted(set(BY_HAND) - {os.path.join(FOLDER, "src", "proved.rs")})


def code(text):
    """The lines without tests, texts and comments."""
    text = text.partition("#[cfg(test)]\nmod tests")[0]
    lines = (re.sub(r'"(?:\\.|[^"\\])*"', '""', line) for line in text.split("\n"))
    return [re.sub(r"//.*", "", line) for line in lines]


def main():
    if sys.argv[1:]:
        sys.exit(__doc__.split("\n\n")[1])
    lines, of_code, rules = 0, 0, []
    for name in files():
        text = read_text(os.path.join(REPOSITORY, name))
        lines += text.count("\n")
        of_code += sum(1 for line in code(text) if line.strip())
        function = "no function"
        for number, line in enumerate(code(text), 1):
            found = FUNCTION.search(line)
            function = found[1] if found else function
            if RULE.search(line):
                rules.append(f"{name}:{number}: {function} has a rule of the calendar: {line.strip()}")
    print("\n".join([*rules, f"{lines:,} lines by hand, {of_code:,} of them code, with {len(rules)} rules of the calendar"]))
    sys.exit(1 if rules else 0)


if __name__ == "__main__":
    main()

"""The parts of crates/muxandu_c that follow from the errors of refused.rt: their numbers, names and sentences in the code, in its
definitions, and in the lemmas that no two are the same."""

import re

from generated import standing

CRATE = "crates/muxandu_c/"
CODE, NUMBERS = CRATE + "src/status_texts.rt", CRATE + "specs/Answers.antt"
TEXTS, LEMMAS = CRATE + "specs/StatusTexts.antt", CRATE + "proofs/StatusTextLemmas.antt"

# The widest line of `rt fmt`.
WIDTH = 100


def arm(variant, text):
    """An arm of a `match` as `rt fmt` lays it out."""
    line = f'        Refused::{variant} => "{text}",'
    return line if len(line) <= WIDTH else f'        Refused::{variant} =>\n            "{text}",'


def replace_lines(text, pattern, lines):
    """A text with other lines between two, which a pattern names."""
    parts = re.fullmatch(rf"(.*{pattern[0]})(.*?)({pattern[1]}.*)", text, re.DOTALL)
    if not parts:
        raise SystemExit(f"make/bindings: expected the lines {pattern[0]} .. {pattern[1]}")
    return parts[1] + "".join(f"{line}\n" for line in lines) + parts[3]


def code(refusals):
    """status_texts.rt."""
    text = standing(CODE)
    text = replace_lines(
        text,
        (r"    match number \{\n", r"        _ => None,\n"),
        [f"        {it['number']} => Some(Refused::{it['variant']})," for it in refusals],
    )
    for name, key in (("name", "name"), ("words", "doc")):
        begin = rf"fn refused_{name}\(refused: Refused\) [^{{]*\{{ [^}}]*\}}\n\{{\n    match refused \{{\n"
        text = replace_lines(text, (begin, r"    \}\n"), [arm(it["variant"], it[key]) for it in refusals])
    return re.sub(r"\(\d+ < (other|status)\)", rf"({len(refusals)} < \1)", text)


def lemmas(count):
    """StatusTextLemmas.antt, in which the last number of an error, and the two after it, are those of this count."""
    text = standing(LEMMAS)
    last = int(re.search(r"above : \(n : ℕ\) → (\d+) < n", text)[1])
    return re.sub(r"\b\d+\b", lambda it: str(int(it[0]) - last + count) if last <= int(it[0]) <= last + 2 else it[0], text)


def texts(refusals):
    """StatusTexts.antt."""
    text = standing(TEXTS)
    tests = [f"else (if number == {it['number']} then Some refused.{it['variant']}" for it in refusals]
    lines = [tests[0].removeprefix("else ("), *tests[1:], f"else None{')' * (len(tests) - 1)}"]
    text = replace_lines(
        text, (r"refused_numbered number =\n", r"\n-- the name of an error\n"), [f"    {line}" for line in lines]
    )
    for name, key, after in (
        ("name", "name", r"\n-- the text of an error\n"),
        ("words", "doc", r"\n-- the name and the text of an error"),
    ):
        rows = [f'refused_{name} refused.{it["variant"]} = codes "{it[key]}"' for it in refusals]
        text = replace_lines(text, (rf"pub refused_{name} : Refused → List ℕ\n", after), rows)
    return text


def numbers(refusals):
    """The numbers of Answers.antt."""
    rows = [f"status_number refused.{it['variant']} = {it['number']}" for it in refusals]
    return replace_lines(standing(NUMBERS), (r"pub status_number : Refused → ℕ\n", r"\n-- the error names this part\n"), rows)


def status_sources(interface):
    """The text of each of these files by its name."""
    refusals = [{"name": name, **it} for name, it in interface["enums"]["Refused"]["variants"].items()]
    return {CODE: code(refusals), TEXTS: texts(refusals), NUMBERS: numbers(refusals), LEMMAS: lemmas(len(refusals))}

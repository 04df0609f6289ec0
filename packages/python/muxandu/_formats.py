"""Texts by format descriptions, such as [year]-[month]-[day], and by patterns of strftime."""

from __future__ import annotations

import functools
import locale
import re
from typing import Any, Callable, NamedTuple, Optional

from . import _extension as engine
from ._refusals import REASONS, REFUSALS, RefusedNoText, RefusedSyntax
from ._structures import MuxanduDateTime, MuxanduItem, MuxanduSpan
from ._words import as_bytes

# The kinds of values, as the library numbers them.
OFFSET_DATE_TIME, PLAIN_DATE_TIME, DATE, TIME, UTC_OFFSET = range(1, 6)  # type: int, int, int, int, int

# The most items of a description, the bytes of the longest text that one writes, and those of the longest text of an item.
_MOST_ITEMS, MOST_BYTES, _MOST_OF_ITEM = 128, 64, 96

_SYNTAX, _NO_TEXT = RefusedSyntax.status, RefusedNoText.status

# The number of the hours of an offset as a reason, and how the reason of a part that a text lacks begins.
_OFFSET_HOUR = next(number for number, said in REASONS.items() if said.startswith("The hours of the offset"))
_MISSING = "the text lacks a part: "


class Items(NamedTuple):
    """The items of a description."""

    text: str
    items: Any
    size: int


@functools.lru_cache(maxsize=512)
def items_of(description: str) -> Items:
    """The items of a description. The last ones are kept."""
    text = as_bytes(description)
    room = (MuxanduItem * _MOST_ITEMS)()
    size, status, reason = engine.description_parse(2, text, len(text), room, _MOST_ITEMS)
    if status:
        raise REFUSALS[status](value=description, place=size, reason=REASONS.get(reason, ""))
    return Items(description, room, size)


def of_pattern(pattern: Any) -> Items:
    """The items of a pattern, which must be a str."""
    if not isinstance(pattern, str):
        raise TypeError(f"a pattern must be a str, not {type(pattern).__name__}")
    return items_of(str.__str__(pattern))


# The parts of a date-time, and those of a value that lacks them.
_PARTS = {"year": 1970, "month": 1, "day": 1, "hour": 0, "minute": 0, "second": 0, "nanosecond": 0, "offset_seconds": 0}


def parts_of(value: Any) -> MuxanduDateTime:
    """The parts of a value as the library takes them."""
    return MuxanduDateTime(*(getattr(value, name, default) for name, default in _PARTS.items()))


def format_value(kind: int, value: Any, pattern: str) -> str:
    """The text of a value by a description."""
    described = of_pattern(pattern)
    text = engine.text_of_clock(kind, described.items, described.size, value)
    return write_value(kind, described, parts_of(value)) if text is None else text


def parse_value(kind: int, text: Any, pattern: str) -> MuxanduDateTime:
    """The parts of a text by a description."""
    return read_value(kind, of_pattern(pattern), text)


def lacks_offset(refused: RefusedSyntax) -> bool:
    """Whether all that a text lacks is an offset."""
    return refused.reason == _MISSING + REASONS[_OFFSET_HOUR]


def in_utc(read: Callable[[int, Any, str], MuxanduDateTime], text: Any, pattern: str) -> MuxanduDateTime:
    """The parts in UTC of a text that one of these calls reads.

    A text without an offset is in UTC."""
    try:
        made = read(OFFSET_DATE_TIME, text, pattern)
    except RefusedSyntax as refused:
        if not lacks_offset(refused):
            raise
        return read(PLAIN_DATE_TIME, text, pattern)
    shown = engine.OffsetDateTime(*(getattr(made, name) for name in _PARTS))
    return parts_of(shown.to_offset(0))


def strftime_value(kind: int, value: Any, pattern: str) -> str:
    """The text of a value by a pattern of `strftime`."""
    described = of_strftime(pattern)
    test_offset(described, getattr(value, "offset_seconds", 0))
    text = engine.text_of_clock(kind, described.items, described.size, value)
    return write_value(kind, described, parts_of(value)) if text is None else text


def strptime_value(kind: int, text: Any, pattern: str) -> MuxanduDateTime:
    """The parts of a text by a pattern of `strftime`."""
    return read_value(kind, of_strftime(pattern), text)


def write_value(kind: int, described: Items, value: MuxanduDateTime) -> str:
    """The text of a value. The error of a component that the kind lacks names it."""
    text, status = _text_and_status(kind, described.items, described.size, value)
    if status:
        told = _unwritten(kind, described, value) if status == _NO_TEXT else ""
        raise REFUSALS[status](value=described.text, reason=told)
    return text


def _text_and_status(kind: int, items: Any, count: int, value: MuxanduDateTime) -> tuple[str, int]:
    """The text of the first items, and the status."""
    room, span = bytearray(MOST_BYTES), (MuxanduSpan * 1)()
    _, status = engine.format_all(kind, items, count, value, 1, room, MOST_BYTES, span, 1)
    return ("" if status else room[: span[0].length].decode("ascii")), status


class Front:
    """Reads the parts at the front of a text by a description, and keeps the rest of the text."""

    rest: Any

    def __call__(self, kind: int, text: Any, pattern: str) -> MuxanduDateTime:
        made, size = _read_by(engine.parse_items_front, kind, of_pattern(pattern), text)
        rest = as_bytes(text)[size:]
        self.rest = rest.decode("utf-8", "replace") if isinstance(text, str) else rest
        return made


def read_value(kind: int, described: Items, text: Any) -> MuxanduDateTime:
    """The parts of a text. The error names the byte, and the item that it lacks or the part."""
    return _read_by(engine.parse_items, kind, described, text)[0]


def _read_by(read: Callable[..., Any], kind: int, described: Items, text: Any) -> tuple[MuxanduDateTime, int]:
    """The parts of a text that a call reads, and the number of bytes that it read."""
    source, made = as_bytes(text), MuxanduDateTime()
    place, status, reason = read(kind, described.items, described.size, source, len(source), made, 1)
    if status == _SYNTAX and not reason:
        raise RefusedSyntax(value=text, place=place, reason=_lacking_item(kind, described, source, place))
    if status == _SYNTAX:
        raise RefusedSyntax(value=text, reason=_MISSING + REASONS[reason])
    if status and reason:
        at = place if place < len(source) else None
        raise REFUSALS[status](value=text, place=at, reason=_wrong_part(REASONS[reason]))
    if status:
        raise REFUSALS[status](value=text)
    return made, place


def _wrong_part(reason: str) -> str:
    """The error of a wrong part, with its range if it has one: the reason has both."""
    part, _, ends = reason.rstrip(".").partition(", ")
    told = f" ({ends})" if ends else ""
    return f"{part} is out of range{told}, or contradicts another part"


def _text_of_item(described: Items, index: int) -> str:
    """The text of one item as a description."""
    item, room = described.items[index], bytearray(_MOST_OF_ITEM)
    size, status, _ = engine.description_text(2, item, 1, room, _MOST_OF_ITEM)
    return "" if status else room[:size].decode("utf-8", "replace")


def _unwritten(kind: int, described: Items, value: MuxanduDateTime) -> str:
    """Why items have no text: the component that the kind lacks, or the size and the bytes."""
    for index in range(described.size):
        item = described.items[index]
        if _text_and_status(kind, item, 1, value)[1] and not _text_and_status(OFFSET_DATE_TIME, item, 1, value)[1]:
            return f"the value has no {_text_of_item(described, index)}"
    return "the text has more than 64 bytes, or one that is not ASCII"


def _lacking_item(kind: int, described: Items, source: bytes, place: int) -> str:
    """The item that a text lacks at its fault: the one after those that read it up to there."""
    made = MuxanduDateTime()
    for count in range(described.size):
        found, status, reason = engine.parse_items(kind, described.items, count, source, len(source), made, 1)
        if status != _SYNTAX or reason or found == place:
            told = _text_of_item(described, count)
            return f"{told} is expected there" if told else ""
    return "the end of the text is expected there"


# ---- patterns of strftime

# What each directive is as a description, for texts that are written and for texts that are read.
_DIRECTIVES = {
    "a": "[weekday repr:short]",
    "A": "[weekday]",
    "b": "[month repr:short]",
    "B": "[month repr:long]",
    "C": "[year repr:century]",
    "d": "[day]",
    "e": "[day padding:space]",
    "f": "[subsecond digits:6]",
    "g": "[year base:iso_week repr:last_two]",
    "G": "[year base:iso_week]",
    "h": "[month repr:short]",
    "H": "[hour]",
    "I": "[hour repr:12]",
    "j": "[ordinal]",
    "k": "[hour padding:space]",
    "l": "[hour repr:12 padding:space]",
    "m": "[month]",
    "M": "[minute]",
    "n": "\n",
    "p": "[period]",
    "S": "[second]",
    "t": "\t",
    "u": "[weekday repr:monday]",
    "U": "[week_number repr:sunday]",
    "V": "[week_number]",
    "w": "[weekday repr:sunday one_indexed:false]",
    "W": "[week_number repr:monday]",
    "y": "[year repr:last_two]",
    "Y": "[year]",
    "z": "[offset_hour sign:mandatory][offset_minute]",
    ":z": "[offset_hour sign:mandatory]:[offset_minute]",
    "%": "%",
}

# Directives that are short for others.
_SHORT = {"D": "%m/%d/%y", "F": "%Y-%m-%d", "r": "%I:%M:%S %p", "R": "%H:%M", "T": "%H:%M:%S"}

# Directives that no description says, and why.
_NONE = {
    "c": "its text depends on the locale",
    "x": "its text depends on the locale",
    "X": "its text depends on the locale",
    "Z": "a value has no name of a zone",
    "s": "it depends on the zone of the machine: write a description with [unix_timestamp]",
    "E": "its text depends on the locale",
    "O": "its text depends on the locale",
    "+": "its text depends on the locale",
    "-": "the C library alone has this flag: write a description with padding:none",
    "_": "the C library alone has this flag: write a description with padding:space",
    "0": "the C library alone has this flag: write a description with padding:zero",
    "^": "the C library alone has this flag: no description writes names in capitals",
    "#": "the C library alone has this flag: no description swaps the case of letters",
}


def _literal(text: str) -> str:
    """A literal text in version 2 of the language of descriptions."""
    return "".join(f"\\{letter}" if letter in "[]\\" else letter for letter in text)


def _directive(pattern: str, at: int) -> tuple[str, int]:
    """The description of the directive after a % at a place, and the place after it."""
    name = pattern[at : at + 2] if pattern[at : at + 1] == ":" else pattern[at : at + 1]
    if name in _SHORT:
        return description_of_strftime(_SHORT[name]), at + 1
    if name in _DIRECTIVES:
        return _DIRECTIVES[name], at + len(name)
    why = _NONE.get(name[:1], "there is no such directive" if name else "a directive is missing")
    raise ValueError(f"no description says %{name} of {pattern!r}, at character {at - 1}: {why}")


def description_of_strftime(pattern: str) -> str:
    """The description that writes what a pattern of `strftime` writes in the C locale, for years of
    four digits. ValueError names the first directive that no description says, and why."""
    made, at = [], 0
    while at < len(pattern):
        found = pattern.find("%", at)
        end = len(pattern) if found < 0 else found
        made.append(_literal(pattern[at:end]))
        at = end
        if found >= 0:
            described, at = _directive(pattern, found + 1)
            made.append(described)
    return "".join(made)


# A directive of the C library, with its flags and its width.
_DIRECTIVE = re.compile(r"%[-_0^#+]*[0-9]*[EO]?(.)", re.DOTALL)


def test_format(pattern: str) -> None:
    """Tests that a pattern has no seconds since 1970, which the C library counts by the zone of the
    machine. ValueError as of `strftime`."""
    for found in _DIRECTIVE.finditer(pattern):
        if found[1] == "s":
            _directive(pattern, found.start() + 1)


# Directives that `datetime` writes as descriptions do: in every locale, and in that of C.
_OF_NUMBERS, _OF_NAMES = frozenset("dfHIjmMSuUVwWyYzG%"), frozenset("aAbBhp")
_OF_C = ("C", "POSIX", "C.UTF-8", "C.utf8")


@functools.lru_cache(maxsize=512)
def _as_datetime(pattern: str) -> Optional[tuple[Items, bool, bool]]:
    """The items that write what `datetime` writes, and whether they have names, and an offset. None
    of a pattern with other directives."""
    found = {one[0]: one[1] for one in _DIRECTIVE.finditer(pattern)}
    if not {f"%{name}" for name in _OF_NUMBERS | _OF_NAMES} >= found.keys() or pattern.count("%") % 2 and pattern[-1:] == "%":
        return None
    return items_of(description_of_strftime(pattern)), bool(_OF_NAMES & set(found.values())), "%z" in found


def text_as_datetime(kind: int, value: Any, pattern: str) -> Optional[str]:
    """The text that the `strftime` of `datetime` writes, or None where that is to write it: for
    years outside 1001 to 9998, names of another locale, and what a value lacks."""
    described = _as_datetime(pattern) if type(pattern) is str else None
    if described is None or not 1_000 < getattr(value, "year", 2_000) < 9_999:
        return None
    items, has_names, has_offset = described
    offset = getattr(value, "offset_seconds", 0)
    if offset and (not -86_400 < offset < 86_400 or has_offset and offset % 60):
        return None
    if has_names and locale.setlocale(locale.LC_TIME) not in _OF_C:
        return None
    text: Optional[str] = engine.text_of_clock(kind, items.items, items.size, value)
    return text


@functools.lru_cache(maxsize=512)
def _items_of_strftime(pattern: str) -> Items:
    return items_of(description_of_strftime(pattern))


def of_strftime(pattern: Any) -> Items:
    """The items of a pattern of `strftime`. The last ones are kept."""
    if not isinstance(pattern, str):
        raise TypeError(f"a pattern must be a str, not {type(pattern).__name__}")
    return _items_of_strftime(str.__str__(pattern))


def test_offset(described: Items, offset_seconds: Optional[int]) -> None:
    """Tests that hours and minutes of two digits are the offset: Python adds seconds to `%z`."""
    if offset_seconds and offset_seconds % 60 and "[offset_minute]" in described.text:
        raise ValueError(f"%z has no seconds: the offset {offset_seconds} s needs a description with [offset_second]")

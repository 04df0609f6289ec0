"""The texts that `str` writes of values, read back, and texts of RFC 3339 of a time of day or of an
offset."""

from __future__ import annotations

import re
from typing import Any, Callable, Optional, TypeVar

from . import _extension as engine
from ._refusals import RefusedSyntax

_Made = TypeVar("_Made")

_DATE = r"([+-]?\d{4,6})-(\d\d)-(\d\d)"
_TIME = r"(\d{1,2}):(\d\d):(\d\d)\.(\d{1,9})"
_OFFSET = r"([+-])(\d\d):(\d\d):(\d\d)"
_DECIMAL = r"(-?)(\d{1,20})(?:\.(\d{1,9}))?"

# What `str` writes of each type.
_FORMS = {
    name: re.compile(form, re.ASCII)
    for name, form in (
        ("Timestamp", _DECIMAL),
        ("OffsetDateTime", f"{_DATE} {_TIME} {_OFFSET}"),
        ("UtcDateTime", rf"{_DATE} {_TIME} \+00"),
        ("PlainDateTime", f"{_DATE} {_TIME}"),
        ("Date", _DATE),
        ("Time", _TIME),
        ("UtcOffset", _OFFSET),
        ("Duration", f"{_DECIMAL}s"),
    )
}


def full_time(text: str) -> tuple[tuple[int, int, int, int], int]:
    """The parts of a time of day and the seconds of its offset, of a text of RFC 3339 that has
    both."""
    if not isinstance(text, str):
        raise TypeError(f"Time.from_text_with_offset() needs a str, not {type(text).__name__}")
    return engine.full_time_from_rfc3339(text)


def offset(text: str) -> int:
    """The seconds of an offset of RFC 3339."""
    try:
        return engine.offset_from_rfc3339(text)
    except RefusedSyntax:
        time = b"00:00:00"
        whole = time + text.encode("utf-8", "surrogatepass")
        place = engine.full_time_fault(whole) - len(time) if text[:1] in ("Z", "z", "+", "-") else 0
        raise RefusedSyntax(None, text, place) from None


def read(name: str, text: str, make: Callable[..., _Made], exchange: Optional[Callable[[str], _Made]] = None) -> _Made:
    """The value whose `str` is this text, from the parts of the text; else what `exchange` reads.
    RefusedSyntax for another text, else the error of the first part that is out of range.
    """
    if not isinstance(text, str):
        raise TypeError(f"{name}.from_text() needs a str, not {type(text).__name__}")
    found = _FORMS[name].fullmatch(text)
    made = None if found is None else make(*found.groups())
    if made is not None and str(made) == text:
        return made
    if exchange is None:
        raise RefusedSyntax(None, text)
    return exchange(text)


def numbers(*parts: str) -> list[int]:
    """The numbers of a date, of a time of day, or of both, in whole units and nanoseconds."""
    *first, last = parts
    return [*map(int, first), int(last.ljust(9, "0")) if len(parts) in (4, 7) else int(last)]


def seconds(sign: str, *parts: str) -> int:
    """The seconds of an offset. The error of the first part that is out of range."""
    return engine.offset_from_parts(*(int(sign + part) for part in parts))


def nanoseconds(sign: str, whole: str, fraction: Any) -> int:
    """The nanoseconds of a decimal of seconds."""
    count = int(whole + (fraction or "").ljust(9, "0"))
    return -count if sign == "-" else count

"""The rows of texts: of RFC 3339, of a format description, and of a field of lines. An error has
the row and its text."""

from __future__ import annotations

import functools
from typing import Any, Callable, Optional

import numpy

from . import OffsetDateTime, Refused, RefusedSyntax, _batch, _formats, _texts, columns, rfc3339_fault
from . import _extension as _engine
from ._blocks import GAP, ROW, row_of
from ._missing import MISSING
from ._refusals import REFUSALS
from ._structures import MuxanduDateTime
from ._words import one_offset


class Texts:
    """A list of texts, or the texts at the spans of a block of bytes, of which an empty one can be
    a gap."""

    def __init__(self, texts: Any, spans: Any = None, has_gaps: bool = False) -> None:
        if isinstance(texts, str):
            raise TypeError("a block of texts must be bytes, not a str")
        self.texts = list(texts) if spans is None else texts
        self.spans: Any = None if spans is None else numpy.asarray(spans)
        self.has_gaps = has_gaps

    def __len__(self) -> int:
        return len(self.texts if self.spans is None else self.spans)

    def at(self, place: int) -> Any:
        """The text at a place, of bytes with an escape for each that is no character."""
        if self.spans is None:
            return self.texts[place]
        start, length = (int(self.spans[name][place]) for name in ("start", "length"))
        return bytes(memoryview(self.texts).cast("B")[start : start + length]).decode(errors="backslashreplace")

    def some(self, places: Any) -> Texts:
        """The texts at these places."""
        if self.spans is None:
            return Texts([self.texts[place] for place in places])
        return Texts(self.texts, self.spans[places])


def _refusal_of(status: int, row: int, text: Any) -> Refused:
    """The error of a text, with its row, and of a text of another form the byte with the fault."""
    is_text = status == RefusedSyntax.status and isinstance(text, (str, bytes))
    return REFUSALS[status](row, text, rfc3339_fault(text) if is_text else None)


def read_own_texts(texts: Texts, rows: Any, statuses: Any) -> None:
    """Reads the texts that are no RFC 3339, but as `str` writes a date-time, and as to_csv writes a
    column. The error of the first text that is neither."""
    for place in numpy.flatnonzero((statuses != 0) & (statuses != MISSING)).tolist():
        text, status = texts.at(place), int(statuses[place])
        if status != RefusedSyntax.status:
            raise _refusal_of(status, place, text)
        try:
            rows[place], statuses[place] = row_of(OffsetDateTime.from_text(text)), 0
        except RefusedSyntax:
            raise _refusal_of(status, place, text) from None
        except Refused as refused:
            raise type(refused)(place, text, refused.place, refused.reason) from None


def _read_by_pattern(texts: Texts, pattern: str, kind: int, rows: Any, statuses: Any) -> Any:
    """Reads texts by a format description, and returns what clocks show."""
    described = _formats.of_pattern(pattern)
    call = functools.partial(_engine.parse_each, kind, described.items, described.size)
    shown: Any = numpy.zeros(len(texts), numpy.dtype(MuxanduDateTime))
    _texts._read_each(call, texts.texts, texts.spans, MuxanduDateTime, shown, statuses)
    return shown


def _write_moments(shown: Any, rows: Any, statuses: Any) -> None:
    """Writes the moments of date-times, of which some failed."""
    _, told = columns.moments_from_each_date_time(shown, rows)
    numpy.copyto(statuses, told, where=statuses == 0)


def _read_without_offset(read: Callable[..., None], texts: Texts, offset_seconds: Any, rows: Any, statuses: Any) -> None:
    """Reads the texts that lack an offset, of those of another form."""
    places = numpy.flatnonzero(statuses == RefusedSyntax.status)
    offsets = offset_seconds
    if one_offset(offset_seconds) is None:
        each = list(offset_seconds)
        if len(each) != len(texts):
            raise ValueError(f"there must be one offset, or one for each text: {len(texts)}, not {len(each)}")
        offsets = [each[place] for place in places]
    if len(places):
        some, found, told = texts.some(places), rows[places], statuses[places]
        read(some, offsets, found, told)
        rows[places], statuses[places] = found, told


def _read_plain_texts(texts: Texts, offsets: Any, rows: Any, statuses: Any) -> None:
    items = texts.texts if texts.spans is None else [texts.at(place) for place in range(len(texts))]
    columns.moments_from_each_plain_text(items, offsets, rows, statuses)


def _read_plain_by_pattern(pattern: str, texts: Texts, offsets: Any, rows: Any, statuses: Any) -> None:
    shown = _read_by_pattern(texts, pattern, _formats.PLAIN_DATE_TIME, rows, statuses)
    one = one_offset(offsets)
    shown["offset_seconds"] = one if one is not None else _batch._list_of(offsets, None)
    _write_moments(shown, rows, statuses)


def rows_of_texts(texts: Texts, is_coerced: bool, pattern: Optional[str] = None, offset_seconds: Any = None) -> Any:
    """The rows of texts of RFC 3339, or of a format description. With an offset a text can lack
    its own. An invalid text is a gap, or the error of the first."""
    rows, statuses = numpy.zeros(len(texts), ROW), numpy.zeros(len(texts), "uint32")
    if pattern is None:
        columns.moments_from_each_rfc3339(texts.texts, texts.spans, rows, statuses)
    else:
        _write_moments(_read_by_pattern(texts, pattern, _formats.OFFSET_DATE_TIME, rows, statuses), rows, statuses)
    if offset_seconds is not None:
        read: Callable[..., None] = _read_plain_texts
        if pattern is not None:
            read = functools.partial(_read_plain_by_pattern, pattern)
        _read_without_offset(read, texts, offset_seconds, rows, statuses)
    if texts.has_gaps and statuses.any():
        statuses[(texts.spans["length"] == 0)] = MISSING
    failed = statuses != 0
    if failed.any():
        faults = numpy.flatnonzero(failed & (statuses != MISSING))
        if len(faults) and not is_coerced:
            place = int(faults[0])
            raise _refusal_by(pattern, offset_seconds is None, int(statuses[place]), place, texts.at(place))
        rows[failed] = GAP
    return rows


def _refusal_by(pattern: Optional[str], has_offset: bool, status: int, row: int, text: Any) -> Refused:
    """The error of a text of RFC 3339, or of a format description: of that with its reason."""
    if pattern is None:
        return _refusal_of(status, row, text)
    try:
        _formats.parse_value(_formats.OFFSET_DATE_TIME if has_offset else _formats.PLAIN_DATE_TIME, text, pattern)
    except Refused as refused:
        return type(refused)(row, text, refused.place, refused.reason)
    return REFUSALS[status](row, text)

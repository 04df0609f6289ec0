"""Texts of RFC 3339: the fault of one, reads of many with a status each, writes of many."""

from __future__ import annotations

import ctypes
import functools
from typing import TYPE_CHECKING, Any, Callable, Literal, Optional, Sequence, Union, overload

from . import _columns, _datetime64, _formats, _missing
from ._batch import _block, _is_like_numpy, _pack, _reading, _room, _sequence, _structures, _test
from ._batch import _texts_of, _writing, timestamps_from_rfc3339
from . import _extension as engine
from ._types import DateTimes, DateTimesOr, DateTimesWithGaps, NumbersOr, NumPyOr, Out, Spans, SupportsArray, TextsWithGaps, Told
from ._values import OffsetDateTime
from ._structures import MuxanduDateTime, MuxanduMoment, MuxanduSpan

if TYPE_CHECKING:
    import numpy

# The bytes of the longest text of RFC 3339 that is written.
_MOST = 35


def rfc3339_fault(text: Union[str, bytes]) -> int:
    """The index of the byte at fault in a text that fails with RefusedSyntax. No date-time of RFC
    3339 continues with that byte; or the text ends there, too early. For a text that has the form
    it is the number of its bytes."""
    return engine.rfc3339_fault(text)


def _read_each(
    call: Callable[..., tuple[int, int]], texts: Any, spans: Any, kind: Any, out: Any, statuses: Any
) -> tuple[Any, Any]:
    """`out` and `statuses`, or new arrays, with the value and the status of each text."""
    if isinstance(texts, str):
        raise TypeError("a block of texts must be bytes, not a str")
    missing: list[int] = []
    if spans is None:
        each = list(_sequence(texts))
        missing = _missing.places_of(each)
        for place in missing:
            each[place] = b""
        read, where, count = _pack(each)
    else:
        read, where, count = _block(texts, spans)
    is_like_numpy = _is_like_numpy(texts if spans is None else spans)
    if out is None:
        out = _room(count, kind, is_like_numpy)
    if statuses is None:
        statuses = _room(count, ctypes.c_uint32, is_like_numpy)
    made, told = _writing(out, kind), _writing(statuses, ctypes.c_uint32)
    if not made.is_apart_from(told):
        raise ValueError("`out` and `statuses` must not overlap")
    block = read.apart_from(made, told)
    done, status = call(block, read.count, where, count, made.data, made.count, told.data, told.count)
    _test(status, done)
    _missing.mark(statuses, missing)
    return out, statuses


@overload
def date_times_from_each_rfc3339(
    texts: SupportsArray, spans: None = None, out: Optional[Out] = None, statuses: Optional[Told] = None
) -> tuple[NumPyOr[Out], NumPyOr[Told]]:
    ...


@overload
def date_times_from_each_rfc3339(
    texts: Any, spans: SupportsArray, out: Optional[Out] = None, statuses: Optional[Told] = None
) -> tuple[NumPyOr[Out], NumPyOr[Told]]:
    ...


@overload
def date_times_from_each_rfc3339(
    texts: TextsWithGaps, spans: Optional[Spans] = None, out: Optional[Out] = None, statuses: Optional[Told] = None
) -> tuple[DateTimesOr[Out], NumbersOr[Told]]:
    ...


def date_times_from_each_rfc3339(texts: Any, spans: Any = None, out: Any = None, statuses: Any = None) -> tuple[Any, Any]:
    """The date-time and the offset of each text of RFC 3339, and the status of each: 0, or the
    `status` of its error, or MISSING for None, NaN, NA and a masked item. An item with a status
    leaves its place in `out` as it was. The texts are as timestamps_from_rfc3339 takes them."""
    return _read_each(engine.date_times_from_each_rfc3339, texts, spans, MuxanduDateTime, out, statuses)


def date_times_from_each_text(
    texts: Any, pattern: str, spans: Any = None, out: Any = None, statuses: Any = None
) -> tuple[Any, Any]:
    """The date-time and the offset of each text by a format description, and the status of each, as
    date_times_from_each_rfc3339 returns them."""
    described = _formats.of_pattern(pattern)
    call = functools.partial(engine.parse_each, _formats.OFFSET_DATE_TIME, described.items, described.size)
    return _read_each(call, texts, spans, MuxanduDateTime, out, statuses)


def datetime64_from_rfc3339(
    texts: TextsWithGaps, spans: Any = None, unit: str = "ns", errors: str = "raise"
) -> numpy.ndarray[Any, Any]:
    """The array of NumPy's datetime64 of the instants of texts of RFC 3339, rounded down to a unit.

    With errors="coerce" a text that is invalid or missing, and an instant that does not fit in 64
    bits, are NaT. Else the first raises its error. The texts are as timestamps_from_rfc3339 takes
    them.
    """
    each: Any = list(_sequence(texts)) if spans is None else texts
    count = len(each if spans is None else memoryview(spans))
    out: Any = _datetime64.new_array(count, unit)
    if not _datetime64.test_errors(errors):
        return timestamps_from_rfc3339(each, spans, out)
    rows: Any = _room(count, MuxanduMoment, True)
    rows, statuses = _read_each(
        engine.moments_from_each_rfc3339, each, spans, MuxanduMoment, rows, _room(count, ctypes.c_uint32, True)
    )
    return _datetime64.coerce(out, rows["seconds"], rows["nanoseconds"], statuses == 0)[0]


@overload
def rfc3339_from_date_times(date_times: DateTimes, errors: Literal["raise"] = "raise") -> list[str]:
    ...


@overload
def rfc3339_from_date_times(date_times: DateTimesWithGaps, errors: Literal["coerce"]) -> list[Optional[str]]:
    ...


@overload
def rfc3339_from_date_times(date_times: DateTimesWithGaps, errors: str) -> Sequence[Optional[str]]:
    ...


def rfc3339_from_date_times(date_times: Any, errors: str = "raise") -> Any:
    """The shortest text of RFC 3339 of each date-time, with its offset: of a buffer of
    DateTimeParts, or of a sequence of OffsetDateTime. With errors="coerce" an item that is missing,
    and one that has no such text, is None. Else the first raises its error."""
    if _datetime64.test_errors(errors):
        return _rfc3339_or_none(_reading(_columns.date_times_in(date_times).rows, MuxanduDateTime))
    made = _texts_of(date_times, OffsetDateTime)
    if made is not None:
        return made
    source = _reading(_structures(date_times, MuxanduDateTime, OffsetDateTime), MuxanduDateTime)
    block, spans = bytearray(_MOST * source.count), (MuxanduSpan * source.count)()
    done, status = engine.date_times_to_rfc3339(source.data, source.count, block, len(block), spans, source.count)
    _test(status, done)
    return engine.texts_at_spans(block, len(block), spans, source.count, b"", 0)


def _rfc3339_or_none(source: Any) -> list[Optional[str]]:
    """The text of each date-time of a buffer, or None for one that has none."""
    count = source.count
    block, spans, statuses = bytearray(_MOST * count), (MuxanduSpan * count)(), (ctypes.c_uint32 * count)()
    done, status = engine.each_date_time_to_rfc3339(source.data, count, block, len(block), spans, count, statuses, count)
    _test(status, done)
    return engine.texts_at_spans(block, len(block), spans, count, statuses, count)


def texts_from_date_times(date_times: DateTimes, pattern: str) -> list[str]:
    """The text of each date-time by a format description: of a buffer of DateTimeParts, or of a
    sequence of OffsetDateTime."""
    described = _formats.of_pattern(pattern)
    source = _reading(_structures(date_times, MuxanduDateTime, OffsetDateTime), MuxanduDateTime)
    block, spans = bytearray(_formats.MOST_BYTES * source.count), (MuxanduSpan * source.count)()
    items = (_formats.OFFSET_DATE_TIME, described.items, described.size)
    done, status = engine.format_all(*items, source.data, source.count, block, len(block), spans, source.count)
    _test(status, done)
    texts: Any = engine.texts_at_spans(block, len(block), spans, source.count, b"", 0)
    return texts

"""Columns of moments as calls take them: buffers, the places of their gaps, and the calls over
them."""

from __future__ import annotations

import ctypes
import datetime
import sys
from typing import Any, Callable, Optional, SupportsIndex

from . import _batch, _buffers, _datetime64, _missing
from . import _extension as _engine
from ._refusals import RefusedBuffer
from ._values import Duration, OffsetDateTime, _parts
from ._words import limit, to_int
from ._structures import MuxanduDateTime, MuxanduDuration, MuxanduMoment

# The seconds of a gap, which are those of no instant.
NO_SECOND = -(2**63)

# The rows of a block. A call reads one item for all rows of a column from a buffer of so many.
BLOCK = 16_384

# A moment and a duration that each call rejects.
_NO_MOMENT, _NO_DURATION = MuxanduMoment(NO_SECOND), MuxanduDuration(2**63 - 1, 2**31 - 1)


class Column:
    """A buffer of a kind, the places of its gaps, and the items that a caller gave. `count` is the
    number of rows if they all have one item."""

    def __init__(self, rows: Any, kind: Any, like: Any, gaps: Any = (), count: Optional[int] = None) -> None:
        self.rows, self.kind, self.like, self.gaps, self.count = rows, kind, like, gaps, count


def _of_one(structure: Any, like: Any, count: int) -> Column:
    """A column with the same structure in each row."""
    kind, held = type(structure), min(count, BLOCK)
    return Column((kind * held).from_buffer_copy(bytes(structure) * held), kind, like, count=count)


def _sequence(values: Any) -> tuple[list[Any], list[int]]:
    """The items of a sequence, and the places of its gaps."""
    items = list(values)
    return items, _missing.places_of(items)


def _buffer_of(rows: Any, masked: Any, kind: Any, gap: Any) -> Any:
    """A buffer of a kind, with a gap in place of each row that was masked."""
    if len(masked):
        _buffers.of_kind(_buffers.row(rows), kind)
        rows[masked] = tuple(getattr(gap, name) for name, _ in kind._fields_)
    return rows


def _rows_of_values(values: list[Any]) -> Any:
    """The moments of OffsetDateTime values."""
    parts = _batch._structures(values, MuxanduDateTime, OffsetDateTime)
    return convert_all(_engine.moments_from_date_times, (Column(parts, MuxanduDateTime, values),), MuxanduMoment, None)


def moments_in(moments: Any) -> Column:
    """The moments of a buffer of MomentParts, or of a sequence of OffsetDateTime."""
    known, masked = _missing.fill_masked(moments, None)
    known = _batch._as_array(known)
    if _batch._is_buffer(known):
        return Column(_buffer_of(known, masked, MuxanduMoment, _NO_MOMENT), MuxanduMoment, moments)
    items, gaps = _sequence(known)
    epoch = OffsetDateTime(1970, 1, 1)
    for place in gaps:
        items[place] = epoch
    rows = _rows_of_values(items)
    for place in gaps:
        rows[place] = _NO_MOMENT
    return Column(rows, MuxanduMoment, moments)


def others_in(moments: Any, count: int) -> Column:
    """A second column of moments, or one moment for all rows."""
    if isinstance(moments, OffsetDateTime):
        return _of_one(_rows_of_values([moments])[0], moments, count)
    return moments_in(moments)


def _of_timedelta64(lengths: Any) -> tuple[Any, Any]:
    """The durations of an array of timedelta64, and the places of NaT."""
    import numpy

    seconds, nanoseconds, gaps = _datetime64.lengths(lengths)
    rows: Any = numpy.zeros(len(seconds), numpy.dtype(MuxanduDuration))
    rows["seconds"], rows["nanoseconds"] = seconds, nanoseconds
    rows[gaps] = (_NO_DURATION.seconds, _NO_DURATION.nanoseconds)
    return rows, numpy.flatnonzero(gaps)


def durations_in(durations: Any, count: int) -> Column:
    """The durations of a buffer of DurationParts, of timedelta64, or of a sequence; one Duration or
    timedelta is for all rows."""
    if isinstance(durations, (Duration, datetime.timedelta)) and not _missing.is_missing(durations):
        return _of_one(MuxanduDuration(*_parts(Duration.of(durations), "seconds", "nanoseconds")), durations, count)
    known, masked = _missing.fill_masked(durations, None)
    known = _batch._as_array(known)
    if getattr(getattr(known, "dtype", None), "kind", "") == "m":
        rows, gaps = _of_timedelta64(known)
        return Column(rows, MuxanduDuration, durations, gaps)
    if _batch._is_buffer(known):
        return Column(_buffer_of(known, masked, MuxanduDuration, _NO_DURATION), MuxanduDuration, durations, masked)
    items, gaps = _sequence(known)
    rows = (MuxanduDuration * len(items))()
    missing = set(gaps)
    for place, item in enumerate(items):
        parts = (0, 0) if place in missing else _parts(Duration.of(item), "seconds", "nanoseconds")
        rows[place] = _NO_DURATION if place in missing else MuxanduDuration(*parts)
    return Column(rows, MuxanduDuration, durations, gaps)


def _sources(columns: tuple[Column, ...]) -> list[Any]:
    """The buffers of columns of one length."""
    sources = [_batch._reading(column.rows, column.kind) for column in columns]
    counts = [source.count if column.count is None else column.count for source, column in zip(sources, columns)]
    if len(set(counts)) > 1:
        raise ValueError(f"columns must have one length, not {' and '.join(map(str, counts))}")
    return sources


def _rows_in(items: Any, data: Any, start: int, stop: int) -> tuple[Any, int]:
    """These rows of a buffer, and their number."""
    size = ctypes.sizeof(items.kind)
    return memoryview(data).cast("B")[start * size : stop * size], stop - start


def _call_by_blocks(
    call: Callable[..., tuple[int, int]],
    columns: tuple[Column, ...],
    sources: list[Any],
    reads: list[Any],
    places: list[Any],
    *words: Any,
) -> tuple[int, int]:
    """The results of a call that is made for a block of rows at a time, up to the first block with
    an error."""
    count, done = sources[0].count, 0
    if any(place.count < count for place in places):
        return 0, RefusedBuffer.status
    for start in range(0, count, BLOCK):
        stop = min(start + BLOCK, count)
        given: list[Any] = []
        for column, source, read in zip(columns, sources, reads):
            given += _rows_in(source, read, *((start, stop) if column.count is None else (0, stop - start)))
        taken = [word for place in places for word in _rows_in(place, place.data, start, stop)]
        more, status = call(*given, *words, *taken)
        done += more
        if status:
            return done, status
    return done, 0


def _call_over(
    call: Callable[..., tuple[int, int]],
    columns: tuple[Column, ...],
    sources: list[Any],
    reads: list[Any],
    places: list[Any],
    *words: Any,
) -> tuple[int, int]:
    """The count and the status of a call over columns."""
    if any(column.count is not None for column in columns):
        return _call_by_blocks(call, columns, sources, reads, places, *words)
    given = [word for source, read in zip(sources, reads) for word in (read, source.count)]
    return call(*given, *words, *(word for place in places for word in (place.data, place.count)))


def convert_all(call: Callable[..., tuple[int, int]], columns: tuple[Column, ...], made: Any, out: Any, *words: Any) -> Any:
    """`out`, or a new array, with the results of a call for each row."""
    sources = _sources(columns)
    if out is None:
        out = _batch._room(sources[0].count, made, _batch._is_like_numpy(columns[0].like))
    place = _batch._writing(out, made)
    reads = [source.apart_from(place) for source in sources]
    done, status = _call_over(call, columns, sources, reads, [place], *words)
    _batch._test(status, done)
    return out


def convert_each(
    call: Callable[..., tuple[int, int]], columns: tuple[Column, ...], made: Any, out: Any, statuses: Any, *words: Any
) -> tuple[Any, Any]:
    """`out` and `statuses`, or new arrays, with the result and the status of each row."""
    sources, is_like_numpy = _sources(columns), _batch._is_like_numpy(columns[0].like)
    if out is None:
        out = _batch._room(sources[0].count, made, is_like_numpy)
    if statuses is None:
        statuses = _batch._room(sources[0].count, ctypes.c_uint32, is_like_numpy)
    place, told = _batch._writing(out, made), _batch._writing(statuses, ctypes.c_uint32)
    if not place.is_apart_from(told):
        raise ValueError("`out` and `statuses` must not overlap")
    # The call does not write over what it reads, so the gaps are in there after it too.
    reads = [source.apart_from(place, told) for source in sources]
    done, status = _call_over(call, columns, sources, reads, [place, told], *words)
    _batch._test(status, done)
    if done < sources[0].count:
        for column, read in zip(columns, reads):
            _missing.mark(statuses, _gaps(column, read) if column.count is None else ())
    return out, statuses


def _gaps(column: Column, read: Any) -> Any:
    """The places of the gaps of a column, of which a call has read these rows."""
    if column.kind is not MuxanduMoment:
        return column.gaps
    if "numpy" in sys.modules:
        import numpy

        return numpy.flatnonzero(numpy.frombuffer(read, numpy.dtype(MuxanduMoment))["seconds"] == NO_SECOND)
    seconds = memoryview(read).cast("B").cast("q")[::2]
    return [place for place, second in enumerate(seconds) if second == NO_SECOND]


def date_times_in(date_times: Any) -> Column:
    """The date-times of a buffer of DateTimeParts, or of a sequence of OffsetDateTime."""
    known, masked = _missing.fill_masked(date_times, None)
    known = _batch._as_array(known)
    if _batch._is_buffer(known):
        return Column(known, MuxanduDateTime, date_times, masked)
    items, gaps = _sequence(known)
    return Column(_batch._structures(items, MuxanduDateTime, OffsetDateTime, set(gaps)), MuxanduDateTime, date_times, gaps)


def summands(moments: Any, durations: Any) -> tuple[Column, Column]:
    """A column of moments, and one of durations, or a duration for all rows."""
    column = moments_in(moments)
    return column, durations_in(durations, len(memoryview(column.rows)))


def two_columns(firsts: Any, others: Any) -> tuple[Column, Column]:
    """Two columns of moments, or a column and a moment for all rows."""
    column = moments_in(firsts)
    return column, others_in(others, len(memoryview(column.rows)))


def offset_number(offset_seconds: Any) -> int:
    """The seconds of an offset, or those that the call rejects."""
    return limit(getattr(offset_seconds, "whole_seconds", lambda: offset_seconds)(), ctypes.c_int32)


def number_of_unit(unit: SupportsIndex) -> int:
    """The number of a unit, or one that the call rejects."""
    number = to_int(unit)
    return number if 0 <= number < 2**32 else 2**32 - 1

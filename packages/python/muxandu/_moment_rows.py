"""The rows of columns of moments for pandas: read from values, moved, counted, and made objects."""

from __future__ import annotations

import contextlib
import datetime
from typing import Any

import numpy
import pandas

from . import _extension as _engine
from . import MISSING, OffsetDateTime, Refused, RefusedSyntax, RefusedTimestamp, Timestamp, UtcDateTime, columns
from ._blocks import BLOCK, GAP, ROW, in_place
from ._datetime64 import split
from ._missing import places_of
from ._refusals import REFUSALS
from ._text_rows import Texts, read_own_texts
from .columns import NO_SECOND

LAST_SECOND = Timestamp.MAX.seconds

# The whole seconds of the first lengths whose nanoseconds may not fit in 64 bits, and the nanoseconds of NaT.
FIRST_LONG, NO_LENGTH = 9_223_372_036, -(2**63)

# What a row compares with.
MOMENTS = (OffsetDateTime, UtcDateTime, Timestamp, datetime.datetime, numpy.datetime64, str)


def wide(rows: Any) -> Any:
    """The same rows as items of 16 bytes, which NumPy moves whole."""
    return rows.view("V16")


def are_gaps(rows: Any) -> Any:
    """Which rows are gaps."""
    return rows["seconds"] == NO_SECOND


def copy_with_gaps(rows: Any) -> tuple[Any, Any]:
    """A copy of rows, and the places of the gaps. Each block is read once."""
    made, found, room = numpy.empty(len(rows), ROW), [], numpy.empty(BLOCK, "int64")
    for start in range(0, len(rows), BLOCK):
        block = slice(start, start + BLOCK)
        wide(made)[block] = wide(rows)[block]
        count = _engine.places_of_gaps(made[block], len(made[block]), room, BLOCK)
        found.append(start + room[:count])
    return made, numpy.concatenate([numpy.zeros(0, "intp"), *found])


def nanoseconds_of(rows: Any) -> Any:
    """The nanoseconds of each instant from 1970 on, and those of NaT for a gap. None if a row is
    outside the years 1677 to 2262."""
    counts = numpy.empty(len(rows), "int64")
    done = _engine.nanoseconds_from_moments(in_place(rows), len(rows), counts, len(rows))
    return counts if done == len(rows) else None


def rows_of_arrow(chunk: Any) -> Any:
    """The rows of a chunk of structures of Arrow."""
    rows = numpy.zeros(len(chunk), ROW)
    for name in ROW.names or ():
        rows[name] = chunk.field(name).to_numpy(zero_copy_only=False)
    rows[chunk.is_null().to_numpy(zero_copy_only=False)] = GAP
    return rows


def as_date_time(value: Any) -> OffsetDateTime:
    """A value as a date-time at an offset. A text is one of RFC 3339, or that of `str`."""
    if isinstance(value, OffsetDateTime):
        return value
    if isinstance(value, (Timestamp, UtcDateTime)):
        return value.to_offset(0)
    if isinstance(value, str):
        return _of_text(value)
    if isinstance(value, numpy.datetime64) or isinstance(value, datetime.datetime) and value.utcoffset() is None:
        raise ValueError(f"{value!r} has no offset: give it one, as pandas.Timestamp(..).tz_localize does")
    if isinstance(value, datetime.datetime):
        return OffsetDateTime.from_datetime(value)
    raise TypeError(f"an item must be an OffsetDateTime, a datetime with an offset or a text, not {type(value).__name__}")


def _of_text(text: str) -> OffsetDateTime:
    """The date-time of a text, as a column reads it. The error of a text of another form has the
    byte at which it is no RFC 3339."""
    try:
        return OffsetDateTime.from_rfc3339(text)
    except RefusedSyntax:
        with contextlib.suppress(Refused):
            return OffsetDateTime.from_text(text)
        raise


def refuse_naive(values: Any) -> None:
    """Raises a ValueError for a column of datetime64 without an offset, which shows the clocks of a
    zone that only its owner knows."""
    dtype = getattr(values, "dtype", None)
    if getattr(dtype, "kind", "") == "M" and getattr(dtype, "tz", None) is None:
        raise ValueError('a column of datetime64 has no offset: give it a zone, as .dt.tz_localize("UTC") does')


def is_zoned(values: Any) -> bool:
    """Whether it is an array of pandas with a time zone."""
    is_own = isinstance(getattr(values, "dtype", None), pandas.DatetimeTZDtype)
    return is_own and not isinstance(values, (pandas.Series, pandas.Index))


def _rows_of_datetime64(values: Any) -> Any:
    """The rows of an array of datetime64, in UTC. RefusedTimestamp of the first that is out of
    range."""
    rows, gaps = numpy.zeros(len(values), ROW), numpy.isnat(values)
    seconds, rows["nanoseconds"] = split(values)
    is_far = ~gaps & ((seconds < Timestamp.MIN.seconds) | (seconds > LAST_SECOND))
    if is_far.any():
        raise RefusedTimestamp(int(is_far.argmax()))
    rows["seconds"] = seconds
    rows[gaps] = GAP
    return rows


def _rows_of_zoned(values: Any) -> Any:
    """The rows of a column of pandas with a time zone, each at the offset that its clocks have
    then."""
    index = pandas.DatetimeIndex(values)
    instants, walls = (numpy.asarray(one.tz_localize(None)) for one in (index.tz_convert("UTC"), index))
    rows = _rows_of_datetime64(instants)
    known = ~numpy.asarray(index.isna())
    rows["offset_seconds"][known] = (walls - instants)[known].astype("m8[s]").astype("int64")
    return rows


def check(rows: Any, statuses: Any) -> Any:
    """The rows of a call of `each`, in which a gap stays a gap. The first other error is raised."""
    columns.first_error(statuses)
    if statuses.any():
        rows[statuses == MISSING] = GAP
    return rows


def rows_of_items(items: list[Any]) -> Any:
    """The rows of texts, or of date-times."""
    made = numpy.zeros(len(items), ROW)
    if _engine.moments_from_items(items, made, pandas.NA) == len(items):
        return made
    gaps, rows = numpy.zeros(len(items), bool), numpy.zeros(len(items), ROW)
    gaps[places_of(items)] = True
    if all(gap or isinstance(item, str) for gap, item in zip(gaps, items)):
        statuses = numpy.zeros(len(items), "uint32")
        columns.moments_from_each_rfc3339(items, out=rows, statuses=statuses)
        read_own_texts(Texts(items), rows, statuses)
        return check(rows, statuses)
    known = [as_date_time(item) for gap, item in zip(gaps, items) if not gap]
    if known:
        rows[~gaps] = columns.moments_from_date_times(known, numpy.zeros(len(known), ROW))
    rows[gaps] = GAP
    return rows


def rows_of(values: Any, copy: bool = False) -> Any:
    """The rows of a column: of moments, of an array of datetime64, which is in UTC, of a column of
    pandas with a time zone, of texts or of date-times."""
    if isinstance(values, (pandas.Series, pandas.Index)):
        values = values.array
    rows = getattr(values, "_rows", values)
    if isinstance(rows, numpy.ndarray) and rows.dtype == ROW:
        return wide(rows).copy().view(ROW) if copy else rows
    if isinstance(getattr(values, "dtype", None), pandas.DatetimeTZDtype):
        return _rows_of_zoned(values)
    if isinstance(values, numpy.ndarray) and values.dtype.kind == "M":
        return _rows_of_datetime64(values)
    refuse_naive(values)
    return rows_of_items(list(values))


def items_of(rows: Any) -> list[Any]:
    """The date-time of each row, and NA for a gap."""
    items, status = _engine.items_from_moments(numpy.ascontiguousarray(rows), len(rows), pandas.NA)
    if status:
        raise REFUSALS[status](len(items))
    return list(items)

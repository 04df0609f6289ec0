"""Columns of moments: each row is an instant and the offset of the clocks that show it, in 16
bytes.

A column is a buffer of MomentParts, such as an array of NumPy with that type of items. A sequence
of OffsetDateTime is copied into one. A gap is a row whose seconds are NO_SECOND, or an item that is
None, NaN, NA, NaT or masked.

A call returns `out`, or a new array, and raises the error of the first row that fails. A call of
`each` continues, and returns `out` and the status of each row: 0, the `status` of its error, or
MISSING for a gap. A row with a status leaves its place in `out` as it was.
"""

from __future__ import annotations

import ctypes
import sys
from typing import TYPE_CHECKING, Any, Optional, SupportsIndex, overload

from . import _arrow_reads, _batch, _plain_texts, _texts
from . import _extension as _engine
from ._arrow_writes import ArrowMoments
from ._columns import NO_SECOND, Column, convert_all, convert_each, date_times_in, moments_in, number_of_unit, offset_number
from ._columns import summands, two_columns
from ._missing import MISSING
from ._refusals import REFUSALS
from ._types import DateTimes, DateTimesOr, DateTimesWithGaps, Durations, DurationsOr, Moments, MomentsOr, NumbersOr, NumPyOr
from ._types import Offsets, OtherMoments, Out, Spans, SupportsArray, Texts, TextsWithGaps, Told, ZoneOrName
from ._values import OffsetDateTime
from ._words import limit
from ._structures import MuxanduDateTime
from ._structures import MuxanduDuration as DurationParts
from ._structures import MuxanduMoment as MomentParts

if TYPE_CHECKING:
    import numpy

__all__ = [
    "DurationParts",
    "MISSING",
    "MomentParts",
    "NO_SECOND",
    "arrow_from_moments",
    "date_times_from_each_moment",
    "date_times_from_moments",
    "each_moment_add",
    "each_moment_add_months",
    "each_moment_compare",
    "each_moment_difference",
    "each_moment_subtract",
    "each_moment_to_offset",
    "each_moment_truncate",
    "moments_add",
    "moments_add_months",
    "moments_compare",
    "moments_difference",
    "moments_from_arrow",
    "moments_from_date_times",
    "moments_from_each_date_time",
    "moments_from_each_plain_text",
    "moments_from_each_rfc3339",
    "moments_from_rfc3339",
    "moments_subtract",
    "moments_to_offset",
    "moments_to_zone",
    "moments_truncate",
]


@overload
def moments_from_date_times(date_times: SupportsArray, out: Optional[Out] = None) -> NumPyOr[Out]:
    ...


@overload
def moments_from_date_times(date_times: DateTimes, out: Optional[Out] = None) -> MomentsOr[Out]:
    ...


def moments_from_date_times(date_times: Any, out: Any = None) -> Any:
    """The moment of each date-time: items of MomentParts."""
    items = _batch._structures(date_times, MuxanduDateTime, OffsetDateTime)
    return convert_all(_engine.moments_from_date_times, (Column(items, MuxanduDateTime, date_times),), MomentParts, out)


@overload
def moments_from_each_date_time(
    date_times: SupportsArray, out: Optional[Out] = None, statuses: Optional[Told] = None
) -> tuple[NumPyOr[Out], NumPyOr[Told]]:
    ...


@overload
def moments_from_each_date_time(
    date_times: DateTimesWithGaps, out: Optional[Out] = None, statuses: Optional[Told] = None
) -> tuple[MomentsOr[Out], NumbersOr[Told]]:
    ...


def moments_from_each_date_time(date_times: Any, out: Any = None, statuses: Any = None) -> tuple[Any, Any]:
    """The moment of each date-time, and the status of each."""
    return convert_each(_engine.moments_from_each_date_time, (date_times_in(date_times),), MomentParts, out, statuses)


@overload
def moments_from_rfc3339(texts: SupportsArray, spans: None = None, out: Optional[Out] = None) -> NumPyOr[Out]:
    ...


@overload
def moments_from_rfc3339(texts: Any, spans: SupportsArray, out: Optional[Out] = None) -> NumPyOr[Out]:
    ...


@overload
def moments_from_rfc3339(texts: Texts, spans: Optional[Spans] = None, out: Optional[Out] = None) -> MomentsOr[Out]:
    ...


def moments_from_rfc3339(texts: Any, spans: Any = None, out: Any = None) -> Any:
    """The moment of each text of RFC 3339: items of MomentParts. The texts are a sequence of str or
    bytes, or one block of bytes with a buffer of Spans, the place of each text in it."""
    return _batch._read_texts(_engine.moments_from_rfc3339, texts, spans, MomentParts, out)[0]


@overload
def moments_from_each_rfc3339(
    texts: SupportsArray, spans: None = None, out: Optional[Out] = None, statuses: Optional[Told] = None
) -> tuple[NumPyOr[Out], NumPyOr[Told]]:
    ...


@overload
def moments_from_each_rfc3339(
    texts: Any, spans: SupportsArray, out: Optional[Out] = None, statuses: Optional[Told] = None
) -> tuple[NumPyOr[Out], NumPyOr[Told]]:
    ...


@overload
def moments_from_each_rfc3339(
    texts: TextsWithGaps, spans: Optional[Spans] = None, out: Optional[Out] = None, statuses: Optional[Told] = None
) -> tuple[MomentsOr[Out], NumbersOr[Told]]:
    ...


def moments_from_each_rfc3339(texts: Any, spans: Any = None, out: Any = None, statuses: Any = None) -> tuple[Any, Any]:
    """The moment of each text of RFC 3339, and the status of each. The texts are as
    moments_from_rfc3339 takes them."""
    return _texts._read_each(_engine.moments_from_each_rfc3339, texts, spans, MomentParts, out, statuses)


@overload
def moments_from_each_plain_text(
    texts: SupportsArray, offset_seconds: Offsets = 0, out: Optional[Out] = None, statuses: Optional[Told] = None
) -> tuple[NumPyOr[Out], NumPyOr[Told]]:
    ...


@overload
def moments_from_each_plain_text(
    texts: TextsWithGaps, offset_seconds: Offsets = 0, out: Optional[Out] = None, statuses: Optional[Told] = None
) -> tuple[MomentsOr[Out], NumbersOr[Told]]:
    ...


def moments_from_each_plain_text(
    texts: Any, offset_seconds: Offsets = 0, out: Any = None, statuses: Any = None
) -> tuple[Any, Any]:
    """The moment of each text of RFC 3339 without an offset, as 2024-02-29T12:34:56.5 or with a
    space for the T, and the status of each. The offset in seconds is one for all, or one for
    each."""
    parts, told = _plain_texts.date_times_of(texts, offset_seconds)
    column = Column(parts, MuxanduDateTime, texts)
    out, statuses = convert_each(_engine.moments_from_each_date_time, (column,), MomentParts, out, statuses)
    _plain_texts.copy_errors(statuses, told)
    return out, statuses


def moments_from_arrow(column: Any) -> numpy.ndarray[Any, Any]:
    """The moments of a column of Arrow, as an array of NumPy in which each null is a gap.

    The column has `__arrow_c_array__` or `__arrow_c_stream__`, as an array of pyarrow. Its items
    are structures of seconds: int64, nanoseconds: uint32 and offset_seconds: int32, or of at: a
    timestamp of any unit in a zone, and offset_seconds: int32. Of others the call raises TypeError.
    The first row out of range raises its error.
    """
    rows: numpy.ndarray[Any, Any] = _arrow_reads.rows_of_arrow(column)
    first_error(each_moment_compare(rows, rows)[1])
    return rows


def arrow_from_moments(moments: Moments) -> ArrowMoments:
    """The moments as a column of Arrow, with a null for each gap: an object that a library of Arrow
    takes. It needs NumPy, and copies the rows when a library asks for them."""
    import numpy

    rows = numpy.frombuffer(_batch._reading(moments_in(moments).rows, MomentParts).copy(), numpy.dtype(MomentParts))
    return ArrowMoments(rows, rows["seconds"] == NO_SECOND)


def first_error(statuses: Any) -> None:
    """Raises the error of the first row that failed and is no gap, with its place."""
    numpy = sys.modules.get("numpy")
    if numpy is None:
        places: Any = [place for place, status in enumerate(statuses) if status not in (0, MISSING)]
    else:
        told = numpy.asarray(statuses)
        places = numpy.flatnonzero((told != 0) & (told != MISSING)) if told.any() else ()
    if len(places):
        raise REFUSALS[int(statuses[int(places[0])])](int(places[0]))


@overload
def moments_to_zone(moments: SupportsArray, zone: ZoneOrName, out: Optional[Out] = None) -> NumPyOr[Out]:
    ...


@overload
def moments_to_zone(moments: Moments, zone: ZoneOrName, out: Optional[Out] = None) -> MomentsOr[Out]:
    ...


def moments_to_zone(moments: Any, zone: ZoneOrName, out: Any = None) -> Any:
    """The same instants on the clocks of a zone, each at the offset that the zone has then: of a
    Zone, or of the name of one."""
    return convert_all(_engine.moments_to_zone, (moments_in(moments),), MomentParts, out, zone)


# The calls, by make/python_calls. Do not edit.
@overload
def date_times_from_moments(moments: SupportsArray, out: Optional[Out] = None) -> NumPyOr[Out]:
    ...


@overload
def date_times_from_moments(moments: Moments, out: Optional[Out] = None) -> DateTimesOr[Out]:
    ...


def date_times_from_moments(moments: Any, out: Any = None) -> Any:
    """The date-time of each moment, at its own offset: items of DateTimeParts."""
    return convert_all(_engine.date_times_from_moments, (moments_in(moments),), MuxanduDateTime, out)


@overload
def date_times_from_each_moment(
    moments: SupportsArray, out: Optional[Out] = None, statuses: Optional[Told] = None
) -> tuple[NumPyOr[Out], NumPyOr[Told]]:
    ...


@overload
def date_times_from_each_moment(
    moments: Moments, out: Optional[Out] = None, statuses: Optional[Told] = None
) -> tuple[DateTimesOr[Out], NumbersOr[Told]]:
    ...


def date_times_from_each_moment(moments: Any, out: Any = None, statuses: Any = None) -> tuple[Any, Any]:
    """The date-time of each moment, at its own offset, and the status of each."""
    return convert_each(_engine.date_times_from_each_moment, (moments_in(moments),), MuxanduDateTime, out, statuses)


@overload
def moments_to_offset(moments: SupportsArray, offset_seconds: SupportsIndex, out: Optional[Out] = None) -> NumPyOr[Out]:
    ...


@overload
def moments_to_offset(moments: Moments, offset_seconds: SupportsIndex, out: Optional[Out] = None) -> MomentsOr[Out]:
    ...


def moments_to_offset(moments: Any, offset_seconds: SupportsIndex, out: Any = None) -> Any:
    """The same instants at another offset, in seconds."""
    return convert_all(_engine.moments_to_offset, (moments_in(moments),), MomentParts, out, offset_number(offset_seconds))


@overload
def each_moment_to_offset(
    moments: SupportsArray, offset_seconds: SupportsIndex, out: Optional[Out] = None, statuses: Optional[Told] = None
) -> tuple[NumPyOr[Out], NumPyOr[Told]]:
    ...


@overload
def each_moment_to_offset(
    moments: Moments, offset_seconds: SupportsIndex, out: Optional[Out] = None, statuses: Optional[Told] = None
) -> tuple[MomentsOr[Out], NumbersOr[Told]]:
    ...


def each_moment_to_offset(moments: Any, offset_seconds: SupportsIndex, out: Any = None, statuses: Any = None) -> tuple[Any, Any]:
    """The same instants at another offset, in seconds, and the status of each."""
    return convert_each(
        _engine.each_moment_to_offset, (moments_in(moments),), MomentParts, out, statuses, offset_number(offset_seconds)
    )


@overload
def moments_truncate(moments: SupportsArray, unit: SupportsIndex, out: Optional[Out] = None) -> NumPyOr[Out]:
    ...


@overload
def moments_truncate(moments: Moments, unit: SupportsIndex, out: Optional[Out] = None) -> MomentsOr[Out]:
    ...


def moments_truncate(moments: Any, unit: SupportsIndex, out: Any = None) -> Any:
    """Each moment, rounded down to a Unit by its own clocks."""
    return convert_all(_engine.moments_truncate, (moments_in(moments),), MomentParts, out, number_of_unit(unit))


@overload
def each_moment_truncate(
    moments: SupportsArray, unit: SupportsIndex, out: Optional[Out] = None, statuses: Optional[Told] = None
) -> tuple[NumPyOr[Out], NumPyOr[Told]]:
    ...


@overload
def each_moment_truncate(
    moments: Moments, unit: SupportsIndex, out: Optional[Out] = None, statuses: Optional[Told] = None
) -> tuple[MomentsOr[Out], NumbersOr[Told]]:
    ...


def each_moment_truncate(moments: Any, unit: SupportsIndex, out: Any = None, statuses: Any = None) -> tuple[Any, Any]:
    """Each moment, rounded down to a Unit by its own clocks, and the status of each."""
    return convert_each(_engine.each_moment_truncate, (moments_in(moments),), MomentParts, out, statuses, number_of_unit(unit))


@overload
def moments_add_months(moments: SupportsArray, months: SupportsIndex, out: Optional[Out] = None) -> NumPyOr[Out]:
    ...


@overload
def moments_add_months(moments: Moments, months: SupportsIndex, out: Optional[Out] = None) -> MomentsOr[Out]:
    ...


def moments_add_months(moments: Any, months: SupportsIndex, out: Any = None) -> Any:
    """Each moment a number of months later, or earlier if it is negative, at the same local time
    and offset; in a shorter month on its last day."""
    return convert_all(_engine.moments_add_months, (moments_in(moments),), MomentParts, out, limit(months, ctypes.c_int32))


@overload
def each_moment_add_months(
    moments: SupportsArray, months: SupportsIndex, out: Optional[Out] = None, statuses: Optional[Told] = None
) -> tuple[NumPyOr[Out], NumPyOr[Told]]:
    ...


@overload
def each_moment_add_months(
    moments: Moments, months: SupportsIndex, out: Optional[Out] = None, statuses: Optional[Told] = None
) -> tuple[MomentsOr[Out], NumbersOr[Told]]:
    ...


def each_moment_add_months(moments: Any, months: SupportsIndex, out: Any = None, statuses: Any = None) -> tuple[Any, Any]:
    """Each moment a number of months later, as moments_add_months has it, and the status of
    each."""
    return convert_each(
        _engine.each_moment_add_months, (moments_in(moments),), MomentParts, out, statuses, limit(months, ctypes.c_int32)
    )


@overload
def moments_add(moments: SupportsArray, durations: Durations, out: Optional[Out] = None) -> NumPyOr[Out]:
    ...


@overload
def moments_add(moments: Moments, durations: Durations, out: Optional[Out] = None) -> MomentsOr[Out]:
    ...


def moments_add(moments: Any, durations: Durations, out: Any = None) -> Any:
    """Each moment plus the duration at its place, or one duration for all."""
    return convert_all(_engine.moments_add, summands(moments, durations), MomentParts, out)


@overload
def each_moment_add(
    moments: SupportsArray, durations: Durations, out: Optional[Out] = None, statuses: Optional[Told] = None
) -> tuple[NumPyOr[Out], NumPyOr[Told]]:
    ...


@overload
def each_moment_add(
    moments: Moments, durations: Durations, out: Optional[Out] = None, statuses: Optional[Told] = None
) -> tuple[MomentsOr[Out], NumbersOr[Told]]:
    ...


def each_moment_add(moments: Any, durations: Durations, out: Any = None, statuses: Any = None) -> tuple[Any, Any]:
    """Each moment plus the duration at its place, or one duration for all, and the status of
    each."""
    return convert_each(_engine.each_moment_add, summands(moments, durations), MomentParts, out, statuses)


@overload
def moments_subtract(moments: SupportsArray, durations: Durations, out: Optional[Out] = None) -> NumPyOr[Out]:
    ...


@overload
def moments_subtract(moments: Moments, durations: Durations, out: Optional[Out] = None) -> MomentsOr[Out]:
    ...


def moments_subtract(moments: Any, durations: Durations, out: Any = None) -> Any:
    """Each moment minus the duration at its place, or one duration for all."""
    return convert_all(_engine.moments_subtract, summands(moments, durations), MomentParts, out)


@overload
def each_moment_subtract(
    moments: SupportsArray, durations: Durations, out: Optional[Out] = None, statuses: Optional[Told] = None
) -> tuple[NumPyOr[Out], NumPyOr[Told]]:
    ...


@overload
def each_moment_subtract(
    moments: Moments, durations: Durations, out: Optional[Out] = None, statuses: Optional[Told] = None
) -> tuple[MomentsOr[Out], NumbersOr[Told]]:
    ...


def each_moment_subtract(moments: Any, durations: Durations, out: Any = None, statuses: Any = None) -> tuple[Any, Any]:
    """Each moment minus the duration at its place, or one duration for all, and the status of
    each."""
    return convert_each(_engine.each_moment_subtract, summands(moments, durations), MomentParts, out, statuses)


@overload
def moments_compare(firsts: SupportsArray, others: OtherMoments, out: Optional[Out] = None) -> NumPyOr[Out]:
    ...


@overload
def moments_compare(firsts: Moments, others: OtherMoments, out: Optional[Out] = None) -> NumbersOr[Out]:
    ...


def moments_compare(firsts: Any, others: OtherMoments, out: Any = None) -> Any:
    """The order of each moment and the one at its place in `others`, or one for all: -1 if it comes
    first, 0 if both are one instant, else 1."""
    return convert_all(_engine.moments_compare, two_columns(firsts, others), ctypes.c_int32, out)


@overload
def each_moment_compare(
    firsts: SupportsArray, others: OtherMoments, out: Optional[Out] = None, statuses: Optional[Told] = None
) -> tuple[NumPyOr[Out], NumPyOr[Told]]:
    ...


@overload
def each_moment_compare(
    firsts: Moments, others: OtherMoments, out: Optional[Out] = None, statuses: Optional[Told] = None
) -> tuple[NumbersOr[Out], NumbersOr[Told]]:
    ...


def each_moment_compare(firsts: Any, others: OtherMoments, out: Any = None, statuses: Any = None) -> tuple[Any, Any]:
    """The order of each moment and the one at its place in `others`, or one for all, and the status
    of each."""
    return convert_each(_engine.each_moment_compare, two_columns(firsts, others), ctypes.c_int32, out, statuses)


@overload
def moments_difference(later: SupportsArray, earlier: OtherMoments, out: Optional[Out] = None) -> NumPyOr[Out]:
    ...


@overload
def moments_difference(later: Moments, earlier: OtherMoments, out: Optional[Out] = None) -> DurationsOr[Out]:
    ...


def moments_difference(later: Any, earlier: OtherMoments, out: Any = None) -> Any:
    """The duration to each moment from the one at its place in `earlier`, or from one for all:
    items of DurationParts."""
    return convert_all(_engine.moments_difference, two_columns(later, earlier), DurationParts, out)


@overload
def each_moment_difference(
    later: SupportsArray, earlier: OtherMoments, out: Optional[Out] = None, statuses: Optional[Told] = None
) -> tuple[NumPyOr[Out], NumPyOr[Told]]:
    ...


@overload
def each_moment_difference(
    later: Moments, earlier: OtherMoments, out: Optional[Out] = None, statuses: Optional[Told] = None
) -> tuple[DurationsOr[Out], NumbersOr[Told]]:
    ...


def each_moment_difference(later: Any, earlier: OtherMoments, out: Any = None, statuses: Any = None) -> tuple[Any, Any]:
    """The duration to each moment from the one at its place in `earlier`, or from one for all, and
    the status of each."""
    return convert_each(_engine.each_moment_difference, two_columns(later, earlier), DurationParts, out, statuses)

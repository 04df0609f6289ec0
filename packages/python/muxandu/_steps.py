"""Steps of time for columns of moments: rows that are rounded to them, and rows at each of them.

The calls of the library round each row down to its own day, and subtract one row from another. What
is left is a length, of which a step that divides a day has a whole number.
"""

from __future__ import annotations

from typing import Any, Callable, NamedTuple, Optional

import numpy
import pandas

from . import Date, Duration, OffsetDateTime, Unit, columns, days_in_month
from ._blocks import ROW, row_of

UNITS = {unit.name.lower(): unit for unit in Unit}

# The nanoseconds of a day.
_DAY = 86_400_000_000_000


class Span(NamedTuple):
    """A unit of the calendar: its first day, and the first of the next, from a day in it. With its
    months, and none for a week."""

    first: Callable[[Date], Date]
    after: Callable[[Date], Date]
    months: int


def _first_of_quarter(date: Date) -> Date:
    return date.replace(day=1).add_months(-((date.month - 1) % 3))


def _of_months(first: Callable[[Date], Date], months: int) -> Span:
    return Span(first, lambda date: first(date).add_months(months), months)


SPANS = {
    "week": Span(lambda date: date.add_days(-date.weekday()), lambda date: date.add_days(7 - date.weekday()), 0),
    "month": _of_months(lambda date: date.replace(day=1), 1),
    "quarter": _of_months(_first_of_quarter, 3),
    "year": _of_months(lambda date: date.replace(month=1, day=1), 12),
}

# What a column has of the dates of its rows, by the names that pandas has.
NUMBERS: dict[str, Callable[[Date], int]] = {
    **dict.fromkeys(("weekday", "dayofweek", "day_of_week"), Date.weekday),
    **dict.fromkeys(("dayofyear", "day_of_year"), lambda date: date.to_ordinal_date().ordinal),
    **dict.fromkeys(("days_in_month", "daysinmonth"), lambda date: days_in_month(date.year, date.month)),
    "quarter": lambda date: (date.month + 2) // 3,
}


def _is_first(name: str) -> Callable[[Date], bool]:
    return lambda date: SPANS[name].first(date) == date


def _is_last(name: str) -> Callable[[Date], bool]:
    return lambda date: SPANS[name].after(date) == date.add_days(1)


TRUTHS: dict[str, Callable[[Date], bool]] = {
    "is_leap_year": lambda date: days_in_month(date.year, 2) == 29,
    **{f"is_{name}_start": _is_first(name) for name in ("month", "quarter", "year")},
    **{f"is_{name}_end": _is_last(name) for name in ("month", "quarter", "year")},
}


def dates_of(array: Any) -> tuple[list[Optional[Date]], Any]:
    """The local dates of the rows, each once, None for the gaps, and the place of each row in
    these."""
    shown = array.parts()
    places, keys = pandas.factorize((shown["year"].astype("int64") << 16) | (shown["month"].astype("int64") << 8) | shown["day"])
    return [Date(key >> 16, key >> 8 & 255, key & 255) if key & 255 else None for key in map(int, keys)], places


def of_dates(array: Any, read: Callable[[Date], Any], kind: Any, gap: Any) -> Any:
    """The results of a call for the local date of each row. It is made once for each date."""
    return of_known_dates(dates_of(array), read, kind, gap)


def of_known_dates(known: tuple[list[Optional[Date]], Any], read: Callable[[Date], Any], kind: Any, gap: Any) -> Any:
    """The same of dates that are known."""
    dates, places = known
    values = numpy.full(len(dates), gap, kind)
    for place, date in enumerate(dates):
        if date is not None:
            values[place] = read(date)
    return values[places]


def _nanoseconds_of(step: Any) -> int:
    """The nanoseconds of a step: of a Unit or its name, of a frequency of pandas such as "15min",
    of a timedelta, or of a Duration."""
    unit = step.name if isinstance(step, Unit) else step
    try:
        if isinstance(unit, str) and unit.lower() in UNITS:
            whole = pandas.Timedelta(1, unit.lower()).value
        else:
            whole = unit.whole_nanoseconds() if isinstance(unit, Duration) else pandas.tseries.frequencies.to_offset(unit).nanos
    except (AttributeError, TypeError, ValueError):
        whole = 0
    if whole < 1:
        raise ValueError(f'a step is one of {", ".join([*UNITS, *SPANS])}, or a length such as "15min", not {step!r}')
    return int(whole)


def _divisor_of(step: Any) -> int:
    """The nanoseconds of a step that divides a day."""
    whole = _nanoseconds_of(step)
    if _DAY % whole:
        raise ValueError(f"a step must divide a day, as 15min and 6h do, and {step!r} does not")
    return whole


def _span_of(step: Any) -> Optional[Span]:
    return SPANS.get(step.lower()) if isinstance(step, str) else None


def _days_to(array: Any, end: Callable[[Date], Date]) -> Any:
    """The timedelta64 from the date of each row to another."""
    days = of_dates(array, lambda date: end(date).day_number() - date.day_number(), "int64", 0)
    return days.astype("m8[D]").astype("m8[s]")


def _past(array: Any, low: Any) -> Any:
    """The nanoseconds by which each row is past another, and 0 of a gap."""
    return numpy.where(array.isna(), 0, numpy.asarray(array.since(low)).view("int64"))


def floor(array: Any, step: Any) -> Any:
    """Each row, rounded down to a step by its own clocks."""
    span, unit = _span_of(step), UNITS.get(step.lower()) if isinstance(step, str) else step
    if isinstance(unit, int):
        return array.truncated_to(unit)
    day = array.truncated_to(Unit.DAY)
    if span:
        return day + _days_to(day, span.first)
    return array - (_past(array, day) % _divisor_of(step)).view("m8[ns]")


def ceil(array: Any, step: Any) -> Any:
    """Each row, rounded up to a step by its own clocks."""
    low, span = floor(array, step), _span_of(step)
    is_past = (array > low).to_numpy(bool, na_value=False)
    if span:
        return low + numpy.where(is_past, _days_to(low, span.after), numpy.timedelta64(0, "s"))
    return low + numpy.where(is_past, _divisor_of(step), 0).view("m8[ns]")


def nearest(array: Any, step: Any) -> Any:
    """Each row at the nearest step by its own clocks. From the middle of two it is at the one that
    is an even number of steps from 1970 on, as pandas rounds."""
    if _span_of(step):
        raise ValueError(f"weeks, months, quarters and years have no nearest one: use floor or ceil to a {step}")
    whole, low = _divisor_of(step), floor(array, step)
    steps = _past(low, low.truncated_to(Unit.DAY)) // whole
    is_odd = (of_dates(array, Date.day_number, "int64", 0) * (_DAY // whole) + steps) % 2 == 1
    twice = 2 * _past(array, low)
    return low + numpy.where((twice > whole) | ((twice == whole) & is_odd), whole, 0).view("m8[ns]")


def rows_from(start: OffsetDateTime, end: Optional[OffsetDateTime], count: Optional[int], step: Any) -> Any:
    """The rows of moments at each step from a first one on, at its offset: a count of them, or
    up to a last one. Months are counted from the first one."""
    span = _span_of(step)
    if span and span.months:
        return _rows_by_months(start, end, count, span.months)
    whole = 7 * _DAY if span else _nanoseconds_of(step)
    if count is None and end is not None:
        count = max((end - start).whole_nanoseconds() // whole + 1, 0)
    unit, size = ("s", whole // 10**9) if whole % 10**9 == 0 else ("ns", whole)
    if (count or 0) * size >= 2**63:
        raise OverflowError(f"{count} steps of {step} have no timedelta64: take a step of whole seconds, or fewer")
    rows = numpy.full(count or 0, numpy.array(row_of(start), ROW))
    return columns.moments_add(rows, (size * numpy.arange(len(rows))).view(f"m8[{unit}]"), rows)


def _rows_by_months(start: OffsetDateTime, end: Optional[OffsetDateTime], count: Optional[int], months: int) -> Any:
    """The rows at each of some months: a count of them, or up to a last one."""
    rows: list[Any] = []
    one = numpy.array([row_of(start)], ROW)
    while count is None or len(rows) < count:
        row = columns.moments_add_months(one, len(rows) * months)
        if end is not None and columns.moments_compare(row, end)[0] > 0:
            break
        rows.append(row)
    return numpy.concatenate(rows) if rows else one[:0]

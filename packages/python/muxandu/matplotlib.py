"""Makes an axis of matplotlib take date-times and instants: import this module where a program
plots them.

>>> import muxandu.matplotlib
>>> from matplotlib import pyplot
>>> lines = pyplot.plot([muxandu.OffsetDateTime(2024, 2, 29)], [1])

The axis shows the instants in UTC, to the microsecond. A gap after the first item is not drawn.
"""

from __future__ import annotations

from typing import Any

import matplotlib.dates
import matplotlib.units
import numpy

from . import OffsetDateTime, Timestamp, UtcDateTime, datetime64_from_timestamps

__all__: list[str] = []

_CLOCKS = (OffsetDateTime, UtcDateTime)


def _is_one(value: Any) -> bool:
    return isinstance(value, (*_CLOCKS, Timestamp))


class _Converter(matplotlib.dates.DateConverter):
    """The days from 1970 on of date-times and instants, as matplotlib has them of its own dates."""

    @staticmethod
    def convert(value: Any, unit: Any, axis: Any) -> Any:
        items = [value] if _is_one(value) else list(numpy.atleast_1d(value))
        if not any(map(_is_one, items)):
            return matplotlib.dates.date2num(value)
        instants = [item.to_timestamp() if isinstance(item, _CLOCKS) else item for item in items]
        days = matplotlib.dates.date2num(datetime64_from_timestamps(instants, "us", "coerce"))
        return days[0] if _is_one(value) else days

    @staticmethod
    def default_units(x: Any, axis: Any) -> Any:
        return None


for _kind in (*_CLOCKS, Timestamp):
    matplotlib.units.registry[_kind] = _Converter()

"""Dates and times over the proleptic Gregorian calendar, the years -999999 to 999999, and Unix time
without leap seconds.

The calendar, the clocks, the sums of instants and the texts of RFC 3339 come from the library
muxandu. A prover accepts each of its functions. Tests cover conversions from and to Python's own
types, and all of Duration; no proof does.

Timestamp is an instant. OffsetDateTime is a date and time at an offset from UTC, UtcDateTime one in
UTC, PlainDateTime that of no known offset. Date is a day, Time a time of day, Duration a length of
time. An error of the library is a Refused, which is a ValueError; each has its class:

>>> from muxandu import Duration, OffsetDateTime, Timestamp
>>> at = Timestamp.from_rfc3339("2024-02-28T23:30:00-01:00")
>>> (at + Duration(86_400)).to_utc().to_rfc3339()
'2024-03-01T00:30:00Z'
>>> OffsetDateTime(2023, 2, 29)  # doctest: +ELLIPSIS
Traceback (most recent call last):
muxandu.RefusedDayOfMonth: DAY_OF_MONTH: ...: 29
"""

try:
    from . import _extension as _extension  # noqa: F401
except ImportError as problem:
    raise ImportError(f"muxandu cannot import its extension, which pip makes for CPython from 3.11 on: {problem}") from None

from . import _refusals
from ._batch import (
    date_times_from_each_second,
    date_times_from_microseconds,
    date_times_from_milliseconds,
    date_times_from_nanoseconds,
    date_times_from_rfc3339,
    date_times_from_seconds,
    dates_from_days,
    datetime64_from_timestamps,
    days_from_dates,
    microseconds_from_date_times,
    milliseconds_from_date_times,
    nanoseconds_from_date_times,
    rfc3339_from_timestamps,
    seconds_from_date_times,
    seconds_from_each_date_time,
    timestamps_from_datetime64,
    timestamps_from_rfc3339,
)
from ._clocks import PlainDateTime, UtcDateTime
from ._formats import description_of_strftime
from ._missing import MISSING
from ._refusals import *  # noqa: F401, F403
from ._texts import (
    date_times_from_each_rfc3339,
    date_times_from_each_text,
    datetime64_from_rfc3339,
    rfc3339_fault,
    rfc3339_from_date_times,
    texts_from_date_times,
)
from ._values import Date, Duration, IsoWeekDate, OffsetDateTime, OrdinalDate, Time, Timestamp, UtcOffset, days_in_month
from ._zones import Gap, LocalTimes, LocalType, Transition, UnknownZoneError, Zone, ZoneError, ZoneNameError
from ._structures import MuxanduDate as DateParts
from ._structures import MuxanduDateTime as DateTimeParts
from ._structures import MuxanduSpan as Span
from ._structures import MuxanduTimestamp as TimestampParts

__version__ = "0.1.0"

# Where users and pickles look for them.
for _kind in (IsoWeekDate, OrdinalDate, PlainDateTime, Time, UtcDateTime, UtcOffset):
    _kind.__module__ = "muxandu"

__all__ = [
    "Date",
    "DateParts",
    "DateTimeParts",
    "Duration",
    "Gap",
    "IsoWeekDate",
    "LocalTimes",
    "LocalType",
    "MISSING",
    "OffsetDateTime",
    "OrdinalDate",
    "PlainDateTime",
    "Span",
    "Time",
    "Timestamp",
    "TimestampParts",
    "Transition",
    "UnknownZoneError",
    "UtcDateTime",
    "UtcOffset",
    "Zone",
    "ZoneError",
    "ZoneNameError",
    "__version__",
    "date_times_from_each_rfc3339",
    "date_times_from_each_second",
    "date_times_from_each_text",
    "date_times_from_microseconds",
    "date_times_from_milliseconds",
    "date_times_from_nanoseconds",
    "date_times_from_rfc3339",
    "date_times_from_seconds",
    "dates_from_days",
    "datetime64_from_rfc3339",
    "datetime64_from_timestamps",
    "days_from_dates",
    "days_in_month",
    "description_of_strftime",
    "microseconds_from_date_times",
    "milliseconds_from_date_times",
    "nanoseconds_from_date_times",
    "rfc3339_fault",
    "rfc3339_from_date_times",
    "rfc3339_from_timestamps",
    "seconds_from_date_times",
    "seconds_from_each_date_time",
    "texts_from_date_times",
    "timestamps_from_datetime64",
    "timestamps_from_rfc3339",
]
__all__ += _refusals.__all__

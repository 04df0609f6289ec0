"""Instants, date-times, days and durations: the library's calls as methods, and code of Python's
own, such as Duration."""

from __future__ import annotations

import datetime
import time
from typing import Any, Callable, ClassVar, NamedTuple, SupportsIndex, TypeVar, Union

from . import _formats, _own_texts
from . import _extension as engine
from ._refusals import REFUSALS, RefusedResult, RefusedTimestamp
from ._words import as_bytes, nanoseconds_of, to_int

_PARTS = ("year", "month", "day", "hour", "minute", "second", "nanosecond")

_SECOND = 1_000_000_000
_DAY = 86_400

_Stamp = TypeVar("_Stamp", bound="Timestamp")
_Shown = TypeVar("_Shown", bound="OffsetDateTime")
_Date = TypeVar("_Date", bound="Date")
_Time = TypeVar("_Time", bound="Time")
_Offset = TypeVar("_Offset", bound="UtcOffset")
_Length = TypeVar("_Length", bound="Duration")
_Any = TypeVar("_Any", bound="_Described")


_Kind = TypeVar("_Kind")


def _complete(kind: type[_Kind]) -> type[_Kind]:
    """The type that the library's calls make, with the methods of a class derived from it. It is
    one type, so the collector of cycles skips its values."""
    made: Any = kind.__base__
    *parts, _, _ = kind.__mro__
    for name, value in (pair for part in reversed(parts) for pair in vars(part).items()):
        if name not in ("__dict__", "__module__", "__slots__", "__weakref__"):
            setattr(made, name, value)
    made.__module__ = "muxandu"
    setattr(made, "__match_args__", ("_seconds",) if made._names == ("offset_seconds",) else made._names)
    whole: type[_Kind] = made
    return whole


def _parts(value: object, *names: str) -> tuple[int, ...]:
    return tuple(getattr(value, name) for name in names)


class _Value:
    """A value by the names of its parts."""

    __slots__ = ()

    _names: ClassVar[tuple[str, ...]]

    def __repr__(self) -> str:
        return f"{type(self).__name__}{self.__reduce__()[1]}"

    def __format__(self, form: str) -> str:
        return format(str(self), form)


class _Described(_Value):
    """A value that format descriptions write and read, by the number of its kind."""

    __slots__ = ()

    _kind: ClassVar[int]

    def _as_shown(self) -> Any:
        """The value as it is written."""
        return self

    @classmethod
    def _read(cls: type[_Any], read: Callable[..., Any], text: Union[str, bytes], pattern: str) -> _Any:
        return cls(*_parts(read(cls._kind, text, pattern), *cls._names))

    def format(self, pattern: str) -> str:
        """The text by a format description, such as [day]/[month]/[year], [hour]:[minute] or
        [offset_hour]. A Timestamp is written in UTC. RefusedSyntax if it is none. RefusedNoText if
        the value lacks a component, or if the text has more than 64 bytes or one that is not
        ASCII."""
        return _formats.format_value(self._kind, self._as_shown(), pattern)

    @classmethod
    def parse(cls: type[_Any], text: Union[str, bytes], pattern: str) -> _Any:
        """The value of a text by a format description, as `format` takes it. For UtcDateTime and
        Timestamp a text without an offset has the offset 0. RefusedSyntax, with the byte and the
        item, if the text has another form or lacks a part. RefusedResult, with the part, if a part
        is out of range or contradicts another."""
        return cls._read(_formats.parse_value, text, pattern)

    @classmethod
    def parse_front(cls: type[_Any], text: Union[str, bytes], pattern: str) -> tuple[_Any, Any]:
        """The value at the front of a text, and the rest of the text: str, or else bytes. Errors
        are those of parse."""
        front = _formats.Front()
        return cls._read(front, text, pattern), front.rest


class _Formatted(_Described):
    """A value that patterns of strftime write and read too."""

    __slots__ = ()

    # The method that gives the value of Python's datetime, whose strftime writes it in an f-string.
    _of_python: ClassVar[str] = "to_datetime"

    def strftime(self, pattern: str) -> str:
        """The text by a pattern of strftime, as datetime writes it in the C locale. A Timestamp is
        written in UTC. ValueError names a directive that no format description says."""
        return _formats.strftime_value(self._kind, self._as_shown(), pattern)

    @classmethod
    def strptime(cls: type[_Any], text: Union[str, bytes], pattern: str) -> _Any:
        """The value of a text that strftime writes by the same pattern. Errors are those of parse
        and of strftime."""
        return cls._read(_formats.strptime_value, text, pattern)

    def __conform__(self, protocol: object) -> Any:
        """The text of RFC 3339 for a parameter of sqlite3, or None where another asks or a value
        has none."""
        if getattr(protocol, "__name__", "") != "PrepareProtocol":
            return None
        write = getattr(self, "to_rfc3339_nanos", None) or getattr(self, "to_rfc3339", None)
        return write and write()

    def __format__(self, form: str) -> str:
        if "%" not in form:
            return format(str(self), form)
        text = _formats.text_as_datetime(self._kind, self._as_shown(), form)
        if text is not None:
            return text
        _formats.test_format(form)
        return str(getattr(self, self._of_python)().strftime(form))


@_complete
class Duration(_Value, engine.Duration):
    """A length of time, forwards or back: seconds and nanoseconds of one sign. Durations compare by
    both together."""

    __slots__ = ()

    _names = ("seconds", "nanoseconds")

    MIN: ClassVar[Duration]
    MAX: ClassVar[Duration]
    ZERO: ClassVar[Duration]

    @classmethod
    def of(cls, duration: Union[Duration, datetime.timedelta]) -> Duration:
        """The duration of a datetime.timedelta; a Duration is itself."""
        if isinstance(duration, Duration):
            return duration if isinstance(duration, cls) else cls(duration.seconds, duration.nanoseconds)
        if isinstance(duration, datetime.timedelta):
            return cls(duration.days * _DAY + duration.seconds, nanoseconds_of(duration))
        raise TypeError(f"the duration must be a Duration or a datetime.timedelta, not {type(duration).__name__}")

    @classmethod
    def of_nanoseconds(cls, nanoseconds: int) -> Duration:
        """The duration of a count of nanoseconds, of any size. RefusedDuration if out of range."""
        return cls(0, nanoseconds)

    @classmethod
    def of_days(cls, days: int) -> Duration:
        """The duration of a count of days of 86,400 seconds. RefusedDuration if out of range."""
        return cls(to_int(days) * _DAY)

    @classmethod
    def from_text(cls: type[_Length], text: str) -> _Length:
        """The duration whose str() is this text, such as -90.5s. RefusedSyntax for another text."""
        return _own_texts.read("Duration", text, lambda *parts: cls(0, _own_texts.nanoseconds(*parts)))

    def whole_nanoseconds(self) -> int:
        """The whole duration in nanoseconds."""
        return self.seconds * _SECOND + self.nanoseconds

    def whole_days(self) -> int:
        """The whole days of 86,400 seconds, rounded towards zero."""
        days = abs(self.seconds) // _DAY
        return -days if self.seconds < 0 else days

    def total_seconds(self) -> float:
        """The seconds as a float, as of a datetime.timedelta."""
        return self.whole_nanoseconds() / _SECOND

    def to_timedelta(self) -> datetime.timedelta:
        """The datetime.timedelta of as many whole microseconds, rounded down. OverflowError if out
        of its range."""
        return datetime.timedelta(microseconds=self.whole_nanoseconds() // 1_000)

    def __pos__(self) -> Duration:
        return self

    def __mul__(self, number: int) -> Duration:
        return type(self)(0, self.whole_nanoseconds() * number) if isinstance(number, int) else NotImplemented

    __rmul__ = __mul__

    def __floordiv__(self, other: Any) -> Any:
        if isinstance(other, int):
            return type(self)(0, self.whole_nanoseconds() // other)
        return self.whole_nanoseconds() // Duration.of(other).whole_nanoseconds() if _is_length(other) else NotImplemented

    def __truediv__(self, other: Union[Duration, datetime.timedelta]) -> Any:
        return self.whole_nanoseconds() / Duration.of(other).whole_nanoseconds() if _is_length(other) else NotImplemented

    def __mod__(self, other: Union[Duration, datetime.timedelta]) -> Duration:
        if not _is_length(other):
            return NotImplemented
        return type(self)(0, self.whole_nanoseconds() % Duration.of(other).whole_nanoseconds())

    def __divmod__(self, other: Union[Duration, datetime.timedelta]) -> Any:
        return (self // other, self % other) if _is_length(other) else NotImplemented

    def __rfloordiv__(self, other: datetime.timedelta) -> Any:
        return Duration.of(other) // self if _is_length(other) else NotImplemented

    def __rtruediv__(self, other: datetime.timedelta) -> Any:
        return Duration.of(other) / self if _is_length(other) else NotImplemented

    def __rmod__(self, other: datetime.timedelta) -> Any:
        return Duration.of(other) % self if _is_length(other) else NotImplemented

    def __rdivmod__(self, other: datetime.timedelta) -> Any:
        return divmod(Duration.of(other), self) if _is_length(other) else NotImplemented

    def __str__(self) -> str:
        count = abs(self.whole_nanoseconds())
        fraction = f".{count % _SECOND:09}".rstrip("0") if count % _SECOND else ""
        return f"{'-' if self < Duration.ZERO else ''}{count // _SECOND}{fraction}s"


def _is_length(value: object) -> bool:
    return isinstance(value, (Duration, datetime.timedelta))


@_complete
class UtcOffset(_Described, engine.UtcOffset):
    """An offset from UTC, -25:59:59 to 25:59:59. Calls take it in place of the seconds of an
    offset."""

    __slots__ = ()

    _kind: ClassVar[int] = _formats.UTC_OFFSET
    _names = ("offset_seconds",)

    UTC: ClassVar[UtcOffset]

    @classmethod
    def from_text(cls: type[_Offset], text: str) -> _Offset:
        """The offset whose str() is this text, such as +02:00:00, or that RFC 3339 writes so: Z or
        +02:00. RefusedSyntax for another text."""
        make: Callable[..., _Offset] = lambda *parts: cls(_own_texts.seconds(*parts))
        return _own_texts.read("UtcOffset", text, make, lambda text: cls(_own_texts.offset(text)))

    @classmethod
    def from_hms(cls, hours: int, minutes: int = 0, seconds: int = 0) -> UtcOffset:
        """The offset of hours, minutes and seconds: the smaller take the sign of the hours, or of
        the minutes if these are 0."""
        return cls(engine.offset_from_parts(hours, minutes, seconds))

    def as_hms(self) -> tuple[int, int, int]:
        """The hours, the minutes and the seconds, all of one sign."""
        return engine.offset_to_parts(self.whole_seconds())

    def is_utc(self) -> bool:
        """Whether it is the offset 0."""
        return self.whole_seconds() == 0

    def to_timezone(self) -> datetime.timezone:
        """The datetime.timezone of the offset, of less than a day."""
        return datetime.timezone(datetime.timedelta(seconds=self.whole_seconds()))

    def _as_shown(self) -> OffsetDateTime:
        return OffsetDateTime(1970, 1, 1, offset_seconds=self)

    def __str__(self) -> str:
        return str(self._as_shown()).rpartition(" ")[2]

    def __repr__(self) -> str:
        return f"{type(self).__name__}({self.whole_seconds()})"


@_complete
class Timestamp(_Formatted, engine.Timestamp):
    """An instant: a Unix second and a nanosecond of that second, before 1970 too. Its text is its
    signed decimal."""

    __slots__ = ()

    _kind: ClassVar[int] = _formats.OFFSET_DATE_TIME
    _names = ("seconds", "nanoseconds")

    MIN: ClassVar[Timestamp]
    MAX: ClassVar[Timestamp]
    UNIX_EPOCH: ClassVar[Timestamp]

    @classmethod
    def now(cls: type[_Stamp]) -> _Stamp:
        """The instant that the clock of the system shows."""
        return cls._from_nanoseconds(time.time_ns())

    @classmethod
    def from_text(cls: type[_Stamp], text: str) -> _Stamp:
        """The instant whose str() is this text, a decimal of Unix seconds such as -0.5.
        RefusedSyntax for another text."""
        return _own_texts.read("Timestamp", text, lambda *parts: cls(*divmod(_own_texts.nanoseconds(*parts), _SECOND)))

    @classmethod
    def from_microseconds(cls: type[_Stamp], microseconds: int) -> _Stamp:
        """The instant of a count of microseconds from 1970-01-01 0:00 UTC. RefusedTimestamp if out
        of range."""
        count = to_int(microseconds)
        return cls._from_microseconds(count) if -(2**63) <= count < 2**63 else cls._of_count(count, 1_000_000)

    @classmethod
    def from_nanoseconds(cls: type[_Stamp], nanoseconds: int) -> _Stamp:
        """The instant of a count of nanoseconds from 1970-01-01 0:00 UTC, as time.time_ns() counts;
        also past 64 bits. RefusedTimestamp if out of range."""
        count = to_int(nanoseconds)
        return cls._from_nanoseconds(count) if -(2**63) <= count < 2**63 else cls._of_count(count, _SECOND)

    @classmethod
    def _of_count(cls: type[_Stamp], count: int, of_second: int) -> _Stamp:
        """The instant of a count of a unit. A second has `of_second` of them."""
        seconds, left = divmod(count, of_second)
        try:
            return cls(seconds, left * (_SECOND // of_second))
        except RefusedTimestamp:
            raise RefusedTimestamp(None, count) from None

    def as_microseconds(self) -> int:
        """The microseconds from 1970-01-01 0:00 UTC, rounded down."""
        try:
            return self._as_microseconds()
        except RefusedResult:
            return self.seconds * 1_000_000 + self.nanoseconds // 1_000

    def as_nanoseconds(self) -> int:
        """The nanoseconds from 1970-01-01 0:00 UTC."""
        try:
            return self._as_nanoseconds()
        except RefusedResult:
            return self.seconds * _SECOND + self.nanoseconds

    def to_datetime(self, zone: datetime.tzinfo = datetime.timezone.utc) -> datetime.datetime:
        """The datetime.datetime of the instant in a zone, to the microsecond, which is rounded
        down."""
        at = self._to_utc_datetime()
        return at if zone is datetime.timezone.utc else at.astimezone(zone)

    def _as_shown(self) -> OffsetDateTime:
        return self.to_offset(0)

    @classmethod
    def _read(cls: type[_Stamp], read: Callable[..., Any], text: Union[str, bytes], pattern: str) -> _Stamp:
        return cls(*_instant(_formats.in_utc(read, text, pattern)))


def _instant(shown: Any) -> tuple[int, int]:
    """The second and the nanosecond of the instant of a date-time in UTC."""
    at = OffsetDateTime(*_parts(shown, *_PARTS)).to_timestamp()
    return at.seconds, at.nanoseconds


@_complete
class OffsetDateTime(_Formatted, engine.OffsetDateTime):
    """A date-time at an offset from UTC. Date-times compare by their instants.

    Its text is the library's own, as 1970-01-01 0:00:00.0 +00:00:00.
    """

    __slots__ = ()

    _kind: ClassVar[int] = _formats.OFFSET_DATE_TIME
    _names = (*_PARTS, "offset_seconds")

    MIN: ClassVar[OffsetDateTime]
    MAX: ClassVar[OffsetDateTime]
    UNIX_EPOCH: ClassVar[OffsetDateTime]

    @classmethod
    def now(cls: type[_Shown], offset_seconds: SupportsIndex = 0) -> _Shown:
        """The date-time at an offset now, by the clock of the system."""
        return cls._of_nanoseconds(time.time_ns(), offset_seconds)

    @classmethod
    def from_text(cls: type[_Shown], text: str) -> _Shown:
        """The date-time whose str() is this text, such as 2024-02-29 4:00:00.0 +02:00:00.
        RefusedSyntax for another text."""

        def make(*parts: str) -> _Shown:
            numbers = _own_texts.numbers(*parts[:7])
            cls(*numbers)  # A part before the offset is refused before it.
            numbers.append(_own_texts.seconds(*parts[7:]))
            return cls(*numbers)

        return _own_texts.read("OffsetDateTime", text, make)

    @classmethod
    def from_parts(cls: type[_Shown], item: Any) -> _Shown:
        """The date-time of an item of a batch."""
        is_structure = hasattr(item, "offset_seconds")
        return cls(*(getattr(item, name) if is_structure else item[name] for name in (*_PARTS, "offset_seconds")))

    def is_same(self, other: OffsetDateTime) -> bool:
        """Whether both have the same parts and the same offset. `==` compares the instants
        alone."""
        if not isinstance(other, OffsetDateTime):
            raise TypeError(f"the other value must be an OffsetDateTime, not {type(other).__name__}")
        return bool(self.__reduce__()[1] == other.__reduce__()[1])


class OrdinalDate(NamedTuple):
    """A year and a day of the year, 1 for 1 January."""

    year: int
    ordinal: int


class IsoWeekDate(NamedTuple):
    """A year, a week of it, and a day of the week, 0 for Monday, by ISO 8601."""

    year: int
    week: int
    weekday: int


@_complete
class Date(_Formatted, engine.Date):
    """A day: a year, a month and a day of the month."""

    __slots__ = ()

    _kind: ClassVar[int] = _formats.DATE
    _of_python: ClassVar[str] = "to_date"
    _names = ("year", "month", "day")

    MIN: ClassVar[Date]
    MAX: ClassVar[Date]

    @classmethod
    def from_ordinal_date(cls: type[_Date], year: int, ordinal: int) -> _Date:
        """The day of a year and a day of the year."""
        return cls.from_day_number(engine.day_from_ordinal_date(year, ordinal))

    @classmethod
    def from_iso_week_date(cls: type[_Date], year: int, week: int, weekday: int) -> _Date:
        """The day of an ISO year, an ISO week and a day of the week, 0 for Monday."""
        return cls.from_day_number(engine.day_from_week_date(year, week, weekday))

    def to_rfc3339(self) -> str:
        """The text of RFC 3339, as 1985-04-12."""
        return engine.date_to_rfc3339(self.year, self.month, self.day)

    @classmethod
    def from_text(cls: type[_Date], text: str) -> _Date:
        """The day whose str() is this text, such as 2024-02-29 or -0005-03-01. RefusedSyntax for
        another text."""
        return _own_texts.read("Date", text, lambda *parts: cls(*_own_texts.numbers(*parts)))

    @classmethod
    def from_date(cls: type[_Date], date: datetime.date) -> _Date:
        """The day of a datetime.date."""
        return cls(date.year, date.month, date.day)

    @classmethod
    def today(cls: type[_Date]) -> _Date:
        """The day in UTC, by the clock of the system."""
        return cls.from_day_number(OffsetDateTime._of_nanoseconds(time.time_ns(), 0).day_number())

    def to_date(self) -> datetime.date:
        """The datetime.date of the day, of the years 1 to 9999."""
        return datetime.date(self.year, self.month, self.day)

    def add_days(self: _Date, days: int) -> _Date:
        """The day that is `days` days later, or earlier for a negative count. RefusedResult if out
        of range."""
        return type(self)(*engine.date_add_days(self.year, self.month, self.day, days))

    def add_months(self: _Date, months: int) -> _Date:
        """The same day of the month after `months` months, or the last day of a shorter month.
        RefusedResult if out of range."""
        return type(self)(*engine.date_add_months(self.year, self.month, self.day, months))

    @classmethod
    def from_julian_day(cls: type[_Date], julian_day: int) -> _Date:
        """The day of a Julian day, which is 2,440,588 on 1970-01-01."""
        return cls(*engine.date_from_julian_day(julian_day))

    def to_julian_day(self) -> int:
        """The Julian day, which is 2,440,588 on 1970-01-01."""
        return self._reads()[1]

    def sunday_based_week(self) -> int:
        """How many Sundays of the year lie on or before the day, 0 to 53."""
        return self._reads()[6]

    def monday_based_week(self) -> int:
        """How many Mondays of the year lie on or before the day, 0 to 53."""
        return self._reads()[7]

    def _reads(self) -> tuple[int, int, int, int, int, int, int, int]:
        return engine.date_reads(self.year, self.month, self.day)

    def to_ordinal_date(self) -> OrdinalDate:
        """The year and the day of the year."""
        return OrdinalDate(*engine.ordinal_date_from_day(self.day_number()))

    def __str__(self) -> str:
        return str(OffsetDateTime(self.year, self.month, self.day)).partition(" ")[0]


@_complete
class Time(_Formatted, engine.Time):
    """A time of day, from 0:00:00.0 to 23:59:59.999999999."""

    __slots__ = ()

    _kind: ClassVar[int] = _formats.TIME
    _of_python: ClassVar[str] = "to_time"
    _names = ("hour", "minute", "second", "nanosecond")

    MIDNIGHT: ClassVar[Time]
    MAX: ClassVar[Time]

    @classmethod
    def from_text(cls: type[_Time], text: str) -> _Time:
        """The time of day whose str() is this text, such as 4:00:00.0, or that RFC 3339 writes so
        without an offset: 04:00:00. RefusedSyntax for another text."""
        make: Callable[..., _Time] = lambda *parts: cls(*_own_texts.numbers(*parts))
        return _own_texts.read("Time", text, make, lambda text: cls(*engine.time_from_rfc3339(text)))

    @classmethod
    def from_text_with_offset(cls: type[_Time], text: str) -> tuple[_Time, UtcOffset]:
        """The time of day and the offset of a text of both in RFC 3339, such as 04:00:00.5+02:00.
        RefusedSyntax for another text."""
        parts, seconds = _own_texts.full_time(text)
        return cls(*parts), UtcOffset(seconds)

    @classmethod
    def from_time(cls, at: datetime.time) -> Time:
        """The time of day of a datetime.time."""
        return cls(at.hour, at.minute, at.second, at.microsecond * 1_000)

    def to_time(self) -> datetime.time:
        """The datetime.time, to the microsecond, which is rounded down."""
        return datetime.time(self.hour, self.minute, self.second, self.nanosecond // 1_000)


def _minimum_and_maximum() -> None:
    """The ends of the ranges, as the library has them."""
    second = Duration(1)
    Duration.ZERO = Duration()
    Duration.MAX = Duration(2**63 - 1, _SECOND - 1)
    Duration.MIN = -Duration.MAX - second
    Timestamp.UNIX_EPOCH = Timestamp(0)
    Timestamp.MAX = Timestamp.UNIX_EPOCH.saturating_add(Duration.MAX)
    Timestamp.MIN = Timestamp.UNIX_EPOCH.saturating_sub(Duration.MAX)
    OffsetDateTime.MIN, OffsetDateTime.MAX = Timestamp.MIN.to_offset(0), Timestamp.MAX.to_offset(0)
    OffsetDateTime.UNIX_EPOCH = OffsetDateTime(1970, 1, 1)
    Date.MIN, Date.MAX = Timestamp.MIN.to_offset(0).date(), Timestamp.MAX.to_offset(0).date()
    Time.MIDNIGHT, Time.MAX = Time(0), Timestamp.MAX.to_offset(0).time()
    UtcOffset.UTC = UtcOffset(0)


def days_in_month(year: int, month: int) -> int:
    """How many days a month of a year has."""
    return engine.days_in_month(year, month)


engine.bind(REFUSALS, as_bytes, IsoWeekDate)
_minimum_and_maximum()

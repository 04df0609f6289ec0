"""The SQL functions of the extension for SQLite, for a Python whose SQLite loads no extensions.

>>> import sqlite3
>>> import muxandu.sqlite
>>> connection = sqlite3.connect(":memory:")
>>> functions = muxandu.sqlite.register(connection)
>>> connection.execute("SELECT muxandu_add('2024-02-28T23:30:00-01:00', 90, 'minutes')").fetchone()
('2024-02-29T01:00:00-01:00',)

Python's sqlite3 reports each error of such a function in the same words. `functions.error` has the
message of the last one:

>>> connection.execute("SELECT muxandu_unix('2023-02-29T00:00:00Z')")
Traceback (most recent call last):
sqlite3.OperationalError: user-defined function raised exception
>>> functions.error
'muxandu_unix: DAY_OF_MONTH: A day of 1 to 31 that its month does not have in its year.'

A table like `muxandu_parts` needs the extension, since Python's sqlite3 makes no tables of
functions.
"""

from __future__ import annotations

import sqlite3
from typing import Any, Callable, NamedTuple, Optional, Union

from . import Date, Duration, OffsetDateTime, PlainDateTime, Refused, RefusedResult, RefusedSyntax, Timestamp, Unit, Zone
from ._clocks import Choice
from ._formats import lacks_offset
from ._own_texts import offset as offset_of_text
from ._zones import UnknownZoneError, ZoneError, ZoneNameError

__all__ = ["Functions", "register"]

# A value of SQL.
_Value = Union[None, int, float, str, bytes]

_NANOSECONDS = {
    "nanosecond": 1,
    "microsecond": 1_000,
    "millisecond": 1_000_000,
    "second": 1_000_000_000,
    "minute": 60_000_000_000,
    "hour": 3_600_000_000_000,
    "day": 86_400_000_000_000,
}

# The units of `muxandu_unix`.
_COUNTED = ("nanosecond", "microsecond", "millisecond", "second")

# What a call does with a time that the clocks of a zone skip, or show twice.
_CHOICES: tuple[Choice, ...] = ("compatible", "earlier", "later", "reject")

# A float has each whole number up to this one.
_MOST_EXACT = 2.0**53

_MOST, _MOST_MONTHS = 2**63, 2**31


class _Invalid(ValueError):
    """An invalid value of SQL: the name of the error, and a sentence."""

    def __init__(self, name: str, sentence: str) -> None:
        super().__init__(f"{name}: {sentence}")
        self.name = name


class _Function(NamedTuple):
    """A function of SQL: its name, its least and its greatest number of arguments, what it returns,
    and whether that is the same each time. Files of time zones may change."""

    name: str
    least: int
    most: int
    run: Callable[..., _Value]
    is_deterministic: bool = True


def _wrong_type() -> _Invalid:
    return _Invalid("TYPE", "An argument of the wrong type: pass a text, or an integer, as the call takes it.")


def _text(value: _Value) -> str:
    if isinstance(value, str):
        return value
    raise _wrong_type()


def _to_int(value: _Value) -> int:
    """A whole number. A float is one where it has no fraction, and is exact."""
    if isinstance(value, int):
        return value
    if isinstance(value, float) and abs(value) <= _MOST_EXACT and value.is_integer():
        return int(value)
    raise _wrong_type()


def _offset(value: _Value) -> int:
    """The seconds of an offset, which is a number or a text such as +02:00."""
    return offset_of_text(value) if isinstance(value, str) else _to_int(value)


def _date_time(value: _Value) -> OffsetDateTime:
    return OffsetDateTime.from_rfc3339(_text(value))


def _instant(value: _Value) -> Timestamp:
    return Timestamp.from_rfc3339(_text(value))


def _is_named(text: str, name: str) -> bool:
    """Whether a text is that name, in the singular or the plural, in letters of any case."""
    return text.isascii() and text.lower() in (name, f"{name}s")


def _unit(value: _Value, names: tuple[str, ...] = tuple(_NANOSECONDS)) -> str:
    text = _text(value)
    for name in names:
        if _is_named(text, name):
            return name
    raise _Invalid(
        "UNIT",
        "An unknown unit: pass 'nanosecond', 'microsecond', 'millisecond', 'second', 'minute', 'hour' or 'day', "
        "or 'week', 'month', 'quarter' or 'year' in muxandu_truncate; muxandu_unix has none above a second.",
    )


def _in_64_bits(number: int) -> int:
    """A number of 64 bits. RefusedResult of another."""
    if -_MOST <= number < _MOST:
        return number
    raise RefusedResult()


def _nanoseconds(at: Timestamp) -> int:
    return at.seconds * _NANOSECONDS["second"] + at.nanoseconds


def _count(instant: Timestamp, unit: _Value) -> _Value:
    return _in_64_bits(_nanoseconds(instant) // _NANOSECONDS[_unit(unit, _COUNTED)])


def _unix(at: _Value, unit: _Value = "second") -> _Value:
    return _count(_instant(at), unit)


def _from_iso(at: _Value, unit: _Value = "second") -> _Value:
    return _count(OffsetDateTime.from_iso(_text(at)).to_timestamp(), unit)


def _at_second(seconds: _Value, offset: _Value, nanosecond: _Value) -> OffsetDateTime:
    whole = _to_int(seconds), _offset(offset), _to_int(nanosecond)
    return Timestamp(whole[0], whole[2]).to_offset(whole[1])


def _of_unix(seconds: _Value, offset: _Value = 0, nanosecond: _Value = 0) -> _Value:
    return _at_second(seconds, offset, nanosecond).to_rfc3339()


def _to_iso(seconds: _Value, offset: _Value = 0, nanosecond: _Value = 0) -> _Value:
    return _at_second(seconds, offset, nanosecond).to_iso()


def _zone(value: _Value) -> Zone:
    name = _text(value)
    try:
        return Zone(name)
    except (ZoneNameError, UnknownZoneError):
        told = "An unknown time zone: pass the name of a file below /usr/share/zoneinfo, such as 'Europe/Berlin'."
        raise _Invalid("ZONE", told) from None
    except (ZoneError, Refused):
        told = "A file that is no time zone of RFC 9636, or of one that counts leap seconds."
        raise _Invalid("ZONE_FILE", told) from None


def _at_zone(at: _Value, zone: _Value) -> _Value:
    instant = _instant(at)
    return instant.to_zone(_zone(zone)).to_rfc3339()


def _choice(value: _Value) -> Choice:
    text = _text(value)
    for choice in _CHOICES:
        if text.isascii() and text.lower() == choice:
            return choice
    raise _Invalid("CHOICE", "An unknown choice: pass 'compatible', 'earlier', 'later' or 'reject'.")


def _from_local(text: _Value, zone: _Value, choice: _Value = "reject") -> _Value:
    local, found = PlainDateTime.from_rfc3339(_text(text)), _zone(zone)
    return local.at_zone(found, _choice(choice)).to_rfc3339()


def _to_offset(at: _Value, offset: _Value) -> _Value:
    return _date_time(at).to_offset(_offset(offset)).to_rfc3339()


def _sortable(at: _Value) -> _Value:
    return _instant(at).to_rfc3339_nanos()


def _duration(value: _Value, unit: Optional[_Value] = None) -> Duration:
    """The duration of a text such as 1h30m, or of a number of units, which are seconds where no
    unit is."""
    if unit is None and isinstance(value, str):
        return Duration._of_words(value)
    count = _to_int(value)
    return Duration(0, count * _NANOSECONDS["second" if unit is None else _unit(unit)])


def _add(at: _Value, *length: _Value) -> _Value:
    start = _date_time(at)
    return (start + _duration(*length)).to_rfc3339()


def _add_months(at: _Value, months: _Value) -> _Value:
    start, count = _date_time(at), _to_int(months)
    if not -_MOST_MONTHS <= count < _MOST_MONTHS:
        raise RefusedResult()
    date = Date(start.year, start.month, start.day).add_months(count)
    return start.replace(year=date.year, month=date.month, day=date.day).to_rfc3339()


def _first_day(at: OffsetDateTime, unit: str) -> Optional[Date]:
    """The first day of the week, month, quarter or year, and None of another unit."""
    if _is_named(unit, "week"):
        date = Date(at.year, at.month, at.day)
        return date.add_days(-date.weekday())
    if _is_named(unit, "month"):
        return Date(at.year, at.month, 1)
    if _is_named(unit, "quarter"):
        return Date(at.year, (at.month - 1) // 3 * 3 + 1, 1)
    return Date(at.year, 1, 1) if _is_named(unit, "year") else None


def _truncate(at: _Value, unit: _Value) -> _Value:
    start, text = _date_time(at), _text(unit)
    day = _first_day(start, text)
    if day is not None:
        return start.replace(year=day.year, month=day.month, day=day.day).truncated_to(Unit.DAY).to_rfc3339()
    return start.truncated_to(Unit[_unit(text).upper()]).to_rfc3339()


def _bin(at: _Value, *words: _Value) -> _Value:
    start, step = _date_time(at), _duration(*words[:-1]).whole_nanoseconds()
    if step <= 0:
        raise _Invalid("STEP", "A step that is not above 0.")
    past = (_nanoseconds(_instant(at)) - _nanoseconds(_instant(words[-1]))) % step
    return (start - Duration(0, past)).to_rfc3339()


def _local_date(at: _Value) -> _Value:
    start = _date_time(at)
    return Date(start.year, start.month, start.day).to_rfc3339()


def _format(at: _Value, description: _Value) -> _Value:
    return _date_time(at).format(_text(description))


def _parse(text: _Value, description: _Value, *offset: _Value) -> _Value:
    source, form, offsets = _text(text), _text(description), [_offset(each) for each in offset]
    try:
        return OffsetDateTime.parse(source, form).to_rfc3339()
    except RefusedSyntax as refused:
        if not offsets or not lacks_offset(refused):
            raise
    shown = PlainDateTime.parse(source, form)
    date, time = shown.date(), shown.time()
    parts = date.year, date.month, date.day, time.hour, time.minute, time.second, time.nanosecond
    return OffsetDateTime(*parts, *offsets).to_rfc3339()


def _difference(later: _Value, earlier: _Value, unit: _Value = "second") -> _Value:
    nanoseconds = _nanoseconds(_instant(later)) - _nanoseconds(_instant(earlier))
    count = abs(nanoseconds) // _NANOSECONDS[_unit(unit)]
    return _in_64_bits(count if nanoseconds >= 0 else -count)


def _compare(first: _Value, second: _Value) -> _Value:
    one, other = _instant(first), _instant(second)
    return (one > other) - (one < other)


def _error_name(at: _Value) -> _Value:
    try:
        _instant(at)
    except (Refused, _Invalid) as error:
        return error.name
    return None


# Each of these has a form `_or_null`.
_CALLS = (
    _Function("muxandu_unix", 1, 2, _unix),
    _Function("muxandu_text", 1, 3, _of_unix),
    _Function("muxandu_from_iso", 1, 2, _from_iso),
    _Function("muxandu_to_iso", 1, 3, _to_iso),
    _Function("muxandu_to_offset", 2, 2, _to_offset),
    _Function("muxandu_sortable", 1, 1, _sortable),
    _Function("muxandu_add", 2, 3, _add),
    _Function("muxandu_add_months", 2, 2, _add_months),
    _Function("muxandu_truncate", 2, 2, _truncate),
    _Function("muxandu_bin", 3, 4, _bin),
    _Function("muxandu_local_date", 1, 1, _local_date),
    _Function("muxandu_format", 2, 2, _format),
    _Function("muxandu_parse", 2, 3, _parse),
    _Function("muxandu_difference", 2, 3, _difference),
    _Function("muxandu_compare", 2, 2, _compare),
    _Function("muxandu_at_zone", 2, 2, _at_zone, False),
    _Function("muxandu_from_local", 2, 3, _from_local, False),
)


class Functions:
    """The functions of a connection. `error` is the message of the last call that failed, and ""
    before there is one."""

    def __init__(self) -> None:
        self.error = ""

    def _answers(self, call: _Function, is_or_null: bool) -> Callable[..., _Value]:
        """The function of SQL: NULL if an argument is NULL, else the answer, an error, or NULL in
        its place."""

        def answer(*values: _Value) -> _Value:
            if None in values:
                return None
            try:
                return call.run(*values)
            except (Refused, _Invalid) as error:
                if is_or_null:
                    return None
                sentence = " ".join((type(error).__doc__ or "").split())
                self.error = f"{call.name}: {f'{error.name}: {sentence}' if isinstance(error, Refused) else error}"
                raise

        return answer


def register(connection: sqlite3.Connection) -> Functions:
    """Gives a connection the functions of SQL: muxandu_unix, muxandu_text and the others of
    docs/guide/SQL.md, but the table muxandu_parts."""
    functions = Functions()
    define: Any = connection.create_function
    for call in (*_CALLS, _Function("muxandu_refused", 1, 1, _error_name)):
        for count in range(call.least, call.most + 1):
            define(call.name, count, functions._answers(call, False), deterministic=call.is_deterministic)
            if call in _CALLS:
                define(f"{call.name}_or_null", count, functions._answers(call, True), deterministic=call.is_deterministic)
    return functions

"""Date-times without an offset: a wall clock somewhere, and a wall clock in UTC."""

from __future__ import annotations

import time
from typing import TYPE_CHECKING, Any, Callable, ClassVar, Literal, TypeVar, Union

from . import _extension as engine
from . import _formats, _own_texts
from ._refusals import CHOICES, RefusedFold, RefusedGap
from ._values import _PARTS, Date, OffsetDateTime, Time, Timestamp, _complete, _Formatted, _parts

if TYPE_CHECKING:
    from ._zones import Zone

Choice = Literal["compatible", "earlier", "later", "reject"]

_Plain = TypeVar("_Plain", bound="PlainDateTime")
_Utc = TypeVar("_Utc", bound="UtcDateTime")


@_complete
class PlainDateTime(_Formatted, engine.PlainDateTime):
    """A wall clock without a known offset. Its text is as 1970-01-01 0:00:00.0."""

    __slots__ = ()

    _kind: ClassVar[int] = _formats.PLAIN_DATE_TIME
    _names = _PARTS

    MIN: ClassVar[PlainDateTime]
    MAX: ClassVar[PlainDateTime]

    @classmethod
    def from_text(cls: type[_Plain], text: str) -> _Plain:
        """The value whose str() is this text, or that RFC 3339 writes so without an offset, as
        2024-02-29T04:00:00 or with a space for the T. RefusedSyntax for another text."""
        return _own_texts.read("PlainDateTime", text, lambda *parts: cls(*_own_texts.numbers(*parts)), cls.from_rfc3339)

    @classmethod
    def new(cls: type[_Plain], date: Date, time: Time) -> _Plain:
        """The date and the time of day together."""
        return cls(date.year, date.month, date.day, time.hour, time.minute, time.second, time.nanosecond)

    def at_zone(self, zone: Union[Zone, str], choice: Choice = "compatible") -> OffsetDateTime:
        """The date-time of a zone, which is a Zone or the name of one, with this wall clock.

        Where its clocks show that twice, "compatible" and "earlier" take the first date-time, and
        "later" the second. Where they skip it, "earlier" goes back by the length of the gap, and
        "compatible" and "later" go forward. "reject" is RefusedFold and RefusedGap then.
        RefusedResult if the year is out of range.
        """
        number = CHOICES.get(choice)
        if number is None:
            raise ValueError(f"a choice must be one of {', '.join(CHOICES)}, not {choice!r}")
        try:
            return self._at_zone(zone, number)
        except (RefusedFold, RefusedGap) as refused:
            from ._zones import told_of

            raise type(refused)(None, str(self), None, told_of(self, zone)) from None


@_complete
class UtcDateTime(_Formatted, engine.UtcDateTime):
    """A date-time in UTC. It compares with OffsetDateTime by the instant. Its text is as 1970-01-01
    0:00:00.0 +00."""

    __slots__ = ()

    _kind: ClassVar[int] = _formats.OFFSET_DATE_TIME
    _names = _PARTS

    MIN: ClassVar[UtcDateTime]
    MAX: ClassVar[UtcDateTime]
    UNIX_EPOCH: ClassVar[UtcDateTime]

    @classmethod
    def now(cls: type[_Utc]) -> _Utc:
        """The date-time in UTC now, by the clock of the system."""
        return cls._of_nanoseconds(time.time_ns(), 0)

    @classmethod
    def from_text(cls: type[_Utc], text: str) -> _Utc:
        """The value whose str() is this text. RefusedSyntax for another text."""
        return _own_texts.read("UtcDateTime", text, lambda *parts: cls(*_own_texts.numbers(*parts)))

    @classmethod
    def new(cls: type[_Utc], date: Date, time: Time) -> _Utc:
        """The date and the time of day together."""
        return cls(date.year, date.month, date.day, time.hour, time.minute, time.second, time.nanosecond)

    @classmethod
    def _read(cls: type[_Utc], read: Callable[..., Any], text: Union[str, bytes], pattern: str) -> _Utc:
        return cls(*_parts(_formats.in_utc(read, text, pattern), *_PARTS))


UtcDateTime.MIN, UtcDateTime.MAX, UtcDateTime.UNIX_EPOCH = Timestamp.MIN.to_utc(), Timestamp.MAX.to_utc(), UtcDateTime(1970, 1, 1)
PlainDateTime.MIN, PlainDateTime.MAX = UtcDateTime.MIN.date_time(), UtcDateTime.MAX.date_time()

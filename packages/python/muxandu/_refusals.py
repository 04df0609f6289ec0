"""The errors of calls as classes, the units of time, and the parts of a date-time.

Made by make/python_calls from packages/c/interface.json. Do not edit.
"""

from __future__ import annotations

import enum
from typing import Optional


class Refused(ValueError):
    """A call failed. `name` is the name of the error in the library, `status` its number.

    Each error has a class, such as RefusedMonth or RefusedDayOfMonth. If a call over many items
    fails, `count` is the number of items that it converted: it rejected the next, and left the rest
    of the output as it was. `value` is the number or the text that it rejected, if that is a single
    one. `place` is the index of the byte of a text with the fault. `reason` says more of a
    description, or of the part of a text, that is at fault.
    """

    name: str = ""
    status: int = 0
    count: Optional[int] = None
    value: object = None
    place: Optional[int] = None
    reason: str = ""

    def __init__(
        self, count: Optional[int] = None, value: object = None, place: Optional[int] = None, reason: str = ""
    ) -> None:
        told = f"{self.name}: {' '.join((self.__doc__ or '').split())}"
        shown = _spell(value)
        if shown:
            told = f"{told.rstrip('.')}: {shown}" + ("" if place is None else f", at byte {place}")
        if reason:
            told = f"{told.rstrip('.')}: {reason}"
        super().__init__(told if count is None else f"item {count}: {told}")
        self.count, self.value, self.place, self.reason = count, value, place, reason

    def __reduce__(self) -> tuple[type[Refused], tuple[Optional[int], object, Optional[int], str]]:
        return type(self), (self.count, self.value, self.place, self.reason)

    def __init_subclass__(cls) -> None:
        cls.__module__ = "muxandu"


def _spell(value: object) -> str:
    """A number or a text for a message, cut to its limit. Any other value is an empty text, because
    it may print anything.
    """
    if type(value) is int:
        return str(value) if value.bit_length() <= _MOST_BITS else f"a number of {value.bit_length()} bits"
    if type(value) not in (str, bytes):
        return ""
    shown = ascii(value[: _MOST_SHOWN + 1])  # type: ignore[index]
    return shown if len(shown) <= _MOST_SHOWN else shown[:_MOST_SHOWN] + ".."


# The most bits of a number, and the most characters of a text, that a message shows.
_MOST_BITS, _MOST_SHOWN = 128, 60



class RefusedYear(Refused):
    """A year before -999999 or after 999999."""

    name = "YEAR"
    status = 1


class RefusedMonth(Refused):
    """A month that is not 1 to 12."""

    name = "MONTH"
    status = 2


class RefusedDay(Refused):
    """A day that is not 1 to 31."""

    name = "DAY"
    status = 3


class RefusedDayOfMonth(Refused):
    """A day of 1 to 31 that its month does not have in its year."""

    name = "DAY_OF_MONTH"
    status = 4


class RefusedOrdinal(Refused):
    """A day of the year that is not 1 to 366."""

    name = "ORDINAL"
    status = 5


class RefusedOrdinalOfYear(Refused):
    """Day 366 of a year that has 365."""

    name = "ORDINAL_OF_YEAR"
    status = 6


class RefusedWeek(Refused):
    """An ISO week that is not 1 to 53."""

    name = "WEEK"
    status = 7


class RefusedWeekOfYear(Refused):
    """Week 53 of an ISO year that has 52."""

    name = "WEEK_OF_YEAR"
    status = 8


class RefusedWeekday(Refused):
    """A number that is not a day of the week."""

    name = "WEEKDAY"
    status = 9


class RefusedHour(Refused):
    """An hour that is not 0 to 23."""

    name = "HOUR"
    status = 10


class RefusedMinute(Refused):
    """A minute that is not 0 to 59."""

    name = "MINUTE"
    status = 11


class RefusedSecond(Refused):
    """A second that is not 0 to 59."""

    name = "SECOND"
    status = 12


class RefusedNanosecond(Refused):
    """A nanosecond that is not 0 to 999999999."""

    name = "NANOSECOND"
    status = 13


class RefusedOffsetSeconds(Refused):
    """An offset that is not -93599 to 93599 seconds, or whose part in seconds is not -59 to 59."""

    name = "OFFSET_SECONDS"
    status = 14


class RefusedTimestamp(Refused):
    """A Unix second, or a count of another unit from 1970-01-01, outside the range of
    timestamps."""

    name = "TIMESTAMP"
    status = 15


class RefusedDayNumber(Refused):
    """A day number that is not -365961662 to 364522971, or a Julian day outside the range of
    dates."""

    name = "DAY_NUMBER"
    status = 16


class RefusedDuration(Refused):
    """A duration whose whole seconds do not fit in 64 bits."""

    name = "DURATION"
    status = 17


class RefusedUnit(Refused):
    """A number that is not a unit, not a part of a date-time, or not a kind, a version or an item
    of a format description."""

    name = "UNIT"
    status = 18


class RefusedResult(Refused):
    """A result that is outside the range, or that its type cannot hold."""

    name = "RESULT"
    status = 19


class RefusedBuffer(Refused):
    """A buffer that is too short for what the call writes."""

    name = "BUFFER"
    status = 20


class RefusedSpan(Refused):
    """A span that does not lie in the block of texts."""

    name = "SPAN"
    status = 21


class RefusedSyntax(Refused):
    """A text that does not have the form that the call reads, such as a date-time of RFC 3339."""

    name = "SYNTAX"
    status = 22


class RefusedOffsetHour(Refused):
    """Hours of an offset that are out of range: above 23 in a text of RFC 3339, not -25 to 25
    elsewhere."""

    name = "OFFSET_HOUR"
    status = 23


class RefusedOffsetMinute(Refused):
    """Minutes of an offset that are not -59 to 59."""

    name = "OFFSET_MINUTE"
    status = 24


class RefusedNoText(Refused):
    """A value that has no such text, as in RFC 3339 a year outside 0 to 9999, or an offset with
    seconds or beyond 23:59."""

    name = "NO_TEXT"
    status = 25


class RefusedZone(Refused):
    """Numbers that are no time zone: a part is out of range, or a transition or the rule does not
    follow."""

    name = "ZONE"
    status = 26


class RefusedGap(Refused):
    """A wall clock that no instant has, since a time zone puts its clocks forward past it."""

    name = "GAP"
    status = 27


class RefusedFold(Refused):
    """A wall clock that two instants have, since a time zone puts its clocks back over it."""

    name = "FOLD"
    status = 28


# The class of each error, by its status.
REFUSALS: dict[int, type[Refused]] = {
    1: RefusedYear,
    2: RefusedMonth,
    3: RefusedDay,
    4: RefusedDayOfMonth,
    5: RefusedOrdinal,
    6: RefusedOrdinalOfYear,
    7: RefusedWeek,
    8: RefusedWeekOfYear,
    9: RefusedWeekday,
    10: RefusedHour,
    11: RefusedMinute,
    12: RefusedSecond,
    13: RefusedNanosecond,
    14: RefusedOffsetSeconds,
    15: RefusedTimestamp,
    16: RefusedDayNumber,
    17: RefusedDuration,
    18: RefusedUnit,
    19: RefusedResult,
    20: RefusedBuffer,
    21: RefusedSpan,
    22: RefusedSyntax,
    23: RefusedOffsetHour,
    24: RefusedOffsetMinute,
    25: RefusedNoText,
    26: RefusedZone,
    27: RefusedGap,
    28: RefusedFold,
}


class Unit(enum.IntEnum):
    """A unit of time, to which a value is rounded down."""

    DAY = 1
    HOUR = 2
    MINUTE = 3
    SECOND = 4
    MILLISECOND = 5
    MICROSECOND = 6
    NANOSECOND = 7


class Part(enum.IntEnum):
    """A part of a date-time, which `with_part` replaces."""

    YEAR = 1
    MONTH = 2
    DAY = 3
    ORDINAL = 4
    HOUR = 5
    MINUTE = 6
    SECOND = 7
    NANOSECOND = 8


# The number of each choice for a wall clock that a zone shows twice or skips.
CHOICES = {"compatible": 1, "earlier": 2, "later": 3, "reject": 4}

# Where users and pickles look for them.
for _kind in (Part, Refused, Unit):
    _kind.__module__ = "muxandu"

# What an error of a description says of it, by the number of its reason.
REASONS = {
    1: "A [ without its ].",
    2: "A [ that no name follows.",
    3: "A [ inside the brackets of a component.",
    4: "A name of no component.",
    5: "A name that is no modifier of its component.",
    6: "A value that the modifier does not have.",
    7: "A component without a modifier that it needs, such as the count of ignore.",
    8: "A backslash before another byte than [, ] and a backslash.",
    9: "An optional or first without a description in brackets.",
    10: "Something else than a description in brackets after optional or first.",
    11: "More than 32 groups inside each other.",
    12: "An item, or its text, for which the caller has no room.",
    13: "A component that has no name in the language of descriptions.",
    14: "The count 0 of ignore.",
    15: "A ] in a group, for which version 1 has no text.",
    16: "A group in place of another that is not there.",
    17: "A group of more items than the description, or the group around it, has.",
    18: "The year, -999999 to 999999.",
    19: "The year without its last two digits.",
    20: "The last two digits of the year.",
    21: "The year of the ISO week.",
    22: "The year of the ISO week without its last two digits.",
    23: "The last two digits of the year of the ISO week.",
    24: "The month, 1 to 12.",
    25: "The day of the month, 1 to 31.",
    26: "The day of the year, 1 to 366.",
    27: "The day of the week.",
    28: "The ISO week, 1 to 53.",
    29: "The week by the Sundays of the year, 0 to 53.",
    30: "The week by the Mondays of the year, 0 to 53.",
    31: "The hour of the day, 0 to 23.",
    32: "The hour on a clock of 12 hours, 1 to 12.",
    33: "The half of the day.",
    34: "The minute, 0 to 59.",
    35: "The second, 0 to 59.",
    36: "The fraction of the second.",
    37: "The hours of the offset, -25 to 25.",
    38: "The minutes of the offset, 0 to 59.",
    39: "The seconds of the offset, 0 to 59.",
    40: "The Unix time in seconds, -31619087596800 to 31494784780799.",
    41: "The Unix time in milliseconds, -31619087596800000 to 31494784780799999.",
    42: "The Unix time in microseconds, -31619087596800000000 to 31494784780799999999.",
    43: "The Unix time in nanoseconds, -31619087596800000000000 to 31494784780799999999999.",
    44: "A file of a time zone that ends before the end of a header, of a block or of its rule.",
    45: "A header of a file of a time zone that does not begin with TZif.",
    46: "A version of a file of a time zone that is none of 1 to 4, or another one in its second header.",
    47: "A file of a time zone without a kind of local time, or without an abbreviation.",
    48: "An offset of a kind of local time that is out of range.",
    49: "A mark of daylight saving time that is neither 0 nor 1.",
    50: "An abbreviation that begins past the end of their list.",
    51: "A list of abbreviations that does not end with a zero byte.",
    52: "A transition to a kind of local time that the file does not have.",
    53: "A rule in a file that does not begin with a new line.",
    54: "A text without a name where a rule has one.",
    55: "A text without a digit where a rule has a number.",
    56: "A number of a rule with too few digits or too many, or out of range.",
    57: "Another byte than the one that must follow in a rule, or a byte after it.",
    58: "A transition that is out of range, or does not follow the one before it.",
    59: "A rule that overlaps itself in some year, or does not follow the last transition.",
    60: "More than 512 transitions of a time zone.",
    61: "A header of a file of a time zone that counts leap seconds, which Unix time has not.",
}

__all__ = [
    "Part",
    "Refused",
    "RefusedBuffer",
    "RefusedDay",
    "RefusedDayNumber",
    "RefusedDayOfMonth",
    "RefusedDuration",
    "RefusedFold",
    "RefusedGap",
    "RefusedHour",
    "RefusedMinute",
    "RefusedMonth",
    "RefusedNanosecond",
    "RefusedNoText",
    "RefusedOffsetHour",
    "RefusedOffsetMinute",
    "RefusedOffsetSeconds",
    "RefusedOrdinal",
    "RefusedOrdinalOfYear",
    "RefusedResult",
    "RefusedSecond",
    "RefusedSpan",
    "RefusedSyntax",
    "RefusedTimestamp",
    "RefusedUnit",
    "RefusedWeek",
    "RefusedWeekOfYear",
    "RefusedWeekday",
    "RefusedYear",
    "RefusedZone",
    "Unit",
]

#!/usr/bin/env python3
"""Random calls of the Python package's values, each compared with whole numbers, gate/shared/civil.py and `datetime`.

    values.py [COUNT [SEED]]

Constructors, `replace`, operators, texts and conversions get values, ends of ranges, numbers past 64 bits, and objects of other
kinds. A call must return the value of the model, or raise the error of the first part that is out of range with that part, or a
TypeError. The package is that of the sources, or with MUXANDU_INSTALLED that which is installed. The last line is 'N passed, M
failed', a call each.
"""

import datetime
import fractions
import operator
import os
import random
import sys
from pathlib import Path

HERE = Path(__file__).resolve().parent
sys.path[:0] = [str(HERE.parents[3] / "gate")]
if not os.environ.get("MUXANDU_INSTALLED"):
    sys.path[:0] = [str(HERE.parents[1])]
sys.dont_write_bytecode = True

from shared import civil as calendar  # noqa: E402

import muxandu  # noqa: E402

SECOND, DAY = calendar.SECOND, calendar.DAY
RESULT, TYPE = "RESULT", "TypeError"
PARTS = ("year", "month", "day", "hour", "minute", "second", "nanosecond", "offset_seconds")
WORDS = {
    "OffsetDateTime": (PARTS, 3),
    "UtcDateTime": (PARTS[:7], 3),
    "PlainDateTime": (PARTS[:7], 3),
    "Time": (PARTS[3:7], 1),
    "Date": (PARTS[:3], 3),
    "Timestamp": (("seconds", "nanoseconds"), 1),
    "Duration": (("seconds", "nanoseconds"), 0),
    "UtcOffset": (("whole_seconds",), 1),
}
CLOCKS = ("OffsetDateTime", "UtcDateTime", "PlainDateTime")
INSTANTS = ("OffsetDateTime", "UtcDateTime", "Timestamp")
LEAST = {"year": -999_999, "month": 1, "day": 1, "offset_seconds": -93_599, "seconds": calendar.FIRST_SECOND}
MOST = {"year": 999_999, "month": 12, "day": 31, "hour": 23, "minute": 59, "second": 59, "offset_seconds": 93_599}
MOST |= {"nanosecond": SECOND - 1, "nanoseconds": SECOND - 1, "seconds": calendar.LAST_SECOND}
NAMES = {"seconds": "TIMESTAMP", "nanoseconds": "NANOSECOND"}
ORDER = ("month", "year", "day", "day of month", "hour", "minute", "second", "nanosecond", "offset_seconds")


class Number:
    """What can stand for a whole number."""

    def __init__(self, number):
        self.number = number

    def __index__(self):
        return self.number


class Length(datetime.timedelta):
    """A length of a user's own."""


ODD = (0.5, "1", b"1", None, True, [1], fractions.Fraction(1), Number(5), Number(2**70), datetime.date(2024, 2, 29))
ENDS = (0, 1, -1, 12, 13, 23, 24, 28, 29, 30, 31, 32, 59, 60, 255, 256, 1900, 1970, 2024, SECOND - 1, SECOND, 93_599, 93_600)
ENDS += (
    -93_600,
    999_999,
    1_000_000,
    -999_999,
    2**31 - 1,
    2**31,
    -(2**31),
    2**32,
    2**63 - 1,
    2**63,
    -(2**63),
    -(2**63) - 1,
)
ENDS += (2**100, calendar.FIRST_SECOND - 1, calendar.FIRST_SECOND, calendar.LAST_SECOND, calendar.LAST_SECOND + 1)


def is_number(word):
    return hasattr(word, "__index__")


def range_error(parts):
    """The name of the error of these parts, and the part that is out of range, or None."""
    for name in ORDER:
        if name == "day of month":
            date = [parts.get(each) for each in PARTS[:3]]
            if None not in date and date[2] > calendar.month_length(*date[:2]):
                return "DAY_OF_MONTH", "day"
        elif name in parts and not LEAST.get(name, 0) <= parts[name] <= MOST[name]:
            return name.upper(), name
    return None


def of_words(kind, words, start=None):
    """What a constructor returns for these words by their names, over the parts of a value where it replaces some."""
    if not all(map(is_number, words.values())):
        return TYPE
    parts = {**dict.fromkeys(WORDS[kind][0], 0), **(start or {}), **{name: operator.index(word) for name, word in words.items()}}
    if kind == "Duration":
        return of_nanoseconds(parts["seconds"] * SECOND + parts["nanoseconds"])
    if kind in ("Timestamp", "UtcOffset"):
        ends = {"whole_seconds": (-93_599, 93_599, "OFFSET_SECONDS")}
        for name, number in parts.items():
            low, high, error = ends.get(name) or (LEAST.get(name, 0), MOST[name], NAMES[name])
            if not low <= number <= high:
                return error, words.get(name)
        return kind, tuple(parts.values())
    error = range_error(parts)
    return (error[0], words.get(error[1])) if error else (kind, tuple(parts.values()))


def of_nanoseconds(whole):
    """The Duration of nanoseconds."""
    seconds, nanoseconds = divmod(abs(whole), SECOND)
    sign = -1 if whole < 0 else 1
    is_held = -(2**63) <= sign * seconds < 2**63
    return ("Duration", (sign * seconds, sign * nanoseconds)) if is_held else ("DURATION", None)


def of_wall(kind, wall, offset=0):
    """The clock that shows a count of nanoseconds."""
    if not calendar.FIRST <= wall <= calendar.LAST:
        return RESULT, None
    day, clock = divmod(wall, DAY)
    minute, rest = divmod(clock, 60 * SECOND)
    parts = (*calendar.civil_date(day), minute // 60, minute % 60, *divmod(rest, SECOND))
    return kind, (*parts, offset) if kind == "OffsetDateTime" else parts


def kind_of(value):
    return type(value).__name__


def parts_of(value):
    return value.__reduce__()[1]


def wall_of(value):
    """The nanoseconds that a clock shows, from 1970."""
    at = dict(zip(WORDS[kind_of(value)][0], parts_of(value)))
    day = calendar.day_number(at["year"], at["month"], at["day"]) if "year" in at else 0
    return day * DAY + ((at["hour"] * 60 + at["minute"]) * 60 + at["second"]) * SECOND + at["nanosecond"]


def number_of(value):
    """The number by which values of a kind are in order."""
    kind = kind_of(value)
    if kind in ("Timestamp", "Duration"):
        return parts_of(value)[0] * SECOND + parts_of(value)[1]
    if kind == "Date":
        return calendar.day_number(*parts_of(value))
    if kind == "UtcOffset":
        return parts_of(value)[0]
    return wall_of(value) - (parts_of(value)[7] * SECOND if kind == "OffsetDateTime" else 0)


def length_of(value):
    """The nanoseconds of a Duration or a timedelta, or None."""
    if isinstance(value, datetime.timedelta):
        return (value.days * 86_400 + value.seconds) * SECOND + value.microseconds * 1_000
    return number_of(value) if kind_of(value) == "Duration" else None


def moved(value, length):
    """The value later by nanoseconds."""
    kind = kind_of(value)
    if kind == "Timestamp":
        number = number_of(value) + length
        return (kind, divmod(number, SECOND)) if calendar.FIRST <= number <= calendar.LAST else (RESULT, None)
    if kind == "Duration":
        return of_nanoseconds(number_of(value) + length)
    return of_wall(kind, wall_of(value) + length, parts_of(value)[7] if kind == "OffsetDateTime" else 0)


def day_moved(value, days):
    number = calendar.day_number(*parts_of(value)) + days
    is_day = calendar.FIRST // DAY <= number <= calendar.LAST // DAY
    return ("Date", calendar.civil_date(number)) if is_day else ("DAY_NUMBER", number)


def sum_of(value, other, sign):
    """A value plus or less another."""
    kind, length = kind_of(value), length_of(other)
    if kind == "Date" and (isinstance(other, int) or length is not None):
        days = other if length is None else abs(length) // DAY * (-1 if length < 0 else 1)
        return day_moved(value, sign * int(days))
    if length is not None and kind in (*CLOCKS, "Timestamp", "Duration"):
        return moved(value, sign * length)
    if sign < 0 and (kind == kind_of(other) != "UtcOffset" or {kind, kind_of(other)} <= set(INSTANTS)):
        return of_nanoseconds((number_of(value) - number_of(other)) * (DAY if kind == "Date" else 1))
    return TYPE


def added(first, second):
    is_first = kind_of(first) in WORDS and (length_of(first) is None or kind_of(second) not in WORDS)
    return sum_of(first, second, 1) if is_first else sum_of(second, first, 1)


def compared(how, first, second):
    """What a comparison returns."""
    kinds = {kind_of(first), kind_of(second)}
    lengths = length_of(first), length_of(second)
    if len(kinds) == 1 or kinds <= set(INSTANTS):
        return how(number_of(first), number_of(second))
    if None not in lengths:
        return how(*lengths)
    return {operator.eq: False, operator.ne: True}.get(how, TYPE)


def text_of(value):
    """What `str` prints of a clock."""
    kind = kind_of(value)
    if kind == "Date":
        return calendar.date_text(number_of(value))
    if kind == "UtcOffset":
        return calendar.offset_text(number_of(value))
    if kind == "Time":
        return calendar.time_text(wall_of(value))
    ends = {"OffsetDateTime": lambda: f" {calendar.offset_text(parts_of(value)[7])}", "UtcDateTime": lambda: " +00"}
    return calendar.date_time_text(wall_of(value)) + ends.get(kind, str)()


HOWS = (operator.lt, operator.le, operator.eq, operator.ne, operator.gt, operator.ge)


class Calls:
    """Calls, and values that they returned."""

    def __init__(self, source):
        self.source, self.passed, self.failed = source, 0, 0
        self.values = [getattr(muxandu, kind)(*words) for kind, words in FIRST]

    def number(self):
        chosen = self.source.random()
        if chosen < 0.04:
            return self.source.choice(ODD)
        return self.source.choice(ENDS) if chosen < 0.35 else self.source.randint(0, 28)

    def other(self):
        """A value, a length, a number or an object of another kind."""
        chosen = self.source.random()
        if chosen < 0.7:
            return self.source.choice(self.values)
        if chosen < 0.9:
            kind = self.source.choice((datetime.timedelta, Length))
            return kind(self.source.randint(-400, 400), self.source.randrange(86_400), self.source.randrange(10**6))
        return self.number()

    def constructor(self):
        kind = self.source.choice(tuple(WORDS))
        names, least = WORDS[kind]
        count = self.source.choice((least, len(names), self.source.randint(0, len(names) + 1)))
        words = [self.number() for _ in range(count)]
        by_place = self.source.randint(0, count) if count <= len(names) else count
        named = dict(zip(names[by_place:], words[by_place:]))
        call = lambda: getattr(muxandu, kind)(*words[:by_place], **named)  # noqa: E731
        return call, of_words(kind, dict(zip(names, words))) if least <= count <= len(names) else TYPE, (kind, words)

    def replaced(self):
        value = self.source.choice([one for one in self.values if kind_of(one) in (*CLOCKS, "Date")])
        names = WORDS[kind_of(value)][0]
        words = {name: self.number() for name in self.source.sample(names, self.source.randint(0, 2))}
        if self.source.random() < 0.05:
            return lambda: value.replace(**words, other=1), TYPE, (value, words)
        start = dict(zip(names, parts_of(value)))
        return lambda: value.replace(**words), of_words(kind_of(value), words, start), (value, words)

    def operated(self):
        first, second = self.source.choice(self.values), self.other()
        chosen = self.source.random()
        if chosen < 0.3:
            pair = (first, second) if self.source.random() < 0.5 else (second, first)
            return lambda: operator.add(*pair), added(*pair), ("add", pair)
        if chosen < 0.6:
            return lambda: first - second, sum_of(first, second, -1), ("sub", first, second)
        how = self.source.choice(HOWS)
        if how in (operator.eq, operator.lt) and kind_of(second) in WORDS and self.source.random() < 0.2:
            second = type(first)(*parts_of(first))
        return lambda: how(first, second), compared(how, first, second), (how, first, second)

    def converted(self):
        value = self.source.choice([one for one in self.values if kind_of(one) in CLOCKS])
        parts, kind = parts_of(value), kind_of(value)
        offset = parts[7] if kind == "OffsetDateTime" else 0
        wanted = {
            "date": ("Date", parts[:3]),
            "time": ("Time", parts[3:7]),
            "day_number": wall_of(value) // DAY,
            "__str__": text_of(value),
            **({"assume_utc": ("UtcDateTime", parts[:7])} if kind == "PlainDateTime" else {}),
            **({"date_time": ("PlainDateTime", parts[:7]), "offset": ("UtcOffset", (offset,))} if kind in INSTANTS else {}),
            **({"to_utc": of_wall("UtcDateTime", wall_of(value) - offset * SECOND)} if kind == "OffsetDateTime" else {}),
        }
        name = self.source.choice(sorted(wanted))
        return getattr(value, name), wanted[name], (name, value)

    def from_datetime(self):
        zones = (None, datetime.timezone.utc, datetime.timezone(datetime.timedelta(seconds=self.source.randint(-86_399, 86_399))))
        zone, kind = self.source.choice(zones), self.source.choice((*CLOCKS, "Timestamp"))
        at = datetime.datetime(1, 1, 3) + datetime.timedelta(
            self.source.randint(0, 3_652_000), 0, self.source.randrange(86_400 * 10**6)
        )
        at = at.replace(tzinfo=zone)
        wall = ((at.replace(tzinfo=None) - datetime.datetime(1970, 1, 1)) // datetime.timedelta(microseconds=1)) * 1_000
        offset = int(at.utcoffset().total_seconds()) if zone else 0
        wanted = of_wall(kind, wall if kind != "UtcDateTime" else wall - offset * SECOND, offset)
        if kind == "Timestamp":
            wanted = kind, divmod(wall - offset * SECOND, SECOND)
        if (zone is None) != (kind == "PlainDateTime"):
            wanted = "ValueError"
        return lambda: getattr(muxandu, kind).from_datetime(at), wanted, (kind, at)

    def compare(self):
        chosen = self.source.random()
        kinds = (
            (0.3, self.constructor),
            (0.45, self.replaced),
            (0.8, self.operated),
            (0.93, self.converted),
            (1, self.from_datetime),
        )
        call, wanted, told = next(some for most, some in kinds if chosen < most)()
        found, value = ended(call)
        if found == wanted:
            self.passed += 1
            if kind_of(value) in WORDS and len(self.values) < 400:
                self.values.append(value)
            elif kind_of(value) in WORDS:
                self.values[self.source.randrange(len(FIRST), 400)] = value
            return
        self.failed += 1
        if self.failed <= 20:
            print("FAILED:", told, f"returned {found!r}, must return {wanted!r}", sep="\n  ")


FIRST = (
    *(("Timestamp", (-1, 5)), ("Timestamp", (calendar.LAST_SECOND, SECOND - 1)), ("Timestamp", (calendar.FIRST_SECOND,))),
    *(("OffsetDateTime", (2024, 2, 29)), ("OffsetDateTime", (1, 1, 1, 0, 0, 0, 0, 3_600)), ("UtcDateTime", (2024, 2, 29))),
    *(("OffsetDateTime", (999_999, 12, 31, 23, 59, 59, 0, -60)), ("OffsetDateTime", (-999_999, 1, 1, 0, 0, 0, 0, 60))),
    *(
        ("Duration", (-3, -5)),
        ("Duration", (2**63 - 1, SECOND - 1)),
        ("Duration", (-(2**63), 1 - SECOND)),
        ("Duration", (86_400,)),
    ),
    *(("Date", (2024, 2, 29)), ("Date", (999_999, 12, 31)), ("Date", (-999_999, 1, 1))),
    *(("PlainDateTime", (2024, 2, 29)), ("Time", (5,)), ("UtcOffset", (60,))),
)


def ended(call):
    """What a call returns, as the model tells it, and the value."""
    try:
        value = call()
    except muxandu.Refused as refused:
        return (refused.name, refused.value), None
    except (TypeError, ValueError) as error:
        return type(error).__name__, None
    if kind_of(value) not in WORDS:
        return value, value
    kind, parts = value.__reduce__()
    is_same = value == kind(*parts) and hash(value) == hash(kind(*parts))
    return ((kind_of(value), tuple(parts)) if is_same else "another value of the same parts"), value


def main():
    numbers = [int(word) for word in sys.argv[1:]]
    count, seed = (*numbers, *(20_000, 1)[len(numbers) :])
    calls = Calls(random.Random(seed))
    for _ in range(count):
        calls.compare()
    print(f"{calls.passed} passed, {calls.failed} failed")
    sys.exit(1 if calls.failed or not calls.passed else 0)


if __name__ == "__main__":
    main()

"""What texts of RFC 3339 say, by Python's `re` and `datetime`, and from no code of this repository."""

import calendar
import datetime
import re

# date-time of section 5.6, where a space may stand for the T. A text must match as a whole.
DATE_TIME = re.compile(
    rb"([0-9]{4})-([0-9]{2})-([0-9]{2})[Tt ]([0-9]{2}):([0-9]{2}):([0-9]{2})(?:\.([0-9]+))?(?:[Zz]|([+-])([0-9]{2}):([0-9]{2}))"
)

EPOCH = datetime.datetime(1970, 1, 1)

# The days of 400 years, after which the calendar repeats itself. Python's years begin at 1.
CYCLE = 146_097


def reading(text):
    """What a text says: (Unix second, nanosecond, seconds of the offset), or the name of its refusal."""
    match = DATE_TIME.fullmatch(text)
    if not match:
        return "Syntax"
    year, month, day, hour, minute, second = (int(digits) for digits in match.groups()[:6])
    fraction, sign, offset_hour, offset_minute = match.group(7, 8, 9, 10)
    offset_hour, offset_minute = int(offset_hour or 0), int(offset_minute or 0)
    if not 1 <= month <= 12:
        return "Month"
    if not 1 <= day <= calendar.monthrange(year + 400, month)[1]:
        return "Day"
    for number, most, name in (
        (hour, 23, "Hour"),
        (minute, 59, "Minute"),
        (second, 59, "Second"),
        (offset_hour, 23, "OffsetHour"),
        (offset_minute, 59, "OffsetMinute"),
    ):
        if number > most:
            return name
    offset = (-1 if sign == b"-" else 1) * (offset_hour * 3_600 + offset_minute * 60)
    shifted = year + (400 if year < 400 else 0)
    passed = datetime.datetime(shifted, month, day, hour, minute, second) - EPOCH
    days = passed.days - (CYCLE if year < 400 else 0)
    return days * 86_400 + passed.seconds - offset, int((fraction or b"0")[:9].ljust(9, b"0")), offset


def shortest_text(second, nanosecond, offset):
    """The text of an instant at an offset, whose year there has four digits."""
    days, clock = divmod(second + offset, 86_400)
    shift = 0 if days > -CYCLE * 4 else 1
    at = EPOCH + datetime.timedelta(days=days + CYCLE * shift, seconds=clock)
    fraction = f".{nanosecond:09}".rstrip("0") if nanosecond else ""
    sign, size = ("-", -offset) if offset < 0 else ("+", offset)
    zone = f"{sign}{size // 3_600:02}:{size // 60 % 60:02}" if offset else "Z"
    return f"{at.year - 400 * shift:04}-{at.month:02}-{at.day:02}T{at.hour:02}:{at.minute:02}:{at.second:02}{fraction}{zone}"

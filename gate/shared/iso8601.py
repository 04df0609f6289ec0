"""What texts of ISO 8601 say whose year can have a sign and six digits, by Python's `re` and a calendar of the tools, and from no
code of this repository."""

import re

from shared.civil import civil_date, day_number

DAY = 86_400

# A text must match as a whole. The seconds of an offset are 00 to 59.
DATE_TIME = re.compile(
    rb"([0-9]{4}|[+-][0-9]{6})-([0-9]{2})-([0-9]{2})[Tt ]([0-9]{2}):([0-9]{2}):([0-9]{2})(?:\.([0-9]+))?"
    rb"(?:[Zz]|([+-])([0-9]{2}):([0-9]{2})(?::([0-5][0-9]))?)"
)

# The greatest offset, and the ends of the years -999999 to 999999, in seconds.
LAST_OFFSET = 93_599
FIRST, LAST = day_number(-999_999, 1, 1) * DAY, day_number(1_000_000, 1, 1) * DAY - 1


def reading(text):
    """What a text says: (Unix second, nanosecond, seconds of the offset), or the name of its refusal."""
    match = DATE_TIME.fullmatch(text)
    if not match:
        return "Syntax"
    year, month, day, hour, minute, second = (int(digits) for digits in match.groups()[:6])
    fraction, sign = match.group(7, 8)
    offset_hour, offset_minute, offset_second = (int(digits or 0) for digits in match.group(9, 10, 11))
    if not 1 <= month <= 12:
        return "Month"
    if day < 1 or civil_date(day_number(year, month, 1) + day - 1)[1:] != (month, day):
        return "Day"
    for number, most, name in (
        (hour, 23, "Hour"),
        (minute, 59, "Minute"),
        (second, 59, "Second"),
        (offset_hour, 25, "OffsetHour"),
        (offset_minute, 59, "OffsetMinute"),
    ):
        if number > most:
            return name
    offset = (-1 if sign == b"-" else 1) * (offset_hour * 3_600 + offset_minute * 60 + offset_second)
    instant = day_number(year, month, day) * DAY + hour * 3_600 + minute * 60 + second - offset
    return instant, int((fraction or b"0")[:9].ljust(9, b"0")), offset


def shortest_text(second, nanosecond, offset):
    """The text of an instant at an offset."""
    day, clock = divmod(second + offset, DAY)
    year, month, day_of_month = civil_date(day)
    date = f"{year:04}" if 0 <= year <= 9_999 else f"{'-' if year < 0 else '+'}{abs(year):06}"
    fraction = f".{nanosecond:09}".rstrip("0") if nanosecond else ""
    sign, size = ("-", -offset) if offset < 0 else ("+", offset)
    seconds = f":{size % 60:02}" if size % 60 else ""
    zone = f"{sign}{size // 3_600:02}:{size // 60 % 60:02}{seconds}" if offset else "Z"
    clock_text = f"{clock // 3_600:02}:{clock // 60 % 60:02}:{clock % 60:02}"
    return f"{date}-{month:02}-{day_of_month:02}T{clock_text}{fraction}{zone}"

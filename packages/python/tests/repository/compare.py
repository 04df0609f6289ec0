#!/usr/bin/env python3
"""Random calls of all kinds, each compared with Python's `datetime` and gate/shared/civil.py.

    compare.py [COUNT [SEED]]

The calls over many items go through the Python package that is installed, and the others through ctypes to the shared library
that MUXANDU_LIBRARY names. PYTHONPATH leads to muxandu_sys.py, which `make/bindings python` prints. The last line is 'N passed,
M failed', a call or an item each.
"""

import array
import ctypes
import datetime
import os
import random
import sys
from pathlib import Path

HERE = Path(__file__).resolve().parent
sys.path[:0] = [str(HERE.parents[3] / "gate"), str(HERE)]
sys.dont_write_bytecode = True

import muxandu_sys  # noqa: E402
from muxandu import DateTimeParts, Refused  # noqa: E402
from muxandu import date_times_from_seconds, dates_from_days, days_from_dates  # noqa: E402
from muxandu import seconds_from_date_times, timestamps_from_rfc3339  # noqa: E402
from muxandu._refusals import REFUSALS  # noqa: E402
from muxandu._structures import MuxanduDate, MuxanduDuration, MuxanduTimestamp  # noqa: E402
from muxandu._structures import MuxanduOrdinalDate, MuxanduWeekDate  # noqa: E402
from shared import civil as calendar  # noqa: E402
from shared import rfc3339  # noqa: E402

library = muxandu_sys.declare(ctypes.CDLL(os.environ["MUXANDU_LIBRARY"]))

SECOND, FIRST, LAST = calendar.SECOND, calendar.FIRST_SECOND, calendar.LAST_SECOND
FIRST_DAY, LAST_DAY = FIRST // 86_400, LAST // 86_400
UNITS = (86_400 * SECOND, 3_600 * SECOND, 60 * SECOND, SECOND, 1_000_000, 1_000)
STATUS = {refusal.name: status for status, refusal in REFUSALS.items()}
RESULT = STATUS["RESULT"]
MOST_OFFSET = 93_599

# The seconds that datetime has at each offset.
EPOCH = datetime.datetime(1970, 1, 1)
DATETIME_SECONDS = (-62_135_596_800 + 100_000, 253_402_300_799 - 100_000)

# How many of each hundred calls are made by the calls over many items.
BATCHED = 75
ITEMS = 10_000

passed = failed = 0


def count(holds, told, times=1):
    global passed, failed
    if holds:
        passed += times
    else:
        failed += 1
        if failed <= 20:
            print(told)


def parts(value):
    return tuple(getattr(value, name) for name, _ in value._fields_)


def shown(wall, offset):
    """The parts of what clocks show, of a wall clock in nanoseconds: by datetime where it has the day, else by eras."""
    second, nanosecond = divmod(wall, SECOND)
    if DATETIME_SECONDS[0] <= second <= DATETIME_SECONDS[1]:
        at = EPOCH + datetime.timedelta(0, second)
        return at.year, at.month, at.day, at.hour, at.minute, at.second, nanosecond, offset
    day, clock = divmod(second, 86_400)
    return (*calendar.civil_date(day), clock // 3_600, clock // 60 % 60, clock % 60, nanosecond, offset)


class Source:
    """Random values: of the whole range, of years that datetime has, and near the ends."""

    def __init__(self, seed):
        self.random = random.Random(seed)

    def second(self):
        kind = self.random.random()
        if kind < 0.02:
            return self.random.choice((FIRST, LAST)) + self.random.randint(-2, 2)
        return self.random.randint(*DATETIME_SECONDS) if kind < 0.6 else self.random.randint(FIRST, LAST)

    def nanosecond(self):
        return self.random.choice((0, 999_999_999, self.random.randrange(SECOND)))

    def offset(self):
        minutes, seconds = self.random.randint(-1_439, 1_439), self.random.randint(-MOST_OFFSET, MOST_OFFSET)
        return self.random.choice((0, minutes * 60, seconds))

    def day(self):
        return self.random.randint(FIRST_DAY, LAST_DAY) if self.random.random() < 0.5 else self.second() // 86_400

    def instant(self):
        return min(max(self.second(), FIRST), LAST) * SECOND + self.nanosecond()

    def length(self):
        most = self.random.choice((2, 10**9, 2**46))
        return MuxanduDuration(self.random.randint(-most, most), self.random.randint(-SECOND + 1, SECOND - 1))


def stamp(instant):
    return MuxanduTimestamp(*divmod(instant, SECOND))


def civil(wall, offset):
    return DateTimeParts(*shown(wall, offset))


def is_inside(number):
    return FIRST * SECOND <= number < (LAST + 1) * SECOND


def clamped(number):
    return min(max(number, FIRST * SECOND), LAST * SECOND + SECOND - 1)


def whole(duration):
    return duration.seconds * SECOND + duration.nanoseconds


def signed(number):
    """Seconds and nanoseconds of one sign."""
    seconds, nanoseconds = divmod(abs(number), SECOND)
    return (seconds, nanoseconds) if number >= 0 else (-seconds, -nanoseconds)


def plain(value):
    """The parts of a structure, and the number of another."""
    return parts(value) if hasattr(value, "_fields_") else getattr(value, "value", value)


def expect(name, structure, words, wanted):
    """Makes a call, and compares its status and what it writes: `wanted` is its parts, or a status."""
    out = structure()
    status = getattr(library, f"muxandu_{name}")(*words, ctypes.byref(out))
    said = status or plain(out)
    count(said == wanted, (name, [plain(word) for word in words], said, "and not", wanted))


def compare_timestamps(source):
    at, other, duration = source.instant(), source.instant(), source.length()
    place, moved = source.random.randrange(6), (stamp(at), duration)
    later, earlier = at + whole(duration), at - whole(duration)
    expect("timestamp_add", MuxanduTimestamp, moved, divmod(later, SECOND) if is_inside(later) else RESULT)
    expect("timestamp_subtract", MuxanduTimestamp, moved, divmod(earlier, SECOND) if is_inside(earlier) else RESULT)
    expect("timestamp_saturating_add", MuxanduTimestamp, moved, divmod(clamped(later), SECOND))
    expect("timestamp_saturating_subtract", MuxanduTimestamp, moved, divmod(clamped(earlier), SECOND))
    expect("timestamp_difference", MuxanduDuration, (stamp(at), stamp(other)), signed(at - other))
    expect("timestamp_truncate", MuxanduTimestamp, (stamp(at), place + 1), divmod(at - at % UNITS[place], SECOND))
    for unit, name in ((1_000_000, "milliseconds"), (1_000, "microseconds"), (1, "nanoseconds")):
        number = at // unit
        expect(f"timestamp_to_{name}", ctypes.c_int64, (stamp(at),), number if -(2**63) <= number < 2**63 else RESULT)
    number = at // 1_000_000
    expect("timestamp_from_milliseconds", MuxanduTimestamp, (number,), divmod(number * 1_000_000, SECOND))
    number = source.random.randrange(-(2**63), 2**63)
    for unit, name in ((1_000, "microseconds"), (1, "nanoseconds")):
        made = parts(getattr(library, f"muxandu_timestamp_from_{name}")(number))
        count(made == divmod(number * unit, SECOND), (name, number))
    order = (at > other) - (at < other)
    count(library.muxandu_timestamp_compare(stamp(at), stamp(other)) == order, ("timestamp_compare", at, other))
    count(library.muxandu_timestamp_check(stamp(at)) == 0, ("timestamp_check", at))


def compare_civils(source):
    wall, offset, other, there = source.instant(), source.offset(), source.instant(), source.offset()
    duration, place, at = source.length(), source.random.randrange(6), civil(wall, offset)
    instant, later, earlier = wall - offset * SECOND, wall + whole(duration), wall - whole(duration)
    apart = instant - (other - there * SECOND)
    expect("timestamp_from_date_time", MuxanduTimestamp, (at,), divmod(instant, SECOND) if is_inside(instant) else RESULT)
    moved = instant + there * SECOND
    expect("date_time_to_offset", DateTimeParts, (at, there), shown(moved, there) if is_inside(moved) else RESULT)
    moved = wall + there * SECOND
    expect("date_time_from_timestamp", DateTimeParts, (stamp(wall), there), shown(moved, there) if is_inside(moved) else RESULT)
    expect("date_time_add", DateTimeParts, (at, duration), shown(later, offset) if is_inside(later) else RESULT)
    expect("date_time_subtract", DateTimeParts, (at, duration), shown(earlier, offset) if is_inside(earlier) else RESULT)
    expect("date_time_saturating_add", DateTimeParts, (at, duration), shown(clamped(later), offset))
    expect("date_time_saturating_subtract", DateTimeParts, (at, duration), shown(clamped(earlier), offset))
    expect("date_time_difference", MuxanduDuration, (at, civil(other, there)), signed(apart))
    expect("date_time_compare", ctypes.c_int32, (at, civil(other, there)), (apart > 0) - (apart < 0))
    expect("date_time_truncate", DateTimeParts, (at, place + 1), shown(wall - wall % UNITS[place], offset))
    expect("date_time_day", ctypes.c_int32, (at,), wall // calendar.DAY)
    count(library.muxandu_date_time_check(at) == 0, ("date_time_check", parts(at)))


def compare_days(source):
    day = source.day()
    if not FIRST_DAY <= day <= LAST_DAY:
        day = FIRST_DAY
    year, month, of_month = calendar.civil_date(day)
    ordinal, weekday, (iso_year, week) = calendar.ordinal(day), calendar.weekday(day), calendar.iso_week_date(day)
    if -719_162 <= day <= 2_932_896:
        date = datetime.date.fromordinal(day + 719_163)
        assert (year, month, of_month, ordinal) == (date.year, date.month, date.day, date.timetuple().tm_yday)
        assert (iso_year, week, weekday + 1) == tuple(date.isocalendar()), date
    expect("date_from_day", MuxanduDate, (day,), (year, month, of_month))
    expect("day_from_date", ctypes.c_int32, (MuxanduDate(year, month, of_month),), day)
    expect("ordinal_date_from_day", MuxanduOrdinalDate, (day,), (year, ordinal))
    expect("day_from_ordinal_date", ctypes.c_int32, (MuxanduOrdinalDate(year, ordinal),), day)
    expect("week_date_from_day", MuxanduWeekDate, (day,), (iso_year, week, weekday))
    expect("day_from_week_date", ctypes.c_int32, (MuxanduWeekDate(iso_year, week, weekday),), day)
    expect("weekday_from_day", ctypes.c_uint8, (day,), weekday)
    expect("days_in_month", ctypes.c_uint8, (year, month), calendar.month_length(year, month))


def text_of(name, value):
    place, size = ctypes.create_string_buffer(muxandu_sys.TEXT_ROOM), ctypes.c_size_t()
    status = getattr(library, f"muxandu_{name}")(value, place, len(place), ctypes.byref(size))
    return status or place.raw[: size.value].decode("ascii")


def compare_texts(source):
    wall, offset, instant = source.instant(), source.offset(), source.instant()
    at = civil(wall, offset)
    wanted = f"{calendar.date_time_text(wall)} {calendar.offset_text(offset)}"
    count(text_of("date_time_text", at) == wanted, ("date_time_text", parts(at)))
    count(text_of("timestamp_text", stamp(instant)) == calendar.timestamp_text(instant), ("timestamp_text", instant))
    has_text = 0 <= at.year <= 9_999 and offset % 60 == 0 and abs(offset) < 86_400
    wanted = rfc3339.shortest_text((wall // SECOND) - offset, wall % SECOND, offset) if has_text else STATUS["NO_TEXT"]
    count(text_of("date_time_to_rfc3339", at) == wanted, ("date_time_to_rfc3339", parts(at)))
    year = calendar.civil_date(instant // calendar.DAY)[0]
    wanted = rfc3339.shortest_text(*divmod(instant, SECOND), 0) if 0 <= year <= 9_999 else STATUS["NO_TEXT"]
    count(text_of("timestamp_to_rfc3339", stamp(instant)) == wanted, ("timestamp_to_rfc3339", instant))
    if 0 <= year <= 9_999:
        wanted = f"{wanted[:19]}.{instant % SECOND:09}Z"
    count(text_of("timestamp_to_rfc3339_nanos", stamp(instant)) == wanted, ("timestamp_to_rfc3339_nanos", instant))


def spelled(source):
    """A text of RFC 3339, one in three of them spoiled."""
    second, offset = source.random.randint(-62_167_219_200, 253_402_300_799), source.random.randint(-1_439, 1_439) * 60
    if not -62_167_219_200 <= second + offset <= 253_402_300_799:
        offset = 0
    text = rfc3339.shortest_text(second, source.nanosecond(), offset)
    if source.random.random() < 0.33:
        place = source.random.randrange(len(text))
        text = text[:place] + source.random.choice(("", "0", "6", "9", "Z", "-", "t", " ")) + text[place + 1 :]
    return text.encode()


# The name in the library of each refusal of gate/shared/rfc3339.py, but of a day of 1 to 31 that its month has not.
TEXT_STATUS = {
    "Syntax": "SYNTAX", "Month": "MONTH", "Day": "DAY", "Hour": "HOUR", "Minute": "MINUTE", "Second": "SECOND",
    "OffsetHour": "OFFSET_HOUR", "OffsetMinute": "OFFSET_MINUTE",
}  # fmt: skip


def name_of(said, text):
    """The name of what a text is refused by."""
    is_of_some_month = said == "Day" and b"01" <= text[8:10] <= b"31"
    return "DAY_OF_MONTH" if is_of_some_month else TEXT_STATUS[said]


def compare_reading(source):
    text = spelled(source)
    said = rfc3339.reading(text)
    wanted = STATUS[name_of(said, text)] if isinstance(said, str) else said
    out, at = DateTimeParts(), MuxanduTimestamp()
    status = library.muxandu_date_time_from_rfc3339(text, len(text), ctypes.byref(out))
    if not isinstance(said, str):
        second, nanosecond, offset = said
        wanted = shown((second + offset) * SECOND + nanosecond, offset)
    count((status or parts(out)) == wanted, ("date_time_from_rfc3339", text))
    status = library.muxandu_timestamp_from_rfc3339(text, len(text), ctypes.byref(at))
    count((status or parts(at)) == (wanted if isinstance(said, str) else said[:2]), ("timestamp_from_rfc3339", text))


def compare_seconds_batch(source):
    offset = source.offset()
    seconds = array.array("q", (min(max(source.second(), FIRST + MOST_OFFSET), LAST - MOST_OFFSET) for _ in range(ITEMS)))
    civils = date_times_from_seconds(seconds, offset)
    for second, item in zip(seconds, civils):
        count(parts(item) == shown((second + offset) * SECOND, offset), ("date_times_from_seconds", second, offset))
    count(seconds_from_date_times(civils) == seconds, "seconds_from_date_times", ITEMS)


def compare_days_batch(source):
    days = array.array("i", (min(max(source.day(), FIRST_DAY), LAST_DAY) for _ in range(ITEMS)))
    dates = dates_from_days(days)
    for day, date in zip(days, dates):
        count(parts(date) == calendar.civil_date(day), ("dates_from_days", day))
    count(days_from_dates(dates) == days, "days_from_dates", ITEMS)


def compare_texts_batch(source):
    texts = [spelled(source) for _ in range(ITEMS // 10)]
    said = [rfc3339.reading(text) for text in texts]
    while texts:
        out = (MuxanduTimestamp * len(texts))()
        try:
            timestamps_from_rfc3339(texts, out=out)
            done = len(texts)
        except Refused as refused:
            done = refused.count
            is_named = isinstance(said[done], str) and name_of(said[done], texts[done]) == refused.name
            count(is_named, ("timestamps_from_rfc3339", texts[done]))
        for item, (text, reading) in zip(out[:done], zip(texts, said)):
            count(parts(item) == reading[:2], ("timestamps_from_rfc3339", text))
        texts, said = texts[done + 1 :], said[done + 1 :]


def main():
    wanted = int(sys.argv[1]) if len(sys.argv) > 1 else 1_000_000
    source = Source(int(sys.argv[2]) if len(sys.argv) > 2 else 1)
    while passed + failed < wanted * BATCHED // 100:
        for compare in (compare_seconds_batch, compare_seconds_batch, compare_days_batch, compare_texts_batch):
            compare(source)
    while passed + failed < wanted:
        for compare in (compare_timestamps, compare_civils, compare_days, compare_texts, compare_reading):
            compare(source)
    print(f"{passed} passed, {failed} failed")
    return 0 if passed and not failed else 1


if __name__ == "__main__":
    sys.exit(main())

"""What values are beside those of `datetime`, and what they do in Python: sums, order, formats, pickles, the command line."""

import copy
import datetime
import fractions
import importlib.metadata
import inspect
import json
import os
import pickle
import random
import subprocess
import sys
import time
import unittest
from pathlib import Path

import muxandu
from muxandu import Date, Duration, OffsetDateTime, Part, PlainDateTime, Time, Timestamp, Unit, UtcDateTime, UtcOffset

DAY = datetime.timedelta(days=1)
UTC = datetime.timezone.utc
MOMENT = datetime.datetime(2024, 2, 29, 12, 34, 56, 789_012, UTC)


class Durations(unittest.TestCase):
    def test_beside_timedelta(self):
        lengths = [
            datetime.timedelta(microseconds=count) for count in (-(10**15), -5, 0, 1_000, 999_995, 10**6, 86_400 * 10**6)
        ]
        for first in lengths:
            one = Duration.of(first)
            self.assertEqual((one.to_timedelta(), one.total_seconds()), (first, first.total_seconds()))
            self.assertEqual((Duration.of(-first), Duration.of(abs(first))), (-one, abs(one)))
            self.assertEqual((bool(one), hash(one)), (bool(first), hash(first)))
            self.assertEqual((one * 3, 3 * one, one // 5), tuple(map(Duration.of, (first * 3, 3 * first, first // 5))))
            for second in lengths:
                other = Duration.of(second)
                self.assertEqual((one + other, one - other), (Duration.of(first + second), Duration.of(first - second)))
                self.assertEqual((one + second, first + other), (one + other, one + other))
                self.assertEqual((one - second, first - other), (one - other, one - other))
                orders = (one < other, one <= other, one == other, one > other, one >= other, one != other)
                self.assertEqual(
                    orders, (first < second, first <= second, first == second, first > second, first >= second, first != second)
                )
                self.assertEqual(
                    (one < second, one == second, first == other), (first < second, first == second, first == second)
                )
                if second:
                    self.assertEqual((one // other, one / other), (first // second, first / second))
                    self.assertEqual((first // other, first / other), (first // second, first / second))
                    self.assertEqual((first % other, divmod(first, other)), (one % other, divmod(one, other)))
                    self.assertEqual(
                        (one % other, divmod(one, other)), (Duration.of(first % second), (first // second, one % other))
                    )

    def test_of_one_sign(self):
        ends = ((-(2**63) - 1, 32), (2**63, -1), (-(2**63) - 2, 2 * 10**9 - 1))
        for seconds, nanoseconds in ((1, -1), (-1, 1), (0, -(10**12)), (5, 10**9), (2**62, -(2**80)), *ends):
            made = Duration(seconds, nanoseconds)
            whole = seconds * 10**9 + nanoseconds
            self.assertEqual((made.whole_nanoseconds(), Duration.of_nanoseconds(whole)), (whole, made))
            self.assertLess(abs(made.nanoseconds), 10**9)
            self.assertGreaterEqual(made.seconds * made.nanoseconds, 0)
        self.assertEqual(Duration(nanoseconds=5), Duration(0, 5))
        self.assertEqual(
            (Duration.of_days(-2).whole_days(), Duration(86_399).whole_days(), Duration(-1).whole_days()), (-2, 0, 0)
        )

    def test_the_ends_of_the_range(self):
        for call in (
            lambda: Duration.MAX + Duration(0, 1),
            lambda: Duration.MIN - Duration(0, 1),
            lambda: -Duration.MIN,
            lambda: abs(Duration.MIN),
            lambda: Duration.MAX * 2,
        ):
            self.assertRaises(muxandu.RefusedDuration, call)
        self.assertEqual((Duration.MIN.seconds, Duration.MIN.nanoseconds), (-(2**63), -999_999_999))
        self.assertRaises(OverflowError, Duration.MAX.to_timedelta)
        self.assertEqual(hash(Duration.MAX), hash(Duration.MAX + Duration()))

    def test_other_things_are_not_taken(self):
        for call in (
            lambda: Duration(1) + 1,
            lambda: Duration(1) - 1,
            lambda: 1 - Duration(1),
            lambda: Duration(1) < 1,
            lambda: Duration(1) * 0.5,
            lambda: Duration(1) % 2,
            lambda: Duration(0.5),
            lambda: Duration("1"),
            lambda: Duration(1, 2, 3),
            lambda: Duration(months=1),
            lambda: Duration(1, seconds=1),
            lambda: Timestamp(0) + 1,
            lambda: Timestamp(0) - 1,
            lambda: Timestamp(0).saturating_add(1),
            lambda: Timestamp(0) < 1,
            lambda: Timestamp(),
            lambda: Timestamp(0).to_offset(),
            lambda: OffsetDateTime(1970, 1),
        ):
            self.assertRaises(TypeError, call)
        self.assertFalse(Duration(1) == 1 or Timestamp(0) == 0 or Date(1970, 1, 1) == 0)

    def test_texts(self):
        shown = [str(Duration(1, 500_000_000)), str(Duration(0, -1)), str(Duration()), f"{Duration(90):>6}"]
        self.assertEqual(shown, ["1.5s", "-0.000000001s", "0s", "   90s"])


class Dates(unittest.TestCase):
    def test_beside_date(self):
        for number in (-719_162, -1, 0, 19_782, 2_932_896):
            theirs = datetime.date.fromordinal(number + 719_163)
            ours = Date.from_date(theirs)
            self.assertEqual((ours.day_number(), ours.to_date(), ours.weekday()), (number, theirs, theirs.weekday()))
            self.assertEqual(f"{ours:%Y-%m-%d}", theirs.strftime("%Y-%m-%d"))
            self.assertEqual(f"{ours:>12}", f"{str(ours):>12}")
        date = Date(2024, 2, 28)
        self.assertEqual((date + 2, 2 + date, date + Duration(86_400 * 2 + 5), date + 2 * DAY), (Date(2024, 3, 1),) * 4)
        self.assertEqual(
            (date - 28, date - Duration(86_400), date - Date(2023, 2, 28)),
            (Date(2024, 1, 31), Date(2024, 2, 27), Duration.of_days(365)),
        )
        self.assertEqual(date.replace(day=29), Date(2024, 2, 29))
        self.assertRaises(muxandu.RefusedDayNumber, lambda: Date.MAX + 1)
        self.assertRaises(muxandu.RefusedDayNumber, lambda: Date.MIN - 1)
        self.assertRaises(TypeError, lambda: date + 0.5)

    def test_moved_by_a_duration(self):
        """By whole days towards zero, as the crate `time` has it; a datetime.date takes the days of the timedelta, which are
        rounded down."""
        date, hour = Date(2024, 2, 29), datetime.timedelta(hours=1)
        self.assertEqual((date + hour, date - hour, date + -hour), (date, date, date))
        self.assertEqual((date + 25 * hour, date - 25 * hour), (Date(2024, 3, 1), Date(2024, 2, 28)))
        self.assertEqual((date.to_date() + hour, date.to_date() - hour), (date.to_date(), date.to_date()))
        self.assertEqual(date.to_date() + -hour, datetime.date(2024, 2, 28))
        self.assertEqual([Duration(seconds).whole_days() for seconds in (-86_401, -86_399, 86_399, 86_401)], [-1, 0, 0, 1])

    def test_weeks_and_julian_days_beside_date(self):
        source = random.Random(1)
        for _ in range(500):
            theirs = datetime.date.fromordinal(source.randint(1, datetime.date.max.toordinal()))
            ours = Date.from_date(theirs)
            weeks = (ours.sunday_based_week(), ours.monday_based_week())
            self.assertEqual(weeks, (int(theirs.strftime("%U")), int(theirs.strftime("%W"))))
            self.assertEqual(ours.to_julian_day(), theirs.toordinal() + 1_721_425)
            self.assertEqual(Date.from_julian_day(ours.to_julian_day()), ours)
        self.assertEqual(Date(1970, 1, 1).to_julian_day(), 2_440_588)
        self.assertRaises(muxandu.RefusedDayNumber, Date.from_julian_day, 2**31)

    def test_days_and_months_later(self):
        source = random.Random(1)
        for _ in range(500):
            date = Date.from_day_number(source.randint(-(10**6), 10**6))
            days, months = source.randint(-(10**6), 10**6), source.randint(-50_000, 50_000)
            self.assertEqual(date.add_days(days), date + days)
            year, month = divmod(12 * date.year + date.month - 1 + months, 12)
            later = date.add_months(months)
            self.assertEqual((later.year, later.month), (year, month + 1))
            self.assertEqual(later.day, min(date.day, muxandu.days_in_month(year, month + 1)))
        self.assertEqual(Date(2024, 1, 31).add_months(1), Date(2024, 2, 29))
        for call in (lambda: Date.MAX.add_days(1), lambda: Date.MIN.add_months(-1), lambda: Date.MAX.add_days(2**40)):
            self.assertRaises(muxandu.RefusedResult, call)

    def test_today(self):
        before = Timestamp.now()
        self.assertIn(Date.today(), (before.to_utc().date(), Timestamp.now().to_utc().date()))


class Moments(unittest.TestCase):
    def test_beside_datetime(self):
        for at in (MOMENT, datetime.datetime(1, 1, 2, tzinfo=UTC), datetime.datetime(9999, 12, 30, 23, 59, 59, 999_999, UTC)):
            stamp, shown, utc = Timestamp.from_datetime(at), OffsetDateTime.from_datetime(at), UtcDateTime.from_datetime(at)
            self.assertEqual((stamp.to_datetime(), shown.to_datetime(), utc.to_datetime()), (at, at, at))
            self.assertEqual((stamp.to_utc(), utc.to_timestamp(), shown.to_utc()), (utc, stamp, utc))
            zone = datetime.timezone(datetime.timedelta(hours=-8))
            self.assertEqual(stamp.to_datetime(zone).isoformat(), at.astimezone(zone).isoformat())
            plain = PlainDateTime.from_datetime(at.replace(tzinfo=None))
            self.assertEqual((plain.to_datetime(), plain.assume_utc()), (at.replace(tzinfo=None), utc))
            self.assertEqual(plain.assume_offset(3_600), shown - Duration(3_600))
            self.assertEqual((shown.date_time(), utc.date_time()), (plain, plain))
            self.assertEqual(f"{shown:%Y-%m-%dT%H:%M:%S.%f%z}", at.strftime("%Y-%m-%dT%H:%M:%S.%f%z"))
            self.assertEqual((shown.time().to_time(), Time.from_time(at.time())), (at.time(), shown.time()))
        self.assertRaises(ValueError, PlainDateTime.from_datetime, MOMENT)
        for kind in (Timestamp, OffsetDateTime, UtcDateTime):
            with self.assertRaisesRegex(ValueError, "has no offset: give it a tzinfo, or use PlainDateTime.from_datetime"):
                kind.from_datetime(MOMENT.replace(tzinfo=None))

    def test_sums_with_timedelta(self):
        class Length(datetime.timedelta):
            """A length of a user's own."""

        source = random.Random(1)
        all_parts = [
            (source.randint(-(10**8), 10**8), source.randrange(86_400), source.randrange(10**6)) for _ in range(500)
        ]
        for parts in [*all_parts, (0, 0, 0), (-1, 86_399, 999_999), (3 * 10**8, 0, 1), (-(3 * 10**8), 0, 1)]:
            whole = (parts[0] * 86_400 + parts[1]) * 10**9 + parts[2] * 1_000
            for length in (datetime.timedelta(*parts), Length(*parts)):
                self.assertEqual((Timestamp(0) + length).as_nanoseconds(), whole)
                self.assertEqual((Timestamp(0) - length).as_nanoseconds(), -whole)
                self.assertEqual(UtcDateTime(1970, 1, 1).to_offset(60) + length, Timestamp(*divmod(whole, 10**9)).to_utc())
                self.assertEqual((Duration() + length).whole_nanoseconds(), whole)

    def test_order_beside_datetime(self):
        source = random.Random(1)
        most = (9_998, 12, 28, 23, 59, 59, 999_999)
        zones = [datetime.timezone(datetime.timedelta(hours=hours)) for hours in (0, 0, -5)]
        moments = [datetime.datetime(2, 1, 1, tzinfo=UTC)]
        for _ in range(3_000):
            parts, place = list(moments[-1].timetuple()[:6]) + [moments[-1].microsecond], source.randrange(7)
            parts[place] = source.randint(1 if place < 3 else 0, most[place])
            moments.append(datetime.datetime(*parts, tzinfo=source.choice(zones)))
        for one, other in zip(moments, moments[1:]):
            ours, theirs = OffsetDateTime.from_datetime(one), OffsetDateTime.from_datetime(other)
            orders = (ours < theirs, ours <= theirs, ours == theirs, ours != theirs, ours >= theirs, ours > theirs)
            self.assertEqual(orders, (one < other, one <= other, one == other, one != other, one >= other, one > other))
        years = [OffsetDateTime(year, month, 1) for year in (-999_999, -2, -1, 0, 1, 999_999) for month in (1, 12)]
        self.assertEqual(sorted(reversed(years)), years)
        self.assertEqual(len(set(years)), len(years))

    def test_parts_replaced(self):
        at = OffsetDateTime(2024, 2, 29, 12, 34, 56, 789, 3_600)
        for part in Part:
            if part is not Part.ORDINAL:
                self.assertEqual(at.with_part(part, 4).is_same(at.replace(**{part.name.lower(): 4})), True, part)
        self.assertEqual(at.with_part(Part.ORDINAL, 366).date(), Date(2024, 12, 31))
        stamp = Timestamp(-1, 5).with_part(Part.HOUR, 0)
        self.assertEqual(stamp, Timestamp(-82_801, 5))
        self.assertRaises(muxandu.RefusedDayOfMonth, at.with_part, Part.YEAR, 2023)
        self.assertRaises(muxandu.RefusedMonth, stamp.with_part, Part.MONTH, 13)
        self.assertRaises(muxandu.RefusedUnit, at.with_part, 9, 1)
        self.assertRaises(TypeError, at.with_part, Part.HOUR)

    def test_now(self):
        for now in (Timestamp.now, lambda: UtcDateTime.now().to_timestamp(), lambda: OffsetDateTime.now(3_600).to_timestamp()):
            before, at, after = time.time_ns(), now(), time.time_ns()
            self.assertTrue(before <= at.as_nanoseconds() <= after)

    def test_the_ends_of_the_range(self):
        self.assertEqual(str(Timestamp.MIN.to_utc()), "-999999-01-01 0:00:00.0 +00")
        self.assertEqual(str(Timestamp.MAX.to_utc()), "+999999-12-31 23:59:59.999999999 +00")
        self.assertEqual((PlainDateTime.MAX.assume_utc(), UtcDateTime.MIN.to_timestamp()), (UtcDateTime.MAX, Timestamp.MIN))
        self.assertEqual((Date.MIN.day_number(), Date.MAX.day_number()), (-365_961_662, 364_522_971))
        for call in (lambda: Timestamp.MAX + Duration(0, 1), lambda: UtcDateTime.MIN - Duration(0, 1)):
            self.assertRaises(muxandu.RefusedResult, call)

    def test_date_times_whose_instant_is_outside_the_range(self):
        first, again = OffsetDateTime(-999_999, 1, 1, offset_seconds=60), OffsetDateTime(-999_999, 1, 1, 0, 1, offset_seconds=120)
        last = OffsetDateTime(999_999, 12, 31, 23, 59, 59, offset_seconds=-60)
        once_more = OffsetDateTime(999_999, 12, 31, 23, 58, 59, offset_seconds=-120)
        for at, twin, into in ((first, again, Duration(60)), (last, once_more, Duration(-60))):
            self.assertRaises(muxandu.RefusedResult, at.to_timestamp)
            inside = at + into
            self.assertEqual((inside - into, at - inside, inside - at, at - twin), (at, -into, into, Duration()))
            self.assertEqual((at < inside, at > inside, at == inside), (into > Duration(), into < Duration(), False))
            self.assertEqual((at == twin, len({at, twin, inside, twin + into})), (True, 2))
            self.assertEqual(inside.to_timestamp().to_offset(inside.offset_seconds), inside)
        self.assertEqual(last - first, (Date.MAX - Date.MIN) + Duration(86_399 + 120))
        self.assertRaises(muxandu.RefusedResult, lambda: last + Duration(1))
        self.assertRaises(muxandu.RefusedResult, lambda: first - Duration(0, 1))

    def test_dates_times_in_utc_and_of_no_offset(self):
        at = UtcDateTime(2024, 2, 29, 12, 34, 56, 789)
        plain = PlainDateTime(2024, 2, 29, 12, 34, 56, 789)
        self.assertEqual((str(at), str(plain)), ("2024-02-29 12:34:56.000000789 +00", "2024-02-29 12:34:56.000000789"))
        self.assertEqual(at, at.to_offset(3_600))
        self.assertEqual(at.to_offset(3_600), at)
        self.assertEqual(len({at, at.to_offset(3_600)}), 1)
        self.assertTrue(at < at.to_offset(0) + Duration(1) and at.to_offset(0) + Duration(1) > at)
        there = OffsetDateTime(2024, 2, 29, 12, 34, 56, 790, 3_600)
        self.assertEqual((at - there, there - at), (Duration(3_599, 999_999_999), Duration(-3_599, -999_999_999)))
        for first, second in (
            (plain, there),
            (there, plain),
            (at, plain),
            (plain, at),
            (Timestamp(0), plain),
            (plain, Timestamp(0)),
        ):
            self.assertRaises(TypeError, lambda first=first, second=second: first - second)
            self.assertRaises(TypeError, lambda first=first, second=second: first + second)
        for first, second in ((at, Timestamp(0)), (Timestamp(0), at), (there, Timestamp(0)), (at, there)):
            self.assertRaises(TypeError, lambda first=first, second=second: first + second)
        self.assertFalse(at == plain)
        self.assertRaises(TypeError, lambda: at < plain)
        for one in (at, plain):
            moved = one + DAY
            self.assertEqual((type(moved), moved - one, moved - Duration(86_400)), (type(one), Duration(86_400), one))
            self.assertEqual((one.truncated_to(Unit.DAY), one.replace(hour=0).hour), (type(one)(2024, 2, 29), 0))
            self.assertRaisesRegex(TypeError, "the unit must be a Unit, as Unit.DAY, not 'day'", one.truncated_to, "day")
            self.assertEqual((one.date(), one.time(), one.day_number()), (Date(2024, 2, 29), Time(12, 34, 56, 789), 19_782))
            self.assertEqual(type(one).new(one.date(), one.time()), one)
            self.assertTrue(one < moved <= moved and moved > one >= one)
            self.assertRaises(TypeError, lambda one=one: one + 1)
        self.assertEqual(UtcDateTime.from_rfc3339("2024-02-29T13:34:56+01:00").to_rfc3339(), "2024-02-29T12:34:56Z")

    def test_all_types_of_an_instant(self):
        """Equality, order, hashes and differences of instants, beside whole numbers of nanoseconds."""
        source = random.Random(1)
        ends = [(at.seconds * 10**9 + at.nanoseconds) + far for at in (Timestamp.MIN, Timestamp.MAX) for far in (-1, 0, 1)]
        counts = [*(source.randint(ends[1], ends[4]) for _ in range(200)), *(source.randint(-3, 3) for _ in range(100)), *ends]

        def moments(count):
            stamp = Timestamp.from_nanoseconds(count)
            yield stamp
            yield stamp.to_utc()
            for offset in (0, source.randint(-93_599, 93_599)):
                try:
                    yield stamp.to_offset(offset)
                except muxandu.RefusedResult:
                    pass

        known = [(count, moment) for count in counts if ends[1] <= count <= ends[4] for moment in moments(count)]
        # What clocks show past both ends of the range of instants.
        known.append((ends[4] + 60 * 10**9, OffsetDateTime(999_999, 12, 31, 23, 59, 59, 999_999_999, -60)))
        known.append((ends[1] - 60 * 10**9, OffsetDateTime(-999_999, 1, 1, offset_seconds=60)))
        for _ in range(5_000):
            (one, first), (two, second) = source.choice(known), source.choice(known)
            orders = (first < second, first <= second, first == second, first != second, first >= second, first > second)
            self.assertEqual(orders, (one < two, one <= two, one == two, one != two, one >= two, one > two), (first, second))
            self.assertEqual((first - second).whole_nanoseconds(), one - two, (first, second))
            self.assertTrue(one != two or hash(first) == hash(second), (first, second))
        self.assertEqual(len({moment for _, moment in known}), len({count for count, _ in known}))
        self.assertEqual([count for count, _ in sorted(known, key=lambda pair: pair[1])], sorted(count for count, _ in known))

    def test_a_datetime_is_not_compared(self):
        for value in (Timestamp(0), UtcDateTime(1970, 1, 1), OffsetDateTime(1970, 1, 1)):
            epoch = datetime.datetime(1970, 1, 1, tzinfo=UTC)
            self.assertFalse(value == epoch or epoch == value)
            for call in (lambda value=value: value < epoch, lambda value=value: epoch - value, lambda value=value: value - epoch):
                self.assertRaises(TypeError, call)

    def test_times(self):
        at = Time(9, 5, 0, 250_000_000)
        self.assertEqual(
            (str(at), at - Time(9), f"{at:%H.%M}", f"{at:>11}"),
            ("9:05:00.25", Duration(300, 250_000_000), "09.05", " 9:05:00.25"),
        )
        self.assertTrue(Time.MIDNIGHT < at < Time.MAX)
        self.assertRaises(muxandu.RefusedHour, Time, 24)

    def test_offsets(self):
        offset = UtcOffset.from_hms(-8, -30)
        self.assertEqual((offset.whole_seconds(), offset.as_hms(), str(offset)), (-30_600, (-8, -30, 0), "-08:30:00"))
        self.assertEqual(Timestamp(0).to_offset(offset), UtcDateTime(1970, 1, 1))
        self.assertEqual(Timestamp(0).to_offset(offset).offset(), offset)
        self.assertEqual((UtcOffset.UTC.is_utc(), len({offset, UtcOffset(-30_600)})), (True, 1))
        self.assertTrue(offset < UtcOffset.UTC <= UtcOffset(0) < UtcOffset(1) > offset >= UtcOffset(-30_600))
        self.assertRaises(TypeError, lambda: offset < 5)
        self.assertRaises(muxandu.RefusedOffsetSeconds, UtcOffset, 93_600)
        for parts, seconds in (((1, -1), 3_660), ((-1, 1, 1), -3_661), ((0, -1, 1), -61), ((25, 59, 59), 93_599)):
            self.assertEqual(UtcOffset.from_hms(*parts).whole_seconds(), seconds)
        self.assertRaises(muxandu.RefusedOffsetHour, UtcOffset.from_hms, 26)
        self.assertRaises(muxandu.RefusedOffsetMinute, UtcOffset.from_hms, 0, 60)
        self.assertRaises(muxandu.RefusedOffsetSeconds, UtcOffset.from_hms, 0, 0, -60)
        self.assertRaises(muxandu.RefusedOffsetHour, UtcOffset.from_hms, 2**40)

    def test_copies_and_pickles(self):
        at = OffsetDateTime.from_datetime(MOMENT)
        for value in (at, at.to_utc(), at.date_time(), at.date(), at.time(), at.offset(), at.to_timestamp(), Duration(-1, -5)):
            self.assertEqual(repr(copy.copy(value)), repr(value))
            self.assertEqual(repr(copy.deepcopy(value)), repr(value))
            self.assertEqual(eval(repr(value), vars(muxandu)), value)  # noqa: S307
            for protocol in range(pickle.HIGHEST_PROTOCOL + 1):
                self.assertEqual(repr(pickle.loads(pickle.dumps(value, protocol))), repr(value))
            self.assertRaises(AttributeError, setattr, value, "other", 1)

    def test_parts_of_rfc3339_are_read(self):
        """The grammar of RFC 3339 without its offset, its `partial-time`, and its `time-offset`."""
        for text, value in (
            ("2024-02-29T12:34:56", PlainDateTime(2024, 2, 29, 12, 34, 56)),
            ("2024-02-29 12:34:56.5", PlainDateTime(2024, 2, 29, 12, 34, 56, 500_000_000)),
            ("0000-01-01t00:00:00.123456789987", PlainDateTime(0, 1, 1, 0, 0, 0, 123_456_789)),
            ("12:34:56", Time(12, 34, 56)),
            ("02:04:05.0000000010", Time(2, 4, 5, 1)),
            ("Z", UtcOffset.UTC),
            ("z", UtcOffset.UTC),
            ("-00:00", UtcOffset.UTC),
            ("+05:30", UtcOffset(19_800)),
            ("-23:59", UtcOffset(-86_340)),
        ):
            self.assertEqual(repr(type(value).from_text(text)), repr(value))
        for kind, text, refusal, place in (
            (PlainDateTime, "2024-02-29T12:34:56Z", muxandu.RefusedSyntax, 19),
            (PlainDateTime, "2024-02-29T12:34:56+01:00", muxandu.RefusedSyntax, 19),
            (PlainDateTime, "2024-02-29 12:34:56.5-01:00x", muxandu.RefusedSyntax, 21),
            (PlainDateTime, "2024-02-29", muxandu.RefusedSyntax, 10),
            (PlainDateTime, "2024-02-29_12:34:56", muxandu.RefusedSyntax, 10),
            (PlainDateTime, "2024-02-29T12:34:5", muxandu.RefusedSyntax, 18),
            (PlainDateTime, "2024-02-29T12:3Z", muxandu.RefusedSyntax, 15),
            (PlainDateTime, "2024-02-29T12:34:56.", muxandu.RefusedSyntax, 20),
            (PlainDateTime, "2024-2-29T12:34:56", muxandu.RefusedSyntax, 6),
            (PlainDateTime, "2024-02-29T12:34:5\u0660", muxandu.RefusedSyntax, 18),
            (PlainDateTime, " 2024-02-29T12:34:56", muxandu.RefusedSyntax, 0),
            (PlainDateTime, "", muxandu.RefusedSyntax, 0),
            (PlainDateTime, "2023-02-29T12:34:56", muxandu.RefusedDayOfMonth, None),
            (PlainDateTime, "2023-13-29T12:34:56", muxandu.RefusedMonth, None),
            (Time, "12:34", muxandu.RefusedSyntax, 5),
            (Time, "12:34:56.", muxandu.RefusedSyntax, 9),
            (Time, "12:34:56Z", muxandu.RefusedSyntax, 8),
            (Time, "12:34:56+01:00", muxandu.RefusedSyntax, 8),
            (Time, "1234", muxandu.RefusedSyntax, 2),
            (Time, "", muxandu.RefusedSyntax, 0),
            (Time, "24:00:00", muxandu.RefusedHour, None),
            (Time, "12:60:00", muxandu.RefusedMinute, None),
            (Time, "12:34:60", muxandu.RefusedSecond, None),
            (UtcOffset, ".5Z", muxandu.RefusedSyntax, 0),
            (UtcOffset, "+0530", muxandu.RefusedSyntax, 3),
            (UtcOffset, "+05:3", muxandu.RefusedSyntax, 5),
            (UtcOffset, "Zulu", muxandu.RefusedSyntax, 1),
            (UtcOffset, "05:30", muxandu.RefusedSyntax, 0),
            (UtcOffset, "+24:00", muxandu.RefusedOffsetHour, None),
            (UtcOffset, "+05:60", muxandu.RefusedOffsetMinute, None),
        ):
            with self.assertRaises(refusal) as caught:
                kind.from_text(text)
            self.assertEqual((type(caught.exception), caught.exception.value), (refusal, text))
            self.assertEqual(caught.exception.place, place, text)

    def test_times_with_an_offset(self):
        """The grammar `full-time` of RFC 3339."""
        for text, clock, offset in (
            ("12:34:56Z", Time(12, 34, 56), UtcOffset.UTC),
            ("00:00:00.5+23:59", Time(0, 0, 0, 500_000_000), UtcOffset(86_340)),
            ("23:59:59.999999999-00:01", Time.MAX, UtcOffset(-60)),
        ):
            self.assertEqual(Time.from_text_with_offset(text), (clock, offset))
        for text, refusal, place in (
            ("12:34:56", muxandu.RefusedSyntax, 8),
            ("12:34:5Z", muxandu.RefusedSyntax, 7),
            ("12:34:56+0100", muxandu.RefusedSyntax, 11),
            ("12:34:56Zx", muxandu.RefusedSyntax, 9),
            ("T12:34:56Z", muxandu.RefusedSyntax, 0),
            ("25:34:56Z", muxandu.RefusedHour, None),
            ("12:34:56+24:00", muxandu.RefusedOffsetHour, None),
        ):
            with self.assertRaises(refusal) as caught:
                Time.from_text_with_offset(text)
            self.assertEqual((caught.exception.value, caught.exception.place), (text, place))
        self.assertRaises(TypeError, Time.from_text_with_offset, b"12:34:56Z")

    def test_own_texts_are_read(self):
        """What `str` writes, which is the crate's text and no text of RFC 3339."""
        for text, value in (
            ("-0.5", Timestamp(-1, 500_000_000)),
            ("1709166600", Timestamp(1_709_166_600)),
            ("2024-02-29 4:00:00.0 +02:00:00", OffsetDateTime(2024, 2, 29, 4, offset_seconds=7_200)),
            ("-0005-12-31 23:59:59.000000001 -25:59:59", OffsetDateTime(-5, 12, 31, 23, 59, 59, 1, -93_599)),
            ("+999999-12-31 23:59:59.999999999 +00", UtcDateTime.MAX),
            ("-999999-01-01 0:00:00.0", PlainDateTime.MIN),
            ("+10000-01-01", Date(10_000, 1, 1)),
            ("9:05:00.25", Time(9, 5, 0, 250_000_000)),
            ("-08:30:00", UtcOffset(-30_600)),
            ("-0.000000001s", Duration(0, -1)),
            (str(Duration.MIN), Duration.MIN),
        ):
            kind = type(value)
            self.assertEqual((str(value), format(value, ""), f"{value}"), (text,) * 3)
            self.assertEqual(repr(kind.from_text(text)), repr(value))
            # The hour of RFC 3339 has two digits, so that a zero before that of a Time is no fault.
            longer = f"0{text}" if kind is not Time else f"00{text}"
            for other in ("", f" {text}", f"{text}\n", f"{text}\u0660", longer, f"+{text}", "1" * 10_000, "x"):
                with self.assertRaises(muxandu.RefusedSyntax) as caught:
                    kind.from_text(other)
                self.assertEqual(caught.exception.value, other)
            for other in (None, 5, text.encode(), value):
                self.assertRaises(TypeError, kind.from_text, other)
        for kind, text, refusal in (
            (Date, "2024-13-01", muxandu.RefusedMonth),
            (Time, "24:00:00.0", muxandu.RefusedHour),
            (OffsetDateTime, "2023-02-29 0:00:00.0 +00:00:00", muxandu.RefusedDayOfMonth),
            (UtcOffset, "+26:00:00", muxandu.RefusedOffsetHour),
            (UtcOffset, "-25:60:00", muxandu.RefusedOffsetMinute),
            (UtcOffset, "+01:60:00", muxandu.RefusedOffsetMinute),
            (OffsetDateTime, "2024-02-29 0:00:00.0 +01:00:60", muxandu.RefusedOffsetSeconds),
            (OffsetDateTime, "2024-02-29 24:00:00.0 +26:00:00", muxandu.RefusedHour),
            (Timestamp, "31494784780800", muxandu.RefusedTimestamp),
            (Duration, "9223372036854775808s", muxandu.RefusedDuration),
            (OffsetDateTime, "2024-02-29T04:00:00Z", muxandu.RefusedSyntax),
            (Timestamp, "-0", muxandu.RefusedSyntax),
        ):
            self.assertRaises(refusal, kind.from_text, text)
        with self.assertRaises(muxandu.RefusedTimestamp) as caught:
            Timestamp.from_text("31494784780800.5")
        self.assertEqual(caught.exception.value, 31_494_784_780_800)

    def test_texts_of_files(self):
        """`json.dumps` with `default=str` writes the text that `from_text` reads; `isoformat` and `to_rfc3339` write others."""
        at = OffsetDateTime(2024, 2, 29, 4, offset_seconds=7_200)
        self.assertEqual(OffsetDateTime.from_text(json.loads(json.dumps({"at": at}, default=str))["at"]), at)
        written = json.dumps({"at": at}, default=OffsetDateTime.to_rfc3339)
        self.assertEqual(OffsetDateTime.from_rfc3339(json.loads(written)["at"]), at)
        self.assertEqual(datetime.datetime.fromisoformat(json.loads(written)["at"]), at.to_datetime())

    def test_values_do_not_change(self):
        for value, name in ((Timestamp(0), "seconds"), (OffsetDateTime(1970, 1, 1), "year"), (Date(1970, 1, 1), "day")):
            self.assertRaises((AttributeError, TypeError), setattr, value, name, 5)

    def test_classes_of_a_user(self):
        class Stamp(Timestamp):
            """A timestamp with a name."""

            name = "stamp"

        at = Stamp(5)
        self.assertEqual((type(at + Duration(1)), type(Stamp.from_rfc3339("1970-01-01T00:00:00Z"))), (Stamp, Stamp))
        self.assertEqual(
            (type(Stamp.now()), type(at.truncated_to(Unit.DAY)), at, hash(at)), (Stamp, Stamp, Timestamp(5), hash(Timestamp(5)))
        )
        self.assertIs(type(at.to_offset(0)), OffsetDateTime)

    def test_numbers_of_other_kinds(self):
        self.assertEqual(Timestamp(True), Timestamp(1))
        for number in (1.0, fractions.Fraction(1), "1", None):
            self.assertRaises(TypeError, Timestamp, number)
            self.assertRaises(TypeError, OffsetDateTime, 1970, 1, 1, number)
            self.assertRaises(TypeError, Timestamp(0).to_offset, number)


class Program(unittest.TestCase):
    def run_program(self, *words):
        folder = str(Path(muxandu.__file__).resolve().parent.parent)
        paths = os.pathsep.join([folder, *filter(None, [os.environ.get("PYTHONPATH")])])
        command = [sys.executable, "-B", "-m", "muxandu", *words]
        return subprocess.run(
            command, env={**os.environ, "PYTHONPATH": paths}, capture_output=True, encoding="utf-8", check=False
        )

    def test_texts_and_seconds(self):
        ended = self.run_program("2024-02-28T23:30:00-01:00")
        self.assertEqual((ended.returncode, ended.stderr), (0, ""))
        self.assertEqual(
            ended.stdout.split("\n"),
            [
                "date-time    2024-02-28 23:30:00.0 -01:00:00",
                "in UTC       2024-02-29 0:30:00.0 +00",
                "Unix second  1709166600",
                "day          19781 from 1970-01-01, 59 of 2024",
                "ISO week     2024-W09-3",
                "",
            ],
        )
        self.assertIn("1969-12-31 23:59:59.5 +00\n", self.run_program("-0.5").stdout)

    def test_refusals(self):
        ended = self.run_program("2023-02-29T00:00:00Z")
        self.assertEqual((ended.returncode, ended.stdout), (1, ""))
        self.assertIn("DAY_OF_MONTH", ended.stderr)
        self.assertEqual(self.run_program().returncode, 2)


class Package(unittest.TestCase):
    def test_version(self):
        self.assertRegex(muxandu.__version__, r"^\d+\.\d+\.\d+$")
        try:
            self.assertEqual(importlib.metadata.version("muxandu"), muxandu.__version__)
        except importlib.metadata.PackageNotFoundError:
            pass

    def test_constructors_tell_their_words(self):
        for kind, words in (
            (Timestamp, "seconds nanoseconds"),
            (OffsetDateTime, "year month day hour minute second nanosecond offset_seconds"),
            (Duration, "seconds nanoseconds weeks days hours minutes milliseconds microseconds"),
            (Date, "year month day"),
        ):
            self.assertEqual(list(inspect.signature(kind).parameters), words.split())
            self.assertGreater(len(kind.__doc__), 40)

    def test_help_names_no_call_of_c(self):
        for kind in (Timestamp, OffsetDateTime, UtcDateTime, PlainDateTime, Date, Time, Duration, UtcOffset):
            for name, value in inspect.getmembers(kind):
                if name.startswith("_") or not callable(value):
                    continue
                told = inspect.getdoc(value) or ""
                self.assertGreater(len(told), 8, (kind, name))
                for other in ("muxandu_", "MUXANDU_", "BUFFER", "`size`"):
                    self.assertNotIn(other, told, (kind, name))

    def test_texts_of_every_year(self):
        for text, *parts in (
            ("-004712-11-24T12:00:00Z", -4712, 11, 24, 12),
            ("2024-02-29T12:34:56.5+01:19:32", 2024, 2, 29, 12, 34, 56, 500_000_000, 4772),
            ("+999999-12-31T23:59:59.999999999Z", 999_999, 12, 31, 23, 59, 59, 999_999_999),
        ):
            at = OffsetDateTime(*parts)
            self.assertEqual((at.to_iso(), OffsetDateTime.from_iso(text).is_same(at)), (text, True))
        with self.assertRaises(muxandu.RefusedSyntax):
            OffsetDateTime.from_iso("-4712-11-24T12:00:00Z")

    def test_errors_name_the_types_by_their_public_names(self):
        at, words = OffsetDateTime(2024, 2, 29), "from_rfc3339() takes 1 argument, and 0 were given"
        for call, told in (
            (lambda: at + 5, "'muxandu.OffsetDateTime' and 'int'"),
            (lambda: Timestamp(0) < 5, "Timestamp' and 'int'"),
            (lambda: muxandu.seconds_from_date_times([Timestamp(0)]), "a sequence of OffsetDateTime, not of Timestamp"),
            (lambda: at.replace(yaer=5), "'yaer'"),
            (lambda: Timestamp.from_rfc3339(), words),
            (lambda: OffsetDateTime.from_rfc3339(), words),
            (lambda: at.with_part(1), "with_part() takes 2 arguments, and 1 was given"),
            (lambda: Date("2024-02-29"), "Date.from_rfc3339() reads a text"),
            (lambda: Date(2024, 2), "Date() needs the argument 'day'"),
            (lambda: Date(2024, 2, 29, week=5), "Date() takes no argument 'week'"),
            (lambda: Date(2024, 2, 29, day=5), "Date() has the argument 'day' twice"),
            (lambda: OffsetDateTime(2024, "2", 29), "the argument 'month' must be an integer, not <class 'str'>"),
            (lambda: at.replace(hour=None), "the argument 'hour' must be an integer, not <class 'NoneType'>"),
            (lambda: Duration(0, "5"), "the argument 'nanoseconds' must be an integer, not <class 'str'>"),
            (lambda: Timestamp(0.5), "the argument 'seconds' must be an integer, not <class 'float'>"),
            (lambda: at.replace(5), "replace() takes the parts by name, as replace(day=1)"),
            (lambda: PlainDateTime("2024-02-29"), "PlainDateTime.from_text() reads a text"),
            (lambda: at.to_offset("Z"), "the offset must be an integer of seconds or a UtcOffset, not <class 'str'>"),
        ):
            with self.assertRaises(TypeError) as caught:
                call()
            self.assertIn(told, str(caught.exception))
            self.assertNotIn("_extension", str(caught.exception))
        for name in muxandu.__all__:
            kind = getattr(muxandu, name)
            if isinstance(kind, type) and not name.endswith("Parts") and name != "Span":
                self.assertEqual((kind.__module__, kind.__qualname__), ("muxandu", name))

    def test_names_are_there(self):
        for name in muxandu.__all__:
            self.assertTrue(hasattr(muxandu, name), name)


if __name__ == "__main__":
    unittest.main()

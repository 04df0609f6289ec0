"""Each call of the package, on values that other programs gave."""

import contextlib
import datetime
import doctest
import importlib
import io
import pickle
import re
import unittest
from pathlib import Path

import muxandu
from muxandu import _extension as engine
from muxandu._refusals import REFUSALS
from muxandu import Date, Duration, IsoWeekDate, OffsetDateTime, OrdinalDate, Refused, Timestamp, Unit, UtcOffset, days_in_month

FIRST = Timestamp(-31_619_087_596_800)
LAST = Timestamp(31_494_784_780_799, 999_999_999)
EPOCH = Timestamp(0)


def sentence_of(refusal):
    """What a class of refusals says, without its full stop."""
    return " ".join(refusal.__doc__.split()).rstrip(".")


class Timestamps(unittest.TestCase):
    def test_parts_are_tested(self):
        for parts, refusal in (
            ((31_494_784_780_800,), muxandu.RefusedTimestamp),
            ((-(2**80), -1), muxandu.RefusedTimestamp),
            ((0, 1_000_000_000), muxandu.RefusedNanosecond),
            ((0, 2**32), muxandu.RefusedNanosecond),
            ((0, -1), muxandu.RefusedNanosecond),
        ):
            self.assertRaises(refusal, Timestamp, *parts)
        self.assertRaises(TypeError, Timestamp, 0.5)

    def test_counts_round_down(self):
        at = Timestamp(-1, 999_999)
        counts = at.as_milliseconds(), at.as_microseconds(), at.as_nanoseconds()
        self.assertEqual(counts, (-1000, -999_001, -999_000_001))
        self.assertEqual(Timestamp.from_milliseconds(-1), Timestamp(-1, 999_000_000))
        self.assertEqual(Timestamp.from_microseconds(-1), Timestamp(-1, 999_999_000))
        self.assertEqual(Timestamp.from_nanoseconds(-(2**63)), Timestamp(-9_223_372_037, 145_224_192))
        self.assertRaises(muxandu.RefusedTimestamp, Timestamp.from_milliseconds, 2**70)
        self.assertEqual(Timestamp.from_nanoseconds(2**63), Timestamp(9_223_372_036, 854_775_808))
        for at in (FIRST, LAST):
            self.assertEqual(at.as_microseconds(), at.seconds * 10**6 + at.nanoseconds // 1_000)
            self.assertEqual(at.as_nanoseconds(), at.seconds * 10**9 + at.nanoseconds)
            self.assertEqual(Timestamp.from_nanoseconds(at.as_nanoseconds()), at)
            self.assertEqual(Timestamp.from_microseconds(at.as_microseconds()).seconds, at.seconds)
        for read in (Timestamp.from_nanoseconds, Timestamp.from_microseconds, Timestamp.from_milliseconds):
            for count in (2**100 + 1, -(2**90)):
                with self.assertRaises(muxandu.RefusedTimestamp) as caught:
                    read(count)
                self.assertEqual(caught.exception.value, count)

    def test_sums_and_differences(self):
        half, at = Duration(0, 500_000_000), Timestamp(-1, 500_000_000)
        self.assertEqual((at + half, EPOCH - half, EPOCH - at, at - EPOCH), (EPOCH, at, half, Duration(0, -500_000_000)))
        self.assertEqual(EPOCH + datetime.timedelta(days=1, microseconds=-1), Timestamp(86_399, 999_999_000))
        self.assertEqual((LAST.saturating_add(half), FIRST.saturating_sub(half)), (LAST, FIRST))
        self.assertEqual(LAST - FIRST, Duration(63_113_872_377_599, 999_999_999))
        for move in (lambda: LAST + half, lambda: FIRST - half):
            self.assertRaises(muxandu.RefusedResult, move)
        self.assertRaises(TypeError, lambda: at + 1)

    def test_order_and_truncation(self):
        at = Timestamp(-1, 123_456_789)
        self.assertEqual(sorted([LAST, at, EPOCH, FIRST]), [FIRST, at, EPOCH, LAST])
        rounded = [at.truncated_to(unit) for unit in Unit]
        wanted = [(-86_400, 0), (-3600, 0), (-60, 0), (-1, 0), (-1, 123_000_000), (-1, 123_456_000), (-1, 123_456_789)]
        self.assertEqual([(each.seconds, each.nanoseconds) for each in rounded], wanted)
        for number in (-1, 0, 8, 2**32 + 1):
            self.assertRaises(muxandu.RefusedUnit, at.truncated_to, number)
        self.assertEqual(len({at, Timestamp(-1, 123_456_789)}), 1)
        self.assertNotEqual(at, -1)


class DateTimes(unittest.TestCase):
    def test_clocks_show_instants(self):
        at = Timestamp(1_709_210_096, 7)
        shown = at.to_offset(3600)
        self.assertEqual(repr(shown), "OffsetDateTime(2024, 2, 29, 13, 34, 56, 7, 3600)")
        self.assertEqual((shown.day_number(), shown.date(), shown.to_timestamp()), (19_782, Date(2024, 2, 29), at))
        self.assertEqual(repr(shown.to_offset(0)), "OffsetDateTime(2024, 2, 29, 12, 34, 56, 7, 0)")
        self.assertRaises(muxandu.RefusedOffsetSeconds, at.to_offset, 2**32)
        self.assertRaises(muxandu.RefusedOffsetSeconds, shown.to_offset, -93_600)
        self.assertRaises(muxandu.RefusedResult, FIRST.to_offset, -1)

    def test_wall_clocks_beyond_the_instants(self):
        at = OffsetDateTime(-999_999, 1, 1, offset_seconds=3600)
        self.assertRaises(muxandu.RefusedResult, at.to_timestamp)
        self.assertRaises(muxandu.RefusedResult, at.to_offset, 0)
        self.assertLess(at, OffsetDateTime(-999_999, 1, 1))
        self.assertEqual(str(at.to_offset(7200)), "-999999-01-01 1:00:00.0 +02:00:00")

    def test_sums_and_differences(self):
        day, at, end, start = Duration(86_400), OffsetDateTime(2024, 2, 28, 1), LAST.to_offset(0), FIRST.to_offset(0)
        self.assertTrue((at + day).is_same(OffsetDateTime(2024, 2, 29, 1)))
        self.assertTrue((at - datetime.timedelta(days=-1)).is_same(OffsetDateTime(2024, 2, 29, 1)))
        self.assertEqual(OffsetDateTime(2024, 1, 1, offset_seconds=-3600) - OffsetDateTime(2024, 1, 1), Duration(3600))
        self.assertTrue(end.saturating_add(day).is_same(end) and start.saturating_sub(day).is_same(start))
        for move in (lambda: end + day, lambda: start - day):
            self.assertRaises(muxandu.RefusedResult, move)
        at = OffsetDateTime(2022, 2, 18, 15, 30, 45, 123_456_789)
        self.assertEqual(at.truncated_to(Unit.MILLISECOND), OffsetDateTime(2022, 2, 18, 15, 30, 45, 123_000_000))

    def test_comparison_by_instant(self):
        here, there = OffsetDateTime(2024, 1, 1, 1, offset_seconds=3600), OffsetDateTime(2024, 1, 1)
        self.assertEqual(here, there)
        self.assertFalse(here.is_same(there))
        self.assertEqual(len({here, there}), 1)
        self.assertLess(OffsetDateTime(2024, 1, 1, offset_seconds=3600), there)

    def test_parts_are_tested(self):
        at = OffsetDateTime(2024, 2, 29, 13, 34, 56)
        self.assertEqual(at.replace(year=2028, hour=0), OffsetDateTime(2028, 2, 29, 0, 34, 56))
        for replaced, refusal in (
            ({"year": 1_000_000}, muxandu.RefusedYear),
            ({"year": 2**40}, muxandu.RefusedYear),
            ({"year": 2023}, muxandu.RefusedDayOfMonth),
            ({"month": 256 + 1}, muxandu.RefusedMonth),
            ({"month": -1}, muxandu.RefusedMonth),
            ({"day": 32}, muxandu.RefusedDay),
            ({"day": 30}, muxandu.RefusedDayOfMonth),
            ({"hour": 24}, muxandu.RefusedHour),
            ({"minute": 60}, muxandu.RefusedMinute),
            ({"second": 60}, muxandu.RefusedSecond),
            ({"day": -1}, muxandu.RefusedDay),
            ({"hour": -1}, muxandu.RefusedHour),
            ({"minute": -1}, muxandu.RefusedMinute),
            ({"second": -1}, muxandu.RefusedSecond),
            ({"nanosecond": -1}, muxandu.RefusedNanosecond),
            ({"offset_seconds": -(2**32)}, muxandu.RefusedOffsetSeconds),
            ({"nanosecond": 1_000_000_000}, muxandu.RefusedNanosecond),
            ({"offset_seconds": 93_600}, muxandu.RefusedOffsetSeconds),
        ):
            self.assertRaises(refusal, at.replace, **replaced)
        self.assertRaises(TypeError, at.replace, week=1)

    def test_datetime_shows_the_same(self):
        zone = datetime.timezone(datetime.timedelta(hours=-8, seconds=30))
        at = datetime.datetime(1996, 12, 19, 16, 39, 57, 123_456, tzinfo=zone)
        self.assertEqual(OffsetDateTime.from_datetime(at).to_datetime(), at)
        self.assertEqual(Timestamp.from_datetime(at).to_offset(0).to_datetime(), at)
        self.assertRaises(ValueError, OffsetDateTime.from_datetime, at.replace(tzinfo=None))


class Days(unittest.TestCase):
    def test_days_are_read(self):
        date = Date.from_day_number(18_628)
        self.assertEqual((date.year, date.month, date.day, date.day_number()), (2021, 1, 1, 18_628))
        self.assertEqual((date.to_ordinal_date(), date.weekday()), (OrdinalDate(2021, 1), 4))
        self.assertEqual(date.to_iso_week_date(), IsoWeekDate(2020, 53, 4))
        self.assertEqual(Date.from_iso_week_date(2020, 53, 4), date)
        self.assertEqual(Date.from_ordinal_date(2021, 1), date)
        self.assertEqual(days_in_month(2024, 2), 29)
        self.assertEqual((str(Date(-5, 3, 1)), str(Date(10_000, 1, 1))), ("-0005-03-01", "+10000-01-01"))
        self.assertLess(Date(-1, 12, 31), Date(0, 1, 1))

    def test_days_move(self):
        self.assertEqual(Date(2024, 2, 28).add_days(2), Date(2024, 3, 1))
        self.assertEqual(Date(2024, 1, 31).add_months(13), Date(2025, 2, 28))
        self.assertRaises(muxandu.RefusedResult, Date(999_999, 12, 31).add_days, 1)
        self.assertRaises(muxandu.RefusedResult, Date(2024, 1, 31).add_months, 2**40)
        self.assertEqual((Date(2021, 1, 1).to_julian_day(), Date.from_julian_day(2_459_216)), (2_459_216, Date(2021, 1, 1)))
        self.assertRaises(muxandu.RefusedDayNumber, Date.from_julian_day, 2**40)
        date = Date(2023, 12, 31)
        self.assertEqual((date.sunday_based_week(), date.monday_based_week()), (53, 52))

    def test_parts_are_replaced(self):
        at = OffsetDateTime(2024, 2, 29, 13, 34, 56, 7, 60)
        self.assertEqual(at.with_part(4, 366), OffsetDateTime(2024, 12, 31, 13, 34, 56, 7, 60))
        self.assertRaises(muxandu.RefusedDayOfMonth, at.with_part, 1, 2023)
        self.assertRaises(muxandu.RefusedUnit, at.with_part, 9, 1)
        self.assertEqual(Timestamp(-1, 5).with_part(5, 0), Timestamp(-82_801, 5))
        self.assertRaises(muxandu.RefusedHour, Timestamp(-1, 5).with_part, 5, 24)

    def test_days_are_tested(self):
        for make, parts, refusal in (
            (Date.from_day_number, (364_522_972,), muxandu.RefusedDayNumber),
            (Date.from_day_number, (2**40,), muxandu.RefusedDayNumber),
            (Date, (1_000_000, 1, 1), muxandu.RefusedYear),
            (Date, (2023, 13, 1), muxandu.RefusedMonth),
            (Date, (2023, 2, 0), muxandu.RefusedDay),
            (Date, (2023, 2, 29), muxandu.RefusedDayOfMonth),
            (Date.from_ordinal_date, (-1_000_000, 1), muxandu.RefusedYear),
            (Date.from_ordinal_date, (2024, 2**16 + 1), muxandu.RefusedOrdinal),
            (Date.from_ordinal_date, (2023, 366), muxandu.RefusedOrdinalOfYear),
            (Date.from_iso_week_date, (1_000_000, 1, 0), muxandu.RefusedYear),
            (Date.from_iso_week_date, (2020, 0, 0), muxandu.RefusedWeek),
            (Date.from_iso_week_date, (2020, 1, 7), muxandu.RefusedWeekday),
            (Date.from_iso_week_date, (2020, 1, -1), muxandu.RefusedWeekday),
            (Date.from_iso_week_date, (2020, -1, 0), muxandu.RefusedWeek),
            (Date.from_ordinal_date, (2020, -1), muxandu.RefusedOrdinal),
            (days_in_month, (2020, -1), muxandu.RefusedMonth),
            (Date.from_iso_week_date, (2021, 53, 0), muxandu.RefusedWeekOfYear),
            (Date.from_iso_week_date, (999_999, 52, 6), muxandu.RefusedResult),
            (days_in_month, (2024, 13), muxandu.RefusedMonth),
            (days_in_month, (1_000_000, 12), muxandu.RefusedYear),
        ):
            self.assertRaises(refusal, make, *parts)

    def test_days_are_texts(self):
        self.assertEqual((Date.from_rfc3339("2024-02-29"), Date.from_rfc3339(b"0000-01-01")), (Date(2024, 2, 29), Date(0, 1, 1)))
        self.assertEqual(Date(2024, 2, 29).to_rfc3339(), "2024-02-29")
        for text, refusal in (
            ("2024-02-29T00:00:00Z", muxandu.RefusedSyntax),
            ("2024-13-01", muxandu.RefusedMonth),
            ("2024-02-32", muxandu.RefusedDay),
            ("2023-02-29", muxandu.RefusedDayOfMonth),
        ):
            self.assertRaises(refusal, Date.from_rfc3339, text)
        self.assertRaises(muxandu.RefusedNoText, Date(10_000, 1, 1).to_rfc3339)


class Library(unittest.TestCase):
    def test_statuses_are_told(self):
        self.assertGreaterEqual(engine.version(), 100)
        for status, refusal in REFUSALS.items():
            self.assertEqual(engine.status_name(status), refusal.name)
            self.assertEqual(engine.status_text(status), " ".join(refusal.__doc__.split()))
        self.assertEqual((engine.status_name(0), engine.status_text(0)), ("OK", "Nothing is refused."))
        self.assertEqual(engine.status_name(2**32 - 1), "UNKNOWN")


class Texts(unittest.TestCase):
    def test_texts_are_read_and_written(self):
        at = OffsetDateTime.from_rfc3339("1996-12-19t16:39:57-08:00")
        instant = Timestamp.from_rfc3339(b"1996-12-19 16:39:57-08:00")
        self.assertEqual((at.to_rfc3339(), instant.seconds), ("1996-12-19T16:39:57-08:00", 851_042_397))
        self.assertEqual(instant.to_rfc3339(), "1996-12-20T00:39:57Z")
        self.assertEqual(instant.to_rfc3339_nanos(), "1996-12-20T00:39:57.000000000Z")
        self.assertEqual(at.to_rfc3339_digits(3), "1996-12-19T16:39:57.000-08:00")
        self.assertEqual(at.replace(nanosecond=999_999_999).to_rfc3339_digits(0), "1996-12-19T16:39:57-08:00")
        self.assertEqual((str(Timestamp(-1, 500_000_000)), str(FIRST)), ("-0.5", "-31619087596800"))
        self.assertEqual(str(at), "1996-12-19 16:39:57.0 -08:00:00")
        for write in (FIRST.to_rfc3339, LAST.to_rfc3339_nanos, at.replace(offset_seconds=1).to_rfc3339):
            self.assertRaises(muxandu.RefusedNoText, write)

    def test_many_texts_each_with_a_status(self):
        texts = ["1970-01-01T01:00:00+01:00", "1970-02-30T00:00:00Z", "soon", b"1970-01-01T00:00:01Z"]
        shown, statuses = muxandu.date_times_from_each_rfc3339(texts)
        refused = [muxandu.RefusedDayOfMonth.status, muxandu.RefusedSyntax.status]
        self.assertEqual(list(statuses), [0, *refused, 0])
        self.assertEqual([(each.hour, each.second, each.offset_seconds) for each in shown][::3], [(1, 0, 3_600), (0, 1, 0)])
        block = "".join(["1970-01-01T00:00:01Z"] * 2).encode()
        spans = (muxandu.Span * 3)((0, 20), (20, 20), (30, 20))
        self.assertEqual(list(muxandu.date_times_from_each_rfc3339(block, spans)[1]), [0, 0, muxandu.RefusedSpan.status])
        self.assertRaises(TypeError, muxandu.date_times_from_each_rfc3339, "1970-01-01T00:00:01Z")
        self.assertRaises(TypeError, muxandu.rfc3339_fault, 1985)

    def test_many_texts_written(self):
        texts = ["1970-01-01T01:00:00.5+01:00", "1985-04-12T23:20:50Z"]
        read = [OffsetDateTime.from_rfc3339(text) for text in texts]
        self.assertEqual(muxandu.rfc3339_from_date_times(read), texts)
        self.assertEqual(muxandu.rfc3339_from_date_times(muxandu.date_times_from_rfc3339(texts)), texts)
        self.assertEqual(muxandu.rfc3339_from_date_times([]), [])
        with self.assertRaises(muxandu.RefusedNoText) as refused:
            muxandu.rfc3339_from_date_times([*read, read[0].replace(year=10_000)])
        self.assertEqual(refused.exception.count, 2)

    def test_many_texts_written_with_gaps(self):
        text = "1970-01-01T01:00:00.5+01:00"
        at = OffsetDateTime.from_rfc3339(text)
        items = [at.replace(year=10_000), at, None, at, float("nan")]
        self.assertEqual(muxandu.rfc3339_from_date_times(items, "coerce"), [None, text, None, text, None])
        parts = (muxandu.DateTimeParts * 2)((10_000, 1, 1), (1970, 1, 1))
        self.assertEqual(muxandu.rfc3339_from_date_times(parts, errors="coerce"), [None, "1970-01-01T00:00:00Z"])
        self.assertEqual(muxandu.rfc3339_from_date_times([], "coerce"), [])
        self.assertRaises(TypeError, muxandu.rfc3339_from_date_times, items)
        self.assertRaises(ValueError, muxandu.rfc3339_from_date_times, items, "ignore")


class Rest(unittest.TestCase):
    def test_durations(self):
        self.assertEqual(Duration(1, -1), Duration(0, 999_999_999))
        self.assertLess(Duration(0, -1), Duration())
        self.assertEqual(len({Duration(1, -1), Duration(0, 999_999_999)}), 1)
        self.assertEqual((Duration(1, 2).seconds, Duration(1, 2).nanoseconds), (1, 2))
        self.assertRaises(muxandu.RefusedDuration, Duration, 2**63)

    def test_refusals_are_value_errors_with_names(self):
        with self.assertRaises(ValueError) as caught:
            OffsetDateTime(2023, 2, 29)
        self.assertIsInstance(caught.exception, Refused)
        self.assertEqual((caught.exception.name, caught.exception.status), ("DAY_OF_MONTH", 4))
        self.assertEqual(str(caught.exception), f"DAY_OF_MONTH: {sentence_of(muxandu.RefusedDayOfMonth)}: 29")

    def test_refusals_show_what_is_refused(self):
        """Each message is the library's sentence, and then the number or the text that is refused."""
        for make, value, place in (
            (lambda: OffsetDateTime(2024, 13, 1), 13, None),
            (lambda: OffsetDateTime(2024, 1, 1, minute=60), 60, None),
            (lambda: OffsetDateTime(2024, 1, 1, offset_seconds=2**40), 2**40, None),
            (lambda: Timestamp(2**70), 2**70, None),
            (lambda: Timestamp(0, -1), -1, None),
            (lambda: Timestamp(0).to_offset(93_600), 93_600, None),
            (lambda: Timestamp(0).truncated_to(8), 8, None),
            (lambda: Timestamp(0).with_part(5, 24), 24, None),
            (lambda: Timestamp(0).with_part(-1, 24), -1, None),
            (lambda: Date(1_000_000, 1, 1), 1_000_000, None),
            (lambda: Date.from_day_number(2**40), 2**40, None),
            (lambda: Date.from_iso_week_date(2021, 53, 0), 53, None),
            (lambda: Date.from_ordinal_date(2023, 366), 366, None),
            (lambda: Date.from_julian_day(2**40), 2**40, None),
            (lambda: UtcOffset.from_hms(0, 60), 60, None),
            (lambda: days_in_month(2024, 13), 13, None),
            (lambda: OffsetDateTime.from_rfc3339("2024-02-30T00:00:00Z"), "2024-02-30T00:00:00Z", None),
            (lambda: Timestamp.from_rfc3339("2024-02-29T12:34:56+0100"), "2024-02-29T12:34:56+0100", 22),
            (lambda: OffsetDateTime.from_rfc3339_front(b"1985-04-12 done"), b"1985-04-12 done", 11),
            (lambda: OffsetDateTime.from_iso("-004712"), "-004712", 7),
            (lambda: Duration._of_words("2024-02-29"), "2024-02-29", 4),
            (lambda: Date.from_rfc3339("20240229"), "20240229", 4),
            (lambda: muxandu.timestamps_from_rfc3339(["1970-01-01T00:00:00Z", "soon"]), "soon", None),
            (lambda: muxandu.date_times_from_rfc3339(["soon"]), "soon", None),
            (lambda: muxandu.date_times_from_seconds([0, 2**60]), 2**60, None),
        ):
            with self.assertRaises(Refused) as caught:
                make()
            refused = caught.exception
            self.assertEqual((refused.value, refused.place), (value, place))
            sentence = sentence_of(type(refused))
            count = "" if refused.count is None else f"item {refused.count}: "
            at = "" if place is None else f", at byte {place}"
            self.assertEqual(str(refused), f"{count}{refused.name}: {sentence}: {value!r}{at}")
            again = pickle.loads(pickle.dumps(refused))
            self.assertEqual((str(again), again.value, again.place), (str(refused), value, place))

    def test_refusals_show_no_more_than_fits_a_line(self):
        for make, shown in (
            (lambda: Timestamp(10**5_000), f"a number of {(10**5_000).bit_length()} bits"),
            (lambda: Timestamp.from_rfc3339("\u00e9" * 10**6), "'" + "\\xe9" * 14 + "\\xe.., at byte 0"),
            (lambda: Timestamp.from_rfc3339(bytearray(b"soon")), sentence_of(muxandu.RefusedSyntax)),
        ):
            with self.assertRaises(Refused) as caught:
                make()
            self.assertLess(len(str(caught.exception)), 250)
            self.assertTrue(str(caught.exception).rstrip(".").endswith(shown), str(caught.exception))

    def test_values_are_pickled(self):
        values = [LAST, OffsetDateTime(2024, 2, 29, offset_seconds=60), Date(2024, 2, 29), Duration(1, 2), Unit.DAY]
        self.assertEqual(pickle.loads(pickle.dumps(values)), values)

    def test_the_example(self):
        self.assertEqual(doctest.testmod(muxandu).failed, 0)

    def test_the_example_of_sql(self):
        self.assertEqual(doctest.testmod(importlib.import_module("muxandu.sqlite")).failed, 0)

    def test_the_example_of_the_page(self):
        page = Path(__file__).resolve().parent.parent.joinpath("README.md").read_text(encoding="utf-8")
        program, printed = page.split("```python\n")[1].split("```")[0], io.StringIO()
        with contextlib.redirect_stdout(printed), self.assertRaises(muxandu.RefusedDayOfMonth):
            exec(program, {})  # noqa: S102
        self.assertEqual(printed.getvalue().split("\n")[:-1], re.findall(r"^print\(.*  # (.*)$", program, re.MULTILINE))


if __name__ == "__main__":
    unittest.main()

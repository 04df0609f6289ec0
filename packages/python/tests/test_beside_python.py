"""Values beside those of Python's own types: formats, datetimes, pickles, matches, the clock now, and lengths of units."""

import copy
import datetime
import inspect
import locale
import pickle
import random
import sqlite3
import unittest
from unittest import mock

from muxandu import (
    Date,
    Duration,
    IsoWeekDate,
    OffsetDateTime,
    PlainDateTime,
    RefusedDuration,
    RefusedOffsetSeconds,
    Time,
    Timestamp,
    UtcDateTime,
    UtcOffset,
)
from muxandu import _extension as engine
from muxandu import _formats

ROUNDS = 400
DIRECTIVES = "%" + " %".join("aAbBCdDefFgGhHIjklmMpRSTuUVwWyYz%")


def random_datetime(chance, low=1, high=9_999):
    """A datetime of a year, at an offset of minutes or of seconds."""
    day = datetime.date(chance.randint(low, high), chance.randint(1, 12), chance.randint(1, 28))
    clock = datetime.time(chance.randrange(24), chance.randrange(60), chance.randrange(60), chance.randrange(10**6))
    offset = chance.choice((0, 3_600, -12_600, 86_340, -86_340, 19_800, 3_601, -59, 86_399))
    return datetime.datetime.combine(day, clock, datetime.timezone(datetime.timedelta(seconds=offset)))


class Formats(unittest.TestCase):
    """An f-string with directives writes what the value of `datetime` writes."""

    def values(self, at):
        """Pairs of a value and that of Python."""
        shown = OffsetDateTime.from_datetime(at)
        naive = at.replace(tzinfo=None)
        yield shown, at
        yield PlainDateTime.from_datetime(naive), naive
        yield shown.date(), at.date()
        yield shown.time(), naive.time()
        if 2 < at.year < 9_998:
            yield shown.to_utc(), at.astimezone(datetime.timezone.utc)
            yield shown.to_timestamp(), at.astimezone(datetime.timezone.utc)

    def test_each_directive(self):
        chance = random.Random(5)
        for turn in range(ROUNDS):
            at = random_datetime(chance) if turn % 4 else random_datetime(chance, 998, 1_003)
            words = chance.sample(DIRECTIVES.split(), 3) + chance.choice(([], ["é"], ["-" * 60], ["%-d"], ["%f"]))
            pattern = chance.choice((" ", "/", "")).join(words)
            for value, wanted in self.values(at):
                self.assertEqual(format(value, pattern), wanted.strftime(pattern), (value, pattern))

    def test_few_are_written_by_datetime(self):
        """The directives of most logs take no datetime, which takes three times as long."""
        at = OffsetDateTime(2024, 2, 29, 12, 30, offset_seconds=3_600)
        for value in (at, at.date(), at.time(), at.to_utc(), at.date_time(), at.to_timestamp()):
            pattern = "%H:%M:%S.%f" if isinstance(value, Time) else "%d/%b/%Y %A %j"
            with mock.patch.object(_formats, "test_format", side_effect=AssertionError):
                self.assertTrue(format(value, pattern))

    def test_names_of_another_locale(self):
        """datetime writes the names of a locale: the package asks which it is."""
        at = OffsetDateTime(2024, 2, 29, 12)
        for said, is_own in (("C", True), ("POSIX", True), ("C.UTF-8", True), ("de_DE.UTF-8", False)):
            with mock.patch.object(locale, "setlocale", return_value=said):
                for pattern, has_names in (("%a", True), ("%d", False), ("%b %d", True), ("%p", True)):
                    text = _formats.text_as_datetime(at._kind, at, pattern)
                    self.assertEqual(text is not None, is_own or not has_names, (said, pattern))

    def test_what_datetime_refuses(self):
        far = OffsetDateTime(10_000, 1, 1)
        self.assertRaisesRegex(ValueError, "year 10000 is out of range", format, far, "%d")
        self.assertRaisesRegex(ValueError, "strictly between", format, OffsetDateTime(2024, 1, 1, offset_seconds=86_400), "%d")
        self.assertEqual(format(OffsetDateTime(2024, 1, 1), "%"), datetime.datetime(2024, 1, 1).strftime("%"))


class Datetimes(unittest.TestCase):
    def test_there_and_back(self):
        chance = random.Random(6)
        for _ in range(ROUNDS):
            at = random_datetime(chance)
            made = OffsetDateTime.from_datetime(at).to_datetime()
            self.assertEqual((made, made.utcoffset(), made.fold, type(made)), (at, at.utcoffset(), 0, datetime.datetime))
            naive = PlainDateTime.from_datetime(at.replace(tzinfo=None)).to_datetime()
            self.assertEqual((naive, naive.tzinfo), (at.replace(tzinfo=None), None))
            if 2 < at.year < 9_998:
                utc = at.astimezone(datetime.timezone.utc)
                for value in (UtcDateTime.from_datetime(at), Timestamp.from_datetime(at)):
                    self.assertEqual(value.to_datetime().__reduce__(), utc.__reduce__())
                zone = datetime.timezone(datetime.timedelta(hours=-5))
                self.assertEqual(Timestamp.from_datetime(at).to_datetime(zone).__reduce__(), at.astimezone(zone).__reduce__())

    def test_rounded_down(self):
        at = OffsetDateTime(1969, 12, 31, 23, 59, 59, 999_999_999)
        self.assertEqual(at.to_datetime().microsecond, 999_999)
        self.assertEqual(at.to_timestamp().to_datetime().microsecond, 999_999)

    def test_years_and_offsets_that_python_lacks(self):
        for year in (-1, 0, 10_000, 70_000):
            for value in (OffsetDateTime(year, 1, 1), UtcDateTime(year, 1, 1), PlainDateTime(year, 1, 1)):
                self.assertRaisesRegex(ValueError, "year .* is out of range", value.to_datetime)
        self.assertRaisesRegex(ValueError, "year", OffsetDateTime(0, 1, 1).to_timestamp().to_datetime)
        self.assertRaises(ValueError, OffsetDateTime(2024, 1, 1, offset_seconds=86_400).to_datetime)

    def test_zones_are_kept_and_not_mixed(self):
        offsets = [0, 3_600, 3_600, -3_600, 0, 60, 61, 3_900]
        made = [OffsetDateTime(2024, 1, 1, offset_seconds=offset).to_datetime() for offset in offsets]
        self.assertEqual([at.utcoffset().total_seconds() for at in made], offsets)
        self.assertIs(made[0].tzinfo, datetime.timezone.utc)

    def test_iso_weeks(self):
        chance = random.Random(7)
        for _ in range(ROUNDS):
            day = datetime.date.fromordinal(chance.randint(1, datetime.date.max.toordinal()))
            found, wanted = Date.from_date(day).to_iso_week_date(), day.isocalendar()
            self.assertEqual(found, (wanted[0], wanted[1], wanted[2] - 1))
            self.assertEqual((type(found), found.week, pickle.loads(pickle.dumps(found))), (IsoWeekDate, wanted[1], found))
        self.assertEqual(repr(Date(2024, 2, 29).to_iso_week_date()), "IsoWeekDate(year=2024, week=9, weekday=3)")


class Now(unittest.TestCase):
    def test_offsets(self):
        class Own(OffsetDateTime):
            pass

        for offset in (0, 7_200, -93_599, UtcOffset(60)):
            before = Timestamp.now()
            now, own, utc = OffsetDateTime.now(offset), Own.now(offset), UtcDateTime.now()
            after = Timestamp.now()
            self.assertTrue(before <= now <= own <= utc <= after)
            self.assertEqual((now.offset_seconds, type(own), type(utc)), (int(offset.__index__()), Own, UtcDateTime))
            self.assertEqual(now.to_timestamp().to_offset(offset).__reduce__(), now.__reduce__())
        self.assertEqual(OffsetDateTime._of_nanoseconds(-1, 60), Timestamp(-1, 999_999_999))
        with self.assertRaises(RefusedOffsetSeconds) as caught:
            OffsetDateTime.now(93_600)
        self.assertEqual(caught.exception.value, 93_600)
        self.assertRaisesRegex(TypeError, "the offset must be an integer", OffsetDateTime.now, "Z")
        self.assertRaises(TypeError, OffsetDateTime._of_nanoseconds, 1)


VALUES = {
    OffsetDateTime(2024, 2, 29, 1, 2, 3, 4, 5): (2024, 2, 29, 1, 2, 3, 4, 5),
    UtcDateTime(-5, 2, 28, 1, 2, 3, 999_999_999): (-5, 2, 28, 1, 2, 3, 999_999_999),
    PlainDateTime(2024, 2, 29, 1, 2, 3, 4): (2024, 2, 29, 1, 2, 3, 4),
    Time(1, 2, 3, 4): (1, 2, 3, 4),
    Timestamp(-(10**12), 7): (-(10**12), 7),
    Duration(-5, -6): (-5, -6),
    Duration.MIN: (-(2**63), -999_999_999),
    Date(-999_999, 1, 2): (-999_999, 1, 2),
    UtcOffset(-93_599): (-93_599,),
}


class Parts(unittest.TestCase):
    def test_pickles(self):
        for value, parts in VALUES.items():
            self.assertEqual(value.__reduce__(), (type(value), parts))
            for protocol in range(pickle.HIGHEST_PROTOCOL + 1):
                again = pickle.loads(pickle.dumps(value, protocol))
                self.assertEqual((type(again), again.__reduce__()), (type(value), value.__reduce__()))
            self.assertEqual(copy.deepcopy(value), value)
            self.assertEqual(repr(value).partition("(")[0], type(value).__name__)

    def test_classes_of_a_user(self):
        class Own(Date):
            pass

        self.assertEqual(Own(2024, 2, 29).__reduce__(), (Own, (2024, 2, 29)))

    def test_matches(self):
        for value, parts in VALUES.items():
            self.assertEqual(tuple(getattr(value, name) for name in type(value).__match_args__), parts)
        match OffsetDateTime(2024, 2, 29, 12):
            case OffsetDateTime(year, 2, day, hour):
                self.assertEqual((year, day, hour), (2024, 29, 12))
            case _:
                self.fail("no match")
        match Duration(90):
            case Duration(60, 0):
                self.fail("a match of another duration")
            case Duration(seconds=90):
                pass
            case _:
                self.fail("no match")

    def test_ends(self):
        self.assertEqual((OffsetDateTime.MIN, OffsetDateTime.MAX), (Timestamp.MIN, Timestamp.MAX))
        self.assertEqual((OffsetDateTime.MIN.offset_seconds, OffsetDateTime.MAX.offset_seconds), (0, 0))

    def test_a_text_for_numbers(self):
        for kind in (Timestamp, Date, OffsetDateTime):
            self.assertRaisesRegex(TypeError, f"{kind.__name__}.from_rfc3339\\(\\) reads a text", kind, "2024-02-29T00:00:00Z")


class Units(unittest.TestCase):
    """Durations of units by name, beside timedelta."""

    def test_beside_timedelta(self):
        chance = random.Random(8)
        names = ("weeks", "days", "hours", "minutes", "seconds", "milliseconds", "microseconds")
        for _ in range(ROUNDS):
            words = {name: chance.randint(-1_000, 1_000) for name in chance.sample(names, chance.randint(1, 4))}
            self.assertEqual(Duration(**words).to_timedelta(), datetime.timedelta(**words), words)
        self.assertEqual(Duration(1, 5, hours=1), Duration(3_601, 5))
        self.assertEqual(Duration(hours=1, nanoseconds=-1), Duration(3_599, 999_999_999))
        self.assertEqual(Duration(hours=0).__reduce__(), (Duration, (0, 0)))

    def test_ends(self):
        self.assertEqual(Duration(2**63 - 1, hours=1, minutes=-60).seconds, 2**63 - 1)
        for words in ({"weeks": 2**62}, {"days": 2**70}, {"seconds": 2**63 - 1, "minutes": 1}, {"hours": -(2**80)}):
            self.assertRaises(RefusedDuration, Duration, **words)

    def test_other_words(self):
        self.assertRaisesRegex(TypeError, "the argument 'hours' must be an integer", Duration, hours=1.5)
        self.assertRaisesRegex(TypeError, "takes no argument 'months'", Duration, months=1)
        self.assertRaisesRegex(TypeError, "takes no argument 'months'", Duration, months=1, hours=2)
        self.assertRaisesRegex(TypeError, "has the argument 'seconds' twice", Duration, 1, seconds=1, hours=2)
        words = {"hours": 1, "minutes": 2}
        Duration(**words)
        self.assertEqual(words, {"hours": 1, "minutes": 2})
        self.assertIn("hours", inspect.signature(Duration).parameters)

    def test_classes_of_a_user(self):
        class Own(Duration):
            pass

        self.assertIs(type(Own(hours=1)), Own)


class Parameters(unittest.TestCase):
    """Values as parameters of sqlite3, which asks them for a text."""

    def test_texts(self):
        connection = sqlite3.connect(":memory:")
        at = OffsetDateTime(2024, 2, 29, 12, 30, offset_seconds=3_600)
        for value, text in (
            (at, "2024-02-29T12:30:00+01:00"),
            (at.to_utc(), "2024-02-29T11:30:00Z"),
            (at.to_timestamp(), "2024-02-29T11:30:00.000000000Z"),
            (at.date(), "2024-02-29"),
        ):
            self.assertEqual(connection.execute("SELECT ?", (value,)).fetchone(), (text,))
            self.assertIsNone(value.__conform__(int))
        for value in (Time(1), PlainDateTime(2024, 1, 1)):
            with self.assertRaises(sqlite3.Error):
                connection.execute("SELECT ?", (value,))
        connection.close()


class Extension(unittest.TestCase):
    def test_texts_of_days_and_times(self):
        """A day and a time of day are written in C, as clocks are."""
        for value, pattern, text in (
            (Date(2024, 2, 29), "%d.%m.%Y", "29.02.2024"),
            (Date(-5, 12, 31), "%j", "365"),
            (Time(12, 30), "%H:%M", "12:30"),
        ):
            items = _formats.of_strftime(pattern)
            self.assertEqual(engine.text_of_clock(value._kind, items.items, items.size, value), text)
        items = _formats.of_strftime("%H")
        self.assertIsNone(engine.text_of_clock(Date._kind, items.items, items.size, Date(2024, 2, 29)))
        self.assertIsNone(engine.text_of_clock(Date._kind, items.items, items.size, 5))


if __name__ == "__main__":
    unittest.main()

"""Texts by format descriptions, and by patterns of `strftime` beside Python's datetime."""

import datetime
import os
import pickle
import random
import re
import unittest

import muxandu
from muxandu import Date, OffsetDateTime, PlainDateTime, Time, Timestamp, UtcDateTime, UtcOffset, _formats
from muxandu import description_of_strftime

AT = OffsetDateTime(2024, 2, 29, 12, 34, 56, 500_000_000, 19_800)

# Directives that Python's datetime has on each system, and of a C library those that it writes as descriptions do.
WRITTEN = "aAbBCdefFgGhHIjklmMnprRStTuUVwWyYzD%"

# Patterns whose texts name one value, for Python's strptime too. It reads no %C, %e, %g, %h, %k, %l, %r and %s.
READ = (
    "%Y-%m-%d %H:%M:%S.%f%z",
    "%d/%b/%Y:%H:%M:%S %z",
    "%A, %d %B %Y %I:%M:%S.%f %p %z",
    "%a %b %d %H:%M:%S %Y %z",
    "%Y%j%H%M%S%z",
    "%G-W%V-%u %H:%M%z",
    "%%%Y\\%m[%d]%H%z",
)


def random_datetime(source):
    """A datetime of a year of four digits, at an offset of whole minutes."""
    seconds = source.randrange(-30_000_000_000, 253_000_000_000)
    zone = datetime.timezone(datetime.timedelta(minutes=source.choice((0, source.randrange(-1_439, 1_440)))))
    at = datetime.datetime(1970, 1, 1, tzinfo=zone) + datetime.timedelta(seconds=seconds, microseconds=source.randrange(10**6))
    return at if at.year >= 1000 else at.replace(year=at.year + 1000)


class Formats(unittest.TestCase):
    def test_of_each_kind(self):
        for value, pattern, text in (
            (
                AT,
                "[year]-[month]-[day]T[hour]:[minute]:[second].[subsecond][offset_hour sign:mandatory]:[offset_minute]",
                "2024-02-29T12:34:56.5+05:30",
            ),
            (AT.date(), "[weekday], [day padding:none] [month repr:long] [year]", "Thursday, 29 February 2024"),
            (AT.time(), "[hour repr:12]:[minute]:[second].[subsecond digits:3] [period]", "12:34:56.500 PM"),
            (AT.date_time(), "[year][ordinal] [hour][minute][second][subsecond]", "2024060 1234565"),
            (AT.offset(), "[offset_hour]:[offset_minute]", "05:30"),
            (AT.to_utc(), "[year]-[month]-[day] [hour]:[minute]:[second].[subsecond digits:9]", "2024-02-29 07:04:56.500000000"),
            (AT.to_timestamp(), "[unix_timestamp precision:nanosecond]", "1709190296500000000"),
        ):
            kind = type(value)
            self.assertEqual(value.format(pattern), text)
            read = kind.parse(text, pattern)
            self.assertEqual((type(read), read), (kind, value))
            self.assertEqual(kind.parse(text.encode(), pattern), value)

    def test_offsets(self):
        self.assertTrue(
            OffsetDateTime.parse("2024-02-29 12 +0530", "[year]-[month]-[day] [hour] [offset_hour][offset_minute]").is_same(
                OffsetDateTime(2024, 2, 29, 12, offset_seconds=19_800)
            )
        )
        pattern = "[year][month][day][hour][optional [[offset_hour sign:mandatory]]]"
        self.assertEqual(UtcDateTime.parse("2024022912+02", pattern), UtcDateTime(2024, 2, 29, 10))
        self.assertEqual(UtcDateTime.parse("2024022912", pattern), UtcDateTime(2024, 2, 29, 12))
        self.assertEqual(Timestamp.parse("2024022912", pattern), UtcDateTime(2024, 2, 29, 12).to_timestamp())
        self.assertEqual(Timestamp.parse("-1.5", "[unix_timestamp].[subsecond]"), Timestamp(-1, 500_000_000))
        for at in (Timestamp(1_709_166_600, 500_000_001), Timestamp(-2, 499_999_999)):
            for unit in ("millisecond", "microsecond"):
                pattern = f"[unix_timestamp precision:{unit}] [subsecond]"
                self.assertEqual(Timestamp.parse(at.format(pattern), pattern), at)
        self.assertEqual(UtcOffset(-1_800).format("[offset_hour sign:mandatory]:[offset_minute]"), "-00:30")
        self.assertEqual(UtcOffset.parse("-00:30", "[offset_hour]:[offset_minute]"), UtcOffset(-1_800))

    def test_a_class_of_its_own(self):
        class Own(OffsetDateTime):
            pass

        read = Own.parse("2024-060 12+01", "[year]-[ordinal] [hour][offset_hour]")
        self.assertEqual((type(read), read.day, read.offset_seconds), (Own, 29, 3_600))

    def test_descriptions_that_are_none(self):
        for pattern, place, reason in (
            ("[year", 0, "A [ without its ]."),
            ("[year]-[mouth]", 8, "A name of no component."),
            ("[day padding:two]", 13, "A value that the modifier does not have."),
            ("[day form:long]", 5, "A name that is no modifier of its component."),
            ("[]", 0, "A [ that no name follows."),
        ):
            with self.assertRaises(muxandu.RefusedSyntax) as caught:
                AT.format(pattern)
            self.assertEqual((caught.exception.value, caught.exception.place, caught.exception.reason), (pattern, place, reason))
            self.assertIn(f"at byte {place}: {reason}", str(caught.exception))
            self.assertRaises(muxandu.RefusedSyntax, Date.parse, "", pattern)
        again = pickle.loads(pickle.dumps(caught.exception))
        self.assertEqual((str(again), again.reason), (str(caught.exception), caught.exception.reason))
        self.assertRaises(muxandu.RefusedSyntax, AT.format, "a" * 129)
        self.assertRaises(TypeError, AT.format, b"[day]")
        self.assertRaises(TypeError, AT.strftime, 5)
        self.assertRaises(TypeError, Date.parse, 5, "[day]")

    def test_values_that_a_description_does_not_write(self):
        with self.assertRaises(muxandu.RefusedNoText) as caught:
            AT.date().format("[day] [hour repr:12]")
        self.assertEqual(caught.exception.reason, "the value has no [hour repr:12]")
        for value, pattern in ((AT.time(), "[day]"), (AT.date_time(), "[offset_hour]"), (AT.offset(), "[unix_timestamp]")):
            self.assertRaises(muxandu.RefusedNoText, value.format, pattern)
        self.assertRaises(muxandu.RefusedNoText, AT.format, "[day] \u65e5")
        with self.assertRaises(muxandu.RefusedNoText) as caught:
            AT.format("[weekday]" * 8 + " ")
        self.assertEqual(caught.exception.reason, "the text has more than 64 bytes, or one that is not ASCII")
        self.assertEqual(AT.format("[weekday]" * 8), "Thursday" * 8)

    def test_texts_that_are_not_read(self):
        form = "[year]-[month]-[day]"
        for text, place, reason in (
            ("2024-2-29", 5, "[month] is expected there"),
            ("2024-02/29", 7, "- is expected there"),
            ("2024-02-29 ", 10, "the end of the text is expected there"),
            ("", 0, "[year] is expected there"),
            ("2024-02-", 8, "[day] is expected there"),
        ):
            with self.assertRaises(muxandu.RefusedSyntax) as caught:
                Date.parse(text, form)
            self.assertEqual((caught.exception.value, caught.exception.place, caught.exception.reason), (text, place, reason))
        with self.assertRaises(muxandu.RefusedSyntax) as caught:
            Date.parse("2024-02", "[year]-[month]")
        self.assertEqual(caught.exception.reason, "the text lacks a part: The day of the month, 1 to 31.")
        self.assertRaises(muxandu.RefusedSyntax, OffsetDateTime.parse, "2024-02-29 12", "[year]-[month]-[day] [hour]")
        self.assertRaises(muxandu.RefusedResult, Timestamp.parse, "3600 02", "[unix_timestamp] [hour]")
        self.assertEqual(Timestamp.parse("3600 01", "[unix_timestamp] [hour]"), Timestamp(3_600))

    def test_fronts(self):
        line = '29/Feb/2024:12:34:56 +0530] "GET / HTTP/1.1" 200'
        pattern = "[day]/[month repr:short]/[year]:[hour]:[minute]:[second] [offset_hour sign:mandatory][offset_minute]"
        read, rest = OffsetDateTime.parse_front(line, pattern)
        self.assertEqual((read.to_rfc3339(), rest), ("2024-02-29T12:34:56+05:30", '] "GET / HTTP/1.1" 200'))
        self.assertEqual(OffsetDateTime.parse_front(line.encode(), pattern)[1], rest.encode())
        self.assertEqual(Date.parse_front("2024-02-29é", "[year]-[month]-[day]"), (Date(2024, 2, 29), "é"))
        self.assertEqual(Date.parse_front("2024-02-29", "[year]-[month]-[day]"), (Date(2024, 2, 29), ""))
        self.assertEqual(Timestamp.parse_front("1709206200 x", "[unix_timestamp]"), (Timestamp(1_709_206_200), " x"))
        with self.assertRaises(muxandu.RefusedSyntax) as told:
            Date.parse_front("2024-2-29 x", "[year]-[month]-[day]")
        self.assertEqual(told.exception.place, 5)
        with self.assertRaises(muxandu.RefusedResult):
            Date.parse_front("2023-02-29 x", "[year]-[month]-[day]")

    def test_places_of_wrong_parts(self):
        form = "[year]-[month]-[day][optional [ [weekday repr:short]]]"
        for kind, text, pattern, place, part, ends in (
            (Date, "2023-02-29", form, 8, "The day of the month", " (1 to 31)"),
            (Date, "2024-13-29", form, 5, "The month", " (1 to 12)"),
            (Date, "2024-02-29 Fri", form, 11, "The day of the week", ""),
            (Date, "2024-060 01-01", "[year]-[ordinal] [month]-[day]", 5, "The day of the year", " (1 to 366)"),
            (Date, "31.04 2024", "[first [[day]/[month]] [[day].[month]]] [year]", 0, "The day of the month", " (1 to 31)"),
            (Time, "23:60", "[hour]:[minute]", 3, "The minute", " (0 to 59)"),
            (UtcOffset, b"+01:60", "[offset_hour]:[offset_minute]", 4, "The minutes of the offset", " (0 to 59)"),
            (Timestamp, "3600 25", "[unix_timestamp] [hour]", 5, "The hour of the day", " (0 to 23)"),
            (Timestamp, "3600 02", "[unix_timestamp] [hour]", 0, *unix_range("seconds", 0)),
            (Timestamp, "02 3600000", "[hour] [unix_timestamp precision:millisecond]", 3, *unix_range("milliseconds", 3)),
            (
                Timestamp,
                "1971 0 0",
                "[year] [unix_timestamp] [unix_timestamp precision:nanosecond]",
                7,
                *unix_range("nanoseconds", 9),
            ),
            (Timestamp, "1709190296 2023", "[unix_timestamp] [year]", None, "The day of the month", " (1 to 31)"),
        ):
            with self.assertRaises(muxandu.RefusedResult) as caught:
                kind.parse(text, pattern)
            reason = f"{part} is out of range{ends}, or contradicts another part"
            self.assertEqual((caught.exception.value, caught.exception.place, caught.exception.reason), (text, place, reason))
            at = "" if place is None else f", at byte {place}"
            self.assertTrue(str(caught.exception).endswith(f": {text!r}{at}: {reason}"), str(caught.exception))

    def test_ranges_of_parts(self):
        """Each part that has a range: both ends are read, and the number before and after them is not."""
        weeks = "[year]-[week_number repr:{0}]-[weekday repr:{0}]"
        first, last = "-31619087596800", "31494784780799"
        for kind, pattern, accepted, rejected, ends in (
            (Date, "[year]-[month]-[day]", ("-999999-01-01", "+999999-12-31"), (), "The year, -999999 to 999999."),
            (Date, "[year]-[month]-[day]", ("2024-01-01", "2024-12-31"), ("2024-00-01", "2024-13-01"), "The month, 1 to 12."),
            (
                Date,
                "[month]/[day]/[year]",
                ("01/01/2023", "01/31/2023"),
                ("01/00/2023", "01/32/2023"),
                "The day of the month, 1 to 31.",
            ),
            (Date, "[year]-[ordinal]", ("2024-001", "2024-366"), ("2024-000", "2024-367"), "The day of the year, 1 to 366."),
            (
                Date,
                "[year base:iso_week]-W[week_number]-[weekday repr:monday]",
                ("2026-W01-1", "2026-W53-1"),
                ("2026-W00-1", "2026-W54-1"),
                "The ISO week, 1 to 53.",
            ),
            (
                Date,
                weeks.format("sunday"),
                ("2024-00-2", "2012-53-1"),
                ("2012-54-1",),
                "The week by the Sundays of the year, 0 to 53.",
            ),
            (
                Date,
                weeks.format("monday"),
                ("2023-00-7", "2024-53-1"),
                ("2024-54-1",),
                "The week by the Mondays of the year, 0 to 53.",
            ),
            (Time, "[hour]", ("00", "23"), ("24",), "The hour of the day, 0 to 23."),
            (Time, "[hour repr:12][period]", ("01AM", "12PM"), ("00AM", "13PM"), "The hour on a clock of 12 hours, 1 to 12."),
            (Time, "[hour][minute]", ("0000", "0059"), ("0060",), "The minute, 0 to 59."),
            (Time, "[hour][minute][second]", ("000000", "000059"), ("000060",), "The second, 0 to 59."),
            (UtcOffset, "[offset_hour sign:mandatory]", ("-25", "+25"), ("-26", "+26"), "The hours of the offset, -25 to 25."),
            (UtcOffset, "[offset_hour][offset_minute]", ("0000", "0059"), ("0060",), "The minutes of the offset, 0 to 59."),
            (
                UtcOffset,
                "[offset_hour]00[offset_second]",
                ("000000", "000059"),
                ("000060",),
                "The seconds of the offset, 0 to 59.",
            ),
            *(
                (
                    Timestamp,
                    f"[unix_timestamp precision:{unit}]",
                    (first + "0" * digits, last + "9" * digits),
                    (f"-{int(first[1:] + '0' * digits) + 1}", f"{int(last + '9' * digits) + 1}"),
                    f"The Unix time in {unit}s, {first}{'0' * digits} to {last}{'9' * digits}.",
                )
                for unit, digits in (("second", 0), ("millisecond", 3), ("microsecond", 6), ("nanosecond", 9))
            ),
        ):
            self.assertIn(ends, _formats.REASONS.values())
            part, numbers = ends[:-1].split(", ")
            for text in accepted:
                self.assertEqual(kind.parse(text, pattern).format(pattern), text)
            for text in rejected:
                with self.assertRaises(muxandu.RefusedResult) as caught:
                    kind.parse(text, pattern)
                self.assertEqual(caught.exception.reason, f"{part} is out of range ({numbers}), or contradicts another part")
        self.assertEqual(sum(bool(re.search(r", -?\d+ to -?\d+\.$", reason)) for reason in _formats.REASONS.values()), 18)

    def test_patterns_are_kept(self):
        _formats.items_of.cache_clear()
        for _ in range(3):
            self.assertEqual(AT.format("[day].[month]"), "29.02")
        self.assertEqual(_formats.items_of.cache_info()[:2], (2, 1))


def unix_range(unit, digits):
    """The part of a Unix timestamp, by its unit, and its range in the text of an error."""
    return f"The Unix time in {unit}", f" (-31619087596800{'0' * digits} to 31494784780799{'9' * digits})"


class ManyFormats(unittest.TestCase):
    FORM = "[day]/[month repr:short]/[year]:[hour]:[minute]:[second] [offset_hour sign:mandatory][offset_minute]"

    def test_many(self):
        date_times = [AT, OffsetDateTime(1999, 12, 31, offset_seconds=-3_600)]
        texts = muxandu.texts_from_date_times(date_times, self.FORM)
        self.assertEqual(texts, ["29/Feb/2024:12:34:56 +0530", "31/Dec/1999:00:00:00 -0100"])
        read, statuses = muxandu.date_times_from_each_text([*texts, "31/Dec/99", None], self.FORM)
        self.assertEqual(
            [OffsetDateTime.from_parts(item).to_rfc3339() for item in list(read)[:2]],
            ["2024-02-29T12:34:56+05:30", "1999-12-31T00:00:00-01:00"],
        )
        self.assertEqual(list(statuses), [0, 0, muxandu.RefusedSyntax.status, muxandu.MISSING])
        with self.assertRaises(muxandu.RefusedNoText) as caught:
            muxandu.texts_from_date_times(date_times, "\u65e5")
        self.assertEqual(caught.exception.count, 0)


class Strftime(unittest.TestCase):
    def test_beside_datetime(self):
        source = random.Random(55)
        for _ in range(int(os.environ.get("MUXANDU_ROUNDS", "400"))):
            theirs = random_datetime(source)
            ours = OffsetDateTime.from_datetime(theirs)
            for directive in WRITTEN:
                self.assertEqual(ours.strftime("%" + directive), theirs.strftime("%" + directive), (theirs, directive))
            pattern = "".join(source.choice((f"%{source.choice(WRITTEN)}", source.choice("[]\\ .:-T"))) for _ in range(4))
            self.assertEqual(ours.strftime(pattern), theirs.strftime(pattern), (theirs, pattern))
            for pattern in READ:
                text = theirs.strftime(pattern)
                self.assertEqual(ours.strftime(pattern), text)
                read = OffsetDateTime.strptime(text, pattern)
                self.assertEqual(
                    (read.to_datetime(), read.offset_seconds), (datetime.datetime.strptime(text, pattern), ours.offset_seconds)
                )

    def test_of_each_kind(self):
        self.assertEqual(AT.date().strftime("%A, %d %B %Y"), "Thursday, 29 February 2024")
        self.assertEqual(AT.time().strftime("%H:%M:%S.%f"), "12:34:56.500000")
        self.assertEqual(AT.date_time().strftime("%F %T"), "2024-02-29 12:34:56")
        self.assertEqual(AT.to_utc().strftime("%R%z"), "07:04+0000")
        self.assertEqual(AT.to_timestamp().strftime("%FT%TZ"), "2024-02-29T07:04:56Z")
        self.assertEqual(AT.strftime("%:z"), "+05:30")
        self.assertEqual(Date.strptime("29/Feb/2024", "%d/%b/%Y"), AT.date())
        self.assertEqual(Time.strptime("12:05 AM", "%I:%M %p"), Time(0, 5))
        self.assertEqual(PlainDateTime.strptime("2024-02-29 12:34:56", "%F %T"), PlainDateTime(2024, 2, 29, 12, 34, 56))
        self.assertEqual(UtcDateTime.strptime("2024-02-29 12:34 +0100", "%F %R %z"), UtcDateTime(2024, 2, 29, 11, 34))
        self.assertEqual(Timestamp.strptime("2024-02-29 12:34", "%F %R"), UtcDateTime(2024, 2, 29, 12, 34).to_timestamp())
        with self.assertRaises(muxandu.RefusedSyntax) as caught:
            Date.strptime("29/02/24", "%d/%m/%y")
        self.assertEqual(caught.exception.reason, "the text lacks a part: The year, -999999 to 999999.")

    def test_directives_that_no_description_says(self):
        for pattern, name, place, why in (
            ("%d %c", "%c", 3, "its text depends on the locale"),
            ("%x", "%x", 0, "its text depends on the locale"),
            ("%Ey", "%E", 0, "its text depends on the locale"),
            ("%H %Z", "%Z", 3, "a value has no name of a zone"),
            ("%s", "%s", 0, "it depends on the zone of the machine"),
            ("%-d", "%-", 0, "write a description with padding:none"),
            ("%Q", "%Q", 0, "there is no such directive"),
            ("100%", "%", 3, "a directive is missing"),
            ("%:H", "%:H", 0, "there is no such directive"),
        ):
            with self.assertRaises(ValueError) as caught:
                AT.strftime(pattern)
            told = str(caught.exception)
            self.assertTrue(told.startswith(f"no description says {name} of {pattern!r}, at character {place}: "), told)
            self.assertIn(why, told)
            self.assertRaises(ValueError, OffsetDateTime.strptime, "", pattern)
        self.assertRaises(ValueError, OffsetDateTime(2024, 1, 1, offset_seconds=1).strftime, "%z")
        self.assertEqual(description_of_strftime("%d.%m.%Y [%H]"), "[day].[month].[year] \\[[hour]\\]")

    def test_a_format_has_no_seconds_since_1970(self):
        """Which the C library counts by the zone of the machine: an f-string raises what `strftime` raises."""
        for value in (AT, AT.to_utc(), AT.date_time(), AT.to_timestamp(), AT.date(), AT.time()):
            for pattern in ("%s", "%d %s", "%s%%", "%%%s", "%-s", "%10s", "%_s", "%Es"):
                told = []
                for call in (value.strftime, lambda pattern: format(value, pattern)):
                    with self.assertRaises(ValueError) as caught:
                        call(pattern)
                    told.append(str(caught.exception))
                self.assertEqual(told[0], told[1])
                self.assertIn("of " + repr(pattern), told[0])
        self.assertEqual((f"{AT:%%s %d}", f"{AT:%d%%%%s}", f"{AT:%S}", f"{AT.date():%b s}"), ("%s 29", "29%%s", "56", "Feb s"))


if __name__ == "__main__":
    unittest.main()

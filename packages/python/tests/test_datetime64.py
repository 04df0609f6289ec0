"""Arrays of NumPy's datetime64 of each unit, straight in and out, and columns of pandas."""

import importlib.util
import random
import unittest

import muxandu
from muxandu import Date, DateParts, DateTimeParts, Duration, OffsetDateTime, PlainDateTime, Span, Timestamp, TimestampParts

HAS_NUMPY = importlib.util.find_spec("numpy") is not None
HAS_PANDAS = importlib.util.find_spec("pandas") is not None

# How many attoseconds each unit has.
UNITS = {"W": 604_800, "D": 86_400, "h": 3_600, "m": 60, "s": 1}
UNITS = {unit: seconds * 10**18 for unit, seconds in UNITS.items()}
UNITS.update({"ms": 10**15, "us": 10**12, "ns": 10**9, "ps": 10**6, "fs": 10**3, "as": 1})
LEAST, MOST = Timestamp.MIN.as_nanoseconds() * 10**9, Timestamp.MAX.as_nanoseconds() * 10**9 + 10**9 - 1


@unittest.skipUnless(HAS_NUMPY, "NumPy is not there")
class Moments(unittest.TestCase):
    def some(self, unit, many):
        """Random counts of a unit, at its ends and of our range too."""
        import numpy

        source, each = random.Random(unit), UNITS[unit] * many
        counts = [source.randint(-(2**63) + 1, 2**63 - 1) >> source.randrange(63) for _ in range(200)]
        counts += [0, -1, 1, 2**63 - 1, -(2**63) + 1, LEAST // each, MOST // each]
        return [count for count in counts if LEAST <= count * each <= MOST and abs(count) < 2**63], numpy

    def test_of_each_unit(self):
        for unit, size in UNITS.items():
            for many in (1, 7):
                counts, numpy = self.some(unit, many)
                array = numpy.array(counts, dtype="int64").view(f"datetime64[{many}{unit}]")
                stamps = muxandu.timestamps_from_datetime64(array)
                nanoseconds = [count * size * many // 10**9 for count in counts]
                found = list(zip(stamps["seconds"].tolist(), stamps["nanoseconds"].tolist()))
                self.assertEqual(found, [divmod(each, 10**9) for each in nanoseconds], unit)
                shown = muxandu.date_times_from_seconds(array)
                back = [OffsetDateTime.from_parts(each).to_timestamp().as_nanoseconds() for each in shown]
                self.assertEqual(back, nanoseconds)
                if size * many >= 10**9:
                    again = muxandu.datetime64_from_timestamps(stamps, f"{many}{unit}")
                    self.assertEqual(again.view("int64").tolist(), counts)
                for swapped in (array.astype(array.dtype.newbyteorder(">")), array[::-1][::-1]):
                    self.assertEqual(muxandu.timestamps_from_datetime64(swapped).tolist(), stamps.tolist())

    def test_of_months_and_years(self):
        import numpy

        for unit in ("Y", "M", "5M"):
            array = numpy.arange(-5_000, 5_000, 37, dtype="int64").view(f"datetime64[{unit}]")
            wanted = array.astype("datetime64[s]").view("int64")
            stamps = muxandu.timestamps_from_datetime64(array)
            self.assertEqual(stamps["seconds"].tolist(), wanted.tolist())
            self.assertEqual(muxandu.datetime64_from_timestamps(stamps, unit).tolist(), array.tolist())
        with self.assertRaises(muxandu.RefusedTimestamp) as caught:
            muxandu.timestamps_from_datetime64(numpy.array([0, 2**62], dtype="int64").view("datetime64[Y]"))
        self.assertEqual(caught.exception.count, 1)

    def test_not_a_time_and_far_times_are_refused(self):
        import numpy

        for unit in (*UNITS, "Y", "M"):
            array = numpy.array([0, -(2**63)], dtype="int64").view(f"datetime64[{unit}]")
            for call in (muxandu.timestamps_from_datetime64, muxandu.date_times_from_seconds):
                with self.assertRaises(muxandu.RefusedTimestamp) as caught:
                    call(array)
                self.assertEqual(caught.exception.count, 1, unit)
        far = [Timestamp(0), Timestamp.MAX]
        for unit in ("ns", "us", "ps", "as"):
            with self.assertRaises(muxandu.RefusedResult) as caught:
                muxandu.datetime64_from_timestamps(far, unit)
            self.assertEqual(caught.exception.count, 1)
        self.assertRaises(TypeError, muxandu.timestamps_from_datetime64, numpy.array(["NaT"], dtype="datetime64"))
        for unit in ("minute", "min", "5", ""):
            with self.assertRaisesRegex(TypeError, "datetime64"):
                muxandu.datetime64_from_timestamps(far[:1], unit)
        with self.assertRaisesRegex(TypeError, "one of Y, M, W, D, h, m, s, ms, us, ns, ps, fs, as, .* not 'minute'"):
            muxandu.datetime64_from_timestamps(far[:1], "minute")
        for other in ("timedelta64[s]", "int64", "float64", "S8", object):
            self.assertRaises(TypeError, muxandu.timestamps_from_datetime64, numpy.zeros(1, dtype=other))
            self.assertRaises(TypeError, muxandu.rfc3339_from_timestamps, numpy.zeros(1, dtype=other))

    def test_out_of_datetime64(self):
        import numpy

        texts = ["2024-02-29T12:34:56.789012345Z", "1969-12-31T23:59:59.999999999Z"]
        for unit in ("ns", "us", "s", "D", "M", "Y"):
            wanted = numpy.array([text[:-1] for text in texts], dtype="datetime64[ns]").astype(f"datetime64[{unit}]")
            out = numpy.zeros(2, dtype=f"datetime64[{unit}]")
            self.assertIs(muxandu.timestamps_from_rfc3339(texts, out=out), out)
            self.assertEqual(out.tolist(), wanted.tolist())
            shown = [OffsetDateTime.from_rfc3339(text) for text in texts]
            self.assertEqual(muxandu.seconds_from_date_times(shown, numpy.zeros(2, dtype=out.dtype)).tolist(), wanted.tolist())
        days = muxandu.days_from_dates([Date(2024, 2, 29)], numpy.zeros(1, dtype="datetime64[D]"))
        self.assertEqual(str(days[0]), "2024-02-29")
        self.assertEqual(muxandu.dates_from_days(numpy.array(["1969-12-31T23:59"], dtype="datetime64[m]"))["day"].tolist(), [31])
        out = numpy.zeros(2, dtype="datetime64[s]")
        with self.assertRaises(muxandu.RefusedSyntax) as caught:
            muxandu.timestamps_from_rfc3339([texts[0], "2024"], out=out)
        self.assertEqual((caught.exception.count, out.view("int64").tolist()), (1, [1_709_210_096, 0]))

    def test_behind_the_results_out_is_as_it_was(self):
        import numpy

        text = "1970-01-01T00:00:05Z"
        for words in (([text],), (text.encode(), (Span * 1)((0, 20)))):
            out = numpy.full(3, 7, dtype="int64").view("datetime64[s]")
            muxandu.timestamps_from_rfc3339(*words, out=out)
            self.assertEqual(out.view("int64").tolist(), [5, 7, 7])
        out = numpy.full(2, 7, dtype="int64").view("datetime64[D]")
        muxandu.days_from_dates([Date(1970, 1, 3)], out)
        self.assertEqual(out.view("int64").tolist(), [2, 7])
        out = numpy.full(2, 7, dtype="int64").view("datetime64[ms]")
        muxandu.seconds_from_date_times([OffsetDateTime(1970, 1, 1, nanosecond=5_999_999)], out)
        self.assertEqual(out.view("int64").tolist(), [5, 7])

    def test_rows_alone(self):
        import numpy

        texts, dates = ["1970-01-01T00:00:05Z"] * 2, [Date(1970, 1, 3)] * 2
        for shape in ((1, 1), (2, 1), (1, 2), (2, 2), ()):
            array = numpy.full(shape, 7, dtype="int64").view("datetime64[s]")
            for call in (
                muxandu.date_times_from_seconds,
                muxandu.date_times_from_each_second,
                muxandu.dates_from_days,
                muxandu.timestamps_from_datetime64,
                muxandu.rfc3339_from_timestamps,
                lambda array: muxandu.timestamps_from_rfc3339(texts, out=array),
                lambda array: muxandu.days_from_dates(dates, array),
                lambda array: muxandu.seconds_from_date_times([OffsetDateTime(1970, 1, 1)] * 2, array),
            ):
                self.assertRaises(TypeError, call, array)
            self.assertTrue((array.view("int64") == 7).all())
        out = numpy.full(2, 7, dtype="int64").view("datetime64[s]")
        out.flags.writeable = False
        self.assertRaises(TypeError, muxandu.timestamps_from_rfc3339, texts, out=out)
        for moments in (out, numpy.zeros(2, dtype="timedelta64[s]")):
            for call in (muxandu.days_from_dates, muxandu.seconds_from_date_times, muxandu.date_times_from_milliseconds):
                self.assertRaises(TypeError, call, moments)
        for call, items in ((muxandu.date_times_from_seconds, [0]), (muxandu.dates_from_days, [0])):
            with self.assertRaises(TypeError) as caught:
                call(items, out=numpy.zeros(2, dtype="datetime64[s]"))
            self.assertIn("a buffer of integers or structures", str(caught.exception))

    def test_each_moment(self):
        import numpy

        for unit in ("s", "ms", "7us", "ns"):
            array = numpy.array([5, -(2**63), -1], dtype="int64").view(f"datetime64[{unit}]")
            shown, statuses = muxandu.date_times_from_each_second(array, 60)
            self.assertEqual(statuses.tolist(), [0, muxandu.MISSING, 0])
            wanted = muxandu.date_times_from_seconds(array[::2], 60)
            self.assertEqual(shown[::2].tolist(), wanted.tolist())
            self.assertEqual(shown[1].tolist(), (0,) * 8)
        for unit, far in (("Y", 998_030), ("M", 12 * 998_030), ("7M", 2**61), ("Y", -(2**63)), ("3Y", 2**62)):
            array = numpy.array([0, far, 3], dtype="int64").view(f"datetime64[{unit}]")
            shown, statuses = muxandu.date_times_from_each_second(array)
            self.assertEqual((statuses == 0).tolist(), [True, False, True], unit)
            self.assertEqual(shown[::2].tolist(), muxandu.date_times_from_seconds(array[::2]).tolist())

    def test_texts_written(self):
        import numpy

        array = numpy.array(["2024-02-29T12:34:56.5", "1969-12-31"], dtype="datetime64[ms]")
        wanted = ["2024-02-29T12:34:56.5Z", "1969-12-31T00:00:00Z"]
        self.assertEqual(muxandu.rfc3339_from_timestamps(array), wanted)
        self.assertEqual(muxandu.rfc3339_from_timestamps(muxandu.timestamps_from_datetime64(array)), wanted)
        with self.assertRaises(muxandu.RefusedNoText) as caught:
            muxandu.rfc3339_from_timestamps([Timestamp(0), Timestamp.MAX])
        self.assertEqual(caught.exception.count, 1)

    def test_other_places(self):
        import numpy

        array = numpy.array([5], dtype="datetime64[s]")
        for kind in (DateTimeParts, DateParts):
            self.assertRaises(TypeError, muxandu.timestamps_from_datetime64, array, numpy.zeros(1, dtype=numpy.dtype(kind)))
        out = numpy.zeros(2, dtype=numpy.dtype(TimestampParts))
        self.assertIs(muxandu.timestamps_from_datetime64(array, out), out)
        self.assertRaises(muxandu.RefusedBuffer, muxandu.timestamps_from_datetime64, numpy.zeros(3, dtype="datetime64[s]"), out)
        self.assertRaises(TypeError, muxandu.date_times_from_seconds, array, 0, numpy.zeros(1))
        out["seconds"][1], out["nanoseconds"][0] = 2**62, 10**9
        self.assertRaises(muxandu.RefusedNanosecond, muxandu.datetime64_from_timestamps, out)
        self.assertRaises(muxandu.RefusedTimestamp, muxandu.datetime64_from_timestamps, out[1:])
        self.assertRaises(TypeError, muxandu.datetime64_from_timestamps, numpy.zeros(1, dtype=numpy.complex128))


@unittest.skipUnless(HAS_PANDAS, "pandas is not there")
class Columns(unittest.TestCase):
    def test_texts_to_instants_and_back(self):
        import numpy
        import pandas

        column = pandas.Series(["2024-02-29T13:34:56.789+01:00", "1969-12-31T23:59:59.999999999Z"])
        out = numpy.empty(len(column), dtype="datetime64[ns]")
        instants = pandas.Series(muxandu.timestamps_from_rfc3339(column, out=out)).dt.tz_localize("UTC")
        self.assertEqual(instants.tolist(), pandas.to_datetime(column, utc=True).tolist())
        self.assertEqual(muxandu.rfc3339_from_timestamps(instants), ["2024-02-29T12:34:56.789Z", column[1]])
        self.assertEqual(muxandu.date_times_from_seconds(instants)["hour"].tolist(), [12, 23])
        self.assertEqual(muxandu.timestamps_from_rfc3339(column)["seconds"].tolist(), [1_709_210_096, -1])
        self.assertEqual(muxandu.date_times_from_rfc3339(column)["hour"].tolist(), [13, 23])
        self.assertEqual(muxandu.date_times_from_rfc3339(numpy.array(column, dtype="S"))["offset_seconds"].tolist(), [3_600, 0])
        there = instants.dt.tz_convert("Asia/Tokyo")
        self.assertEqual(muxandu.rfc3339_from_timestamps(there), muxandu.rfc3339_from_timestamps(instants))
        shown, statuses = muxandu.date_times_from_each_second(there.reindex([0, 1, 2]))
        self.assertEqual((shown["hour"].tolist(), statuses.tolist()), ([12, 23, 0], [0, 0, muxandu.MISSING]))
        self.assertRaises(TypeError, muxandu.timestamps_from_rfc3339, column, out=pandas.Series(out))
        for other in (
            column,
            pandas.DataFrame({"at": there}),
            pandas.Timestamp(0),
            pandas.period_range("2024", periods=2, freq="M"),
            pandas.NaT,
            pandas.Series([0]),
        ):
            self.assertRaises(TypeError, muxandu.timestamps_from_datetime64, other)

    def test_values_of_pandas(self):
        import pandas

        length = pandas.Timedelta(-1, "ns")
        self.assertEqual((Timestamp(0) + length, Duration.of(length)), (Timestamp(-1, 999_999_999), Duration(0, -1)))
        self.assertEqual(Duration(1) + length, Duration(0, 999_999_999))
        text = "2024-02-29T12:34:56.789012345Z"
        self.assertEqual(Timestamp.from_datetime(pandas.Timestamp(text)), Timestamp.from_rfc3339(text))
        self.assertEqual(PlainDateTime.from_datetime(pandas.Timestamp(text[:-1])).nanosecond, 789_012_345)

    def test_numbers_and_lacking_texts(self):
        import pandas

        self.assertEqual(muxandu.date_times_from_seconds(pandas.Series([0, 86_400]))["day"].tolist(), [1, 2])
        self.assertEqual(muxandu.dates_from_days(pandas.Series([0, 1]))["day"].tolist(), [1, 2])
        self.assertEqual(muxandu.date_times_from_seconds(pandas.Series([0, 86_400], dtype="Int64"))["day"].tolist(), [1, 2])
        for column in (pandas.Series([0, None], dtype="Int64"), pandas.Series([0.0]), pandas.Series(["0"]), pandas.Series([[0]])):
            self.assertRaises(TypeError, muxandu.date_times_from_seconds, column)
        for lacking in (None, float("nan"), pandas.NA):
            self.assertRaises(TypeError, muxandu.timestamps_from_rfc3339, pandas.Series(["1970-01-01T00:00:00Z", lacking]))


if __name__ == "__main__":
    unittest.main()

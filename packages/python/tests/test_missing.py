"""Items that are missing: None, NaN, NA, NaT, and items that an array of NumPy masks."""

import array
import ctypes
import importlib.util
import unittest

import muxandu
from muxandu import MISSING, Date, DateParts, DateTimeParts, Duration, OffsetDateTime, Span, Timestamp, Unit, columns
from muxandu._refusals import REFUSALS

HAS_NUMPY = importlib.util.find_spec("numpy") is not None
HAS_PANDAS = importlib.util.find_spec("pandas") is not None
NAN = float("nan")
TIMESTAMP = muxandu.RefusedTimestamp.status
AT, TEXT, DAY = OffsetDateTime(1970, 1, 2), "1970-01-02T00:00:00Z", Date(1970, 1, 2)


def beside(call, other):
    """A call of two columns, the first of which has the same item in each row."""
    return lambda items: call([other] * len(items), items)


# Each call of `each`, with an item that it takes.
EACH = (
    (muxandu.date_times_from_each_second, 86_400),
    (muxandu.seconds_from_each_date_time, AT),
    (muxandu.date_times_from_each_rfc3339, TEXT),
    (columns.date_times_from_each_moment, AT),
    (columns.moments_from_each_date_time, AT),
    (columns.moments_from_each_rfc3339, TEXT),
    (lambda items: columns.each_moment_to_offset(items, 0), AT),
    (lambda items: columns.each_moment_truncate(items, Unit.DAY), AT),
    (lambda items: columns.each_moment_add_months(items, 1), AT),
    (lambda items: columns.each_moment_add(items, Duration(1)), AT),
    (lambda items: columns.each_moment_subtract(items, Duration(1)), AT),
    (lambda items: columns.each_moment_compare(items, AT), AT),
    (lambda items: columns.each_moment_difference(items, AT), AT),
    (beside(columns.each_moment_add, AT), Duration(1)),
    (beside(columns.each_moment_subtract, AT), Duration(1)),
    (beside(columns.each_moment_compare, AT), AT),
    (beside(columns.each_moment_difference, AT), AT),
)

# Each call that stops at the first item that fails.
STOP = (
    (muxandu.date_times_from_seconds, 86_400),
    (muxandu.date_times_from_milliseconds, 86_400),
    (muxandu.date_times_from_microseconds, 86_400),
    (muxandu.date_times_from_nanoseconds, 86_400),
    (muxandu.seconds_from_date_times, AT),
    (muxandu.milliseconds_from_date_times, AT),
    (muxandu.microseconds_from_date_times, AT),
    (muxandu.nanoseconds_from_date_times, AT),
    (muxandu.dates_from_days, 1),
    (muxandu.days_from_dates, DAY),
    (muxandu.timestamps_from_rfc3339, TEXT),
    (muxandu.date_times_from_rfc3339, TEXT),
    (muxandu.rfc3339_from_timestamps, Timestamp(0)),
    (muxandu.rfc3339_from_date_times, AT),
    (columns.moments_from_date_times, AT),
    (columns.moments_from_rfc3339, TEXT),
)

# Those that take columns with gaps, in which a gap is a row that fails.
STOP_AT_A_GAP = (
    (columns.date_times_from_moments, AT),
    (lambda items: columns.moments_to_offset(items, 0), AT),
    (lambda items: columns.moments_truncate(items, Unit.DAY), AT),
    (lambda items: columns.moments_add_months(items, 1), AT),
    (lambda items: columns.moments_add(items, Duration(1)), AT),
    (lambda items: columns.moments_subtract(items, Duration(1)), AT),
    (lambda items: columns.moments_compare(items, AT), AT),
    (lambda items: columns.moments_difference(items, AT), AT),
    (beside(columns.moments_add, AT), Duration(1)),
    (beside(columns.moments_subtract, AT), Duration(1)),
    (beside(columns.moments_compare, AT), AT),
    (beside(columns.moments_difference, AT), AT),
)


def objects(items):
    """An array of NumPy of these objects."""
    import numpy

    found = numpy.empty(len(items), object)
    for place, item in enumerate(items):
        found[place] = item
    return found


class Statuses(unittest.TestCase):
    def test_missing_is_above_each_status_of_the_library(self):
        self.assertGreater(MISSING, max(REFUSALS))
        self.assertLess(MISSING, 2**32)

    def test_seconds(self):
        for items in ([0, None, NAN, 2**60, 86_400], (0, None, NAN, 2**60, 86_400)):
            out = (DateTimeParts * 5)(*((9, 9, 9),) * 5)
            shown, statuses = muxandu.date_times_from_each_second(items, 60, out)
            self.assertEqual(list(statuses), [0, MISSING, MISSING, TIMESTAMP, 0])
            self.assertEqual([each.day for each in shown], [1, 9, 9, 9, 2])
        seconds = iter([None, 5])
        self.assertEqual(list(muxandu.date_times_from_each_second(seconds)[1]), [MISSING, 0])

    def test_date_times(self):
        items = [OffsetDateTime(1970, 1, 2), None, NAN, OffsetDateTime(-999_999, 1, 1, offset_seconds=1)]
        out = array.array("q", [7] * 4)
        seconds, statuses = muxandu.seconds_from_each_date_time(items, out)
        self.assertEqual(list(statuses), [0, MISSING, MISSING, muxandu.RefusedResult.status])
        self.assertEqual(list(seconds), [86_400, 7, 7, 7])

    def test_texts(self):
        items = ["1970-01-01T00:00:01Z", None, NAN, "soon", b"1970-01-02T00:00:00Z"]
        shown, statuses = muxandu.date_times_from_each_rfc3339(items)
        self.assertEqual(list(statuses), [0, MISSING, MISSING, muxandu.RefusedSyntax.status, 0])
        self.assertEqual([each.day for each in shown], [1, 0, 0, 0, 2])

    def test_statuses_of_other_buffers(self):
        for statuses in ((ctypes.c_uint32 * 2)(), memoryview(array.array("I", [0, 0])), memoryview((ctypes.c_uint32 * 2)())):
            for call, known in (
                (lambda items, told: muxandu.date_times_from_each_second(items, 0, None, told), 0),
                (lambda items, told: muxandu.seconds_from_each_date_time(items, None, told), OffsetDateTime(1970, 1, 1)),
                (lambda items, told: muxandu.date_times_from_each_rfc3339(items, None, None, told), "1970-01-01T00:00:00Z"),
            ):
                call([None, known], statuses)
                self.assertEqual(memoryview(statuses).cast("B").cast("I").tolist(), [MISSING, 0])

    def test_other_things_are_not_missing(self):
        for call in (
            muxandu.date_times_from_each_second,
            muxandu.seconds_from_each_date_time,
            muxandu.date_times_from_each_rfc3339,
        ):
            for other in (0.5, 1j, object(), float("inf"), [], Date(1970, 1, 1)):
                self.assertRaises(TypeError, call, [other])
                self.assertRaises(TypeError, call, [None, other])

    def test_each_call_of_each(self):
        for call, known in EACH:
            for gap in (None, NAN):
                self.assertEqual(list(call([known, gap, known])[1]), [0, MISSING, 0])

    def test_calls_that_stop_name_the_item(self):
        for gap in (None, NAN):
            for call, known in STOP:
                with self.assertRaisesRegex(
                    TypeError, "item 1 is missing: fill it, or use an `each` call, which returns a status"
                ):
                    call([known, gap, known])
            for call, known in STOP_AT_A_GAP:
                with self.assertRaises(muxandu.Refused) as caught:
                    call([known, gap, known])
                self.assertEqual(caught.exception.count, 1)

    def test_floats_of_a_list(self):
        shown, statuses = muxandu.date_times_from_each_second([0.0, NAN, -1.0, 1e30, 86_400])
        self.assertEqual(list(statuses), [0, MISSING, 0, TIMESTAMP, 0])
        self.assertEqual([each.day for each in shown], [1, 0, 31, 0, 2])
        for other in (0.5, float("inf")):
            with self.assertRaisesRegex(TypeError, "item 1 must be an integer, not"):
                muxandu.date_times_from_each_second([0, other])

    def test_texts_of_an_iterator(self):
        for call in (muxandu.timestamps_from_rfc3339, muxandu.date_times_from_rfc3339, columns.moments_from_rfc3339):
            self.assertEqual(len(call(iter([TEXT, TEXT]))), 2)
        for call in (muxandu.date_times_from_each_rfc3339, columns.moments_from_each_rfc3339):
            self.assertEqual(list(call(iter([TEXT, None]))[1]), [0, MISSING])


@unittest.skipUnless(HAS_NUMPY, "NumPy is not there")
class Masks(unittest.TestCase):
    def test_calls_that_stop_refuse_a_mask(self):
        from numpy import dtype, ma, zeros

        seconds = ma.array([1, 2], mask=[False, True])
        moments = ma.array(["1970-01-01", "1970-01-02"], dtype="datetime64[s]", mask=[False, True])
        date_times = ma.array(zeros(2, dtype(DateTimeParts)), mask=[(0,) * 8, (0,) * 7 + (1,)])
        dates = ma.array(zeros(2, dtype(DateParts)), mask=[(0, 0, 0), (0, 1, 0)])
        texts = ma.array(["1970-01-01T00:00:00Z"] * 2, mask=[True, False], dtype=object)
        spans = ma.array(zeros(2, dtype(Span)), mask=[(0, 1), (0, 0)])
        for call, items in (
            *((call, seconds) for call in (muxandu.date_times_from_seconds, muxandu.dates_from_days)),
            (muxandu.date_times_from_milliseconds, seconds),
            (muxandu.date_times_from_microseconds, seconds),
            (muxandu.date_times_from_nanoseconds, seconds.astype("uint64")),
            *((call, moments) for call in (muxandu.date_times_from_seconds, muxandu.dates_from_days)),
            (muxandu.timestamps_from_datetime64, moments),
            (muxandu.rfc3339_from_timestamps, moments),
            (muxandu.seconds_from_date_times, date_times),
            (muxandu.rfc3339_from_date_times, date_times),
            (muxandu.days_from_dates, dates),
            *((call, texts) for call in (muxandu.timestamps_from_rfc3339, muxandu.date_times_from_rfc3339)),
            (lambda items: muxandu.timestamps_from_rfc3339(b"", items), spans),
            (lambda items: muxandu.date_times_from_each_rfc3339(b"", items), spans),
            (lambda out: muxandu.seconds_from_date_times([OffsetDateTime(1970, 1, 1)], out), seconds),
            (lambda out: muxandu.seconds_from_date_times([OffsetDateTime(1970, 1, 1)], out), moments),
            (Timestamp.from_rfc3339, ma.array([48, 49], dtype="uint8", mask=[0, 1])),
        ):
            self.assertRaises(TypeError, call, items)

    def test_each_gap_in_each_call_of_each(self):
        import numpy

        gaps = [
            None,
            NAN,
            numpy.float64(NAN),
            numpy.float32(NAN),
            numpy.datetime64("NaT"),
            numpy.timedelta64("NaT"),
            numpy.ma.masked,
        ]
        for call, known in EACH:
            for items in ([known, gap, known] for gap in gaps):
                for made in (items, objects(items)):
                    self.assertEqual(list(call(made)[1]), [0, MISSING, 0], (call, items))
            for kept in (known, None):
                masked = numpy.ma.array(objects([known, kept, known]), mask=[0, 1, 0])
                self.assertEqual(list(call(masked)[1]), [0, MISSING, 0], call)

    def test_calls_that_stop_name_the_item(self):
        import numpy

        for call, known in STOP + STOP_AT_A_GAP:
            for gap in (None, numpy.float64(NAN), numpy.datetime64("NaT"), numpy.ma.masked):
                for items in ([known, gap, known], objects([known, gap, known])):
                    with self.assertRaisesRegex((TypeError, ValueError), "item 1"):
                        call(items)
            with self.assertRaisesRegex((TypeError, ValueError), "item 1"):
                call(numpy.ma.array(objects([known] * 3), mask=[0, 1, 0]))
        for call, _ in STOP[:4]:
            with self.assertRaisesRegex(TypeError, "item 1 is missing"):
                call(numpy.array([0, NAN]))
            with self.assertRaisesRegex(TypeError, "items must have 8 bytes"):
                call(numpy.array([0.0]))
        with self.assertRaisesRegex(TypeError, "item 2 is masked: fill it, or use an `each` call, which returns a status"):
            muxandu.date_times_from_seconds(numpy.ma.array([1, 2, 3], mask=[0, 0, 1]))

    def test_coerced_datetime64(self):
        import numpy

        texts = [TEXT, None, "soon", "2024-02-30T00:00:00Z", "9999-12-31T23:59:59.5Z", NAN, "1600-01-01T00:00:00Z"]
        for unit, wanted in (
            ("ns", [TEXT[:-1]] + ["NaT"] * 6),
            ("ms", [TEXT[:-1], "NaT", "NaT", "NaT", "9999-12-31T23:59:59.500", "NaT", "1600-01-01"]),
            ("Y", ["1970", "NaT", "NaT", "NaT", "9999", "NaT", "1600"]),
        ):
            found = muxandu.datetime64_from_rfc3339(texts, unit=unit, errors="coerce")
            self.assertEqual((found.dtype, found.tolist()), (f"M8[{unit}]", numpy.array(wanted, f"M8[{unit}]").tolist()))
            block, spans = TEXT.encode() * 2 + b"x", numpy.array([(20, 20), (20, 21), (0, 20)], numpy.dtype(Span))
            found = muxandu.datetime64_from_rfc3339(block, spans, unit, "coerce")
            self.assertEqual(found.tolist(), numpy.array([TEXT[:-1], "NaT", TEXT[:-1]], f"M8[{unit}]").tolist())
        self.assertEqual(muxandu.datetime64_from_rfc3339(iter(texts[:1])).tolist(), [86_400 * 10**9])
        for items, refusal in ((texts[2:5], muxandu.RefusedSyntax), (texts[:1] + texts[3:5], muxandu.RefusedDayOfMonth)):
            self.assertRaises(refusal, muxandu.datetime64_from_rfc3339, items)
        self.assertRaises(muxandu.RefusedResult, muxandu.datetime64_from_rfc3339, [texts[4]])
        with self.assertRaisesRegex(TypeError, "item 1 is missing"):
            muxandu.datetime64_from_rfc3339(texts)
        with self.assertRaisesRegex(ValueError, 'errors must be "raise" or "coerce"'):
            muxandu.datetime64_from_rfc3339(texts, errors="ignore")

    def test_coerced_timestamps(self):
        import numpy

        stamps = [Timestamp(86_400, 5), None, Timestamp.MAX, numpy.datetime64("NaT"), Timestamp(-1)]
        found = muxandu.datetime64_from_timestamps(stamps, errors="coerce")
        self.assertEqual(found.view("int64").tolist(), [86_400 * 10**9 + 5, -(2**63), -(2**63), -(2**63), -(10**9)])
        rows = numpy.array([(1, 0), (2**62, 0), (1, 10**9), (2, 0)], numpy.dtype(muxandu.TimestampParts))
        masked = numpy.ma.array(rows, mask=[(0, 0)] * 3 + [(0, 1)])
        for items, wanted in ((rows, 2), (masked, -(2**63))):
            found = muxandu.datetime64_from_timestamps(items, "s", "coerce")
            self.assertEqual(found.view("int64").tolist(), [1, -(2**63), -(2**63), wanted])
        self.assertRaises(muxandu.RefusedResult, muxandu.datetime64_from_timestamps, stamps[2:3])
        self.assertRaises(ValueError, muxandu.datetime64_from_timestamps, stamps, errors="other")

    def test_each_second_as_datetime64(self):
        import numpy

        far, late = OffsetDateTime(-999_999, 1, 1, offset_seconds=1), OffsetDateTime(9_999, 1, 1)
        items = [OffsetDateTime(1970, 1, 1, nanosecond=5), None, far, late]
        statuses, nothing = [0, MISSING, muxandu.RefusedResult.status], -(2**63)
        for unit, last in (("ns", (nothing, muxandu.RefusedResult.status)), ("s", (253_370_764_800, 0))):
            for order in "<>":
                out = numpy.zeros(5, f"{order}M8[{unit}]")
                found, told = muxandu.seconds_from_each_date_time(items, out)
                self.assertIs(found, out)
                counts = found.astype(f"M8[{unit}]").view("int64").tolist()
                self.assertEqual(counts, [5 if unit == "ns" else 0, nothing, nothing, last[0], 0])
                self.assertEqual(list(told), [*statuses, last[1]])
        memory = numpy.zeros(6, "int64")
        with self.assertRaisesRegex(ValueError, "must not overlap"):
            muxandu.seconds_from_each_date_time(items, memory[:4].view("M8[s]"), memory[3:].view("uint32")[:4])
        self.assertRaises(muxandu.RefusedBuffer, muxandu.seconds_from_each_date_time, items, numpy.zeros(3, "M8[s]"))
        self.assertFalse(memory.any())
        self.assertEqual(len(muxandu.seconds_from_each_date_time([], numpy.zeros(0, "M8[s]"))[1]), 0)

    def test_an_array_that_masks_nothing_is_taken(self):
        from numpy import ma

        self.assertEqual(muxandu.date_times_from_seconds(ma.array([1, 2]))["second"].tolist(), [1, 2])
        moments = ma.array(["1970-01-01"], dtype="datetime64[s]", mask=[False])
        self.assertEqual(muxandu.date_times_from_seconds(moments)["day"].tolist(), [1])

    def test_calls_of_each_give_a_status(self):
        import numpy
        from numpy import ma

        for kind in ("int16", "int32", "int64", "uint64", "float64", "object"):
            shown, statuses = muxandu.date_times_from_each_second(ma.array([1, 2, 3], mask=[0, 1, 0], dtype=kind))
            self.assertEqual((statuses.tolist(), shown["second"].tolist()), ([0, MISSING, 0], [1, 0, 3]))
        moments = ma.array(["1970-01-01T00:00:01.5", "1970-01-02"], dtype="datetime64[ms]", mask=[False, True])
        shown, statuses = muxandu.date_times_from_each_second(moments)
        self.assertEqual((statuses.tolist(), shown["nanosecond"].tolist()), ([0, MISSING], [500_000_000, 0]))
        date_times = ma.array(muxandu.date_times_from_seconds(numpy.array([1, 2])), mask=[(0,) * 8, (0,) * 7 + (1,)])
        seconds, statuses = muxandu.seconds_from_each_date_time(date_times)
        self.assertEqual((seconds.tolist(), statuses.tolist()), ([1, 0], [0, MISSING]))
        objects = ma.array([OffsetDateTime(1970, 1, 1), None, OffsetDateTime(1970, 1, 2)], mask=[1, 0, 0], dtype=object)
        self.assertEqual(muxandu.seconds_from_each_date_time(objects)[1].tolist(), [MISSING, MISSING, 0])
        texts = ma.array(["1970-01-01T00:00:00Z"] * 2, mask=[True, False], dtype=object)
        self.assertEqual(muxandu.date_times_from_each_rfc3339(texts)[1].tolist(), [MISSING, 0])

    def test_floats_with_gaps(self):
        import numpy

        far = 1e30
        for kind in ("float32", "float64"):
            shown, statuses = muxandu.date_times_from_each_second(numpy.array([0, NAN, -1, far, 86_400], dtype=kind))
            self.assertEqual(statuses.tolist(), [0, MISSING, 0, TIMESTAMP, 0])
            self.assertEqual(shown["second"].tolist(), [0, 0, 59, 0, 0])
            self.assertEqual(shown["day"].tolist(), [1, 0, 31, 0, 2])
        for other in (0.5, float("inf"), -float("inf")):
            with self.assertRaisesRegex(TypeError, "item 1 must be an integer"):
                muxandu.date_times_from_each_second(numpy.array([0, other, NAN]))
        self.assertRaises(TypeError, muxandu.date_times_from_seconds, numpy.array([0.0]))
        self.assertRaises(TypeError, muxandu.date_times_from_each_second, numpy.zeros((2, 2)))
        self.assertEqual(len(muxandu.date_times_from_each_second(numpy.zeros(0))[1]), 0)

    def test_no_time_at_all(self):
        import numpy

        moments = numpy.array(["1970-01-02", "NaT", "999999-12-31", "1000000-01-01"], dtype="datetime64[D]")
        self.assertEqual(muxandu.date_times_from_each_second(moments)[1].tolist(), [0, MISSING, 0, TIMESTAMP])
        with self.assertRaises(muxandu.RefusedTimestamp) as caught:
            muxandu.date_times_from_seconds(moments)
        self.assertEqual(caught.exception.count, 1)


@unittest.skipUnless(HAS_PANDAS, "pandas is not there")
class Columns(unittest.TestCase):
    def test_gaps_of_pandas_in_each_call(self):
        import pandas

        for calls in (EACH, STOP + STOP_AT_A_GAP):
            for call, known in calls:
                for gap in (pandas.NA, pandas.NaT):
                    for items in ([known, gap, known], objects([known, gap, known])):
                        if calls is EACH:
                            self.assertEqual(list(call(items)[1]), [0, MISSING, 0], call)
                            continue
                        with self.assertRaisesRegex((TypeError, ValueError), "item 1"):
                            call(items)
                if not isinstance(known, str):
                    column = pandas.Series([known, None, known], dtype="Int64" if isinstance(known, int) else object)
                    if calls is EACH:
                        self.assertEqual(list(call(column)[1]), [0, MISSING, 0], call)
                        continue
                    with self.assertRaisesRegex((TypeError, ValueError), "item 1"):
                        call(column)

    def test_columns_with_gaps(self):
        import pandas

        seconds = [0, None, 86_400]
        for column in (
            pandas.Series(seconds),
            pandas.Series(seconds, dtype="Int64"),
            pandas.Series(seconds, dtype=object),
            pandas.to_datetime(pandas.Series(seconds), unit="s"),
            pandas.to_datetime(pandas.Series(seconds), unit="s", utc=True),
        ):
            shown, statuses = muxandu.date_times_from_each_second(column)
            self.assertEqual((statuses.tolist(), shown["day"].tolist()), ([0, MISSING, 0], [1, 0, 2]))
        texts = ["1970-01-01T00:00:00Z", None, NAN, pandas.NA, pandas.NaT]
        for column in (pandas.Series(texts, dtype=object), pandas.Series(texts[:4], dtype="string"), texts):
            statuses = muxandu.date_times_from_each_rfc3339(column)[1]
            self.assertEqual(list(statuses), [0] + [MISSING] * (len(column) - 1))
        column = pandas.Series([OffsetDateTime(1970, 1, 2), pandas.NaT, None], dtype=object)
        seconds, statuses = muxandu.seconds_from_each_date_time(column)
        self.assertEqual((seconds.tolist(), statuses.tolist()), ([86_400, 0, 0], [0, MISSING, MISSING]))


if __name__ == "__main__":
    unittest.main()

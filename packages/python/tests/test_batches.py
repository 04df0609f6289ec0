"""Calls over many items: buffers in and out, with no copy of what can be written; NumPy where it is there."""

import array
import ctypes
import datetime
import importlib.util
import threading
import unittest

import muxandu
from muxandu import OffsetDateTime, DateTimeParts, Date, DateParts, Duration, Span, Time, Timestamp, TimestampParts, UtcDateTime

HAS_NUMPY = importlib.util.find_spec("numpy") is not None
BEFORE = OffsetDateTime(-999_999, 1, 1, offset_seconds=1)
LAST_SECOND = 31_494_784_780_799


class Batches(unittest.TestCase):
    def test_seconds_and_back(self):
        seconds = array.array("q", [0, -1, 1_709_210_096])
        shown = muxandu.date_times_from_seconds(seconds, 60)
        texts = [OffsetDateTime.from_parts(item).to_rfc3339() for item in shown]
        self.assertEqual(texts, ["1970-01-01T00:01:00+00:01", "1970-01-01T00:00:59+00:01", "2024-02-29T12:35:56+00:01"])
        self.assertEqual(muxandu.seconds_from_date_times(shown), seconds)
        self.assertEqual(
            list(muxandu.seconds_from_date_times([OffsetDateTime(1970, 1, 2), OffsetDateTime(1970, 1, 1)])), [86_400, 0]
        )
        self.assertEqual(muxandu.date_times_from_seconds([7])[0].second, 7)
        parts = {"year": 2024, "month": 2, "day": 29, "hour": 0, "minute": 0, "second": 0, "nanosecond": 0, "offset_seconds": 0}
        self.assertEqual(OffsetDateTime.from_parts(parts), OffsetDateTime(2024, 2, 29))
        for other in (29.5, "29", None):
            self.assertRaises(TypeError, OffsetDateTime.from_parts, {**parts, "day": other})

    def test_days_and_dates(self):
        days = array.array("i", [-365_961_662, -1, 364_522_971])
        dates = muxandu.dates_from_days(days)
        shown = [(date.year, date.month, date.day) for date in dates]
        self.assertEqual(shown, [(-999_999, 1, 1), (1969, 12, 31), (999_999, 12, 31)])
        self.assertEqual(muxandu.days_from_dates(dates), days)
        self.assertEqual(list(muxandu.days_from_dates([Date(1970, 1, 2)])), [1])

    def test_parts_of_a_second_and_back(self):
        epoch = datetime.datetime(1970, 1, 1, tzinfo=datetime.timezone.utc)
        for parts, shown_at, counted in (
            (10**3, muxandu.date_times_from_milliseconds, muxandu.milliseconds_from_date_times),
            (10**6, muxandu.date_times_from_microseconds, muxandu.microseconds_from_date_times),
            (10**9, muxandu.date_times_from_nanoseconds, muxandu.nanoseconds_from_date_times),
        ):
            seconds = [0, -1, 1_709_210_096, -9_000_000_000, 9_000_000_000]
            counts = array.array("q", [second * parts + left for second in seconds for left in (0, 1, parts - 1)])
            shown = shown_at(counts, -3_600)
            for count, item in zip(counts, shown):
                second, left = divmod(count, parts)
                at = epoch + datetime.timedelta(seconds=second - 3_600)
                wanted = OffsetDateTime(*at.timetuple()[:6], left * (10**9 // parts), -3_600)
                self.assertTrue(OffsetDateTime.from_parts(item).is_same(wanted), count)
            self.assertEqual(counted(shown), counts)
            self.assertEqual(list(counted([OffsetDateTime.from_parts(item) for item in shown])), list(counts))
            self.assertEqual(list(counted([OffsetDateTime(1969, 12, 31, 23, 59, 59, 999_999_999)])), [-1])
            self.assertEqual([item.nanosecond for item in shown_at(array.array("i", [-1]))], [10**9 - 10**9 // parts])
            with self.assertRaises(muxandu.RefusedTimestamp) as caught:
                shown_at([5, (LAST_SECOND + 1) * parts])
            self.assertEqual(caught.exception.count, 1)
            self.assertRaises(muxandu.RefusedOffsetSeconds, shown_at, [0], 2**32)
            self.assertRaises(muxandu.RefusedBuffer, shown_at, [0], 0, (DateTimeParts * 0)())
            self.assertRaises(TypeError, shown_at, [0.5])
            self.assertRaises(TypeError, counted, counts)
            self.assertRaises(TypeError, counted, shown, array.array("Q", bytes(8 * len(shown))))
        for counted in (muxandu.microseconds_from_date_times, muxandu.nanoseconds_from_date_times):
            with self.assertRaises(muxandu.RefusedResult) as caught:
                counted([OffsetDateTime(1970, 1, 1), OffsetDateTime(999_999, 1, 1)])
            self.assertEqual(caught.exception.count, 1)

    def test_counts_that_64_bits_do_not_hold(self):
        for parts, shown_at in ((10**6, muxandu.date_times_from_microseconds), (10**9, muxandu.date_times_from_nanoseconds)):
            counts = [2**63, -(2**63) - 1, (LAST_SECOND - 60) * parts + parts - 1, -LAST_SECOND * parts - 1, 7]
            for out in (None, (DateTimeParts * 5)()):
                for count, item in zip(counts, shown_at(counts, 60, out)):
                    second, left = divmod(count, parts)
                    wanted = Timestamp(second, left * (10**9 // parts)).to_offset(60)
                    self.assertTrue(OffsetDateTime.from_parts(item).is_same(wanted))
            unsigned = array.array("Q", [2**63 + 1])
            self.assertEqual(shown_at(unsigned)[0].nanosecond, (2**63 + 1) % parts * (10**9 // parts))
            out = (DateTimeParts * 3)()
            with self.assertRaises(muxandu.RefusedTimestamp) as caught:
                shown_at([2**63, (LAST_SECOND + 1) * parts, 0], 0, out)
            self.assertEqual((caught.exception.count, out[0].nanosecond), (1, 2**63 % parts * (10**9 // parts)))
            self.assertEqual(bytes(out)[20:], bytes(40))

    def test_each_goes_on_after_a_refusal(self):
        seconds = [0, LAST_SECOND + 1, -1, 2**80, 86_400]
        shown, statuses = muxandu.date_times_from_each_second(seconds, 60)
        refused = muxandu.RefusedTimestamp.status
        self.assertEqual(list(statuses), [0, refused, 0, refused, 0])
        self.assertEqual([(item.day, item.minute) for item in shown], [(1, 1), (0, 0), (1, 0), (0, 0), (2, 1)])
        self.assertEqual(list(muxandu.date_times_from_each_second([0, 1], 93_600)[1]), [muxandu.RefusedOffsetSeconds.status] * 2)
        back, told = muxandu.seconds_from_each_date_time(shown)
        self.assertEqual((list(back), list(told)), ([0, 0, -1, 0, 86_400], [0, muxandu.RefusedMonth.status] * 2 + [0]))
        back, told = muxandu.seconds_from_each_date_time([OffsetDateTime(1970, 1, 1), BEFORE, OffsetDateTime(1970, 1, 2)])
        self.assertEqual((list(back), list(told)), ([0, 0, 86_400], [0, muxandu.RefusedResult.status, 0]))

    def test_each_writes_where_it_is_told(self):
        out, statuses = (DateTimeParts * 3)(), array.array("I", [9, 9, 9])
        out[1].day = 7
        shown = muxandu.date_times_from_each_second(array.array("q", [0, 2**62]), 0, out, statuses)
        self.assertIs(shown[0], out)
        self.assertIs(shown[1], statuses)
        self.assertEqual(([item.day for item in out], list(statuses)), ([1, 7, 0], [0, muxandu.RefusedTimestamp.status, 9]))
        numbers, told = array.array("q", [5, 5]), array.array("I", [9])
        with self.assertRaises(muxandu.RefusedBuffer):
            muxandu.seconds_from_each_date_time([OffsetDateTime(1970, 1, 1)] * 2, numbers, told)
        self.assertEqual((list(numbers), list(told)), ([5, 5], [9]))
        for other in (array.array("i", [0]), array.array("Q", [0]), array.array("I", [0]).tobytes()):
            self.assertRaises(TypeError, muxandu.date_times_from_each_second, [0], 0, None, other)

    def test_each_over_its_items(self):
        seconds = [1_709_210_096, -1]
        for at in range(0, 48, 4):
            for told in range(0, 64, 4):
                memory = bytearray(96)
                items = (ctypes.c_int64 * 2).from_buffer(memory, 24)
                items[:] = seconds
                out, statuses = (DateTimeParts * 2).from_buffer(memory, at), (ctypes.c_uint32 * 2).from_buffer(memory, told)
                before = bytes(memory)
                if at < told + 8 and told < at + 40:
                    self.assertRaises(ValueError, muxandu.date_times_from_each_second, items, 0, out, statuses)
                    self.assertEqual(bytes(memory), before)
                    continue
                muxandu.date_times_from_each_second(items, 0, out, statuses)
                self.assertEqual(([item.second for item in out], list(statuses)), ([56, 59], [0, 0]))

    def test_texts(self):
        texts = ["1970-01-01T00:00:01Z", b"1970-01-01T01:00:00.5+01:00"]
        stamps = muxandu.timestamps_from_rfc3339(texts)
        self.assertEqual([(at.seconds, at.nanoseconds) for at in stamps], [(1, 0), (0, 500_000_000)])
        block = b"".join(text if isinstance(text, bytes) else text.encode() for text in texts)
        spans = (Span * 2)(Span(0, 20), Span(20, 27))
        for form in (bytes, bytearray, memoryview):
            out = (TimestampParts * 2)()
            self.assertIs(muxandu.timestamps_from_rfc3339(form(block), spans, out), out)
            self.assertEqual((out[1].seconds, out[1].nanoseconds), (0, 500_000_000))
        spans[1].length = 28
        with self.assertRaises(muxandu.RefusedSpan) as caught:
            muxandu.timestamps_from_rfc3339(block, spans)
        self.assertEqual(caught.exception.count, 1)

    def test_texts_at_offsets(self):
        texts = ["1970-01-01T00:00:01Z", b"1970-01-01T01:00:00.5+01:00"]
        shown = muxandu.date_times_from_rfc3339(texts)
        self.assertEqual([(at.second, at.nanosecond, at.offset_seconds) for at in shown], [(1, 0, 0), (0, 500_000_000, 3600)])
        block = b"".join(text if isinstance(text, bytes) else text.encode() for text in texts)
        spans = (Span * 2)(Span(0, 20), Span(20, 27))
        self.assertEqual(muxandu.date_times_from_rfc3339(block, spans)[1].hour, 1)
        spans[1].length = 28
        with self.assertRaises(muxandu.RefusedSpan) as caught:
            muxandu.date_times_from_rfc3339(block, spans)
        self.assertEqual(caught.exception.count, 1)
        self.assertRaises(TypeError, muxandu.date_times_from_rfc3339, texts[0])
        self.assertRaises(TypeError, muxandu.date_times_from_rfc3339, texts[0], spans)

    def test_out_is_written_where_it_lies(self):
        memory = bytearray(b"\7" * 60)
        muxandu.date_times_from_seconds(array.array("q", [0, 1]), 0, (DateTimeParts * 3).from_buffer(memory))
        self.assertEqual(DateTimeParts.from_buffer(memory, 20).second, 1)
        self.assertEqual(memory[40:], b"\7" * 20)
        back = array.array("q", [7, 7, 7])
        muxandu.seconds_from_date_times((DateTimeParts * 2).from_buffer(memory), back)
        self.assertEqual(list(back), [0, 1, 7])

    def test_the_first_refused_stops(self):
        out = (DateTimeParts * 3)()
        with self.assertRaises(muxandu.RefusedTimestamp) as caught:
            muxandu.date_times_from_seconds([86_400, 2**80, 7], 0, out)
        self.assertEqual((caught.exception.count, out[0].day, out[1].day), (1, 2, 0))
        back = array.array("q", [7, 7])
        with self.assertRaises(muxandu.RefusedResult) as caught:
            muxandu.seconds_from_date_times([OffsetDateTime(1970, 1, 1), BEFORE], back)
        self.assertEqual((caught.exception.count, list(back)), (1, [0, 7]))
        for call, items, refusal in (
            (muxandu.dates_from_days, [-(2**31)], muxandu.RefusedDayNumber),
            (muxandu.days_from_dates, (DateParts * 1)(), muxandu.RefusedMonth),
            (muxandu.timestamps_from_rfc3339, [""], muxandu.RefusedSyntax),
        ):
            self.assertRaises(refusal, call, items)
        self.assertRaises(muxandu.RefusedOffsetSeconds, muxandu.date_times_from_seconds, [0], 2**32)

    def test_short_places_take_nothing(self):
        out = (DateTimeParts * 1)()
        with self.assertRaises(muxandu.RefusedBuffer) as caught:
            muxandu.date_times_from_seconds([7, 7], 0, out)
        self.assertEqual((caught.exception.count, bytes(out)), (0, bytes(20)))
        for call, items in (
            (muxandu.seconds_from_date_times, [BEFORE]),
            (muxandu.dates_from_days, [1]),
            (muxandu.days_from_dates, [Date(1970, 1, 1)]),
        ):
            self.assertRaises(muxandu.RefusedBuffer, call, items, out=call(items[:0]))
        self.assertRaises(muxandu.RefusedBuffer, muxandu.timestamps_from_rfc3339, [""], None, (TimestampParts * 0)())
        self.assertEqual(len(muxandu.date_times_from_seconds([])), 0)

    def test_other_buffers_are_not_taken(self):
        for items in (array.array("f", [1]), array.array("d", [1.0])):
            self.assertRaises(TypeError, muxandu.date_times_from_seconds, items)
        self.assertRaises(TypeError, muxandu.seconds_from_date_times, (DateTimeParts * 1)(), bytes(8))
        self.assertRaises(TypeError, muxandu.date_times_from_seconds, [0.5])
        read_only = memoryview(array.array("q", [86_400])).toreadonly()
        self.assertEqual(muxandu.date_times_from_seconds(read_only)[0].day, 2)

    def test_threads_call_at_once(self):
        ends = []

        def run(day):
            seconds = array.array("q", range(0, 10_000 * 86_400 * day, 86_400 * day))
            for _ in range(20):
                shown = muxandu.date_times_from_seconds(seconds)
                ends.append(muxandu.seconds_from_date_times(shown) == seconds)

        threads = [threading.Thread(target=run, args=(day,)) for day in range(1, 9)]
        for thread in threads:
            thread.start()
        for thread in threads:
            thread.join()
        self.assertEqual(ends, [True] * 160)


@unittest.skipUnless(HAS_NUMPY, "NumPy is not there")
class NumPyArrays(unittest.TestCase):
    def test_arrays_go_in_and_out(self):
        import numpy

        seconds = numpy.arange(-(10**6), 10**6, 997, dtype=numpy.int64)
        shown = muxandu.date_times_from_seconds(seconds)
        self.assertIsInstance(shown, numpy.ndarray)
        self.assertEqual((shown.dtype.itemsize, shown["year"].min(), shown["year"].max()), (20, 1969, 1970))
        self.assertTrue((muxandu.seconds_from_date_times(shown) == seconds).all())
        out = numpy.zeros(len(seconds) + 1, dtype=numpy.dtype(DateTimeParts))
        self.assertIs(muxandu.date_times_from_seconds(seconds, 60, out), out)
        self.assertEqual((out["offset_seconds"][-2], out["year"][-1]), (60, 0))
        days = numpy.array([0, 19_782], dtype=numpy.int32)
        dates = muxandu.dates_from_days(days)
        self.assertEqual(list(dates["day"]), [1, 29])
        self.assertTrue((muxandu.days_from_dates(dates) == days).all())

    def test_parts_of_a_second_and_each(self):
        import numpy

        counts = numpy.arange(-(10**6), 10**6, 997, dtype=numpy.int64)
        for unit, shown_at, counted in (
            ("ms", muxandu.date_times_from_milliseconds, muxandu.milliseconds_from_date_times),
            ("us", muxandu.date_times_from_microseconds, muxandu.microseconds_from_date_times),
            ("ns", muxandu.date_times_from_nanoseconds, muxandu.nanoseconds_from_date_times),
        ):
            shown = shown_at(counts)
            self.assertEqual(shown.tolist(), muxandu.date_times_from_seconds(counts.view(f"datetime64[{unit}]")).tolist())
            self.assertTrue((counted(shown) == counts).all())
            self.assertRaises(TypeError, shown_at, counts.view(f"datetime64[{unit}]"))
        shown, statuses = muxandu.date_times_from_each_second(numpy.array([0, 2**62, 1]))
        self.assertEqual((shown["second"].tolist(), statuses.dtype), ([0, 0, 1], numpy.dtype("uint32")))
        back, told = muxandu.seconds_from_each_date_time(shown)
        self.assertEqual((back.tolist(), (told == 0).tolist()), ([0, 0, 1], [True, False, True]))

    def test_dates_of_numpy_are_seconds(self):
        import numpy

        moments = numpy.array(["2024-02-29T12:34:56", "1969-12-31T23:59:59"], dtype="datetime64[s]")
        shown = muxandu.date_times_from_seconds(moments.view(numpy.int64))
        texts = [OffsetDateTime.from_parts(item).to_rfc3339() for item in shown]
        self.assertEqual(texts, ["2024-02-29T12:34:56Z", "1969-12-31T23:59:59Z"])

    def test_other_arrays_are_not_taken(self):
        import numpy

        for dtype in (numpy.float64, numpy.complex128, numpy.bool_, numpy.int8, numpy.dtype(">i8"), numpy.dtype("S8")):
            self.assertRaises(TypeError, muxandu.date_times_from_seconds, numpy.zeros(2, dtype=dtype))
        self.assertRaises(TypeError, muxandu.date_times_from_seconds, numpy.zeros((2, 2), dtype=numpy.int64))
        form = {"names": ["year", "month", "day"], "formats": ["i4", "u1", "u1"], "offsets": [0, 4, 5], "itemsize": 8}
        self.assertEqual(list(muxandu.days_from_dates(numpy.array([(1970, 1, 2)], dtype=form))), [1])
        for other in (
            {**form, "formats": [">i4", "u1", "u1"]},
            {**form, "names": ["day", "month", "year"]},
            {**form, "offsets": [0, 6, 7]},
            {**form, "formats": ["f4", "u1", "u1"]},
        ):
            self.assertRaises(TypeError, muxandu.days_from_dates, numpy.zeros(1, dtype=other))
        for out in (numpy.zeros(2), numpy.zeros(2, dtype=numpy.complex128)):
            self.assertRaises(TypeError, muxandu.dates_from_days, [0, 1], out=out)
        pairs, text = numpy.zeros(1, dtype=numpy.complex128), b"1970-01-01T00:00:00Z"
        self.assertRaises(TypeError, muxandu.timestamps_from_rfc3339, text, pairs)
        self.assertRaises(TypeError, muxandu.timestamps_from_rfc3339, [text], out=pairs)
        self.assertRaises(TypeError, muxandu.rfc3339_from_timestamps, pairs)

    def test_values_in_arrays(self):
        import numpy

        for value in (Timestamp(0), OffsetDateTime(1970, 1, 1), Date(1970, 1, 1), Duration(1), Time(1), UtcDateTime(1970, 1, 1)):
            self.assertEqual(numpy.dtype(type(value)), numpy.dtype(object))
            self.assertEqual(numpy.array([value, value]).tolist(), [value, value])
            if not isinstance(value, Time):
                day = Duration(86_400)
                self.assertEqual((numpy.array([value, value]) + day).tolist(), [value + day] * 2)
        self.assertRaises(TypeError, lambda: numpy.array([1]) + Timestamp(0))

    def test_numbers_of_other_sizes(self):
        import numpy

        for dtype in (numpy.int16, numpy.uint16, numpy.int32, numpy.uint32, numpy.int64, numpy.uint64):
            self.assertEqual(list(muxandu.dates_from_days(numpy.arange(3, dtype=dtype))["day"]), [1, 2, 3])
            self.assertEqual(list(muxandu.date_times_from_seconds(numpy.arange(6, dtype=dtype)[::2])["second"]), [0, 2, 4])
        for dtype in (numpy.int64, numpy.uint64, numpy.uint32):
            for far in {2**31, int(numpy.iinfo(dtype).max)}:
                with self.assertRaises(muxandu.RefusedDayNumber) as caught:
                    muxandu.dates_from_days(numpy.array([7, far, 5], dtype=dtype))
                self.assertEqual(caught.exception.count, 1)
        with self.assertRaises(muxandu.RefusedTimestamp) as caught:
            muxandu.date_times_from_seconds(numpy.array([7, 2**64 - 1], dtype=numpy.uint64))
        self.assertEqual(caught.exception.count, 1)
        self.assertRaises(muxandu.RefusedDayNumber, muxandu.dates_from_days, numpy.array([-(2**63)]))
        objects = numpy.array([0, 2**70, True], dtype=object)
        self.assertEqual(muxandu.date_times_from_each_second(objects)[0]["second"].tolist(), [0, 0, 1])
        self.assertRaises(TypeError, muxandu.date_times_from_seconds, objects.reshape(3, 1))
        self.assertRaises(TypeError, muxandu.days_from_dates, objects)
        self.assertEqual(muxandu.days_from_dates(numpy.array([Date(1970, 1, 2)], dtype=object)).tolist(), [1])
        count = numpy.uint64(2**63)
        self.assertEqual(Timestamp.from_nanoseconds(count).as_nanoseconds(), 2**63)
        self.assertEqual(Timestamp.from_microseconds(count).as_microseconds(), 2**63)
        self.assertRaises(muxandu.RefusedDuration, muxandu.Duration.of_days, numpy.int64(2**60))


if __name__ == "__main__":
    unittest.main()

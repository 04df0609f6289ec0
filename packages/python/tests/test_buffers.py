"""Which buffers the calls over many items take, and which are refused, with no NumPy."""

import array
import ctypes
import pickle
import subprocess
import sys
import tempfile
import unittest
from pathlib import Path

import muxandu
from muxandu import OffsetDateTime, Date, DateParts, Duration, Span, Timestamp, TimestampParts

DATE = [("year", ctypes.c_int32), ("month", ctypes.c_uint8), ("day", ctypes.c_uint8)]
STAMP = [("seconds", ctypes.c_int64), ("nanoseconds", ctypes.c_uint32)]
NATIVE = ctypes.Structure
OTHER_ORDER = ctypes.BigEndianStructure if sys.byteorder == "little" else ctypes.LittleEndianStructure


def structure(fields, base=NATIVE, **more):
    """A structure of ctypes with these fields."""
    return type("Other", (base,), {**more, "_fields_": fields})


def renamed(fields, **names):
    return [(names.get(name, name), kind) for name, kind in fields]


class Class(Timestamp):
    """A timestamp of a user's own."""


class Day(Date):
    """A date of a user's own."""


class Structures(unittest.TestCase):
    def refused(self, kind, call, *words, **more):
        with self.assertRaises(TypeError) as caught:
            call((kind * 2)(), *words, **more)
        self.assertIn("items must have ", str(caught.exception))

    def test_another_byte_order(self):
        self.refused(structure(DATE, OTHER_ORDER), muxandu.days_from_dates)
        swapped = structure(DATE, OTHER_ORDER)(256, 1, 1)
        self.assertEqual(bytes(swapped)[:6], bytes(DateParts(65_536, 1, 1))[:6])

    def test_other_fields(self):
        year, month, day = DATE
        for fields in (
            [day, month, year],
            [year, day, month],
            renamed(DATE, month="day", day="month"),
            renamed(DATE, year="years"),
            [("year", ctypes.c_uint32), month, day],
            [("year", ctypes.c_float), month, day],
            [year, month, ("day", ctypes.c_int8)],
            [year, month, ("skipped", ctypes.c_uint8), day],
            [year, ("skipped", ctypes.c_uint8), month, day],
            [year, month, day, ("hour", ctypes.c_uint8)],
            [year, ("month", ctypes.c_uint8, 4), ("day", ctypes.c_uint8, 4)],
            [("year", ctypes.c_int16 * 2), month, day],
            [("year", ctypes.c_int64)],
        ):
            self.refused(structure(fields), muxandu.days_from_dates)

    def test_the_same_fields(self):
        same = (structure(DATE) * 2)((1970, 1, 2), (1970, 1, 1))
        self.assertEqual(list(muxandu.days_from_dates(same)), [1, 0])
        inherited = (type("Inherited", (DateParts,), {}) * 1)((1970, 1, 3))
        self.assertEqual(list(muxandu.days_from_dates(inherited)), [2])

    def test_numbers_are_no_structures(self):
        for form in "qd":
            self.assertRaises(TypeError, muxandu.days_from_dates, array.array(form, [1]))
        self.assertRaises(TypeError, muxandu.days_from_dates, (structure(DATE, _pack_=1) * 4)())

    def test_out_of_another_kind(self):
        for out in (
            array.array("d", [0.0, 0.0]),
            array.array("q", [0, 0]),
            (structure(DATE, OTHER_ORDER) * 2)(),
            (structure(list(reversed(DATE))) * 2)(),
            memoryview((DateParts * 4)())[::2],
            memoryview((DateParts * 2)()).toreadonly(),
        ):
            before = bytes(out)
            self.assertRaises(TypeError, muxandu.dates_from_days, [0, 1], out=out)
            self.assertEqual(bytes(out), before)
        for out in (array.array("d", [0.0]), array.array("Q", [0]), (structure(STAMP, OTHER_ORDER) * 1)()):
            self.assertRaises(TypeError, muxandu.seconds_from_date_times, [OffsetDateTime(1970, 1, 1)], out)
            self.assertRaises(TypeError, muxandu.timestamps_from_rfc3339, ["1970-01-01T00:00:00Z"], out=out)

    def test_spans_of_another_kind(self):
        block = b"1970-01-01T00:00:00Z"
        for kind in (ctypes.c_int64, ctypes.c_double):
            self.assertRaises(
                TypeError, muxandu.timestamps_from_rfc3339, block, (structure([("start", kind), ("length", kind)]) * 1)((0, 20))
            )
        self.assertRaises(TypeError, muxandu.timestamps_from_rfc3339, array.array("i", [1]), (Span * 1)())
        self.assertRaises(TypeError, muxandu.timestamps_from_rfc3339, block.decode(), (Span * 1)())


class Numbers(unittest.TestCase):
    def test_of_another_order_or_kind(self):
        swapped = ctypes.c_int64.__ctype_be__ if sys.byteorder == "little" else ctypes.c_int64.__ctype_le__
        self.assertRaises(TypeError, muxandu.date_times_from_seconds, (swapped * 1)(1))
        for items in (array.array("d", [1.0]), b"12345678", bytearray(8), array.array("b", [1]), (ctypes.c_bool * 8)()):
            self.assertRaises(TypeError, muxandu.date_times_from_seconds, items)
        self.assertRaises(TypeError, muxandu.dates_from_days, (structure(DATE, _pack_=1) * 4)())

    def test_of_another_size_are_converted(self):
        for form in "hHiIqQ":
            self.assertEqual(muxandu.date_times_from_seconds(array.array(form, [7]))[0].second, 7)
            self.assertEqual(muxandu.dates_from_days(array.array(form, [7]))[0].day, 8)
        with self.assertRaises(muxandu.RefusedDayNumber) as caught:
            muxandu.dates_from_days(array.array("q", [0, 2**32]))
        self.assertEqual(caught.exception.count, 1)
        self.assertRaises(muxandu.RefusedTimestamp, muxandu.date_times_from_seconds, array.array("Q", [2**64 - 1]))

    def test_rows_alone(self):
        square = memoryview(array.array("q", range(4))).cast("B").cast("q", (2, 2))
        self.assertRaises(TypeError, muxandu.date_times_from_seconds, square)
        self.assertRaises(TypeError, muxandu.days_from_dates, DateParts())


class Places(unittest.TestCase):
    """Where items lie: apart, askew, or over each other."""

    def test_items_that_lie_apart_are_copied(self):
        seconds = memoryview(array.array("q", [0, 7, 1, 7, 2]))
        self.assertEqual([item.second for item in muxandu.date_times_from_seconds(seconds[::2])], [0, 1, 2])
        self.assertEqual([item.second for item in muxandu.date_times_from_seconds(seconds[::-2])], [2, 1, 0])
        dates = memoryview((DateParts * 3)((1970, 1, 1), (1970, 1, 2), (1970, 1, 3)))
        self.assertEqual(list(muxandu.days_from_dates(dates[::-1])), [2, 1, 0])

    def test_an_out_whose_items_lie_apart_is_not_taken(self):
        for step in (2, -1):
            memory = array.array("q", [7] * 6)
            out = memoryview(memory)[::step]
            for call in (muxandu.seconds_from_date_times, muxandu.milliseconds_from_date_times):
                self.assertRaisesRegex(TypeError, "`out` must be contiguous", call, [OffsetDateTime(1970, 1, 1)] * 2, out)
            self.assertEqual(memory, array.array("q", [7] * 6))

    def test_items_that_begin_askew(self):
        memory = bytearray(64)
        for at in range(8):
            days = (ctypes.c_int32 * 2).from_buffer(memory, at)
            days[:] = 18_628, -1
            self.assertEqual([item.year for item in muxandu.dates_from_days(days)], [2021, 1969])
            out = (DateParts * 2).from_buffer(memory, 16 + at)
            if at % 4:
                before = bytes(memory)
                self.assertRaises(ValueError, muxandu.dates_from_days, [0, 1], out=out)
                self.assertEqual(bytes(memory), before)
            else:
                self.assertEqual([item.day for item in muxandu.dates_from_days([0, 1], out=out)], [1, 2])

    def test_out_over_the_items(self):
        for at in range(0, 24, 4):
            memory = bytearray(48)
            days = (ctypes.c_int32 * 3).from_buffer(memory, 12)
            days[:] = 1, 2, 3
            out = (DateParts * 3).from_buffer(memory, at)
            shown = [(date.year, date.month, date.day) for date in muxandu.dates_from_days(days, out=out)]
            self.assertEqual(shown, [(1970, 1, 2), (1970, 1, 3), (1970, 1, 4)])

    def test_out_over_texts_and_spans(self):
        text = b"1970-01-01T00:00:01Z"
        for at in range(0, 48, 8):
            memory = bytearray(80)
            spans = (Span * 2).from_buffer(memory, 16)
            spans[0], spans[1] = (0, 20), (0, 20)
            out = (TimestampParts * 2).from_buffer(memory, at)
            self.assertEqual([item.seconds for item in muxandu.timestamps_from_rfc3339(text, spans, out)], [1, 1])
            memory = bytearray(80)
            memory[16:56] = text + text
            out = (TimestampParts * 2).from_buffer(memory, at)
            block = memoryview(memory)[16:56]
            stamps = muxandu.timestamps_from_rfc3339(block, (Span * 2)((0, 20), (20, 20)), out)
            self.assertEqual([item.seconds for item in stamps], [1, 1])
            memory[16:56] = text + text
            each = [block[:20], block[20:]]
            self.assertEqual([item.seconds for item in muxandu.timestamps_from_rfc3339(each, out=out)], [1, 1])

    def test_a_list_with_no_text_in_it_writes_nothing(self):
        out = (TimestampParts * 2)((7, 7), (7, 7))
        before = bytes(out)
        self.assertRaises(TypeError, muxandu.timestamps_from_rfc3339, ["1970-01-01T00:00:01Z", None], out=out)
        self.assertEqual(bytes(out), before)


class Texts(unittest.TestCase):
    def test_numbers_and_lists_are_no_texts(self):
        for other in (1_700_000_000, 10**13, -1, [50, 48], None, 0.5, array.array("i", [1]), range(3)):
            for read in (Timestamp.from_rfc3339, OffsetDateTime.from_rfc3339):
                with self.assertRaises(TypeError) as caught:
                    read(other)
                self.assertRegex(str(caught.exception), "text|bytes")
            self.assertRaises(TypeError, muxandu.timestamps_from_rfc3339, [other])

    def test_one_text_is_no_sequence_of_texts(self):
        text = "1970-01-01T00:00:00Z"
        for one in (text, text.encode(), bytearray(text.encode()), memoryview(text.encode())):
            with self.assertRaises(TypeError) as caught:
                muxandu.timestamps_from_rfc3339(one)
            self.assertIn("a sequence of texts", str(caught.exception))

    def test_bytes_of_all_kinds(self):
        text = b"1970-01-01T00:00:01Z"
        padded = bytes(byte for pair in zip(text, text) for byte in pair)
        for form in (text, bytearray(text), memoryview(text), memoryview(padded)[::2], array.array("B", text)):
            self.assertEqual(Timestamp.from_rfc3339(form).seconds, 1)
        self.assertRaises(muxandu.RefusedSyntax, Timestamp.from_rfc3339, "1970-01-01T00:00:01\ud800")


class Sequences(unittest.TestCase):
    def test_of_other_values(self):
        for values in ([1], [None], "abc", [Date(1970, 1, 1), OffsetDateTime(1970, 1, 1)], 5, None):
            self.assertRaises(TypeError, muxandu.days_from_dates, values)
        for values in ([0.5], ["1"], "12", 5, None, [[1]]):
            self.assertRaises(TypeError, muxandu.dates_from_days, values)
        self.assertEqual(list(muxandu.days_from_dates(iter([Date(1970, 1, 2)]))), [1])


class Rest(unittest.TestCase):
    def test_pickles_of_each_protocol(self):
        values = [
            Timestamp(-1, 5),
            OffsetDateTime(2024, 2, 29, offset_seconds=60),
            Date(2024, 2, 29),
            Duration(1, 2),
            Class(-1, 5),
            Day(2024, 2, 29),
        ]
        for protocol in range(pickle.HIGHEST_PROTOCOL + 1):
            back = pickle.loads(pickle.dumps(values, protocol))
            self.assertEqual(back, values)
            self.assertEqual([type(value) for value in back], [type(value) for value in values])

    def test_pickles_of_batches(self):
        for items in (muxandu.dates_from_days([0, 1]), muxandu.date_times_from_seconds([0, 1, 2])):
            for protocol in range(pickle.HIGHEST_PROTOCOL + 1):
                back = pickle.loads(pickle.dumps(items, protocol))
                self.assertEqual((type(back), bytes(back)), (type(items), bytes(items)))

    def test_durations_beyond_the_range_are_not_made(self):
        for parts in ((2**63 - 1, 10**9), (-(2**63), -(10**9)), (2**63, 0), (2**80, 0), (0, 10**40)):
            self.assertRaises(muxandu.RefusedDuration, Duration, *parts)
        self.assertEqual(Duration(2**63 - 1, 999_999_999).seconds, 2**63 - 1)

    def test_sameness_is_asked_of_date_times(self):
        with self.assertRaises(TypeError) as caught:
            OffsetDateTime(1970, 1, 1).is_same(5)
        self.assertIn("not int", str(caught.exception))

    def test_layouts_are_tested_without_asserts(self):
        source = Path(muxandu.__file__).with_name("_structures.py").read_text(encoding="utf-8")
        self.assertNotIn("\nassert ", source)
        with tempfile.TemporaryDirectory() as folder:
            wrong = source.replace('("seconds", ctypes.c_int64)', '("seconds", ctypes.c_int32)', 1)
            Path(folder, "wrong.py").write_text(wrong, encoding="utf-8")
            words = [sys.executable, "-O", "-B", "-c", "import wrong"]
            ended = subprocess.run(words, cwd=folder, stderr=subprocess.PIPE, encoding="utf-8", check=False)
        self.assertRegex(ended.stderr, "ImportError: MuxanduTimestamp is not laid out")


if __name__ == "__main__":
    unittest.main()

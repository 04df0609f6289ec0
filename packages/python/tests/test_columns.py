"""Columns of moments: each row beside Python's own datetime, or beside the single call."""

import array
import ctypes
import datetime
import random
import threading
import unittest

from muxandu import (
    MISSING,
    Duration,
    OffsetDateTime,
    RefusedBuffer,
    RefusedDayOfMonth,
    RefusedOffsetSeconds,
    RefusedResult,
    RefusedTimestamp,
    RefusedUnit,
    Span,
    Timestamp,
    Unit,
    UtcOffset,
    columns,
)
from muxandu._columns import BLOCK
from muxandu.columns import NO_SECOND

try:
    import numpy
except ImportError:
    numpy = None

EPOCH = datetime.datetime(1970, 1, 1, tzinfo=datetime.timezone.utc)


def zone(seconds):
    return datetime.timezone(datetime.timedelta(seconds=seconds))


def rows(*items):
    return (columns.MomentParts * len(items))(*items)


def told(row):
    if isinstance(row, columns.MomentParts):
        return row.seconds, row.nanoseconds, row.offset_seconds
    return row.item()


def some_moments(count):
    """Random moments as rows and as datetimes, at whole microseconds."""
    draw = random.Random(57)
    found = []
    for _ in range(count):
        seconds, micros, offset = draw.randrange(-(10**10), 10**10), draw.randrange(10**6), draw.randrange(-86_399, 86_400)
        found.append(
            (
                (seconds, micros * 1_000, offset),
                (EPOCH + datetime.timedelta(seconds=seconds, microseconds=micros)).astimezone(zone(offset)),
            )
        )
    return found


MOMENTS = some_moments(500)
ROWS = rows(*(row for row, _ in MOMENTS))
SHOWN = [shown for _, shown in MOMENTS]


def as_row(shown):
    length = shown - EPOCH
    return length.days * 86_400 + length.seconds, length.microseconds * 1_000, int(shown.utcoffset().total_seconds())


def run_all(threads):
    """Runs threads to their ends."""
    for thread in threads:
        thread.start()
    for thread in threads:
        thread.join()


class Columns(unittest.TestCase):
    def assert_rows(self, found, wanted):
        """Compares rows, and names the first that differs: a list of all differences takes minutes."""
        found = [told(row) for row in found]
        differences = [place for place, (one, other) in enumerate(zip(found, wanted)) if one != other]
        self.assertEqual((len(found), differences[:1]), (len(wanted), []))

    def test_date_times(self):
        parts = columns.date_times_from_moments(ROWS)
        for part, shown in zip(parts, SHOWN):
            self.assertEqual((part.year, part.month, part.day), (shown.year, shown.month, shown.day))
            self.assertEqual((part.hour, part.minute, part.second), (shown.hour, shown.minute, shown.second))
            self.assertEqual(part.nanosecond, shown.microsecond * 1_000)
        self.assertEqual(bytes(columns.moments_from_date_times(parts)), bytes(ROWS))
        self.assertEqual(bytes(columns.moments_from_each_date_time(parts)[0]), bytes(ROWS))

    def test_texts(self):
        texts = [shown.isoformat() for shown in SHOWN if shown.utcoffset().seconds % 60 == 0] + ["2024-02-29T12:00:00Z"]
        found = columns.moments_from_rfc3339(texts)
        self.assert_rows(found, [as_row(datetime.datetime.fromisoformat(text)) for text in texts])
        found, statuses = columns.moments_from_each_rfc3339(["1970-01-01T00:00:01Z", None, "x"])
        self.assertEqual(list(statuses), [0, MISSING, 22])
        with self.assertRaises(TypeError):
            columns.moments_from_rfc3339(["1970-01-01T00:00:01Z", None])
        block, spans = b"1970-01-01T00:00:01Z 1970-01-01T00:00:02Z", (Span * 2)((21, 20), (0, 20))
        self.assertEqual([row.seconds for row in columns.moments_from_rfc3339(block, spans)], [2, 1])
        self.assertEqual([row.seconds for row in columns.moments_from_each_rfc3339(block, spans)[0]], [2, 1])

    def test_one_item_for_many_rows(self):
        """More rows than a block has, with a gap in the second block and an end of the range in the third."""
        count, gap, last = 2 * BLOCK + 5, BLOCK + 2, 2 * BLOCK + 1
        many = rows(*((second, 0, 3_600) for second in range(count)))
        later = [(second + 1, 0, 3_600) for second in range(count)]
        self.assert_rows(columns.moments_add(many, Duration(1)), later)
        orders = columns.moments_compare(many, Timestamp(BLOCK).to_offset(-60))
        self.assertEqual(list(orders), [-1] * BLOCK + [0] + [1] * (BLOCK + 4))
        lengths = columns.moments_difference(many, Timestamp(5).to_offset(0))
        self.assertEqual([length.seconds for length in lengths], list(range(-5, count - 5)))
        many[gap], many[last] = (NO_SECOND,), (Timestamp.MAX.seconds,)
        wanted = [0] * count
        wanted[gap], wanted[last] = MISSING, RefusedResult.status
        found, statuses = columns.each_moment_add(many, Duration(1))
        later[gap] = later[last] = (0, 0, 0)
        self.assertEqual(list(statuses), wanted)
        self.assert_rows(found, later)
        out = rows(*[(7, 7, 7)] * (count + 1))
        with self.assertRaises(RefusedTimestamp) as caught:
            columns.moments_add(many, Duration(1), out)
        self.assertEqual((caught.exception.count, told(out[gap - 1]), told(out[gap])), (gap, later[gap - 1], (7, 7, 7)))
        self.assertEqual(told(out[count]), (7, 7, 7))
        short = rows(*[(7, 7, 7)] * (count - 1))
        self.assertRaises(RefusedBuffer, columns.moments_add, many, Duration(1), short)
        self.assertEqual(told(short[0]), (7, 7, 7))

    def test_texts_without_an_offset(self):
        """Each beside Python's datetime, at one offset, and at an offset for each."""
        shown = [at.replace(tzinfo=None) for at in SHOWN]
        for offset in (0, -93_599, UtcOffset.from_hms(5, 30)):
            seconds = getattr(offset, "whole_seconds", lambda: offset)()
            shift = datetime.timedelta(seconds=seconds)
            wanted = [(*as_row((at - shift).replace(tzinfo=datetime.timezone.utc))[:2], seconds) for at in shown]
            for separator in "T ":
                texts = [at.isoformat(separator) for at in shown]
                found, statuses = columns.moments_from_each_plain_text(texts, offset)
                self.assert_rows(found, wanted)
                self.assertEqual(sum(statuses), 0)
        offsets = [int(at.utcoffset().total_seconds()) for at in SHOWN]
        for each in (offsets, array.array("i", offsets), array.array("q", offsets), tuple(map(UtcOffset, offsets))):
            found, _ = columns.moments_from_each_plain_text([at.isoformat().encode() for at in shown], each)
            self.assert_rows(found, [row for row, _ in MOMENTS])

    def test_errors_of_texts_without_an_offset(self):
        good = "1970-01-01 00:00:05"
        texts = [good, None, good + "Z", good + "+01:00", "", "1970-13-01T00:00:00", b"1970-01-01T24:00:00", good]
        wanted = [0, MISSING, 22, 22, 22, 2, 10, 0]
        out = rows(*[(9, 9, 9)] * 8)
        found, statuses = columns.moments_from_each_plain_text(texts, 5, out)
        self.assertIs(found, out)
        self.assertEqual(list(statuses), wanted)
        self.assert_rows(out, [(0, 0, 5) if status == 0 else (9, 9, 9) for status in wanted])
        _, statuses = columns.moments_from_each_plain_text([good] * 4, [0, None, 93_600, float("nan")])
        self.assertEqual(list(statuses), [0, MISSING, RefusedOffsetSeconds.status, MISSING])
        for offsets in ([0], [0] * 3, []):
            with self.assertRaisesRegex(ValueError, "there must be one offset, or one for each text: 2, not"):
                columns.moments_from_each_plain_text([good] * 2, offsets)
        for texts, offset in (([5], 0), ([good], "5"), (good, 0), ([good], [0.5]), ([good], ["5"])):
            self.assertRaises(TypeError, columns.moments_from_each_plain_text, texts, offset)
        self.assertEqual(len(columns.moments_from_each_plain_text([])[0]), 0)

    def test_offsets(self):
        found = columns.moments_to_offset(ROWS, -3_600)
        self.assert_rows(found, [(row.seconds, row.nanoseconds, -3_600) for row in ROWS])
        self.assert_rows(columns.each_moment_to_offset(ROWS, -3_600)[0], list(map(told, found)))
        with self.assertRaises(RefusedOffsetSeconds):
            columns.moments_to_offset(ROWS, 93_600)

    def test_units(self):
        zeros = {"hour": 0, "minute": 0, "second": 0, "microsecond": 0}
        for unit, names in ((Unit.DAY, 4), (Unit.HOUR, 3), (Unit.MINUTE, 2), (Unit.SECOND, 1)):
            down = dict(list(zeros.items())[-names:])
            wanted = [as_row(shown.replace(**down)) for shown in SHOWN]
            self.assert_rows(columns.moments_truncate(ROWS, unit), wanted)
            self.assert_rows(columns.each_moment_truncate(ROWS, unit)[0], wanted)
        with self.assertRaises(RefusedUnit):
            columns.moments_truncate(ROWS, 9)

    def test_months(self):
        for row, shown in zip(columns.moments_add_months(ROWS, 13), SHOWN):
            year, month = shown.year + (shown.month + 12) // 12, shown.month % 12 + 1
            last = (datetime.date(year + month // 12, month % 12 + 1, 1) - datetime.timedelta(1)).day
            self.assertEqual(told(row), as_row(shown.replace(year=year, month=month, day=min(shown.day, last))))

    def test_sums(self):
        draw = random.Random(58)
        lengths = [
            datetime.timedelta(seconds=draw.randrange(-(10**9), 10**9), microseconds=draw.randrange(10**6)) for _ in SHOWN
        ]
        wanted = [as_row(shown + length) for shown, length in zip(SHOWN, lengths)]
        self.assert_rows(columns.moments_add(ROWS, lengths), wanted)
        self.assert_rows(columns.moments_subtract(ROWS, [-length for length in lengths]), wanted)
        found, statuses = columns.each_moment_add(ROWS, [Duration.of(length) for length in lengths])
        self.assert_rows(found, wanted)
        self.assertEqual(sum(statuses), 0)
        one = datetime.timedelta(days=1, microseconds=1)
        self.assert_rows(columns.moments_add(ROWS, one), [as_row(shown + one) for shown in SHOWN])
        with self.assertRaisesRegex(ValueError, "columns must have one length"):
            columns.moments_add(ROWS, [one])

    def test_orders_and_differences(self):
        others = list(reversed(SHOWN))
        other_rows = rows(*map(as_row, others))
        wanted = [(one > other) - (one < other) for one, other in zip(SHOWN, others)]
        self.assertEqual(list(columns.moments_compare(ROWS, other_rows)), wanted)
        self.assertEqual(list(columns.each_moment_compare(ROWS, other_rows)[0]), wanted)
        for found, one, other in zip(columns.moments_difference(ROWS, other_rows), SHOWN, others):
            length = Duration(found.seconds, found.nanoseconds)
            self.assertEqual(length, Duration.of(one - other))
        middle = OffsetDateTime(1970, 1, 1)
        self.assertEqual(list(columns.moments_compare(ROWS, middle)), [(one > EPOCH) - (one < EPOCH) for one in SHOWN])

    def test_gaps(self):
        column = rows((1, 0, 0), (columns.NO_SECOND, 0, 0), (2**62, 0, 0))
        parts, statuses = columns.date_times_from_each_moment(column)
        self.assertEqual(list(statuses), [0, MISSING, RefusedTimestamp.status])
        with self.assertRaises(RefusedTimestamp) as caught:
            columns.date_times_from_moments(column)
        self.assertEqual(caught.exception.count, 1)
        found, statuses = columns.each_moment_add([OffsetDateTime(1970, 1, 1), None, float("nan")], Duration(1))
        self.assertEqual((list(statuses), found[0].seconds), ([0, MISSING, MISSING], 1))
        found, statuses = columns.each_moment_subtract(rows((1, 0, 0), (2, 0, 0)), [None, Duration(1)])
        self.assertEqual((list(statuses), found[1].seconds), ([MISSING, 0], 1))
        found, statuses = columns.moments_from_each_date_time([OffsetDateTime(1970, 1, 1), None])
        self.assertEqual(list(statuses), [0, MISSING])

    def test_errors(self):
        last = rows((31_494_784_780_799, 0, 0))
        with self.assertRaises(RefusedResult):
            columns.moments_add(last, Duration(1))
        with self.assertRaises(RefusedBuffer):
            columns.moments_to_offset(ROWS, 0, rows((0, 0, 0)))
        parts = columns.date_times_from_moments(last)
        parts[0].month, parts[0].day = 2, 30
        with self.assertRaises(RefusedDayOfMonth):
            columns.moments_from_date_times(parts)
        for odd in (array.array("q", [1]), b"12345678", 5, [1]):
            with self.assertRaises(TypeError):
                columns.moments_to_offset(odd, 0)
        with self.assertRaises(ValueError):
            columns.each_moment_compare(last, last, memoryview(room := bytearray(4)).cast("i"), memoryview(room).cast("I"))

    def test_gaps_of_a_column_by_steps(self):
        column = memoryview(rows((1, 0, 0), (2, 0, 0), (columns.NO_SECOND, 0, 0), (3, 0, 0)))[::-2]
        self.assertEqual(list(columns.each_moment_to_offset(column, 0)[1]), [0, 0])
        column = memoryview(rows((1, 0, 0), (2, 0, 0), (columns.NO_SECOND, 0, 0), (3, 0, 0)))[::2]
        self.assertEqual(list(columns.each_moment_to_offset(column, 0)[1]), [0, MISSING])

    def test_gaps_of_a_column_that_the_results_lie_over(self):
        """A result is written over the gap that the call has read before it."""
        whole = rows((1, 0, 0), (columns.NO_SECOND, 0, 0), (3, 0, 0))
        out, statuses = columns.each_moment_to_offset(memoryview(whole)[1:], 60, memoryview(whole)[:2])
        self.assertEqual((list(statuses), [told(row) for row in whole]), ([MISSING, 0], [(1, 0, 0), (3, 0, 60), (3, 0, 0)]))

    def test_threads_on_one_column(self):
        """Threads read one column at once, and then others write to it: each result is that of the call alone, or of what a
        thread wrote, and no thread ends the process."""
        column, wanted = rows(*(told(row) for row in ROWS)), bytes(columns.moments_truncate(ROWS, Unit.HOUR))
        found = [None] * 8

        def read(place):
            for _ in range(30):
                found[place] = bytes(columns.moments_truncate(column, Unit.HOUR))

        run_all([threading.Thread(target=read, args=(place,)) for place in range(8)])
        self.assertEqual(set(found), {wanted})
        is_over, failed = threading.Event(), []

        def write(number):
            odd = bytes(random.Random(number).randbytes(ctypes.sizeof(column)))
            while not is_over.is_set():
                memoryview(column).cast("B")[:] = odd
                memoryview(column).cast("B")[:] = bytes(ROWS)

        def call():
            for _ in range(100):
                try:
                    out, statuses = columns.each_moment_add(column, Duration(1), column)
                    columns.each_moment_compare(column, column)
                    if out is not column or len(statuses) != len(column):
                        failed.append("another length")
                except Exception as problem:  # noqa: BLE001
                    failed.append(problem)

        writers = [threading.Thread(target=write, args=(number,)) for number in range(2)]
        for thread in writers:
            thread.start()
        try:
            run_all([threading.Thread(target=call) for _ in range(4)])
        finally:
            is_over.set()
            for thread in writers:
                thread.join()
        self.assertEqual(failed, [])

    def test_places_that_overlap(self):
        column = rows(*(told(row) for row in ROWS[:10]))
        wanted = bytes(columns.moments_add(column, Duration(5)))
        self.assertEqual(bytes(columns.moments_add(column, Duration(5), column)), wanted)
        self.assertEqual(bytes(column), wanted)

    @unittest.skipIf(numpy is None, "NumPy is not installed")
    def test_timedelta64_of_each_unit(self):
        """Also where NumPy's own conversion to seconds would not fit in 64 bits."""
        second, first = 10**18, rows((0, 0, 0))
        units = {"W": 604_800 * second, "D": 86_400 * second, "h": 3_600 * second, "m": 60 * second, "s": second}
        units.update({"ms": 10**15, "us": 10**12, "ns": 10**9, "ps": 10**6, "fs": 10**3, "as": 1})
        for unit, size in units.items():
            for many in (1, 7):
                for length in (0, 1, -1, 10**9, -(10**9) - 1, 2**50, -(2**50), 2**62, 2**63 - 1, -(2**63) + 1):
                    out, statuses = columns.each_moment_add(first, numpy.array([length], f"m8[{many}{unit}]"))
                    seconds, rest = divmod(length * many * size // 10**9, 10**9)
                    is_here = -31_619_087_596_800 <= seconds <= 31_494_784_780_799
                    wanted = ((seconds, rest), True) if is_here else ((0, 0), False)
                    self.assertEqual((told(out[0])[:2], statuses[0] == 0), wanted, (unit, many, length))
        for other in ("m8[Y]", "m8[M]", "m8"):
            self.assertRaises(TypeError, columns.moments_add, first, numpy.array([1], other))
        self.assertRaises(TypeError, columns.moments_add, first, numpy.zeros((1, 1), "m8[s]"))

    @unittest.skipIf(numpy is None, "NumPy is not installed")
    def test_numpy(self):
        column = numpy.array([row for row, _ in MOMENTS], numpy.dtype(columns.MomentParts))
        self.assertEqual(column.itemsize, ctypes.sizeof(columns.MomentParts))
        later = columns.moments_add(column, numpy.timedelta64(1, "ns").repeat(len(column)))
        self.assertTrue((columns.moments_compare(later, column) == 1).all())
        masked = numpy.ma.array(column[:3], mask=[0, 1, 0])
        _, statuses = columns.each_moment_to_offset(masked, 0)
        self.assertEqual(statuses.tolist(), [0, MISSING, 0])
        _, statuses = columns.each_moment_add(column[:2], numpy.array([-1, "NaT"], "m8[ms]"))
        self.assertEqual(statuses.tolist(), [0, MISSING])
        lengths = numpy.ma.array([(1, 0), (2, 0)], numpy.dtype(columns.DurationParts), mask=[(0, 1), (0, 0)])
        for masked in (lengths, numpy.ma.array([1, 2], "m8[s]", mask=[1, 0])):
            found, statuses = columns.each_moment_add(column[:2], masked)
            self.assertEqual(statuses.tolist(), [MISSING, 0])
            self.assertEqual(found["seconds"].tolist(), [0, column["seconds"][1] + 2])
        self.assertEqual(len(columns.each_moment_to_offset(numpy.ma.array(column[:0]), 0)[0]), 0)
        with self.assertRaisesRegex(TypeError, "items must have 16 bytes"):
            columns.moments_to_offset(numpy.ma.array([(1, 2)], "i8,i8", mask=[(1, 0)]), 0)
        for offsets in (
            numpy.array([1.0, numpy.nan]),
            numpy.ma.array([1, 2], mask=[0, 1]),
            numpy.ma.array([1, 2], "int8", mask=[0, 1]),
        ):
            found, statuses = columns.moments_from_each_plain_text(["1970-01-01T00:00:01"] * 2, offsets)
            self.assertEqual((told(found[0]), list(statuses)), ((0, 0, 1), [0, MISSING]))
        found, _ = columns.moments_from_each_plain_text(["1970-01-01T00:00:01"], numpy.int64(1))
        self.assertEqual(told(found[0]), (0, 0, 1))
        found = columns.moments_subtract(column[:1], numpy.array([1], "m8[ms]"))
        self.assertEqual(
            columns.moments_compare(found, columns.moments_add(column[:1], numpy.array([-1], "m8[ms]"))).tolist(), [0]
        )


if __name__ == "__main__":
    unittest.main()

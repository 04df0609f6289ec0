"""Values of classes that say of themselves what is not so, and others that a program may hand in by mistake."""

import array
import copy
import datetime
import gc
import os
import pickle
import subprocess
import sys
import threading
import unittest
from pathlib import Path
from unittest import mock

import muxandu
from muxandu import _extension as engine
from muxandu import Date, Duration, OffsetDateTime, PlainDateTime, Span, Time, Timestamp, UtcDateTime, UtcOffset

TEXT = "1970-01-01T00:00:01Z"


class Bytes(bytes):
    """Bytes that tell another length, and other bytes."""

    def __len__(self):
        return 10**9

    def __bytes__(self):
        return b"other"

    def __iter__(self):
        return iter(b"")


class Text(str):
    """A text that gives other bytes."""

    __slots__ = ()

    def __len__(self):
        return 10**9

    def encode(self, *_):
        return Bytes(b"1970")


class Whole(int):
    """A whole number that tells of itself what is not so."""

    def true(self, *_):
        return True

    def other(self, *_):
        return "other"

    __le__ = __lt__ = __ge__ = __gt__ = __eq__ = true
    __mul__ = __rmul__ = __add__ = __radd__ = __rshift__ = __neg__ = __floordiv__ = __mod__ = __int__ = __index__ = other
    __hash__ = int.__hash__


class Changing:
    """A number that is another each time that it is asked for."""

    def __init__(self, *numbers):
        self.numbers = list(numbers)

    def __index__(self):
        return self.numbers.pop(0) if len(self.numbers) > 1 else self.numbers[0]


def length(**parts):
    """A timedelta of a class whose parts are other ones."""
    return type("Length", (datetime.timedelta,), {name: property(lambda _, part=part: part) for name, part in parts.items()})()


def moment(**parts):
    """A datetime of a class whose parts are other ones."""
    told = {name: property(lambda _, part=part: part) for name, part in parts.items()}
    return type("Moment", (datetime.datetime,), told)(2024, 2, 29, tzinfo=datetime.timezone.utc)


def pretender(kind):
    """A value that tells that it is of another class."""
    return type("Pretender", (), {"__class__": property(lambda _: kind)})()


class Shy:
    """A value that does not tell its class."""

    @property
    def __class__(self):
        raise ZeroDivisionError


class Texts(unittest.TestCase):
    def test_of_classes_that_tell_another_length(self):
        for text in (Bytes(TEXT.encode()), Text(TEXT), memoryview(Bytes(TEXT.encode()))):
            self.assertEqual(Timestamp.from_rfc3339(text), Timestamp(1))
            self.assertEqual(OffsetDateTime.from_rfc3339(text), Timestamp(1).to_offset(0))
            self.assertEqual([item.seconds for item in muxandu.timestamps_from_rfc3339([text, TEXT])], [1, 1])
            self.assertEqual([item.second for item in muxandu.date_times_from_rfc3339([text, TEXT])], [1, 1])
        self.assertEqual(Date.from_rfc3339(Bytes(b"1970-01-02")), Date(1970, 1, 2))
        stamps = muxandu.timestamps_from_rfc3339(Bytes(TEXT.encode()), (Span * 1)((0, 20)))
        self.assertEqual(stamps[0].seconds, 1)
        with self.assertRaises(muxandu.RefusedSpan):
            muxandu.timestamps_from_rfc3339(Bytes(TEXT.encode()), (Span * 1)((0, 21)))


class Numbers(unittest.TestCase):
    def test_of_classes_with_other_orders(self):
        for call, refusal in (
            (lambda: Timestamp(0).to_offset(Whole(2**32)), muxandu.RefusedOffsetSeconds),
            (lambda: OffsetDateTime(Whole(2**40), 1, 1), muxandu.RefusedYear),
            (lambda: Date(1970, Whole(257), 1), muxandu.RefusedMonth),
            (lambda: Timestamp(Whole(2**64)), muxandu.RefusedTimestamp),
            (lambda: Duration(Whole(2**70)), muxandu.RefusedDuration),
            (lambda: Date.from_day_number(Whole(2**32)), muxandu.RefusedDayNumber),
            (lambda: muxandu.date_times_from_seconds([Whole(2**64)]), muxandu.RefusedTimestamp),
            (lambda: muxandu.date_times_from_seconds([0], Whole(2**32)), muxandu.RefusedOffsetSeconds),
            (lambda: muxandu.dates_from_days([Whole(2**32)]), muxandu.RefusedDayNumber),
        ):
            self.assertRaises(refusal, call)
        self.assertEqual(Duration(Whole(0), Whole(2**70)), Duration.of_nanoseconds(2**70))
        self.assertEqual(Duration(Whole(2**63), Whole(-1)).nanoseconds, 999_999_999)
        self.assertEqual(Timestamp.from_nanoseconds(Whole(2**63)).as_nanoseconds(), 2**63)
        self.assertEqual(Timestamp.from_microseconds(Whole(2**63)).as_microseconds(), 2**63)
        self.assertEqual(muxandu.date_times_from_nanoseconds([Whole(2**63)])[0].nanosecond, 2**63 % 10**9)

    def test_that_change(self):
        for numbers in ((0, 2**70), (2**70, 0), (2**70, 2**70), (5, "5")):
            for call in (Timestamp, Duration, Date.from_day_number, Timestamp.from_nanoseconds, UtcOffset):
                try:
                    made = call(Changing(*numbers))
                    self.assertEqual(eval(repr(made), vars(muxandu)), made)  # noqa: S307
                except (muxandu.Refused, TypeError):
                    pass
        self.assertRaises(TypeError, Timestamp, Changing(0.5))


class Lengths(unittest.TestCase):
    def test_of_classes_with_other_parts(self):
        for parts, whole in (
            ({"days": 2**40}, 2**40 * 86_400 * 10**9),
            ({"microseconds": 2**62}, 2**62 * 1_000),
            ({"days": -1, "seconds": 2**62, "nanoseconds": -(2**62)}, (2**62 - 86_400) * 10**9 - 2**62),
            ({"nanoseconds": 5}, 5),
        ):
            self.assertEqual((Duration() + length(**parts)).whole_nanoseconds(), whole)
            self.assertEqual(length(**parts), Duration.of_nanoseconds(whole))
        for parts in ({"days": 2**62}, {"days": 2**70}, {"seconds": -(2**70)}, {"days": 2**62, "microseconds": 2**62}):
            for call in (lambda: Duration() + length(**parts), lambda: Timestamp(0) - length(**parts)):
                self.assertRaises(muxandu.RefusedDuration, call)
        for parts in ({"days": "1"}, {"seconds": 0.5}, {"nanoseconds": 0.5}, {"nanoseconds": None}):
            self.assertRaises(TypeError, lambda: Timestamp(0) + length(**parts))
            self.assertRaises(TypeError, lambda: Duration() + length(**parts))

    def test_hashes_of_all_that_a_timedelta_equals(self):
        micro = datetime.timedelta(microseconds=1)
        ends = (datetime.timedelta.min, datetime.timedelta.max)
        for theirs in (
            *ends,
            ends[0] + micro,
            ends[1] - micro,
            datetime.timedelta(999_999_999),
            datetime.timedelta(-999_999_998),
        ):
            ours = Duration.of(theirs)
            self.assertEqual((ours, hash(ours), ours.to_timedelta()), (theirs, hash(theirs), theirs))
            self.assertEqual(len({ours, theirs}), 1)
        for beyond in (Duration.of(ends[0]) - Duration(0, 1_000), Duration.of(ends[1]) + Duration(0, 1_000)):
            self.assertEqual(hash(beyond), hash(beyond.whole_nanoseconds()))
            self.assertRaises(OverflowError, beyond.to_timedelta)

    def test_of_a_class_of_a_user(self):
        class Length(Duration):
            """A length of a user's own."""

        self.assertEqual((type(Length.of(Duration(1, 2))), Length.of(Duration(1, 2))), (Length, Duration(1, 2)))
        self.assertIs(type(Length.of(datetime.timedelta(1))), Length)
        self.assertIs(type(Duration.of(Length(1))), Length)


class Datetimes(unittest.TestCase):
    READ = (Timestamp.from_datetime, OffsetDateTime.from_datetime, UtcDateTime.from_datetime)

    def test_of_classes_with_other_parts(self):
        for parts in (
            {"microsecond": 2**32 // 1_000 + 1},
            {"microsecond": -1, "nanosecond": 1_000},
            {"microsecond": 2**62},
            {"microsecond": 10**6},
            {"nanosecond": 1_000},
            {"nanosecond": -1},
        ):
            for read in self.READ:
                self.assertRaises(muxandu.RefusedNanosecond, read, moment(**parts))
        for read in self.READ:
            self.assertRaises(muxandu.RefusedMonth, read, moment(month=13))
            self.assertRaises(TypeError, read, moment(microsecond=0.5))

    def test_of_other_types(self):
        at = datetime.datetime(2024, 2, 29)
        for other in (None, 5, "2024-02-29", at.date(), at.time(), datetime.timedelta(1), Timestamp(0)):
            for read in (*self.READ, PlainDateTime.from_datetime):
                self.assertRaisesRegex(TypeError, "must be a datetime.datetime, not <class", read, other)

    def test_of_a_class_with_a_fault_of_its_own(self):
        class Zone(datetime.tzinfo):
            """A zone whose offset is a fault."""

            def utcoffset(self, at):
                return at.offset

        for read in self.READ:
            self.assertRaisesRegex(AttributeError, "offset", read, moment().replace(tzinfo=Zone()))


class Classes(unittest.TestCase):
    """Values that tell another class, or none."""

    VALUES = (Timestamp(0), OffsetDateTime(1970, 1, 1), Duration(1), Date(1970, 1, 1), UtcDateTime(1970, 1, 1), Time(5))

    def test_pretenders(self):
        for value in self.VALUES:
            for kind in (type(value), Duration, datetime.timedelta, datetime.datetime, int, str, bytes):
                other = pretender(kind)
                for call in (
                    lambda value=value, other=other: value + other,
                    lambda value=value, other=other: other + value,
                    lambda value=value, other=other: value - other,
                    lambda value=value, other=other: value < other,
                ):
                    self.assertRaises((TypeError, AttributeError), call)
        for value in (Timestamp(0), OffsetDateTime(1970, 1, 1)):
            self.assertFalse(value == pretender(type(value)))
            for call in (value.saturating_add, value.truncated_to, value.__class__.from_rfc3339):
                self.assertRaises(TypeError, call, pretender(str))
                self.assertRaises(TypeError, call, pretender(Duration))
        for kind in (Date, OffsetDateTime):
            for call in (muxandu.days_from_dates, muxandu.seconds_from_date_times):
                self.assertRaises((TypeError, AttributeError), call, [pretender(kind)])

    def test_values_with_no_class(self):
        for value in self.VALUES:
            for call in (
                lambda value=value: value + Shy(),
                lambda value=value: Shy() + value,
                lambda value=value: value - Shy(),
                lambda value=value: value < Shy(),
            ):
                self.assertRaises((TypeError, ZeroDivisionError), call)
        for call in (
            Timestamp(0).saturating_add,
            Timestamp.from_rfc3339,
            Timestamp,
            Timestamp(0).to_offset,
            muxandu.dates_from_days,
        ):
            self.assertRaises((TypeError, ZeroDivisionError), call, Shy())

    def test_of_a_user_derived_from_clocks(self):
        for kind in (UtcDateTime, PlainDateTime):
            mine, sibling = type("Mine", (kind,), {}), type("Sibling", (kind,), {})
            first, second, third = mine(2024, 2, 29), kind(2024, 3, 1), sibling(2024, 3, 2)
            self.assertEqual(
                (second - first, first - second, third - first), (Duration(86_400), Duration(-86_400), Duration(172_800))
            )
            self.assertTrue(first < second < third and third > second > first)
            self.assertEqual((first == kind(2024, 2, 29), first == sibling(2024, 2, 29)), (True, True))
            self.assertEqual((type(first + Duration(1)), type(pickle.loads(pickle.dumps(second)))), (mine, kind))


class Buffers(unittest.TestCase):
    def test_released(self):
        view = memoryview(array.array("q", [1]))
        view.release()
        for call in (
            muxandu.date_times_from_seconds,
            muxandu.days_from_dates,
            muxandu.rfc3339_from_timestamps,
            Timestamp.from_rfc3339,
            lambda view: muxandu.dates_from_days([0], view),
            lambda view: muxandu.timestamps_from_rfc3339(view, view),
            lambda view: muxandu.timestamps_from_rfc3339([view]),
        ):
            self.assertRaises((TypeError, ValueError), call, view)

    def test_are_let_go_of(self):
        memory, seconds = bytearray(80), array.array("q", [0, 2**62])
        out = (muxandu.DateTimeParts * 4).from_buffer(memory)
        self.assertRaises(muxandu.RefusedTimestamp, muxandu.date_times_from_seconds, seconds, 0, out)
        self.assertRaises(TypeError, muxandu.date_times_from_seconds, [0.5], 0, out)
        self.assertRaises(muxandu.RefusedBuffer, muxandu.date_times_from_seconds, range(5), 0, out)
        del out
        gc.collect()
        memory.extend(b"more")
        seconds.append(5)
        text = bytearray(TEXT.encode())
        for call in (Timestamp.from_rfc3339, lambda text: muxandu.timestamps_from_rfc3339([text, text])):
            call(text)
            text.extend(b"")
            text.append(text.pop())
        self.assertEqual((len(memory), len(seconds)), (84, 3))

    def test_spans_are_copied_before_a_call_reads_them(self):
        block, spans, seen = TEXT.encode(), (Span * 1)((0, 20)), []
        for call in (muxandu.timestamps_from_rfc3339, muxandu.date_times_from_rfc3339):

            def kept(*words):
                seen.append(words[2])
                spans[0].length = 2**40
                return 1, 0

            spans[0].length = 20
            with mock.patch.object(engine, call.__name__, kept):
                call(block, spans)
            self.assertEqual(Span.from_buffer_copy(seen.pop()).length, 20)

    def test_spans_that_change_meanwhile(self):
        """Spans that another thread writes: each call reads them once."""
        block, spans, is_over = TEXT.encode() * 2_000, (Span * 2_000)(), threading.Event()
        numbers = memoryview(spans).cast("B").cast("Q")

        def change():
            while not is_over.is_set():
                for at in range(1, 4_000, 2):
                    numbers[at] = 2**40 if numbers[at] == 20 else 20

        thread = threading.Thread(target=change)
        thread.start()
        try:
            for _ in range(200):
                try:
                    muxandu.timestamps_from_rfc3339(block, spans)
                    muxandu.date_times_from_rfc3339(block, spans)
                except (muxandu.RefusedSpan, muxandu.RefusedSyntax):
                    pass
        finally:
            is_over.set()
            thread.join()


class Lives(unittest.TestCase):
    def test_nothing_is_kept(self):
        stamp, shown, gone = Timestamp(1, 2), OffsetDateTime(1970, 1, 1), Duration(3)
        words = (10**6, 10**7, 1234, TEXT, TEXT.encode(), bytearray(TEXT.encode()), datetime.timedelta(1), stamp, shown, gone)
        kinds = (Timestamp, OffsetDateTime, Duration, Date, datetime.timedelta, muxandu.RefusedSyntax, muxandu.RefusedDuration)

        def call_all():
            Timestamp(words[0], words[2]), Duration(words[0], words[1]), Duration(2**62, 2**70), Date(2024, 2, 29)
            Timestamp.from_rfc3339(words[3]), Timestamp.from_rfc3339(words[4]), Timestamp.from_rfc3339(words[5])
            stamp + gone, stamp - gone, words[6] + stamp, stamp - stamp, shown + words[6], shown - shown, gone + words[6]
            stamp < stamp, shown == shown, gone < words[6], hash(stamp), hash(shown), hash(gone), str(stamp), repr(shown)
            copy.copy(stamp), pickle.loads(pickle.dumps(shown)), -gone, abs(gone), gone * 3
            muxandu.timestamps_from_rfc3339(words[3:6]), muxandu.rfc3339_from_timestamps([stamp, stamp])
            muxandu.date_times_from_seconds(words[:3]), muxandu.seconds_from_date_times([shown, shown])
            for wrong in (
                lambda: Timestamp.from_rfc3339("1970"),
                lambda: Timestamp(2**70),
                lambda: Timestamp("1"),
                lambda: Duration(2**70),
                lambda: gone + 5,
                lambda: stamp + None,
                lambda: muxandu.timestamps_from_rfc3339([words[3], "1970"]),
                lambda: muxandu.timestamps_from_rfc3339([words[3], None]),
                lambda: Timestamp(1, second=5),
            ):
                try:
                    wrong()
                except (ValueError, TypeError):
                    pass

        def counts():
            gc.collect()
            return [sys.getrefcount(each) for each in (*words, *kinds)]

        call_all()
        before = counts()
        for _ in range(200):
            call_all()
        grown = [after - first for after, first in zip(counts(), before)]
        self.assertTrue(all(abs(more) < 100 for more in grown), grown)

    def test_values_at_the_end_of_the_program(self):
        program = """
import atexit, threading, muxandu
from muxandu import *
class Last:
    def __init__(self):
        self.at, self.read, self.refused = Timestamp(5), Timestamp.from_rfc3339, Refused
    def __del__(self):
        self.at + (self.at - self.at), hash(self.at), str(self.at)
        try:
            self.read("1970")
        except self.refused:
            pass
keep = Last()
keep.itself = keep
muxandu.keep = Last()
atexit.register(lambda: Timestamp(5) + Duration(1))
thread = threading.Thread(target=lambda: [date_times_from_seconds(range(1000)) for _ in range(10**6)], daemon=True)
thread.start()
"""
        folder = str(Path(muxandu.__file__).resolve().parent.parent)
        paths = os.pathsep.join([folder, *filter(None, [os.environ.get("PYTHONPATH")])])
        words = [sys.executable, "-B", "-X", "dev", "-c", program]
        ended = subprocess.run(words, env={**os.environ, "PYTHONPATH": paths}, capture_output=True, encoding="utf-8", check=False)
        self.assertEqual((ended.returncode, ended.stdout, ended.stderr), (0, "", ""))

    def test_values_stay_as_they_are(self):
        for value, words in ((Time(5), (6,)), (UtcOffset(60), (120,)), (UtcDateTime(2024, 1, 1), (2023, 1, 1))):
            before = repr(value)
            value.__init__(*words)
            self.assertEqual(repr(value), before)


class Program(unittest.TestCase):
    def test_numbers_of_many_digits(self):
        folder = str(Path(muxandu.__file__).resolve().parent.parent)
        paths = os.pathsep.join([folder, *filter(None, [os.environ.get("PYTHONPATH")])])
        for text in ("9" * 5_000, "-" + "9" * 5_000 + ".5", "9" * 30):
            words = [sys.executable, "-B", "-m", "muxandu", text]
            ended = subprocess.run(
                words, env={**os.environ, "PYTHONPATH": paths}, capture_output=True, encoding="utf-8", check=False
            )
            self.assertEqual((ended.returncode, ended.stdout), (1, ""))
            self.assertIn("TIMESTAMP", ended.stderr)
            self.assertNotIn("Traceback", ended.stderr)


if __name__ == "__main__":
    unittest.main()

"""Laws that hold for values of all types, over random values: order, equality, hashes, copies, texts, sums, the clock.

Where Hypothesis is installed it draws values too, and shows the smallest that breaks a law. MUXANDU_ROUNDS is how many values
each loop draws.
"""

import copy
import datetime
import gc
import operator
import os
import pickle
import random
import sys
import threading
import time
import unittest
from array import array

import muxandu
from muxandu import (
    Date,
    DateTimeParts,
    Duration,
    IsoWeekDate,
    OffsetDateTime,
    PlainDateTime,
    Refused,
    Time,
    Timestamp,
    UtcDateTime,
    UtcOffset,
    Zone,
    columns,
)
from muxandu import _extension as engine
from muxandu._refusals import REFUSALS

try:
    import hypothesis
    from hypothesis import strategies
except ImportError:
    hypothesis = None

ROUNDS = int(os.environ.get("MUXANDU_ROUNDS", "300"))
NANO = 10**9
DAY = 86_400
OFFSETS = (-93_599, -3_600, 0, 60, 93_599)
TEXT = "2024-02-28T23:30:00.5-01:00"
BERLIN = Zone.from_rule("CET-1CEST,M3.5.0,M10.5.0/3")


class Draw:
    """Random numbers, one in four of them an end of its range or near 0."""

    def __init__(self, seed):
        self.source = random.Random(seed)

    def number(self, low, high):
        if self.source.random() < 0.25:
            return self.source.choice([end for end in (low, low + 1, -1, 0, 1, high - 1, high) if low <= end <= high])
        return self.source.randint(low, high)


class Drawn:
    """Numbers that Hypothesis draws."""

    def __init__(self, data):
        self.data = data

    def number(self, low, high):
        return self.data.draw(strategies.integers(low, high))


def timestamp(draw):
    return Timestamp(draw.number(Timestamp.MIN.seconds, Timestamp.MAX.seconds), draw.number(0, NANO - 1))


def offset_date_time(draw):
    date, clock = day(draw), time_of_day(draw)
    parts = (date.year, date.month, date.day, clock.hour, clock.minute, clock.second, clock.nanosecond)
    return OffsetDateTime(*parts, draw.number(-93_599, 93_599))


def day(draw):
    return Date.from_day_number(draw.number(Date.MIN.day_number(), Date.MAX.day_number()))


def time_of_day(draw):
    return Time(*(draw.number(0, most) for most in (23, 59, 59, NANO - 1)))


def duration(draw):
    return Duration(draw.number(-(2**62), 2**62), draw.number(-NANO, NANO))


MAKERS = {
    Timestamp: timestamp,
    OffsetDateTime: offset_date_time,
    UtcDateTime: lambda draw: timestamp(draw).to_utc(),
    PlainDateTime: lambda draw: offset_date_time(draw).date_time(),
    Date: day,
    Time: time_of_day,
    Duration: duration,
}


def place(value):
    """The whole number by which values of a type are in order: of nanoseconds, or of days."""
    if isinstance(value, Date):
        return days_of(value.year, value.month, value.day)
    if isinstance(value, (Duration, Timestamp)):
        return value.seconds * NANO + value.nanoseconds
    clock = (value.hour * 3_600 + value.minute * 60 + value.second) * NANO + value.nanosecond
    if isinstance(value, Time):
        return clock
    offset = value.offset_seconds if isinstance(value, OffsetDateTime) else 0
    return (days_of(value.year, value.month, value.day) * DAY - offset) * NANO + clock


def days_of(year, month, of_month):
    """The days from 1970-01-01, by `datetime` and cycles of 400 years."""
    cycles, year = divmod(year, 400)
    return datetime.date(year + 400, month, of_month).toordinal() + (cycles - 1) * 146_097 - 719_163


def check_order(test, first, second):
    """Order, equality and hashes of two values, as of the numbers by which they are in order."""
    one, two = place(first), place(second)
    for how in (operator.lt, operator.le, operator.eq, operator.ne, operator.ge, operator.gt):
        test.assertEqual(how(first, second), how(one, two), (how, first, second))
    if one == two:
        test.assertEqual(hash(first), hash(second), (first, second))


def check_copies(test, value):
    """Pickles, copies, what `repr` writes, and what `str` writes, read back."""
    for protocol in range(pickle.HIGHEST_PROTOCOL + 1):
        check_same(test, value, pickle.loads(pickle.dumps(value, protocol)))
    check_same(test, value, copy.copy(value))
    check_same(test, value, copy.deepcopy(value))
    check_same(test, value, eval(repr(value), vars(muxandu)))  # noqa: S307
    check_same(test, value, type(value).from_text(str(value)))
    test.assertEqual(format(value), str(value))


def check_same(test, value, other):
    test.assertIs(type(other), type(value))
    test.assertEqual((repr(other), other == value, hash(other)), (repr(value), True, hash(value)))


def check_sums(test, value, length):
    """Sums and differences, which saturate where they are past an end."""
    for plain, saturating in ((operator.add, value.saturating_add), (operator.sub, value.saturating_sub)):
        try:
            moved = plain(value, length)
        except Refused:
            test.assertRaises(Refused, plain, value, length)
            continue
        test.assertEqual(place(moved), plain(place(value), place(length)), (plain, value, length))
        test.assertEqual((saturating(length), moved - value), (moved, plain(Duration(), length)))
    try:
        test.assertEqual((length + value, type(length + value)), (value + length, type(value)))
    except Refused:
        test.assertRaises(Refused, operator.add, value, length)


def check_quotients(test, length, number, other):
    """Whole quotients and what is left, of whole numbers of any size."""
    test.assertEqual(place(length // number), place(length) // number, (length, number))
    test.assertEqual(length // other, place(length) // place(other))
    test.assertEqual(place(length % other), place(length) % place(other))
    test.assertEqual(length / other, place(length) / place(other))
    test.assertEqual(divmod(length, other), (length // other, length % other))


class Laws(unittest.TestCase):
    def setUp(self):
        self.draw = Draw(self.id())

    def test_order_equality_and_hashes(self):
        for kind, make in MAKERS.items():
            with self.subTest(kind.__name__):
                for _ in range(ROUNDS):
                    first, second = make(self.draw), make(self.draw)
                    for other in (second, copy.copy(first), eval(repr(first), vars(muxandu))):  # noqa: S307
                        check_order(self, first, other)

    def test_neighbours_are_in_order(self):
        """Values that differ in one part alone, which a comparison must look at."""
        for first, second in (
            (Time(5, 6, 7, 8), Time(5, 6, 7, 9)),
            (Time(5, 6, 7, 8), Time(5, 6, 8, 0)),
            (Time(5, 6, 7, 8), Time(5, 7)),
            (Time(5, 6, 7, 8), Time(6)),
            (Timestamp(5, 8), Timestamp(5, 9)),
            (Date(2024, 2, 28), Date(2024, 2, 29)),
            (Duration(-1, -1), Duration(-1)),
            (PlainDateTime(2024, 2, 29, 5, 6, 7, 8), PlainDateTime(2024, 2, 29, 5, 6, 7, 9)),
            (UtcDateTime(2024, 2, 29, 5, 6, 7, 8), UtcDateTime(2024, 2, 29, 5, 6, 7, 9)),
            (OffsetDateTime(2024, 2, 29, 1, offset_seconds=3_600), OffsetDateTime(2024, 2, 29, nanosecond=1)),
        ):
            check_order(self, first, second)
            check_order(self, second, first)
            check_order(self, first, copy.copy(first))

    def test_is_same_compares_each_part(self):
        """Date-times that differ in one part alone are not the same, also where that is the offset."""
        at = OffsetDateTime(2024, 2, 28, 5, 6, 7, 8, 60)
        self.assertTrue(at.is_same(copy.copy(at)))
        for name in ("year", "month", "day", "hour", "minute", "second", "nanosecond", "offset_seconds"):
            other = at.replace(**{name: getattr(at, name) + 1})
            self.assertEqual((at.is_same(other), other.is_same(at)), (False, False), name)

    def test_copies_and_texts(self):
        for kind, make in MAKERS.items():
            with self.subTest(kind.__name__):
                for _ in range(ROUNDS // 10):
                    check_copies(self, make(self.draw))
        for seconds in OFFSETS:
            check_copies(self, UtcOffset(seconds))
        for value in (
            *(kind.MIN for kind in MAKERS if hasattr(kind, "MIN")),
            *(kind.MAX for kind in MAKERS if hasattr(kind, "MAX")),
        ):
            check_copies(self, value)

    def test_sums(self):
        for kind in (Timestamp, OffsetDateTime, UtcDateTime, PlainDateTime):
            with self.subTest(kind.__name__):
                for most in (1, 10**9, 2**46):
                    for _ in range(ROUNDS // 3):
                        length = Duration(self.draw.number(-most, most), self.draw.number(-NANO, NANO))
                        check_sums(self, MAKERS[kind](self.draw), length)

    def test_sums_with_a_timedelta(self):
        for kind in (Timestamp, OffsetDateTime, UtcDateTime, PlainDateTime):
            value, day_later = kind.UNIX_EPOCH if hasattr(kind, "UNIX_EPOCH") else kind(1970, 1, 1), datetime.timedelta(1)
            self.assertEqual(place(day_later + value), DAY * NANO)
            self.assertEqual((value + day_later, value - -day_later), (day_later + value, day_later + value))
        self.assertEqual(datetime.timedelta(1) + Date(1970, 1, 1), Date(1970, 1, 2))
        self.assertEqual(2 * Duration(1, 1), Duration(2, 2))

    def test_saturating_sums(self):
        for kind in (Timestamp, UtcDateTime, PlainDateTime):
            self.assertEqual((kind.MAX.saturating_add(Duration(1)), kind.MIN.saturating_sub(Duration(1))), (kind.MAX, kind.MIN))
            self.assertEqual(kind.MAX.saturating_sub(Duration(1)), kind.MAX - Duration(1))
            self.assertEqual(kind.MIN.saturating_add(Duration(1)), kind.MIN + Duration(1))
            self.assertEqual(kind.MIN.saturating_sub(Duration.MIN), kind.MAX)

    def test_whole_quotients(self):
        for _ in range(ROUNDS):
            number = self.draw.number(1, 2**40) * (-1) ** self.draw.number(0, 1)
            check_quotients(self, duration(self.draw), number, Duration(0, self.draw.number(1, 10**12)))
        # A float holds no more than 53 bits.
        self.assertEqual(Duration(0, 2**53 + 1) // 1, Duration(0, 2**53 + 1))
        self.assertEqual(Duration(2**62, -1) // 3, Duration(0, (2**62 * NANO - 1) // 3))
        self.assertEqual(Duration(0, -1) // 2, Duration(0, -1))

    def test_datetime_rounds_down(self):
        for nanosecond in (0, 1, 499, 500, 999, 1_000, 1_999, 999_999_499, 999_999_500, 999_999_999):
            wanted = nanosecond // 1_000
            self.assertEqual(Time(23, 59, 59, nanosecond).to_time(), datetime.time(23, 59, 59, wanted))
            for value in (
                OffsetDateTime(1969, 12, 31, 23, 59, 59, nanosecond),
                UtcDateTime(1969, 12, 31, 23, 59, 59, nanosecond),
                PlainDateTime(1969, 12, 31, 23, 59, 59, nanosecond),
                Timestamp(-1, nanosecond),
            ):
                shown = value.to_datetime()
                self.assertEqual((shown.second, shown.microsecond), (59, wanted))
            length = Duration(-1, nanosecond)
            self.assertEqual(length.to_timedelta(), datetime.timedelta(seconds=-1, microseconds=wanted))

    def test_many_of_the_longest_texts(self):
        at = OffsetDateTime(9999, 12, 31, 23, 59, 59, 999_999_999, -86_340)
        self.assertEqual(len(at.to_rfc3339()), 35)
        for many in ([at] * 50, (at,) * 50):
            self.assertEqual(muxandu.rfc3339_from_date_times(many), [at.to_rfc3339()] * 50)


class Clock(unittest.TestCase):
    def test_now(self):
        for made in (lambda offset: Timestamp.now(), lambda offset: UtcDateTime.now(), OffsetDateTime.now):
            for offset in OFFSETS:
                before = time.time_ns()
                at = made(offset)
                after = time.time_ns()
                stamp = at if isinstance(at, Timestamp) else at.to_timestamp()
                self.assertLessEqual(before, place(stamp))
                self.assertLessEqual(place(stamp), after)
        for offset in OFFSETS:
            self.assertEqual(OffsetDateTime.now(offset).offset_seconds, offset)
        shown, plain = UtcDateTime.now(), datetime.datetime.now(datetime.timezone.utc)
        self.assertLess(abs(plain - shown.to_datetime()), datetime.timedelta(minutes=1))
        self.assertEqual(OffsetDateTime.now().offset_seconds, 0)


class Refusals(unittest.TestCase):
    def test_pickles(self):
        for kind in REFUSALS.values():
            for words in ((), (7,), (None, 5), (7, "text"), (None, "text", 3)):
                refused = kind(*words)
                again = pickle.loads(pickle.dumps(refused))
                self.assertEqual((type(again), str(again)), (kind, str(refused)))
                self.assertEqual((again.count, again.value, again.place), (refused.count, refused.value, refused.place))
            self.assertIs(getattr(muxandu, kind.__name__), kind)


class Lengths(datetime.timedelta):
    """A timedelta whose days are another large number each time."""

    count = 10**5

    @property
    def days(self):
        Lengths.count += 1
        return Lengths.count


def refused(call):
    try:
        call()
    except (Refused, TypeError):
        pass


def refused_by_python(call):
    try:
        call()
    except ValueError:
        pass


class Kept(unittest.TestCase):
    """Calls that keep nothing: no blocks of memory, no references."""

    CALLS = {
        "a text in a str": lambda: Timestamp.from_rfc3339(TEXT),
        "a text in a bytearray": lambda: Timestamp.from_rfc3339(bytearray(TEXT.encode())),
        "a text in a memoryview": lambda: OffsetDateTime.from_rfc3339(memoryview(TEXT.encode())),
        "a timedelta of a user's class": lambda: Timestamp(0) + Lengths(1),
        "a large duration": lambda: Duration(2**62, 2**70),
        "a refused number": lambda: refused(lambda: Timestamp(2**70)),
        "a refused part": lambda: refused(lambda: OffsetDateTime(2024, 13, 1)),
        "a refused text": lambda: refused(lambda: Timestamp.from_rfc3339("x")),
        "a refused text in a bytearray": lambda: refused(lambda: Timestamp.from_rfc3339(bytearray(b"x"))),
        "a wrong type": lambda: refused(lambda: Timestamp(0).to_offset("Z")),
        "an argument that is not there": lambda: refused(lambda: Date(2024, 1)),
        "an argument of another name": lambda: refused(lambda: Date(2024, 1, 1, week=1)),
        "a list of texts": lambda: muxandu.timestamps_from_rfc3339([TEXT, bytearray(TEXT.encode())]),
        "a list of refused texts": lambda: refused(lambda: muxandu.timestamps_from_rfc3339([TEXT, "x"])),
        "a list of instants": lambda: muxandu.rfc3339_from_timestamps([Timestamp(0)] * 3),
        "a sequence of instants": lambda: muxandu.rfc3339_from_timestamps((Timestamp(0),) * 3),
        "seconds": lambda: muxandu.date_times_from_seconds(array("q", [0, 1])),
        "moments as objects": lambda: engine.items_from_moments(bytearray(48), 3, None),
        "moments as objects, up to one out of range": lambda: engine.items_from_moments(b"\0" * 20 + b"\xff" * 28, 3, None),
        "objects as moments": lambda: engine.moments_from_items([None, Timestamp(0)], bytearray(32), None),
        "a text by a description": lambda: OffsetDateTime(2024, 1, 1).format("[year]"),
        "an instant and a date-time": lambda: (
            Timestamp(0) - OffsetDateTime(2024, 1, 1),
            Timestamp(0) < OffsetDateTime(2024, 1, 1),
        ),
        "values of datetime": lambda: (
            OffsetDateTime(2024, 2, 29, offset_seconds=60).to_datetime(),
            OffsetDateTime(2024, 2, 29, offset_seconds=-60).to_datetime(),
            Timestamp(0).to_datetime(),
            PlainDateTime(2024, 2, 29).to_datetime(),
        ),
        "a year that datetime lacks": lambda: refused_by_python(PlainDateTime(0, 1, 1).to_datetime),
        "parts and ISO weeks": lambda: (OffsetDateTime(2024, 2, 29).__reduce__(), Date(2024, 2, 29).to_iso_week_date()),
        "units by name": lambda: (
            Duration(hours=1),
            refused(lambda: Duration(hours=1, months=1)),
            refused(lambda: Duration(days=2**70)),
        ),
        "the clock now": lambda: (OffsetDateTime.now(60), UtcDateTime.now(), refused(lambda: OffsetDateTime.now(10**6))),
        "formats": lambda: (f"{OffsetDateTime(2024, 2, 29):%d.%m.%Y}", f"{Date(2024, 2, 29):%d}", f"{Time(1):%H}"),
        "a time zone": lambda: (
            Zone.from_rule("UTC0"),
            refused(lambda: Zone.from_rule("UTC")),
            refused_by_python(lambda: Zone("../x")),
        ),
        "clocks of a time zone": lambda: (
            Timestamp(0).to_zone(BERLIN),
            BERLIN.offset_at(OffsetDateTime(2024, 1, 1)),
            BERLIN.next_transition(Timestamp(0)),
            *(BERLIN.instants_of(PlainDateTime(2024, month, day, 2)) for month, day in ((3, 31), (7, 1), (10, 27))),
            PlainDateTime(2024, 3, 31, 2).at_zone(BERLIN),
            refused(lambda: PlainDateTime(2024, 3, 31, 2).at_zone(BERLIN, "reject")),
            columns.moments_to_zone([OffsetDateTime(2024, 1, 1)], BERLIN),
        ),
        "sums and hashes": lambda: hash(Timestamp(5) + Duration(7)),
        "texts": lambda: (str(Timestamp(10**6, 5)), repr(OffsetDateTime(2024, 2, 29)), str(Date(2024, 2, 29))),
    }

    def test_no_block_is_kept(self):
        for name, call in self.CALLS.items():
            with self.subTest(name):
                for _ in range(50):
                    call()
                gc.collect()
                before = sys.getallocatedblocks()
                for _ in range(1_000):
                    call()
                gc.collect()
                self.assertLess(sys.getallocatedblocks() - before, 200)

    def test_a_type_is_let_go_of(self):
        """A value holds its type, and lets it go when it goes."""
        kinds = (Timestamp, OffsetDateTime, Duration, Date)
        values = {kind: MAKERS[kind](Draw(1)) for kind in kinds}
        before = [sys.getrefcount(kind) for kind in kinds]
        for kind in kinds:
            for _ in range(1_000):
                copy.copy(values[kind])
        grown = [sys.getrefcount(kind) - first for kind, first in zip(kinds, before)]
        self.assertTrue(all(abs(more) < 100 for more in grown), grown)

    def test_the_extension_holds_what_it_is_given(self):
        from muxandu._words import as_bytes

        words = (REFUSALS, as_bytes, IsoWeekDate)
        before = [sys.getrefcount(word) for word in words]
        engine.bind(*words)
        self.assertEqual([sys.getrefcount(word) for word in words], before)


class Locks(unittest.TestCase):
    """Calls over many items run beside other threads of Python."""

    COUNT = 300_000
    TRIES = 100

    def ticks_beside(self, call):
        """How often another thread runs during a call, where no thread is made to give way: a call that keeps the lock of
        the interpreter lets none run."""
        begun, ended, ticks = threading.Event(), [], 0

        def run():
            begun.set()
            call()
            ended.append(True)

        thread = threading.Thread(target=run)
        thread.start()
        begun.wait()
        while not ended:
            ticks += 1
            time.sleep(0)
        thread.join()
        return ticks

    def test_calls_over_many_items_let_go_of_the_lock(self):
        seconds, out = array("q", range(self.COUNT)), (DateTimeParts * self.COUNT)()
        back, statuses = array("q", bytes(8 * self.COUNT)), array("I", bytes(4 * self.COUNT))
        switch = sys.getswitchinterval()
        sys.setswitchinterval(100)
        try:
            for name, call in (
                ("date_times_from_seconds", lambda: muxandu.date_times_from_seconds(seconds, 0, out)),
                ("seconds_from_date_times", lambda: muxandu.seconds_from_date_times(out, back)),
                ("date_times_from_each_second", lambda: muxandu.date_times_from_each_second(seconds, 0, out, statuses)),
            ):
                with self.subTest(name):
                    call()
                    # The first tick can come before the call begins.
                    self.assertTrue(any(self.ticks_beside(call) > 1 for _ in range(self.TRIES)))
        finally:
            sys.setswitchinterval(switch)


@unittest.skipIf(hypothesis is None, "Hypothesis is not there")
class Hypothesis(unittest.TestCase):
    """The same laws over values that Hypothesis draws, and shrinks where one breaks a law."""

    def try_all(self, law):
        """Tries a law on what Hypothesis draws."""
        settings = hypothesis.settings(max_examples=25, deadline=None, database=None, derandomize=True)
        settings(hypothesis.given(strategies.data())(lambda data: law(Drawn(data))))()

    def test_order_equality_and_hashes(self):
        for make in MAKERS.values():
            self.try_all(lambda draw, make=make: check_order(self, make(draw), make(draw)))

    def test_copies_and_texts(self):
        for make in MAKERS.values():
            self.try_all(lambda draw, make=make: check_copies(self, make(draw)))

    def test_sums(self):
        for kind in (Timestamp, OffsetDateTime, UtcDateTime, PlainDateTime):
            self.try_all(lambda draw, make=MAKERS[kind]: check_sums(self, make(draw), duration(draw)))

    def test_quotients(self):
        self.try_all(
            lambda draw: check_quotients(self, duration(draw), draw.number(1, 2**40), Duration(0, draw.number(1, 10**12)))
        )

    def test_texts_are_read_or_refused(self):
        """A text is read as `str` writes it, or is refused, whatever it is; none of these is a text of RFC 3339."""

        def law(draw):
            text = draw.data.draw(strategies.text(max_size=40) | strategies.from_regex(r"[-+0-9:. Zs]{0,40}", fullmatch=True))
            for kind in (*MAKERS, UtcOffset):
                try:
                    self.assertEqual(str(kind.from_text(text)), text)
                except Refused:
                    pass
            with self.assertRaises(muxandu.RefusedSyntax) as caught:
                OffsetDateTime.from_rfc3339(text)
            self.assertEqual(caught.exception.place, muxandu.rfc3339_fault(text))
            self.assertLessEqual(caught.exception.place, len(text.encode()))

        self.try_all(law)

    def test_buffers(self):
        """Numbers of any size in a buffer go to date-times and back, or the first that is refused is named."""

        def law(draw):
            seconds = array(
                "q", draw.data.draw(strategies.lists(strategies.integers(-(2**63), 2**63 - 1) | SECONDS, max_size=6))
            )
            offset = draw.number(-93_599, 93_599)
            shown, statuses = muxandu.date_times_from_each_second(seconds, offset)
            wanted = [place_shown(second, offset) for second in seconds]
            self.assertEqual([status == 0 for status in statuses], [one is not None for one in wanted])
            found = [place(OffsetDateTime.from_parts(item)) if one is not None else None for item, one in zip(shown, wanted)]
            self.assertEqual(found, wanted)
            try:
                back = muxandu.seconds_from_date_times(muxandu.date_times_from_seconds(seconds, offset))
                self.assertEqual(back, seconds)
            except Refused as refusal:
                self.assertEqual(refusal.count, wanted.index(None))

        self.try_all(law)


SECONDS = None if hypothesis is None else strategies.integers(Timestamp.MIN.seconds - 1, Timestamp.MAX.seconds + 1)


def place_shown(second, offset):
    """The nanoseconds of a second that clocks at an offset show within the range, else None."""
    is_shown = all(Timestamp.MIN.seconds <= at <= Timestamp.MAX.seconds for at in (second, second + offset))
    return second * NANO if is_shown else None


if __name__ == "__main__":
    unittest.main()

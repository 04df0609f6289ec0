#!/usr/bin/env python3
"""Random columns given to the calls of muxandu.columns, each judged by a plain reader of the same memory.

    column_buffers.py [COUNT [SEED]]

The buffers are those of buffers.py. Here a call has two columns, or a column and a random argument, or a block of texts with
spans. The columns, the results and the statuses lie in up to four pieces of memory, so that each may overlap each. Where NumPy is
there, a column is also an array whose items lie any number of bytes apart, also none, so that items overlap; an array or an array
of ctypes that says another length of itself; an object that makes such an array; an array with a mask; durations as timedelta64 of
each unit. Rows are gaps, or out of range, or at an end of the range. A call of `each` must mark each gap, and no other row, as
missing, and each row that fails. Every call must read what the reader reads, and write its results and nothing else.

The package is that of the sources, or with MUXANDU_INSTALLED that which is installed. The last line is 'N passed, M failed', a
call each.
"""

import ctypes
import random
import sys
from pathlib import Path

sys.path[:0] = [str(Path(__file__).resolve().parent)]

import buffers  # noqa: E402
from buffers import (  # noqa: E402
    DATE_TIMES,
    MOMENTS,
    ORDERS,
    ROOM,
    SPANS,
    STAMPS,
    STATUSES,
    Place,
    calendar,
    columns,
    muxandu,
    numpy,
)  # noqa: E402
from buffers import known_moment, moment_at, refusal_of_results, refusal_of_source  # noqa: E402

# A block of so few rows that columns have several.
muxandu._columns.BLOCK = 3

DURATIONS = ((("seconds", "i8", 0), ("nanoseconds", "i4", 8)), 16)
NO_SECOND = columns.NO_SECOND
NANO = 10**9

# The ends of what a duration may be, in nanoseconds.
LEAST, MOST = -(2**63) * NANO - 999_999_999, (2**63 - 1) * NANO + 999_999_999

UNITS = {"DAY": 86_400 * NANO, "HOUR": 3_600 * NANO, "MINUTE": 60 * NANO, "SECOND": NANO}
UNITS.update({"MILLISECOND": 10**6, "MICROSECOND": 10**3, "NANOSECOND": 1})


# The plain reader: whole numbers of nanoseconds.


def moment_of_nanoseconds(count, offset):
    return moment_at(*divmod(count, NANO), offset)


def nanoseconds_of(moment):
    return moment["seconds"] * NANO + moment["nanoseconds"]


def length_of(duration):
    """The nanoseconds of a duration, or None out of range."""
    length = duration["seconds"] * NANO + duration["nanoseconds"]
    return length if LEAST <= length <= MOST else None


def later(moment, duration, sign=1):
    length = length_of(duration)
    if known_moment(moment) is None or length is None:
        return None
    return moment_of_nanoseconds(nanoseconds_of(moment) + sign * length, moment["offset_seconds"])


def earlier(moment, duration):
    return later(moment, duration, -1)


def order(one, other):
    if known_moment(one) is None or known_moment(other) is None:
        return None
    first, second = nanoseconds_of(one), nanoseconds_of(other)
    return {"": (first > second) - (first < second)}


def difference(one, other):
    if known_moment(one) is None or known_moment(other) is None:
        return None
    length = nanoseconds_of(one) - nanoseconds_of(other)
    seconds, rest = divmod(abs(length), NANO)
    return {"seconds": seconds, "nanoseconds": rest} if length >= 0 else {"seconds": -seconds, "nanoseconds": -rest}


def shown_at(offset):
    def plain(moment):
        return known_moment(moment) and moment_at(moment["seconds"], moment["nanoseconds"], offset)

    return plain


def rounded_to(unit):
    def plain(moment):
        if known_moment(moment) is None:
            return None
        shift = moment["offset_seconds"] * NANO
        wall = (nanoseconds_of(moment) + shift) // UNITS[unit.name] * UNITS[unit.name]
        return moment_of_nanoseconds(wall - shift, moment["offset_seconds"])

    return plain


def months_later(months):
    def plain(moment):
        if known_moment(moment) is None:
            return None
        day, clock = divmod(moment["seconds"] + moment["offset_seconds"], 86_400)
        year, month, of_month = calendar.civil_date(day)
        year, month = (12 * year + month - 1 + months) // 12, (month - 1 + months) % 12 + 1
        if not calendar.FIRST_YEAR <= year <= calendar.LAST_YEAR:
            return None
        day = calendar.day_number(year, month, min(of_month, calendar.month_length(year, month)))
        return moment_at(day * 86_400 + clock - moment["offset_seconds"], moment["nanoseconds"], moment["offset_seconds"])

    return plain


# Calls of two columns: the kind of the second, that of the results, and the plain reader.
PAIRS = (
    (columns.moments_add, columns.each_moment_add, DURATIONS, MOMENTS, later),
    (columns.moments_subtract, columns.each_moment_subtract, DURATIONS, MOMENTS, earlier),
    (columns.moments_compare, columns.each_moment_compare, MOMENTS, ORDERS, order),
    (columns.moments_difference, columns.each_moment_difference, MOMENTS, DURATIONS, difference),
)


def some_single(source):
    """Calls of one column and an argument, that argument, and the plain reader."""
    kind = source.randrange(3)
    if kind == 0:
        offset = source.choice((0, 3_600, -93_599, 93_599, source.randint(-93_599, 93_599)))
        return (columns.moments_to_offset, columns.each_moment_to_offset, offset, shown_at(offset))
    if kind == 1:
        unit = source.choice([unit for unit in muxandu.Unit if unit.name in UNITS])
        return (columns.moments_truncate, columns.each_moment_truncate, unit, rounded_to(unit))
    months = source.choice((0, 1, -1, 12, source.randint(-100, 100), source.randint(-(2**31), 2**31 - 1)))
    return (columns.moments_add_months, columns.each_moment_add_months, months, months_later(months))


# Columns.


def some_row(source):
    """The numbers of a row of any kind: nearly always ones that calls take, and also a gap or an end of the range."""
    values = buffers.some_values(source)
    chosen = source.random()
    if chosen < 0.12:
        values["seconds"] = NO_SECOND
    elif chosen < 0.2:
        values["seconds"] = source.choice((calendar.FIRST_SECOND, calendar.LAST_SECOND)) + source.randint(-1, 1)
        values["offset_seconds"] = source.choice((0, 93_599, -93_599, 1, -1))
    elif chosen < 0.3:
        values["offset_seconds"], values["nanoseconds"] = 0, source.choice((0, 999_999_999))
    return values


def some_length(source):
    """The numbers of a duration, of any signs."""
    seconds = source.choice(
        (0, source.randint(-(10**6), 10**6), source.randint(-(10**14), 10**14), source.randint(-(2**63), 2**63 - 1))
    )
    seconds = source.choice((seconds, seconds, -(2**63), 2**63 - 1)) if source.random() < 0.1 else seconds
    nanoseconds = source.choice((0, source.randint(-(10**9) + 1, 10**9 - 1), source.randint(-(2**31), 2**31 - 1)))
    return {"seconds": seconds, "nanoseconds": nanoseconds}


def dtype_of(kind):
    """The type of NumPy for items of a kind, or None if it has bits."""
    mark = "<" if kind.order == "little" else ">"
    names, forms, places = zip(*kind.numbers)
    if "bits" in forms:
        return None
    if names == ("",):
        return numpy.dtype(mark + forms[0])
    forms = [mark + form for form in forms]
    return numpy.dtype({"names": names, "formats": forms, "offsets": places, "itemsize": kind.size})


class Strided:
    """An array of NumPy of items of a kind, any number of bytes apart."""

    def __init__(self, source, kind, memory, dtype):
        self.kind, self.memory = kind, memory
        self.count = source.randint(0, buffers.MOST_ITEMS)
        size = kind.size
        step = source.choice((size, size, 2 * size, -size, -2 * size, 0, 4, -4, 8, size - 1, size + 1, source.randint(-40, 40)))
        step = step if abs(step) * max(self.count - 1, 0) + size <= len(memory) else size
        reach = abs(step) * max(self.count - 1, 0) + size
        least = source.randrange(len(memory) - reach + 1)
        least -= least % source.choice((1, 4, 8, 8)) if least >= 8 else 0
        self.first = least if step >= 0 else least + reach - size
        self.starts = [self.first + step * item for item in range(self.count)]
        self.view = numpy.ndarray((self.count,), dtype, memory, self.first, (step,))
        self.is_side_by_side = step == size or self.count <= 1
        self.is_read_only = source.random() < 0.1
        self.view.flags.writeable = not self.is_read_only
        self.step = step

    def told(self):
        return f"NumPy {self.view.dtype} at {self.starts} of {len(self.memory)}"


def lying_array(view, length):
    """The same array of NumPy, which says another length of itself."""

    class Lying(numpy.ndarray):
        def __len__(self):
            return length

    return view.view(Lying)


def lying_structures(kind, source, memory, length):
    """An array of ctypes that says another length of itself, and its place in the memory."""
    count, form = source.randint(1, buffers.MOST_ITEMS), kind * 1
    whole = type("Lying", (form._type_ * count,), {"__len__": lambda self: length})
    first = 8 * source.randrange((len(memory) - ctypes.sizeof(whole)) // 8 + 1)
    return whole.from_buffer(memory, first), [first + ctypes.sizeof(kind) * item for item in range(count)]


class Maker:
    """An object that makes an array of NumPy, a new one each time."""

    def __init__(self, view):
        self.view = view

    def __array__(self, dtype=None):
        return self.view.view()


class Column:
    """What a call gets as a column: an object, its kind, its memory, where each item begins, and which of them are masked."""

    def __init__(self, given, kind, memory, starts, masked=(), told=""):
        self.given, self.kind, self.memory, self.starts = given, kind, memory, starts
        self.count, self.masked, self.words = len(starts), set(masked), told

    def read(self):
        return [self.kind.read(self.memory, start) for start in self.starts]

    def told(self):
        return f"{self.words} {self.kind.told} at {self.starts}, masked {sorted(self.masked)}"


STRUCTURES = {MOMENTS: columns.MomentParts, DURATIONS: columns.DurationParts}


def some_column(source, kinds, wanted, memory):
    """A column of a kind that is wanted, or of another."""
    kind, chosen = source.choice(kinds[wanted]), source.random()
    if chosen < 0.1:
        length = source.choice((0, 1, 10**6, 2**63 - 1))
        given, starts = lying_structures(STRUCTURES[wanted], source, memory, length)
        return Column(given, kinds["exact"][wanted], memory, starts, told=f"ctypes that says {length}")
    if numpy is None or chosen < 0.5 or dtype_of(kind) is None:
        place = Place(source, kind, memory)
        return Column(place.view, kind, memory, place.starts, told=place.told())
    place = Strided(source, kind, memory, dtype_of(kind))
    view, told = place.view, place.told()
    if chosen < 0.6:
        return Column(lying_array(view, source.choice((0, 1, 10**6))), kind, memory, place.starts, told=f"lying {told}")
    if chosen < 0.7:
        return Column(Maker(view), kind, memory, place.starts, told=f"made {told}")
    if chosen < 0.8:
        mask = [source.random() < 0.3 for _ in place.starts]
        given = numpy.ma.array(
            view, mask=[(each,) * len(kind.numbers) for each in mask] if view.dtype.names else mask, copy=False
        )
        masked = [number for number, each in enumerate(mask) if each]
        return Column(given, kind, memory, place.starts, masked, f"masked {told}")
    return Column(view, kind, memory, place.starts, told=told)


class Timedeltas:
    """A column of durations as timedelta64, of so many of a unit."""

    def __init__(self, source, memory):
        self.unit, self.many = source.choice((*buffers.ATTOSECONDS, *buffers.ATTOSECONDS, *buffers.MONTHS)), source.choice(
            (1, 1, 7)
        )
        dtype = numpy.dtype(f"{source.choice('<<<>')}m8[{self.many}{self.unit}]")
        kind = buffers.Kind([("", "i8", 0)], 8, "big" if dtype.byteorder == ">" else "little", None, f"NumPy {dtype}")
        place = Strided(source, kind, memory, dtype)
        self.given, self.kind, self.memory, self.starts = (place.view, kind, memory, place.starts)
        self.count, self.masked = place.count, set()

    def read(self):
        found = []
        for start in self.starts:
            count = self.kind.read(self.memory, start)[""]
            if self.unit in buffers.MONTHS:
                found.append(None)
                continue
            seconds, rest = divmod(count * self.many * buffers.ATTOSECONDS[self.unit] // NANO, NANO)
            found.append({"seconds": seconds, "nanoseconds": rest, "is_gap": count == -(2**63)})
        return found

    def told(self):
        return f"{self.kind.told} at {self.starts}"


class OneForAll:
    """A value that a call takes for all rows of a column."""

    masked = frozenset()

    def __init__(self, source, wanted, column):
        self.memory, self.count = column.memory, column.count
        if wanted is MOMENTS:
            seconds = source.choice((calendar.FIRST_SECOND, calendar.LAST_SECOND, source.randint(-(10**10), 10**10)))
            is_end = abs(seconds) > 10**10
            numbers = (seconds, source.choice((0, 999_999_999)), 0 if is_end else source.randint(-93_599, 93_599))
            self.given = muxandu.Timestamp(*numbers[:2]).to_offset(numbers[2])
            self.row = dict(zip(("seconds", "nanoseconds", "offset_seconds"), numbers))
        else:
            sign, bits = source.choice((-1, 1)), source.choice((0, 20, 45, 63))
            numbers = sign * source.randrange(2**bits), sign * source.choice((0, 1, 999_999_999))
            self.given, self.row = muxandu.Duration(*numbers), dict(zip(("seconds", "nanoseconds"), numbers))

    def read(self):
        return [self.row] * self.count

    def told(self):
        return f"{self.given!r} for {self.count}"


def put(source, column, make):
    """Writes rows into a column, nearly always."""
    for start in column.starts:
        if source.random() < 0.95:
            column.kind.write(column.memory, start, make(source))


def put_counts(source, column):
    """Writes counts into a column of timedelta64."""
    for start in column.starts:
        bits = source.choice((8, 20, 33, 45, 50, 58, 63))
        count = source.choice((source.randrange(-(2**bits), 2**bits), -(2**63), -(2**63) + 1, 2**63 - 1))
        column.kind.write(
            column.memory, start, {"": count if source.random() < 0.3 else source.randrange(-(2**bits), 2**bits)}
        )


def refusal_of_column(column, wanted):
    """The error that a column must end in, if any."""
    if isinstance(column, OneForAll):
        return None
    if isinstance(column, Timedeltas):
        return TypeError if column.unit in buffers.MONTHS else None
    return refusal_of_source(column, wanted)


def gaps_of(column, rows):
    """Which rows of a column are gaps."""
    if isinstance(column, OneForAll):
        return set()
    if isinstance(column, Timedeltas):
        return {number for number, row in enumerate(rows) if row and row["is_gap"]}
    names = {name for name, _, _ in column.kind.numbers}
    gaps = {number for number, row in enumerate(rows) if "offset_seconds" in names and row.get("seconds") == NO_SECOND}
    return gaps | column.masked


# Comparisons.


def out_of(source, kinds, wanted, memories):
    """A place for results, in one of the pieces of memory."""
    return Place(source, source.choice(kinds[wanted]), source.choice(memories), is_out=True)


def judge(source, kinds, calls, words, memories, made, refused, answers, places, told=""):
    """Makes one of two calls, that which stops or that which continues, and counts how it ended. `answers` gives the items and the
    gaps that it must have, unless it is refused."""
    call, each = calls
    out, statuses = out_of(source, kinds, made, memories[:3]), None
    if each and source.random() < 0.5:
        call, statuses = each, out_of(source, kinds, STATUSES, memories)
    refused = refused or refusal_of_results(out, made, statuses)
    items, gaps = ([], set()) if refused else answers()
    problem = buffers.judged(call, words, items, out, statuses, refused, gaps, places, keeps_bytes=False)
    buffers.count(problem, call.__name__, told, *(place.told() for place in (*places, out, statuses) if place))


def refusal_of_sources(sources, wanted):
    """The error that columns must end in, if any."""
    refused = None
    for column, kind in zip(sources, wanted):
        refused = refused or refusal_of_column(column, kind)
    return refused or (ValueError if len({column.count for column in sources}) > 1 else None)


def compare_pair(source, kinds):
    """Calls of two columns."""
    call, each, second, made, plain = source.choice(PAIRS)
    memories = [bytearray(source.randbytes(ROOM)) for _ in range(4)]
    one = some_column(source, kinds, MOMENTS, memories[0])
    if numpy and second is DURATIONS and source.random() < 0.3:
        other = Timedeltas(source, source.choice(memories[:2]))
    else:
        other = some_column(source, kinds, second, source.choice(memories[:2]))
    while other.count != one.count and source.random() < 0.9:
        other = some_column(source, kinds, second, other.memory)
    put(source, one, some_row)
    if source.random() < 0.2:
        other = OneForAll(source, second, one)
    elif isinstance(other, Timedeltas):
        put_counts(source, other)
    else:
        put(source, other, some_row if second is MOMENTS else some_length)
    if source.random() < 0.2 and one.count == other.count and second is MOMENTS:
        other = one
    refused = refusal_of_sources((one, other), (MOMENTS, second))
    words, answers = [one.given, other.given], lambda: items_of_pair(one, other, plain)
    judge(source, kinds, (call, each), words, memories, made, refused, answers, (one, other))


def items_of_pair(one, other, plain):
    """The result of each row, which is None for a row that fails, and which rows are gaps."""
    first, second = one.read(), other.read()
    gaps = gaps_of(one, first) | gaps_of(other, second)
    return [None if number in gaps else plain(*pair) for number, pair in enumerate(zip(first, second))], gaps


def compare_single(source, kinds):
    """Calls of one column and an argument."""
    call, each, word, plain = some_single(source)
    memories = [bytearray(source.randbytes(ROOM)) for _ in range(3)]
    one = some_column(source, kinds, MOMENTS, memories[0])
    put(source, one, some_row)

    def answers():
        rows = one.read()
        gaps = gaps_of(one, rows)
        return [None if number in gaps else plain(row) for number, row in enumerate(rows)], gaps

    refused = refusal_of_sources((one,), (MOMENTS,))
    judge(source, kinds, (call, each), [one.given, word], memories, MOMENTS, refused, answers, (one,), str(word))


TEXT_CALLS = (
    (muxandu.timestamps_from_rfc3339, None, STAMPS),
    (columns.moments_from_rfc3339, columns.moments_from_each_rfc3339, MOMENTS),
    (muxandu.date_times_from_rfc3339, muxandu.date_times_from_each_rfc3339, DATE_TIMES),
)


def text_and_item(source, made):
    """A text, and its row of a kind, or None for one that fails."""
    text, shown = buffers.text_and_meaning(source, DATE_TIMES)
    if shown is None or made is DATE_TIMES:
        return text, shown
    moment = buffers.moment_of_date_time(shown)
    return text, {name: moment[name] for name, _, _ in made[0]}


def compare_texts(source, kinds):
    """Texts of a block by spans, which may overlap, or end outside the block."""
    call, each, made = source.choice(TEXT_CALLS)
    memories = [bytearray(source.randbytes(ROOM)) for _ in range(4)]
    spans = Place(source, source.choice(kinds[SPANS]), source.choice(memories[:2]))
    text, item = text_and_item(source, made)
    at = source.randrange(ROOM - len(text) + 1)
    for start in spans.starts:
        span = {"start": at, "length": len(text)}
        if source.random() < 0.2:
            span = {
                "start": source.choice((0, ROOM, ROOM - 1, 2**64 - 1, source.randrange(ROOM))),
                "length": source.choice((0, 20, 2**64 - 1)),
            }
        spans.kind.write(spans.memory, start, span)
    memories[0][at : at + len(text)] = text
    block = memories[0] if source.random() < 0.7 else bytes(memories[0])

    def answers():
        said = [spans.kind.read(spans.memory, start) for start in spans.starts]
        return [item if span == {"start": at, "length": len(text)} else None for span in said], set()

    refused = None if spans.count == 0 or spans.kind.is_exactly(SPANS) else TypeError
    places = (spans, Column(None, spans.kind, memories[0], []))
    judge(source, kinds, (call, each), [block, spans.view], memories, made, refused, answers, places, f"{text} at {at}")


def some_kinds(source, variety):
    """Kinds of items for each that is wanted, and that which is exactly so."""
    wanted = (MOMENTS, DURATIONS, ORDERS, DATE_TIMES, SPANS, STAMPS, STATUSES)
    kinds = buffers.some_kinds(source, wanted, variety)
    return kinds | {"exact": {each: buffers.exact_kind(each) for each in wanted}}


COMPARISONS = (compare_pair, compare_pair, compare_single, compare_texts)


def main():
    numbers = [int(word) for word in sys.argv[1:]]
    calls, seed = (*numbers, *(20_000, 1)[len(numbers) :])
    source = random.Random(seed)
    kinds = some_kinds(source, min(max(calls // 50, 100), 3_000))
    for _ in range(calls):
        source.choice(COMPARISONS)(source, kinds)
    print(f"{calls} calls of columns, {'with' if numpy else 'without'} NumPy, seed {seed}")
    print(f"{buffers.passed} passed, {buffers.failed} failed")
    sys.exit(1 if buffers.failed or not buffers.passed else 0)


if __name__ == "__main__":
    main()

#!/usr/bin/env python3
"""Random buffers given to the calls over many items of the Python package, each judged by a plain reader of the same memory.

    buffers.py [COUNT [SEED]]

A buffer is of structures or numbers of any kind: in another order, of another byte order, of other sizes, signs or floats,
packed, of bits, nested; it begins anywhere, goes by steps forwards and back, can be read-only, and lies over the place of the
results or apart from it. A call must take what its documentation says, and refuse all else with a TypeError or a ValueError
and write nothing. The reader knows where each number lies from how the buffer was made, reads the bytes before the call, and
counts dates by gate/shared/civil.py. Where NumPy is there, half of the kinds are its own, and arrays of its datetime64, of each unit,
go in and out.

The package is that of the sources, or with MUXANDU_INSTALLED that which is installed. The last line is 'N passed, M failed', a
call each.
"""

import ctypes
import os
import random
import sys
from pathlib import Path

HERE = Path(__file__).resolve().parent
sys.path[:0] = [str(HERE.parents[3] / "gate")]
if not os.environ.get("MUXANDU_INSTALLED"):
    sys.path[:0] = [str(HERE.parents[1])]
sys.dont_write_bytecode = True

from shared import civil as calendar  # noqa: E402
from shared import rfc3339  # noqa: E402

import muxandu  # noqa: E402
from muxandu import columns  # noqa: E402

try:
    import numpy
except ImportError:
    numpy = None

NATIVE = sys.byteorder
OTHER = "big" if NATIVE == "little" else "little"
BASES = {
    "little": ctypes.Structure if NATIVE == "little" else ctypes.LittleEndianStructure,
    "big": ctypes.Structure if NATIVE == "big" else ctypes.BigEndianStructure,
}

# Whole numbers and floats, by their sizes and signs.
NUMBERS = {
    "i1": ctypes.c_int8,
    "u1": ctypes.c_uint8,
    "i2": ctypes.c_int16,
    "u2": ctypes.c_uint16,
    "i4": ctypes.c_int32,
    "u4": ctypes.c_uint32,
    "i8": ctypes.c_int64,
    "u8": ctypes.c_uint64,
    "f4": ctypes.c_float,
    "f8": ctypes.c_double,
}

# The kinds of items that calls take and give: the name, the form and the place of each number, and the size.
SECONDS = ((("", "i8", 0),), 8)
DAYS = ((("", "i4", 0),), 4)
DATES = ((("year", "i4", 0), ("month", "u1", 4), ("day", "u1", 5)), 8)
DATE_TIMES = (
    (
        ("year", "i4", 0),
        ("month", "u1", 4),
        ("day", "u1", 5),
        ("hour", "u1", 6),
        ("minute", "u1", 7),
        ("second", "u1", 8),
        ("nanosecond", "u4", 12),
        ("offset_seconds", "i4", 16),
    ),
    20,
)
STAMPS = ((("seconds", "i8", 0), ("nanoseconds", "u4", 8)), 16)
MOMENTS = ((("seconds", "i8", 0), ("nanoseconds", "u4", 8), ("offset_seconds", "i4", 12)), 16)
ORDERS = DAYS
SPANS = ((("start", "u8", 0), ("length", "u8", 8)), 16)
STATUSES = ((("", "u4", 0),), 4)

CONVERTED = ("i2", "u2", "i4", "u4", "i8", "u8")
MOST_ITEMS = 5

# The bytes of a piece of memory: more than twice as many of the largest items.
ROOM = 800
FIRST_DAY, LAST_DAY = calendar.FIRST_SECOND // 86_400, calendar.LAST_SECOND // 86_400

passed = failed = 0


class Kind:
    """A kind of item: where its numbers lie, and how a buffer of such items is made of memory."""

    def __init__(self, numbers, size, order, made, told):
        self.numbers, self.size, self.order, self.made, self.told = tuple(numbers), size, order, made, told

    def is_exactly(self, wanted):
        is_here = self.order == NATIVE or all(form in ("i1", "u1") for _, form, _ in self.numbers)
        return is_here and (self.numbers, self.size) == wanted

    def is_converted_to(self, wanted):
        """Whether it is a whole number that is converted where another is wanted."""
        is_plain = wanted in (SECONDS, DAYS) and len(self.numbers) == 1 and self.numbers[0][0] == ""
        return is_plain and self.order == NATIVE and self.numbers[0][1] in CONVERTED

    def read(self, memory, at):
        """The numbers of the item that begins there, by their names."""
        found = {}
        for name, form, place in self.numbers:
            data = bytes(memory[at + place : at + place + int(form[1])])
            found[name] = int.from_bytes(data, self.order, signed=form[0] != "u")
        return found

    def write(self, memory, at, values):
        """Writes those of the values that the kind has and that fit."""
        for name, form, place in self.numbers:
            if name in values and form != "bits":
                size = int(form[1])
                number = values[name] % (1 << 8 * size)
                memory[at + place : at + place + size] = number.to_bytes(size, self.order)


def kind_of_structure(fields, base, order, **more):
    structure = type("Some", (base,), {**more, "_fields_": fields})
    forms = {number: form for form, number in NUMBERS.items()}
    numbers = [(name, "bits" if bits else forms[number], getattr(structure, name).offset) for name, number, *bits in fields]

    def made(memory, at, count):
        return memoryview((structure * count).from_buffer(memory, at))

    told = f"{structure.__base__.__name__} {fields} {more}"
    return Kind(numbers, ctypes.sizeof(structure), order, made, told)


def kind_of_number(form, order):
    number = NUMBERS[form]
    number = number if order == NATIVE else getattr(number, "__ctype_be__" if order == "big" else "__ctype_le__")

    def made(memory, at, count):
        return memoryview((number * count).from_buffer(memory, at))

    return Kind([("", form, 0)], int(form[1]), order, made, f"{order} {form}")


def kind_of_numpy(numbers, size, order):
    mark = "<" if order == "little" else ">"
    names, forms, places = zip(*numbers)
    if names == ("",):
        dtype = numpy.dtype(mark + forms[0])
    else:
        forms = [mark + form for form in forms]
        dtype = numpy.dtype({"names": names, "formats": forms, "offsets": places, "itemsize": size})

    def made(memory, at, count):
        return memoryview(numpy.frombuffer(memory, dtype, count, at))

    return Kind(numbers, dtype.itemsize, order, made, f"NumPy {dtype}")


def spoiled(source, wanted):
    """The fields of a kind with something changed."""
    fields = [[name, NUMBERS[form]] for name, form, _ in wanted[0]]
    for _ in range(source.randint(1, 2)):
        change, place = source.randrange(6), source.randrange(len(fields))
        if change == 0:
            source.shuffle(fields)
        elif change == 1:
            fields[place][1] = NUMBERS[source.choice(sorted(NUMBERS))]
        elif change == 2:
            fields[place][0] = f"other_{place}"
        elif change == 3:
            fields.insert(place, [f"skipped_{len(fields)}", NUMBERS[source.choice(sorted(NUMBERS))]])
        elif change == 4:
            other = source.randrange(len(fields))
            fields[place][0], fields[other][0] = fields[other][0], fields[place][0]
        elif len(fields) > 1:
            del fields[place]
    return [tuple(field) for field in fields]


def some_kind(source, wanted):
    """A kind of items: that which is wanted, or like it, or of numbers."""
    order = NATIVE if source.random() < 0.8 else OTHER
    choice = source.random()
    is_plain = wanted[0][0][0] == ""
    if numpy and source.random() < 0.5:
        return some_numpy_kind(source, wanted, order)
    if is_plain or choice < 0.1:
        form = wanted[0][0][1] if is_plain and choice < 0.5 else source.choice(sorted(NUMBERS))
        return kind_of_number(form, order)
    fields = [(name, NUMBERS[form]) for name, form, _ in wanted[0]]
    if choice < 0.4:
        return kind_of_structure(fields, BASES[order], order)
    if choice < 0.5:
        return kind_of_structure(fields, BASES[order], order, _pack_=1)
    if choice < 0.6:
        return kind_of_structure([(name, number, 4) for name, number in fields], BASES[NATIVE], NATIVE)
    return kind_of_structure(spoiled(source, wanted), BASES[order], order)


def some_numpy_kind(source, wanted, order):
    numbers, size = wanted
    choice = source.random()
    if choice < 0.2:
        return kind_of_numpy([("", source.choice(sorted(NUMBERS)), 0)], 0, order)
    if choice < 0.5 or numbers[0][0] == "":
        return kind_of_numpy(numbers, size, order)
    changed, at = [], 0
    for name, number in spoiled(source, wanted):
        form = next(form for form, other in NUMBERS.items() if other is number)
        at += source.choice((0, 0, -at % int(form[1]), 1))
        changed.append((name, form, at))
        at += int(form[1])
    return kind_of_numpy(changed, max(at, size) if source.random() < 0.5 else at, order)


class Place:
    """A buffer of items of a kind in a piece of memory, and where each item begins."""

    def __init__(self, source, kind, memory, is_out=False):
        self.kind, self.memory = kind, memory
        self.count = source.randint(0, MOST_ITEMS)
        step = source.choice((1, 1, 1, 1, 2, -1, -2))
        held = max(self.count * abs(step), 1)
        first = source.randrange(max(len(memory) - held * kind.size, 0) // 4 + 1) * 4
        first += source.choice((0, 0, 0, 0, source.randrange(8)))
        view = kind.made(memory, min(first, len(memory) - held * kind.size), held)
        first = min(first, len(memory) - held * kind.size)
        view = view[: self.count * abs(step)][::step]
        self.count = len(view)
        last = held - 1 if self.count * abs(step) == held else self.count * abs(step) - 1
        begin = first if step > 0 else first + last * kind.size
        self.starts = [begin + step * kind.size * item for item in range(self.count)]
        self.is_read_only = source.random() < (0.05 if is_out else 0.2)
        is_array = not isinstance(view, memoryview)
        self.is_side_by_side = step == 1 or self.count <= 1
        self.first = self.starts[0] if self.starts else first
        if self.is_read_only and is_array:
            view.flags.writeable = False
        self.view = view.toreadonly() if self.is_read_only and not is_array else view

    def is_even(self, size):
        address = ctypes.addressof(ctypes.c_char.from_buffer(self.memory))
        return (address + self.first) % size == 0

    def told(self):
        return f"{self.kind.told} at {self.starts} of {len(self.memory)}, read-only: {self.is_read_only}"


def is_date(values):
    year, month, day = values["year"], values["month"], values["day"]
    is_near = calendar.FIRST_YEAR <= year <= calendar.LAST_YEAR and 1 <= month <= 12 and day >= 1
    return is_near and day <= calendar.month_length(year, month)


def day_of_date(values):
    if not is_date(values):
        return None
    return {"": calendar.day_number(values["year"], values["month"], values["day"])}


def date_of_day(values):
    if not FIRST_DAY <= values[""] <= LAST_DAY:
        return None
    return dict(zip(("year", "month", "day"), calendar.civil_date(values[""])))


def date_time_of_second(values):
    if not calendar.FIRST_SECOND <= values[""] <= calendar.LAST_SECOND:
        return None
    day, clock = divmod(values[""], 86_400)
    shown = {"hour": clock // 3_600, "minute": clock // 60 % 60, "second": clock % 60, "nanosecond": 0}
    return {**dict(zip(("year", "month", "day"), calendar.civil_date(day))), **shown, "offset_seconds": 0}


def second_of_date_time(values):
    clock = (values["hour"], values["minute"], values["second"])
    is_clock = clock[0] < 24 and clock[1] < 60 and clock[2] < 60 and values["nanosecond"] < 10**9
    if not is_date(values) or not is_clock or abs(values["offset_seconds"]) > 93_599:
        return None
    day = calendar.day_number(values["year"], values["month"], values["day"])
    second = day * 86_400 + clock[0] * 3_600 + clock[1] * 60 + clock[2] - values["offset_seconds"]
    return {"": second} if calendar.FIRST_SECOND <= second <= calendar.LAST_SECOND else None


def moment_at(second, nanosecond, offset):
    """The moment, if the range has it and what clocks at the offset show."""
    ends = (calendar.FIRST_SECOND, calendar.LAST_SECOND)
    is_one = nanosecond < 10**9 and abs(offset) <= 93_599 and all(ends[0] <= at <= ends[1] for at in (second, second + offset))
    return {"seconds": second, "nanoseconds": nanosecond, "offset_seconds": offset} if is_one else None


def known_moment(values):
    return moment_at(values["seconds"], values["nanoseconds"], values["offset_seconds"])


def date_time_of_moment(values):
    if known_moment(values) is None:
        return None
    shown = date_time_of_second({"": values["seconds"] + values["offset_seconds"]})
    return {**shown, "nanosecond": values["nanoseconds"], "offset_seconds": values["offset_seconds"]}


def moment_of_date_time(values):
    found = second_of_date_time(values)
    return found and {"seconds": found[""], "nanoseconds": values["nanosecond"], "offset_seconds": values["offset_seconds"]}


def some_values(source):
    """Numbers for each name, nearly always ones that calls take."""
    day = source.choice((source.randint(FIRST_DAY, LAST_DAY), source.randint(-20_000, 40_000)))
    year, month, of_month = calendar.civil_date(day)
    values = {
        "": day * source.choice((1, 86_400, 86_400, 86_400 * 10**3, 86_400 * 10**6)),
        "year": year,
        "month": month,
        "day": of_month,
        "hour": source.randrange(24),
        "minute": source.randrange(60),
        "second": source.randrange(60),
        "nanosecond": source.randrange(10**9),
        "offset_seconds": source.randint(-93_599, 93_599),
        "seconds": day * 86_400 + source.randrange(86_400),
        "nanoseconds": source.randrange(10**9),
    }
    if source.random() < 0.05:
        values[source.choice(sorted(values))] = source.randrange(-(2**63), 2**63)
    return values


def date_time_of_parts(parts):
    """What shows a count of parts of a second, of which each second has so many."""

    def plain(values):
        second, left = divmod(values[""], parts)
        shown = date_time_of_second({"": second})
        return None if shown is None else {**shown, "nanosecond": left * (10**9 // parts)}

    return plain


def parts_of_date_time(parts):
    def plain(values):
        second = second_of_date_time(values)
        whole = None if second is None else second[""] * parts + values["nanosecond"] * parts // 10**9
        return {"": whole} if whole is not None and -(2**63) <= whole < 2**63 else None

    return plain


# The calls of one buffer, the first of which stop at an item that fails, and the others continue. Those of columns.py that take
# another word are in column_buffers.py.
CALLS = (
    (muxandu.date_times_from_seconds, muxandu.date_times_from_each_second, SECONDS, DATE_TIMES, date_time_of_second, [0]),
    (muxandu.seconds_from_date_times, muxandu.seconds_from_each_date_time, DATE_TIMES, SECONDS, second_of_date_time, []),
    (muxandu.date_times_from_milliseconds, None, SECONDS, DATE_TIMES, date_time_of_parts(10**3), [0]),
    (muxandu.milliseconds_from_date_times, None, DATE_TIMES, SECONDS, parts_of_date_time(10**3), []),
    (muxandu.date_times_from_microseconds, None, SECONDS, DATE_TIMES, date_time_of_parts(10**6), [0]),
    (muxandu.microseconds_from_date_times, None, DATE_TIMES, SECONDS, parts_of_date_time(10**6), []),
    (muxandu.date_times_from_nanoseconds, None, SECONDS, DATE_TIMES, date_time_of_parts(10**9), [0]),
    (muxandu.nanoseconds_from_date_times, None, DATE_TIMES, SECONDS, parts_of_date_time(10**9), []),
    (muxandu.dates_from_days, None, DAYS, DATES, date_of_day, []),
    (muxandu.days_from_dates, None, DATES, DAYS, day_of_date, []),
    (columns.date_times_from_moments, columns.date_times_from_each_moment, MOMENTS, DATE_TIMES, date_time_of_moment, []),
    (columns.moments_from_date_times, columns.moments_from_each_date_time, DATE_TIMES, MOMENTS, moment_of_date_time, []),
)


def alignment(wanted):
    return max(int(form[1]) for _, form, _ in wanted[0])


def count(problem, *told):
    global passed, failed
    if problem is None:
        passed += 1
        return
    failed += 1
    if failed <= 20:
        print("FAILED:", problem, *told, sep="\n  ")


def refusal_of_source(place, wanted):
    """The error that a buffer of items must end in, if any."""
    if place.count == 0 or place.kind.is_exactly(wanted) or place.kind.is_converted_to(wanted):
        return None
    return TypeError


def refusal_of_out(place, wanted):
    if place.is_read_only or not place.kind.is_exactly(wanted) or not place.is_side_by_side:
        return TypeError
    return None if place.count == 0 or place.is_even(alignment(wanted)) else ValueError


def refusal_of_results(out, made, statuses=None):
    """The error that the places of results must end in, if any."""
    if statuses is None:
        return refusal_of_out(out, made)
    refused = refusal_of_out(out, made) or refusal_of_out(statuses, STATUSES)
    return refused or (ValueError if lie_over_each_other(out, statuses) else None)


def judged(call, words, items, out, statuses=None, refused=None, gaps=(), read=(), keeps_bytes=True):
    """Makes a call, and says what is wrong with how it ended. `items` is what each item must become, or None for one that fails.
    With statuses the call continues after such an item, and has a status for each, which says of gaps that they are missing.
    `read` are the places that it reads. An item that fails keeps its bytes, or else its numbers: the bytes between those of a
    column's row are nobody's."""
    results = (out,) if statuses is None else (out, statuses)
    memories = list({id(place.memory): place.memory for place in (*results, *read)}.values())
    before = [bytes(memory) for memory in memories]
    good = items.index(None) if statuses is None and None in items else len(items)
    try:
        result, error = call(*words, *(place.view for place in results)), None
    except Exception as caught:  # noqa: BLE001
        result, error = None, caught
    if refused is None and min(place.count for place in results) < len(items):
        refused = muxandu.RefusedBuffer
    if refused is not None:
        if type(error) is not refused:
            return f"must be a {refused.__name__}, not {error!r}"
        return None if [bytes(memory) for memory in memories] == before else "it wrote, and refused"
    if good < len(items):
        if not isinstance(error, muxandu.Refused) or error.count != good:
            return f"item {good} must be refused, not {error!r}"
    elif error is not None or any(
        one is not place.view for one, place in zip((result,) if statuses is None else result, results)
    ):
        return f"must be converted, not {error!r}"
    kept = [bytearray(memory) for memory in memories]
    for number, item in enumerate(items[:good]):
        if statuses is not None:
            told = statuses.kind.read(statuses.memory, statuses.starts[number])[""]
            wanted = "missing" if number in gaps else "an error" if item is None else "0"
            if wanted != ("0" if told == 0 else "missing" if told == muxandu.MISSING else "an error"):
                return f"the status of item {number} must be {wanted}, not {told}"
        start, was = out.starts[number], before[[memory is out.memory for memory in memories].index(True)]
        wanted = out.kind.read(was, start) if item is None else item
        if out.kind.read(out.memory, start) != wanted:
            return f"must be {wanted}, not {out.kind.read(out.memory, start)}"
        for place in results[1:] if item is None and keeps_bytes else results:
            start, which = place.starts[number], [memory is place.memory for memory in memories].index(True)
            kept[which][start : start + place.kind.size] = before[which][start : start + place.kind.size]
    return None if [bytes(memory) for memory in kept] == before else "it wrote beside its items"


def compare_conversion(source, kinds, has_each=False):
    call, each, given, made, plain, more = source.choice([row for row in CALLS if row[1] or not has_each])
    memories = [bytearray(source.randbytes(ROOM)) for _ in range(3)]
    place = Place(source, source.choice(kinds[given]), memories[0])
    for start in place.starts:
        if source.random() < 0.95:
            place.kind.write(place.memory, start, some_values(source))
    out, statuses = Place(source, source.choice(kinds[made]), source.choice(memories[:2]), is_out=True), None
    if each and (has_each or source.random() < 0.5):
        call, statuses = each, Place(source, source.choice(kinds[STATUSES]), source.choice(memories), is_out=True)
    refused = refusal_of_source(place, given) or refusal_of_results(out, made, statuses)
    items = [] if refused else [plain(place.kind.read(place.memory, start)) for start in place.starts]
    problem = judged(call, [place.view, *more], items, out, statuses, refused, read=(place,))
    count(problem, call.__name__, *(each.told() for each in (place, out, statuses) if each))


def lie_over_each_other(first, second):
    """Whether two places, whose items lie side by side, have a byte in common."""
    if first.memory is not second.memory or not first.count or not second.count:
        return False
    ends = [place.first + place.count * place.kind.size for place in (first, second)]
    return first.first < ends[1] and second.first < ends[0]


def text_and_meaning(source, made=None):
    """A text and what it says: an instant, or what clocks at its offset show."""
    second = source.randint(-62_167_219_200, 253_402_300_799)
    offset = 0 if made is None or source.random() < 0.3 else 60 * source.randint(-1_439, 1_439)
    offset = offset if -62_167_219_200 <= second + offset <= 253_402_300_799 else 0
    text = rfc3339.shortest_text(second, source.choice((0, source.randrange(10**9))), offset).encode()
    if source.random() < 0.1:
        text = text.replace(b"T", source.choice((b"-", b" ", b"t", b"")))
    said = rfc3339.reading(text)
    if isinstance(said, str):
        return text, None
    if made is DATE_TIMES:
        shown = date_time_of_second({"": said[0] + said[2]})
        return text, {**shown, "nanosecond": said[1], "offset_seconds": said[2]}
    return text, {"seconds": said[0], "nanoseconds": said[1]}


def is_stamp(values):
    is_near = calendar.FIRST_SECOND <= values["seconds"] <= calendar.LAST_SECOND
    return is_near and values["nanoseconds"] < 10**9


def given(call, *words):
    """What a call that makes a new list or array gives, or its error."""
    try:
        return list(call(*words)), None
    except Exception as error:  # noqa: BLE001
        return None, error


def compare_written(source, kinds):
    """Instants of a buffer, as texts, and as an array of datetime64 where NumPy is there."""
    place = Place(source, source.choice(kinds[STAMPS]), bytearray(source.randbytes(ROOM)))
    for start in place.starts:
        second = source.choice(
            (source.randint(-(10**11), 3 * 10**11), source.randint(calendar.FIRST_SECOND, calendar.LAST_SECOND))
        )
        if source.random() < 0.95:
            place.kind.write(place.memory, start, {"seconds": second, "nanoseconds": source.randrange(10**9 + 10**7)})
    is_refused = place.count > 0 and not place.kind.is_exactly(STAMPS)
    read = [] if is_refused else [place.kind.read(place.memory, start) for start in place.starts]
    stamps = [tuple(each.values()) if is_stamp(each) else None for each in read]
    if numpy and source.random() < 0.5:
        kind = MomentKind(source.choice((*ATTOSECONDS, *MONTHS)), source.choice((1, 7)), NATIVE)
        name, words = "datetime64_from_timestamps", (place.view, f"{kind.many}{kind.unit}")
        items = [stamp and kind.count_of(*stamp) for stamp in stamps]
        items = [item and item[""] for item in items]
        found, error = given(lambda *words: muxandu.datetime64_from_timestamps(*words).view("int64").tolist(), *words)
    else:
        name, words = "rfc3339_from_timestamps", (place.view,)
        items = [
            rfc3339.shortest_text(*stamp, 0) if stamp and 0 <= stamp[0] + 62_167_219_200 < 315_569_520_000 else None
            for stamp in stamps
        ]
        found, error = given(muxandu.rfc3339_from_timestamps, *words)
    if is_refused:
        problem = None if type(error) is TypeError else f"must be a TypeError, not {found or error!r}"
    elif None in items:
        is_right = isinstance(error, muxandu.Refused) and error.count == items.index(None)
        problem = None if is_right else f"item {items.index(None)} must be refused, not {found or error!r}"
    else:
        problem = None if found == items else f"must be {items}, not {found or error!r}"
    count(problem, name, place.told(), *words[1:])


# How many attoseconds the units of datetime64 have; months have none.
ATTOSECONDS = {"W": 604_800, "D": 86_400, "h": 3_600, "m": 60, "s": 1}
ATTOSECONDS = {unit: seconds * 10**18 for unit, seconds in ATTOSECONDS.items()}
ATTOSECONDS.update({"ms": 10**15, "us": 10**12, "ns": 10**9, "ps": 10**6, "fs": 10**3, "as": 1})
MONTHS = {"Y": 12, "M": 1}

# What NumPy holds for no time at all.
NOT_A_TIME = -(2**63)


class MomentKind(Kind):
    """Arrays of datetime64 of so many of a unit."""

    def __init__(self, unit, many, order):
        dtype = numpy.dtype(f"{'<' if order == 'little' else '>'}M8[{many}{unit}]")

        def made(memory, at, count):
            return numpy.frombuffer(memory, dtype, count, at)

        super().__init__([("", "i8", 0)], 8, order, made, f"NumPy {dtype}")
        self.unit, self.many = unit, many

    def stamp(self, count):
        """The second and the nanosecond of a count, rounded down, or None where that is no instant."""
        if count == NOT_A_TIME:
            return None
        if self.unit in MONTHS:
            years, month = divmod(count * self.many * MONTHS[self.unit], 12)
            is_near = calendar.FIRST_YEAR <= 1970 + years <= calendar.LAST_YEAR
            return (calendar.day_number(1970 + years, month + 1, 1) * 86_400, 0) if is_near else None
        second, nanosecond = divmod(count * self.many * ATTOSECONDS[self.unit] // 10**9, 10**9)
        return (second, nanosecond) if calendar.FIRST_SECOND <= second <= calendar.LAST_SECOND else None

    def count_of(self, second, nanosecond):
        """The count that an instant becomes, rounded down, or None where 64 bits do not hold it."""
        if self.unit in MONTHS:
            year, month, _ = calendar.civil_date(second // 86_400)
            return {"": (12 * (year - 1970) + month - 1) // (self.many * MONTHS[self.unit])}
        count = (second * 10**9 + nanosecond) * 10**9 // (self.many * ATTOSECONDS[self.unit])
        return {"": count} if -(2**63) < count < 2**63 else None


def some_moments(source):
    unit = source.choice((*ATTOSECONDS, *MONTHS))
    return MomentKind(unit, source.choice((1, 1, 7)), NATIVE if source.random() < 0.8 else OTHER)


def shown_at(second, nanosecond):
    return {**date_time_of_second({"": second}), "nanosecond": nanosecond}


MOMENT_CALLS = (
    (muxandu.date_times_from_seconds, DATE_TIMES, shown_at, [0]),
    (muxandu.dates_from_days, DATES, lambda second, _: date_of_day({"": second // 86_400}), []),
    (muxandu.timestamps_from_datetime64, STAMPS, lambda *parts: dict(zip(("seconds", "nanoseconds"), parts)), []),
    (muxandu.date_times_from_each_second, DATE_TIMES, shown_at, [0]),
)


def compare_moments(source, kinds):
    """Arrays of datetime64 as what goes in."""
    call, made, plain, more = source.choice(MOMENT_CALLS)
    kind, memories = some_moments(source), [bytearray(source.randbytes(ROOM)) for _ in range(2)]
    place = Place(source, kind, memories[0])
    for start in place.starts:
        second = source.choice(
            (source.randint(-(10**10), 10**10), source.randint(calendar.FIRST_SECOND, calendar.LAST_SECOND))
        )
        count_of = kind.count_of(second, source.randrange(10**9))
        count_of = {"": NOT_A_TIME} if source.random() < 0.05 else count_of
        if count_of and source.random() < 0.95:
            kind.write(place.memory, start, count_of)
    out = Place(source, source.choice(kinds[made]), source.choice(memories), is_out=True)
    is_each = call is muxandu.date_times_from_each_second
    statuses = Place(source, kind_of_number("u4", NATIVE), bytearray(ROOM), is_out=True) if is_each else None
    refused = refusal_of_results(out, made, statuses)
    counts = [kind.read(place.memory, start)[""] for start in place.starts]
    missing = [at for at, found in enumerate(counts) if found == NOT_A_TIME]
    stamps = [kind.stamp(found) for found in counts]
    items = [None if stamp is None else plain(*stamp) for stamp in stamps]
    items = [] if refused else items
    problem = judged(call, [place.view, *more], items, out, statuses, refused, missing, (place,))
    count(problem, call.__name__, place.told(), out.told())


def compare_out_of_moments(source, kinds):
    """Arrays of datetime64 as `out`."""
    memory, kind = bytearray(source.randbytes(ROOM)), some_moments(source)
    if source.random() < 0.4:
        pairs = [text_and_meaning(source) for _ in range(source.randrange(MOST_ITEMS))]
        call, given = muxandu.timestamps_from_rfc3339, [text for text, _ in pairs]
        stamps = [meaning and (meaning["seconds"], meaning["nanoseconds"]) for _, meaning in pairs]
        told = str(given)
    else:
        call, wanted = source.choice(((muxandu.seconds_from_date_times, DATE_TIMES), (muxandu.days_from_dates, DATES)))
        exact = [kind for kind in kinds[wanted] if kind.is_exactly(wanted)]
        place = Place(source, source.choice(exact), memory)
        for start in place.starts:
            place.kind.write(memory, start, some_values(source))
        read = [place.kind.read(memory, start) for start in place.starts]
        if wanted is DATE_TIMES:
            found = [second_of_date_time(values) for values in read]
            stamps = [second and (second[""], values["nanosecond"]) for second, values in zip(found, read)]
        else:
            stamps = [day and (day[""] * 86_400, 0) for day in map(day_of_date, read)]
        given, told = place.view, place.told()
    out = Place(source, kind, source.choice((memory, bytearray(source.randbytes(ROOM)))), is_out=True)
    items = [stamp and kind.count_of(*stamp) for stamp in stamps]
    refused = TypeError if out.is_read_only else None
    words = [given, None] if call is muxandu.timestamps_from_rfc3339 else [given]
    count(judged(call, words, items, out, refused=refused), call.__name__, told, out.told())


def exact_kind(wanted):
    """The kind that is wanted, as ctypes has it."""
    if wanted[0][0][0] == "":
        return kind_of_number(wanted[0][0][1], NATIVE)
    fields = [(name, NUMBERS[form]) for name, form, _ in wanted[0]]
    return kind_of_structure(fields, BASES[NATIVE], NATIVE)


def some_kinds(source, wanted, variety):
    """Kinds of items for each that is wanted, two thirds of them as it is."""
    kinds = {each: [some_kind(source, each) for _ in range(variety)] for each in wanted}
    for each in wanted:
        exact = [kind for kind in kinds[each] if kind.is_exactly(each)] + [exact_kind(each)]
        kinds[each] += [source.choice(exact) for _ in range(2 * variety)]
    return kinds


def main():
    numbers = [int(word) for word in sys.argv[1:]]
    calls, seed = (*numbers, *(20_000, 1)[len(numbers) :])
    source = random.Random(seed)
    variety = min(max(calls // 50, 100), 3_000)
    kinds = some_kinds(source, (SECONDS, DAYS, DATES, DATE_TIMES, STAMPS, STATUSES, MOMENTS), variety)
    for _ in range(calls):
        chosen = source.random()
        if chosen < 0.1:
            compare_written(source, kinds)
        elif chosen < 0.25 and numpy:
            compare_moments(source, kinds)
        elif chosen < 0.35 and numpy:
            compare_out_of_moments(source, kinds)
        else:
            compare_conversion(source, kinds)
    with_numpy = "with" if numpy else "without"
    taken = sum(len(each) for each in kinds.values())
    print(f"{calls} buffers of {taken} kinds, {with_numpy} NumPy, seed {seed}")
    print(f"{passed} passed, {failed} failed")
    sys.exit(1 if failed or not passed else 0)


if __name__ == "__main__":
    main()

"""Many items in one call.

A call reads a buffer of items, an array.array or a NumPy array, with no copy, or a sequence. It
writes to `out`, a buffer of as many items or more. Without `out` it returns a new array: of NumPy
if it got a NumPy array or a pandas column, else an array.array of numbers or a ctypes array of
structures.

Calls that read or write seconds or days take an array of NumPy's datetime64 too, of any unit.
"""

from __future__ import annotations

import array
import ctypes
import functools
import sys
from typing import TYPE_CHECKING, Any, Callable, Optional, SupportsIndex, overload

from . import _buffers, _datetime64, _missing
from . import _extension as engine
from ._refusals import REFUSALS, Refused, RefusedBuffer, RefusedNoText, RefusedOffsetSeconds, RefusedResult
from ._types import Dates, DatesOr, DateTimes, DateTimesOr, DateTimesWithGaps, Numbers, NumbersOr, NumbersWithGaps, NumPyOr, Out
from ._types import Spans, SupportsArray, Texts, Timestamps, TimestampsOr, TimestampsWithGaps, Told
from ._values import Date, OffsetDateTime, Timestamp, _parts
from ._words import ends, limit, to_int
from ._structures import MuxanduDate, MuxanduDateTime, MuxanduSpan, MuxanduTimestamp

if TYPE_CHECKING:
    import numpy

_CODES: dict[Any, str] = {ctypes.c_int32: "i", ctypes.c_uint32: "I", ctypes.c_int64: "q"}

_NANO = 10**9

# The statuses that are of a result, of `out` or of an offset, and not of an item.
_NOT_OF_ITEMS = {refusal.status for refusal in (RefusedResult, RefusedBuffer, RefusedOffsetSeconds, RefusedNoText)}

# The calls over datetime64 of parts of a second, by its unit.
_OF_PARTS = {
    "ms": engine.date_times_from_milliseconds,
    "us": engine.date_times_from_microseconds,
    "ns": engine.date_times_from_nanoseconds,
}

# The letters of whole numbers that are converted, by their size and whether they have a sign. Bytes are no numbers: they are
# texts.
_CONVERTED = {(2, True): "h", (4, True): "i", (8, True): "q", (2, False): "H", (4, False): "I", (8, False): "Q"}


def _is_buffer(items: Any) -> bool:
    try:
        memoryview(items)
    # NumPy raises ValueError where its items have no format, as those of datetime64.
    except (TypeError, ValueError):
        return False
    return True


def _as_array(items: Any) -> Any:
    """The items as an array of NumPy if they can be one, like a column of pandas; an array of
    objects as a list of them."""
    _missing.refuse_mask(items)
    if not hasattr(items, "__array__"):
        return items
    import numpy

    found = numpy.asarray(items)
    return list(found) if found.dtype == object and found.ndim == 1 else found


def _is_like_numpy(items: Any) -> bool:
    return _is_array(items) or hasattr(items, "__array_interface__") or hasattr(items, "__array__")


def _test(status: int, count: int, items: Any = None) -> None:
    """Raises the error of a call that converted `count` items, with the next item if these are a
    list."""
    if status:
        is_of_item = isinstance(items, (list, tuple)) and count < len(items) and status not in _NOT_OF_ITEMS
        raise REFUSALS[status](count, items[count] if is_of_item else None)


class _Items:
    """A buffer of items of a kind, and its address."""

    def __init__(self, view: memoryview, kind: Any, data: Any) -> None:
        self.count, self.data, self.kind = len(view), data, kind
        self.at = engine.address(data) if self.count else 0
        self.end = self.at + self.count * view.itemsize

    def is_even(self) -> bool:
        """Whether its address is aligned for an item."""
        return self.at % ctypes.alignment(self.kind) == 0

    def is_apart_from(self, place: _Items) -> bool:
        """Whether it has no byte in common with another."""
        return self.end <= place.at or place.end <= self.at

    def apart_from(self, *places: _Items) -> Any:
        """The input, copied if the output has a byte in common with it."""
        return self.data if all(map(self.is_apart_from, places)) else self.copy()

    def copy(self) -> bytes:
        """A copy of the items that no other code can write: the place of a text must not change
        between a test and a read."""
        return memoryview(self.data).tobytes()


def _reading(items: Any, kind: Any) -> _Items:
    """The items as calls take them: in place, or as a copy if they are not contiguous or not
    aligned."""
    view = _buffers.row(items)
    if len(view):
        _buffers.of_bytes(view) if kind is ctypes.c_uint8 else _buffers.of_kind(view, kind)
    found = _Items(view, kind, _buffers.side_by_side(view))
    return found if found.is_even() else _Items(view, kind, view.tobytes())


def _writing(out: Any, kind: Any) -> _Items:
    """The address of the items of `out`."""
    view = _buffers.writable_buffer(out, kind)
    found = _Items(view, kind, view if len(view) else bytearray())
    if not found.is_even():
        raise ValueError(f"`out` must be {ctypes.alignment(kind)}-byte aligned: use a new array")
    return found


@functools.lru_cache(maxsize=None)
def _dtype(kind: Any) -> Any:
    """The type that NumPy has for a kind."""
    import numpy

    return numpy.dtype(kind)


def _room(count: int, kind: Any, is_like_numpy: bool) -> Any:
    """A new array of `count` items."""
    if is_like_numpy:
        import numpy

        return numpy.zeros(count, _dtype(kind))
    if kind in _CODES:
        return array.array(_CODES[kind], bytes(ctypes.sizeof(kind) * count))
    form = kind * count
    # Where its pickles look for it: in __getattr__.
    form.__module__ = __name__
    return form()


def __getattr__(name: str) -> Any:
    """The type of an array of structures, by its name."""
    kind, is_array, count = name.partition("_Array_")
    if not is_array or not count.isdecimal() or kind not in globals():
        raise AttributeError(f"module {__name__!r} has no attribute {name!r}")
    return globals()[kind] * int(count)


def _letter(view: memoryview, kind: Any) -> Optional[str]:
    """The letter of the integers of a buffer to convert to a kind, or None if they are of that kind
    or are no integers."""
    fields = _buffers.fields_of(view)
    is_converted = fields and not fields[0].name and fields != _buffers.fields_of_kind(kind)
    return _CONVERTED.get(fields[0][2:]) if fields and is_converted else None


def _list_of(numbers: Any, kind: Any) -> Any:
    """The numbers of a sequence, or of a buffer of other sizes, as a list; a buffer of the kind, or
    of none that is converted, is itself."""
    numbers = _as_array(numbers)
    if _is_buffer(numbers):
        view = _buffers.row(numbers)
        letter = _letter(view, kind)
        plain: Any = memoryview(view.tobytes()) if letter else None
        return numbers if letter is None else plain.cast(letter).tolist()
    found = list(numbers)
    try:
        return [to_int(number) for number in found]
    except TypeError as problem:
        raise _missing.error_of(found, problem) from None


def _numbers(numbers: Any, kind: Any) -> Any:
    """Numbers as a buffer of the kind: those of a sequence, or of a buffer of other sizes, are
    copied, each as the type holds it."""
    numbers = _as_array(numbers)
    if _is_array(numbers) and _is_buffer(numbers) and _letter(_buffers.row(numbers), kind):
        return _held_array(numbers, kind)
    if _missing.is_float(numbers) and numbers.ndim == 1:
        _missing.refuse_nan(numbers)
    found = _list_of(numbers, kind)
    return array.array(_CODES[kind], [limit(number, kind) for number in found]) if isinstance(found, list) else found


def _is_array(items: Any) -> bool:
    """Whether these are an array of NumPy."""
    numpy = sys.modules.get("numpy")
    return numpy is not None and isinstance(items, numpy.ndarray)


def _held_array(numbers: Any, kind: Any) -> Any:
    """An array of NumPy with each number as the type holds it."""
    import numpy

    (low, high), own = ends(kind), numpy.iinfo(numbers.dtype)
    return numpy.clip(numbers, max(low, int(own.min)), min(high, int(own.max))).astype(numpy.dtype(kind))


def _structures(values: Any, kind: Any, of: Any, missing: Any = ()) -> Any:
    """Structures as a buffer: those of a sequence of values are copied, with one of zeros for each
    that is missing."""
    values = _as_array(values)
    if _is_buffer(values):
        return values
    values = list(values)
    odd = {type(value).__name__ for place, value in enumerate(values) if not isinstance(value, of) and place not in missing}
    if odd:
        wanted = f"items must be a buffer of structures, or a sequence of {of.__name__}"
        raise _missing.error_of([] if len(missing) else values, TypeError(f"{wanted}, not of {', '.join(sorted(odd))}"))
    names = [name for name, _ in kind._fields_]
    parts = ((0,) * len(names) if place in missing else _parts(value, *names) for place, value in enumerate(values))
    return (kind * len(values))(*parts)


def _convert(call: Callable[..., tuple[int, int]], items: Any, given: Any, made: Any, out: Any, like: Any, *words: int) -> Any:
    """`out`, with the items as the call converts them, or a new array like another."""
    source = _reading(items, given)
    if out is None:
        out = _room(source.count, made, _is_like_numpy(like))
    place = _writing(out, made)
    done, status = call(source.apart_from(place), source.count, *words, place.data, place.count)
    _test(status, done, like)
    return out


def _date_times_at(call: Callable[..., tuple[int, int]], counts: Any, offset_seconds: Any, out: Any, like: Any) -> Any:
    """The date-time at an offset of each count of seconds, or of parts of a second."""
    items, offset = _numbers(counts, ctypes.c_int64), limit(offset_seconds, ctypes.c_int32)
    return _convert(call, items, ctypes.c_int64, MuxanduDateTime, out, like, offset)


def _shown_by_parts(call: Callable[..., tuple[int, int]], parts: int, counts: Any, offset_seconds: Any, out: Any) -> Any:
    """The same of parts of a second, whose counts may exceed 64 bits: then by the seconds and the
    rest of each."""
    found = _list_of(counts, ctypes.c_int64)
    if not isinstance(found, list) or all(-(2**63) <= count < 2**63 for count in found):
        return _date_times_at(call, found, offset_seconds, out, counts)
    seconds = array.array("q", [limit(count // parts, ctypes.c_int64) for count in found])
    if out is None:
        out = _room(len(found), MuxanduDateTime, _is_like_numpy(counts))
    refusal, done = None, len(found)
    try:
        _date_times_at(engine.date_times_from_seconds, seconds, offset_seconds, out, counts)
    except Refused as refused:
        refusal, done = refused, refused.count or 0
    items: Any = (MuxanduDateTime * done).from_buffer(_writing(out, MuxanduDateTime).data) if done else ()
    for item, count in zip(items, found):
        item.nanosecond = count % parts * (_NANO // parts)
    if refusal is not None:
        raise refusal
    return out


@overload
def date_times_from_seconds(seconds: SupportsArray, offset_seconds: SupportsIndex = 0, out: Optional[Out] = None) -> NumPyOr[Out]:
    ...


@overload
def date_times_from_seconds(seconds: Numbers, offset_seconds: SupportsIndex = 0, out: Optional[Out] = None) -> DateTimesOr[Out]:
    ...


def date_times_from_seconds(seconds: Any, offset_seconds: SupportsIndex = 0, out: Any = None) -> Any:
    """The date-time at an offset of each Unix second: items of DateTimeParts, of which
    OffsetDateTime.from_parts makes values. Of datetime64 also the nanoseconds are kept."""
    if not _datetime64.is_such(seconds):
        return _date_times_at(engine.date_times_from_seconds, seconds, offset_seconds, out, seconds)
    counts, unit = _datetime64.counts_of_parts(seconds)
    if unit in _OF_PARTS:
        return _date_times_at(_OF_PARTS[unit], counts, offset_seconds, out, counts)
    whole, nanoseconds = _datetime64.split(seconds)
    if out is None:
        out = _room(len(whole), MuxanduDateTime, True)
    return _datetime64.with_nanoseconds(out, nanoseconds, lambda: date_times_from_seconds(whole, offset_seconds, out))


@overload
def date_times_from_milliseconds(
    milliseconds: SupportsArray, offset_seconds: SupportsIndex = 0, out: Optional[Out] = None
) -> NumPyOr[Out]:
    ...


@overload
def date_times_from_milliseconds(
    milliseconds: Numbers, offset_seconds: SupportsIndex = 0, out: Optional[Out] = None
) -> DateTimesOr[Out]:
    ...


def date_times_from_milliseconds(milliseconds: Any, offset_seconds: SupportsIndex = 0, out: Any = None) -> Any:
    """The date-time at an offset of each count of milliseconds from 1970-01-01 0:00 UTC: items of
    DateTimeParts."""
    return _date_times_at(engine.date_times_from_milliseconds, milliseconds, offset_seconds, out, milliseconds)


@overload
def date_times_from_microseconds(
    microseconds: SupportsArray, offset_seconds: SupportsIndex = 0, out: Optional[Out] = None
) -> NumPyOr[Out]:
    ...


@overload
def date_times_from_microseconds(
    microseconds: Numbers, offset_seconds: SupportsIndex = 0, out: Optional[Out] = None
) -> DateTimesOr[Out]:
    ...


def date_times_from_microseconds(microseconds: Any, offset_seconds: SupportsIndex = 0, out: Any = None) -> Any:
    """The date-time at an offset of each count of microseconds from 1970-01-01 0:00 UTC: items of
    DateTimeParts."""
    return _shown_by_parts(engine.date_times_from_microseconds, 10**6, microseconds, offset_seconds, out)


@overload
def date_times_from_nanoseconds(
    nanoseconds: SupportsArray, offset_seconds: SupportsIndex = 0, out: Optional[Out] = None
) -> NumPyOr[Out]:
    ...


@overload
def date_times_from_nanoseconds(
    nanoseconds: Numbers, offset_seconds: SupportsIndex = 0, out: Optional[Out] = None
) -> DateTimesOr[Out]:
    ...


def date_times_from_nanoseconds(nanoseconds: Any, offset_seconds: SupportsIndex = 0, out: Any = None) -> Any:
    """The date-time at an offset of each count of nanoseconds from 1970-01-01 0:00 UTC: items of
    DateTimeParts."""
    return _shown_by_parts(engine.date_times_from_nanoseconds, _NANO, nanoseconds, offset_seconds, out)


@overload
def seconds_from_date_times(date_times: SupportsArray, out: Optional[Out] = None) -> NumPyOr[Out]:
    ...


@overload
def seconds_from_date_times(date_times: DateTimes, out: Optional[Out] = None) -> NumbersOr[Out]:
    ...


def seconds_from_date_times(date_times: Any, out: Any = None) -> Any:
    """The Unix second of each date-time, rounded down: of a buffer of DateTimeParts, or of a
    sequence of OffsetDateTime. An `out` of datetime64 also gets the nanoseconds, as far as its unit
    has them."""
    items = _structures(date_times, MuxanduDateTime, OffsetDateTime)
    if _datetime64.is_such(out):
        return _datetime64.fill(out, lambda place: seconds_from_date_times(items, place), items, "nanosecond")
    return _convert(engine.seconds_from_date_times, items, MuxanduDateTime, ctypes.c_int64, out, date_times)


def _count(call: Callable[..., tuple[int, int]], date_times: Any, out: Any) -> Any:
    """The parts of a second from 1970-01-01 0:00 UTC of each date-time."""
    items = _structures(date_times, MuxanduDateTime, OffsetDateTime)
    return _convert(call, items, MuxanduDateTime, ctypes.c_int64, out, date_times)


@overload
def milliseconds_from_date_times(date_times: SupportsArray, out: Optional[Out] = None) -> NumPyOr[Out]:
    ...


@overload
def milliseconds_from_date_times(date_times: DateTimes, out: Optional[Out] = None) -> NumbersOr[Out]:
    ...


def milliseconds_from_date_times(date_times: Any, out: Any = None) -> Any:
    """The milliseconds from 1970-01-01 0:00 UTC of each date-time, rounded down."""
    return _count(engine.milliseconds_from_date_times, date_times, out)


@overload
def microseconds_from_date_times(date_times: SupportsArray, out: Optional[Out] = None) -> NumPyOr[Out]:
    ...


@overload
def microseconds_from_date_times(date_times: DateTimes, out: Optional[Out] = None) -> NumbersOr[Out]:
    ...


def microseconds_from_date_times(date_times: Any, out: Any = None) -> Any:
    """The microseconds from 1970-01-01 0:00 UTC of each date-time, rounded down. RefusedResult if
    they do not fit in 64 bits."""
    return _count(engine.microseconds_from_date_times, date_times, out)


@overload
def nanoseconds_from_date_times(date_times: SupportsArray, out: Optional[Out] = None) -> NumPyOr[Out]:
    ...


@overload
def nanoseconds_from_date_times(date_times: DateTimes, out: Optional[Out] = None) -> NumbersOr[Out]:
    ...


def nanoseconds_from_date_times(date_times: Any, out: Any = None) -> Any:
    """The nanoseconds from 1970-01-01 0:00 UTC of each date-time. RefusedResult if they do not fit
    in 64 bits."""
    return _count(engine.nanoseconds_from_date_times, date_times, out)


def _each_converted(
    call: Callable[..., tuple[int, int]], items: Any, given: Any, made: Any, out: Any, statuses: Any, like: Any, *words: int
) -> tuple[Any, Any]:
    """`out` and `statuses`, or new arrays, with the result and the status of each item."""
    source = _reading(items, given)
    if out is None:
        out = _room(source.count, made, _is_like_numpy(like))
    if statuses is None:
        statuses = _room(source.count, ctypes.c_uint32, _is_like_numpy(like))
    place, told = _writing(out, made), _writing(statuses, ctypes.c_uint32)
    if not place.is_apart_from(told):
        raise ValueError("`out` and `statuses` must not overlap")
    read = source.apart_from(place, told)
    done, status = call(read, source.count, *words, place.data, place.count, told.data, told.count)
    _test(status, done)
    return out, statuses


# A second that each call refuses.
_NO_SECOND = 2**62


def _known_seconds(seconds: Any) -> tuple[Any, Any]:
    """Seconds, with an invalid one in place of each missing item, and the places of the missing
    items."""
    seconds, masked = _missing.fill_masked(seconds, _NO_SECOND)
    found = _as_array(seconds)
    if _missing.is_float(found) and found.ndim == 1 and _is_array(found):
        return _missing.whole_of_floats(found, _NO_SECOND)
    if _is_buffer(found):
        return found, masked
    found = list(found)
    places = _missing.places_of(found)
    for place in places:
        found[place] = _NO_SECOND
    return [_missing.whole_of_float(number, place) for place, number in enumerate(found)], places


@overload
def date_times_from_each_second(
    seconds: SupportsArray, offset_seconds: SupportsIndex = 0, out: Optional[Out] = None, statuses: Optional[Told] = None
) -> tuple[NumPyOr[Out], NumPyOr[Told]]:
    ...


@overload
def date_times_from_each_second(
    seconds: NumbersWithGaps, offset_seconds: SupportsIndex = 0, out: Optional[Out] = None, statuses: Optional[Told] = None
) -> tuple[DateTimesOr[Out], NumbersOr[Told]]:
    ...


def date_times_from_each_second(
    seconds: Any, offset_seconds: SupportsIndex = 0, out: Any = None, statuses: Any = None
) -> tuple[Any, Any]:
    """The date-time at an offset of each Unix second, and the status of each: 0, or the `status` of
    its error, or MISSING for None, NaN, NA, NaT and a masked item. An item with a status leaves its
    place in `out` as it was. datetime64 keeps its nanoseconds."""
    if not _datetime64.is_such(seconds):
        known, missing = _known_seconds(seconds)
        items, offset = _numbers(known, ctypes.c_int64), limit(offset_seconds, ctypes.c_int32)
        call = engine.date_times_from_each_second
        shown, told = _each_converted(call, items, ctypes.c_int64, MuxanduDateTime, out, statuses, seconds, offset)
    else:
        moments, _ = _missing.fill_masked(seconds, None)
        whole, nanoseconds = _datetime64.split(moments)
        missing = _datetime64.missing(moments)
        shown, told = date_times_from_each_second(whole, offset_seconds, out, statuses)
        _datetime64.put_nanoseconds(shown, nanoseconds, told)
    _missing.mark(told, missing)
    return shown, told


@overload
def seconds_from_each_date_time(
    date_times: SupportsArray, out: Optional[Out] = None, statuses: Optional[Told] = None
) -> tuple[NumPyOr[Out], NumPyOr[Told]]:
    ...


@overload
def seconds_from_each_date_time(
    date_times: DateTimesWithGaps, out: Optional[Out] = None, statuses: Optional[Told] = None
) -> tuple[NumbersOr[Out], NumbersOr[Told]]:
    ...


def seconds_from_each_date_time(date_times: Any, out: Any = None, statuses: Any = None) -> tuple[Any, Any]:
    """The Unix second of each date-time, rounded down, and the status of each, in the same way.

    An `out` of datetime64 also gets the nanoseconds, as far as its unit has them. It gets NaT for
    an item with a status. A moment that does not fit in it has the status of RefusedResult.
    """
    known, missing = _known_structures(date_times)
    items, call = _structures(known, MuxanduDateTime, OffsetDateTime, set(missing)), engine.seconds_from_each_date_time
    if not _datetime64.is_such(out):
        seconds, told = _each_converted(call, items, MuxanduDateTime, ctypes.c_int64, out, statuses, date_times)
        _missing.mark(told, missing)
        return seconds, told
    nanoseconds = _datetime64.nanoseconds_for(out, items, statuses)
    seconds, told = _each_converted(call, items, MuxanduDateTime, ctypes.c_int64, None, statuses, date_times)
    _missing.mark(told, missing)
    return _datetime64.put_known(out, seconds, nanoseconds, told), told


def _known_structures(values: Any) -> tuple[Any, Any]:
    """A buffer of structures, or a list of values, and the places of those that are missing."""
    known, missing = _missing.fill_masked(values, None)
    known = _as_array(known)
    if _is_buffer(known):
        return known, missing
    known = list(known)
    return known, _missing.places_of(known)


@overload
def dates_from_days(days: SupportsArray, out: Optional[Out] = None) -> NumPyOr[Out]:
    ...


@overload
def dates_from_days(days: Numbers, out: Optional[Out] = None) -> DatesOr[Out]:
    ...


def dates_from_days(days: Any, out: Any = None) -> Any:
    """The date of each day number, counted from 1970-01-01: items of DateParts."""
    if _datetime64.is_such(days):
        whole, _ = _datetime64.split(days)
        return dates_from_days(whole // 86_400, out)
    items = _numbers(days, ctypes.c_int32)
    return _convert(engine.dates_from_days, items, ctypes.c_int32, MuxanduDate, out, days)


@overload
def days_from_dates(dates: SupportsArray, out: Optional[Out] = None) -> NumPyOr[Out]:
    ...


@overload
def days_from_dates(dates: Dates, out: Optional[Out] = None) -> NumbersOr[Out]:
    ...


def days_from_dates(dates: Any, out: Any = None) -> Any:
    """The day number of each date: of a buffer of DateParts, or of a sequence of Date."""
    items = _structures(dates, MuxanduDate, Date)
    if _datetime64.is_such(out):
        return _datetime64.fill(out, lambda place: days_from_dates(items, place), items, days=True)
    return _convert(engine.days_from_dates, items, MuxanduDate, ctypes.c_int32, out, dates)


def _sequence(texts: Any) -> Any:
    """The texts, which are no one text."""
    if isinstance(texts, (str, bytes, bytearray, memoryview)):
        raise TypeError("texts must be a sequence of texts, or a block of bytes with spans")
    return texts


def _block(block: Any, spans: Any) -> tuple[_Items, Any, int]:
    """A block of bytes, spans that no other code can write, and their number."""
    if isinstance(block, str):
        raise TypeError("a block of texts must be bytes, not a str")
    read, where = _reading(block, ctypes.c_uint8), _reading(spans, MuxanduSpan)
    return read, where.copy(), where.count


def _pack(texts: list[Any]) -> tuple[_Items, Any, int]:
    """The same of a list of texts."""
    try:
        block, spans = engine.pack_texts(texts)
    except TypeError as problem:
        raise _missing.error_of(texts, problem) from None
    return _reading(block, ctypes.c_uint8), spans, len(texts)


def _read_texts(call: Callable[..., tuple[int, int]], texts: Any, spans: Any, made: Any, out: Any) -> tuple[Any, int]:
    """`out`, or a new array, with the values of texts, and how many there are."""
    read, where, count = _pack(list(_sequence(texts))) if spans is None else _block(texts, spans)
    if out is None:
        out = _room(count, made, _is_like_numpy(texts if spans is None else spans))
    place = _writing(out, made)
    done, status = call(read.apart_from(place), read.count, where, count, place.data, place.count)
    _test(status, done, texts)
    return out, done


@overload
def timestamps_from_rfc3339(texts: SupportsArray, spans: None = None, out: Optional[Out] = None) -> NumPyOr[Out]:
    ...


@overload
def timestamps_from_rfc3339(texts: Any, spans: SupportsArray, out: Optional[Out] = None) -> NumPyOr[Out]:
    ...


@overload
def timestamps_from_rfc3339(texts: Texts, spans: Optional[Spans] = None, out: Optional[Out] = None) -> TimestampsOr[Out]:
    ...


def timestamps_from_rfc3339(texts: Any, spans: Any = None, out: Any = None) -> Any:
    """The instant of each text of RFC 3339: items of TimestampParts.

    The texts are a sequence of str or bytes. They can also be one block of bytes, with a buffer of
    their places (Spans).
    """
    call = engine.timestamps_from_rfc3339
    if not _datetime64.is_such(out):
        return _read_texts(call, texts, spans, MuxanduTimestamp, out)[0]
    stamps = _room(len(out), MuxanduTimestamp, True)
    return _datetime64.filled_by_stamps(out, stamps, lambda: _read_texts(call, texts, spans, MuxanduTimestamp, stamps)[1])


@overload
def date_times_from_rfc3339(texts: SupportsArray, spans: None = None, out: Optional[Out] = None) -> NumPyOr[Out]:
    ...


@overload
def date_times_from_rfc3339(texts: Any, spans: SupportsArray, out: Optional[Out] = None) -> NumPyOr[Out]:
    ...


@overload
def date_times_from_rfc3339(texts: Texts, spans: Optional[Spans] = None, out: Optional[Out] = None) -> DateTimesOr[Out]:
    ...


def date_times_from_rfc3339(texts: Any, spans: Any = None, out: Any = None) -> Any:
    """The date-time and the offset of each text of RFC 3339: items of DateTimeParts, of which
    OffsetDateTime.from_parts makes values. The texts are as timestamps_from_rfc3339 takes them."""
    return _read_texts(engine.date_times_from_rfc3339, texts, spans, MuxanduDateTime, out)[0]


def _texts_of(values: Any, kind: Any) -> Optional[list[str]]:
    """The text of RFC 3339 of each value of a list, or None if an item is of another type, or has
    none: another call then finds its error."""
    if type(values) is not list or {*map(type, values)} != {kind}:
        return None
    try:
        return [each.to_rfc3339() for each in values]
    except Refused:
        return None


def rfc3339_from_timestamps(timestamps: Timestamps) -> list[str]:
    """The shortest text of RFC 3339 in UTC of each instant: of a buffer of TimestampParts, of a
    sequence of Timestamp, or of an array of datetime64."""
    made = _texts_of(timestamps, Timestamp)
    if made is not None:
        return made
    if _datetime64.is_such(timestamps):
        timestamps = timestamps_from_datetime64(timestamps)
    source = _reading(_structures(timestamps, MuxanduTimestamp, Timestamp), MuxanduTimestamp)
    texts, status = engine.texts_from_timestamps(source.data, source.count)
    _test(status, len(texts))
    return texts


def timestamps_from_datetime64(moments: Any, out: Optional[Out] = None) -> NumPyOr[Out]:
    """The instants of an array of NumPy's datetime64, of any unit: items of TimestampParts. NaT
    raises an error."""
    return _datetime64.stamps(moments, _room(len(moments), MuxanduTimestamp, True) if out is None else out)


def datetime64_from_timestamps(
    timestamps: TimestampsWithGaps, unit: str = "ns", errors: str = "raise"
) -> numpy.ndarray[Any, Any]:
    """The array of NumPy's datetime64 of instants, rounded down to a unit. RefusedResult if they do
    not fit in 64 bits. With errors="coerce" such an instant, an invalid one and a missing one are
    NaT."""
    if not _datetime64.test_errors(errors):
        return _datetime64.of_stamps(_structures(timestamps, MuxanduTimestamp, Timestamp), unit)
    known, missing = _known_structures(timestamps)
    return _datetime64.of_stamps(_structures(known, MuxanduTimestamp, Timestamp, set(missing)), unit, missing, True)

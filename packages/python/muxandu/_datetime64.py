"""Arrays of NumPy's datetime64, as seconds and nanoseconds, and back."""

from __future__ import annotations

from typing import Any, Callable

from ._missing import refuse_mask
from ._refusals import Refused, RefusedBuffer, RefusedNanosecond, RefusedResult, RefusedTimestamp
from ._structures import MuxanduDate, MuxanduDateTime, MuxanduTimestamp

# How many seconds a unit has, and how many of a unit a second has.
_SECONDS = {"W": 604_800, "D": 86_400, "h": 3_600, "m": 60, "s": 1}
_PARTS = {"ms": 10**3, "us": 10**6, "ns": 10**9, "ps": 10**12, "fs": 10**15, "as": 10**18}
_NANO = 10**9

# What NumPy holds for no time at all, and another second that no call takes.
_NONE = -(2**63)
_BEYOND = 2**62


def is_such(items: Any) -> bool:
    """Whether these are an array of datetime64, or a pandas column of it."""
    return getattr(getattr(items, "dtype", None), "kind", "") == "M"


def _counts(moments: Any) -> tuple[Any, str, int]:
    """The whole numbers of the moments, their unit, and how many units one is."""
    import numpy

    refuse_mask(moments)
    if is_such(moments) and not isinstance(moments.dtype, numpy.dtype):
        # A column of pandas with a time zone, whose instants are those in UTC.
        moments = moments.to_numpy(f"datetime64[{getattr(moments.dtype, 'unit', 'ns')}]")
    moments = numpy.asarray(moments)
    unit, many = _unit_of_row(moments)
    counts = numpy.ascontiguousarray(moments, moments.dtype.newbyteorder("=")).view("int64")
    return counts, unit, many


def _unit_of_row(items: Any, kind: str = "M") -> tuple[str, int]:
    """The unit of one row of datetime64, or of timedelta64, and how many units one is."""
    import numpy

    name = "datetime64" if kind == "M" else "timedelta64"
    if items.dtype.kind != kind:
        raise TypeError(f"items must be {name}, not {items.dtype}")
    if items.ndim != 1:
        raise TypeError(f"items must have one dimension, not {items.ndim}")
    unit, many = numpy.datetime_data(items.dtype)
    if unit == "generic":
        raise TypeError(f"{name} needs a unit, such as {name}[ns]")
    return unit, many


def missing(moments: Any) -> Any:
    """The places of the moments that are no time at all."""
    import numpy

    return numpy.flatnonzero(_counts(moments)[0] == _NONE)


def counts_of_parts(moments: Any) -> tuple[Any, str]:
    """The integers of the moments and their unit, as calls over parts of a second take them. The
    unit is empty if a moment is a multiple of one, or NaT, which calls do not know."""
    counts, unit, many = _counts(moments)
    return counts, unit if many == 1 and not (counts == _NONE).any() else ""


def _test_out(out: Any) -> None:
    """Raises TypeError if a call cannot write results to an `out` of datetime64."""
    import numpy

    if not isinstance(out, numpy.ndarray):
        raise TypeError(f"`out` must be a NumPy array of datetime64, not {type(out).__name__}")
    _unit_of_row(out)
    refuse_mask(out)
    if not out.flags.writeable:
        raise TypeError("`out` must be writable")


def _of_months(counts: Any, unit: str, many: int) -> Any:
    """The seconds at which years or months begin, by the dates of the library; an invalid second
    for those outside its years."""
    import numpy

    from ._batch import days_from_dates
    from ._values import Date

    months = counts.astype(object) * (many * (12 if unit == "Y" else 1))
    first, last = 12 * (Date.MIN.year - 1970), 12 * (Date.MAX.year - 1970) + 11
    is_here = ((months >= first) & (months <= last)).astype(bool)
    months = numpy.where(is_here, months, 0).astype("int64")
    dates = numpy.zeros(len(counts), dtype=numpy.dtype(MuxanduDate))
    dates["year"], dates["month"], dates["day"] = 1970 + months // 12, months % 12 + 1, 1
    days = days_from_dates(dates, numpy.zeros(len(counts), dtype="int32"))
    return numpy.where(is_here, days.astype("int64") * 86_400, _BEYOND)


def split(moments: Any) -> tuple[Any, Any]:
    """The Unix second of each moment, rounded down, and its nanoseconds. A second past 64 bits, and
    NaT, becomes an invalid second."""
    import numpy

    counts, unit, many = _counts(moments)
    if unit in ("Y", "M"):
        seconds, rest = _of_months(counts, unit, many), numpy.zeros(len(counts), dtype="int64")
    else:
        seconds, rest = _split_counts(counts, unit, many)
    return numpy.where(counts == _NONE, _NONE, seconds), rest.astype("uint32")


def lengths(items: Any) -> tuple[Any, Any, Any]:
    """The seconds of each timedelta64, rounded down, and its nanoseconds, and which of them are
    NaT. Seconds past 64 bits become the nearer end of half of them, which no sum allows."""
    import numpy

    items = numpy.asarray(items)
    unit, many = _unit_of_row(items, "m")
    if unit in ("Y", "M"):
        raise TypeError(f"items must be timedelta64 of days or less, not {items.dtype}, which has no one length")
    counts = numpy.ascontiguousarray(items, items.dtype.newbyteorder("=")).view("int64")
    return *_split_counts(counts, unit, many), counts == _NONE


def _split_counts(counts: Any, unit: str, many: int) -> tuple[Any, Any]:
    """The seconds of counts of a unit, or of a multiple of it, rounded down, and their
    nanoseconds."""
    import numpy

    if unit in _SECONDS:
        each = _SECONDS[unit] * many
        most = 2**62 // each
        seconds = numpy.clip(counts, -most, most) * each
        rest = numpy.zeros(len(counts), dtype="int64")
    else:
        exact = counts if many == 1 else counts.astype(object) * many
        seconds, rest = exact // _PARTS[unit], exact % _PARTS[unit]
        rest = rest * (_NANO // _PARTS[unit]) if _PARTS[unit] <= _NANO else rest // (_PARTS[unit] // _NANO)
        seconds, rest = seconds.astype("int64"), rest.astype("int64")
    return seconds, rest


def with_nanoseconds(out: Any, nanoseconds: Any, convert: Callable[[], Any]) -> Any:
    """`out`, converted, with these nanoseconds in it up to the first that fails."""
    import numpy

    refusal, done = None, len(nanoseconds)
    try:
        convert()
    except Refused as refused:
        refusal, done = refused, refused.count or 0
    if done:
        numpy.frombuffer(out, dtype=numpy.dtype(MuxanduDateTime))["nanosecond"][:done] = nanoseconds[:done]
    if refusal is not None:
        raise refusal
    return out


def put_nanoseconds(out: Any, nanoseconds: Any, statuses: Any) -> None:
    """Writes these nanoseconds to the valid date-times of `out`."""
    import numpy

    if len(nanoseconds):
        is_shown = numpy.frombuffer(statuses, dtype="uint32")[: len(nanoseconds)] == 0
        place = numpy.frombuffer(out, dtype=numpy.dtype(MuxanduDateTime))[: len(nanoseconds)]
        place["nanosecond"][is_shown] = nanoseconds[is_shown]


def _items(buffer: Any, kind: Any) -> Any:
    """A buffer of structures as an array of NumPy."""
    import numpy

    from ._batch import _reading

    source = _reading(buffer, kind)
    return numpy.frombuffer(source.data, dtype=numpy.dtype(kind)) if source.count else numpy.zeros(0, numpy.dtype(kind))


def _first(is_such: Any) -> int:
    """The index of the first that is true, or their number."""
    return int(is_such.argmax()) if is_such.any() else len(is_such)


def stamps(moments: Any, out: Any) -> Any:
    """`out`, with the instants of the moments."""
    import numpy

    from ._batch import _writing
    from ._values import Timestamp

    seconds, nanoseconds = split(moments)
    room = _writing(out, MuxanduTimestamp)
    if room.count < len(seconds):
        raise RefusedBuffer(0)
    done = _first((seconds < Timestamp.MIN.seconds) | (seconds > Timestamp.MAX.seconds))
    if done:
        place = numpy.frombuffer(out, dtype=numpy.dtype(MuxanduTimestamp))
        place["seconds"][:done], place["nanoseconds"][:done] = seconds[:done], nanoseconds[:done]
    if done < len(seconds):
        raise RefusedTimestamp(done)
    return out


def _exact(seconds: Any, nanoseconds: Any, unit: str, many: int) -> Any:
    """Moments as whole units, rounded down: in 64 bits if all fit, else as integers of any size."""
    import numpy

    if unit in _SECONDS:
        return seconds // (_SECONDS[unit] * many)
    most = (2**63 - 1) // _PARTS[unit] - 1
    if len(seconds) and not (-most <= seconds.min() and seconds.max() <= most):
        seconds, nanoseconds = seconds.astype(object), nanoseconds.astype(object)
    if _PARTS[unit] < _NANO:
        parts = nanoseconds // (_NANO // _PARTS[unit])
    else:
        parts = numpy.asarray(nanoseconds * (_PARTS[unit] // _NANO))
    return (seconds * _PARTS[unit] + parts) // many


def _months(seconds: Any, unit: str, many: int) -> Any:
    """The years or months from 1970 on that moments are in, as the library has their dates."""
    from ._batch import dates_from_days

    dates = dates_from_days(seconds // 86_400)
    months = (dates["year"].astype("int64") - 1970) * 12 + (dates["month"].astype("int64") - 1)
    return months // (12 * many if unit == "Y" else many)


def _counts_in(out: Any, seconds: Any, nanoseconds: Any) -> tuple[Any, Any]:
    """Moments as counts of the unit of `out`, rounded down, and which of them fit in 64 bits."""
    import numpy

    unit, many = numpy.datetime_data(out.dtype)
    seconds, nanoseconds = seconds.astype("int64"), nanoseconds.astype("int64")
    counts = _months(seconds, unit, many) if unit in ("Y", "M") else _exact(seconds, nanoseconds, unit, many)
    if counts.dtype != object:
        return counts, numpy.ones(len(counts), bool)
    fits = numpy.array([_NONE < count < 2**63 for count in counts], bool)
    return numpy.where(fits, counts, _NONE).astype("int64"), fits


def _write_counts(out: Any, counts: Any) -> None:
    """Writes counts of the unit of `out` to its front, in its byte order."""
    import numpy

    unit, many = numpy.datetime_data(out.dtype)
    out[: len(counts)] = counts.astype("int64").view(f"datetime64[{many}{unit}]")


def _write_moments(out: Any, seconds: Any, nanoseconds: Any) -> None:
    """Writes moments in the unit of `out`, rounded down, up to the first that does not fit in 64
    bits."""
    counts, fits = _counts_in(out, seconds, nanoseconds)
    done = _first(~fits)
    _write_counts(out, counts[:done])
    if done < len(counts):
        raise RefusedResult(done)


def coerce(out: Any, seconds: Any, nanoseconds: Any, known: Any) -> Any:
    """`out`, with these moments in its unit, rounded down, and NaT for one that is not known or
    does not fit in 64 bits; and which of them fit."""
    import numpy

    _test_out(out)
    if len(out) < len(known):
        raise RefusedBuffer(0)
    counts, fits = _counts_in(out, numpy.where(known, seconds, 0), numpy.where(known, nanoseconds, 0))
    _write_counts(out, numpy.where(known & fits, counts, _NONE))
    return out, fits


def nanoseconds_for(out: Any, items: Any, statuses: Any) -> Any:
    """The nanoseconds of date-times, for an `out` that a call of `each` can write their moments
    to."""
    import numpy

    _test_out(out)
    nanoseconds = _items(items, MuxanduDateTime)["nanosecond"].copy()
    if len(out) < len(nanoseconds):
        raise RefusedBuffer(0)
    if statuses is not None and numpy.may_share_memory(out, numpy.asarray(memoryview(statuses))):
        raise ValueError("`out` and `statuses` must not overlap")
    return nanoseconds


def put_known(out: Any, seconds: Any, nanoseconds: Any, statuses: Any) -> Any:
    """`out`, with the moments whose seconds and statuses a call has written, and NaT for those with
    a status. A moment that does not fit gets the status of RefusedResult."""
    import numpy

    if len(nanoseconds):
        told = numpy.frombuffer(statuses, "uint32")[: len(nanoseconds)]
        _, fits = coerce(out, numpy.asarray(seconds), nanoseconds, told == 0)
        told[~fits & (told == 0)] = RefusedResult.status
    return out


def test_errors(errors: str) -> bool:
    """Whether errors="coerce" is asked for. ValueError of another word than that and "raise"."""
    if errors not in ("raise", "coerce"):
        raise ValueError(f'errors must be "raise" or "coerce", not {errors!r}')
    return errors == "coerce"


def new_array(count: int, unit: str) -> Any:
    """A new array of datetime64 of a unit."""
    import numpy

    return numpy.zeros(count, dtype=_dtype(unit))


def fill(out: Any, convert: Callable[[Any], Any], items: Any, name: str = "", days: bool = False) -> Any:
    """`out`, with the results of a conversion, up to the first that fails."""
    import numpy

    _test_out(out)
    numbers = numpy.zeros(len(out), dtype="int32" if days else "int64")
    refusal = None
    try:
        convert(numbers)
        done = len(items)
    except Refused as refused:
        refusal, done = refused, refused.count or 0
    seconds = numbers[:done].astype("int64") * (86_400 if days else 1)
    nanoseconds = _items(items, MuxanduDateTime)[name][:done] if name else numpy.zeros(done)
    _write_moments(out, seconds, nanoseconds)
    if refusal is not None:
        raise refusal
    return out


def filled_by_stamps(out: Any, place: Any, convert: Callable[[], int]) -> Any:
    """`out`, with the instants of a conversion, up to the first that fails."""
    _test_out(out)
    refusal = None
    try:
        done = convert()
    except Refused as refused:
        refusal, done = refused, refused.count or 0
    _write_moments(out, place["seconds"][:done], place["nanoseconds"][:done])
    if refusal is not None:
        raise refusal
    return out


def _dtype(unit: str) -> Any:
    """The dtype of a unit, with or without a count before it."""
    import numpy

    try:
        return numpy.dtype(f"datetime64[{unit}]")
    except TypeError:
        units = ", ".join(("Y", "M", *_SECONDS, *_PARTS))
        raise TypeError(f"a unit of datetime64 must be one of {units}, with or without a count before it, not {unit!r}") from None


def of_stamps(items: Any, unit: str, missing: Any = (), is_coerced: bool = False) -> Any:
    """An array of datetime64 of instants, up to the first that fails; or of all, with NaT for those
    that fail or are missing."""
    import numpy

    from ._values import Timestamp

    place = _items(items, MuxanduTimestamp)
    seconds, nanoseconds = place["seconds"], place["nanoseconds"]
    is_beyond = (seconds < Timestamp.MIN.seconds) | (seconds > Timestamp.MAX.seconds)
    is_wrong, out = is_beyond | (nanoseconds >= _NANO), new_array(len(place), unit)
    if is_coerced:
        is_wrong[numpy.asarray(missing, "int64")] = True
        return coerce(out, seconds, nanoseconds, ~is_wrong)[0]
    done = _first(is_wrong)
    _test_out(out)
    _write_moments(out, seconds[:done], nanoseconds[:done])
    if done < len(place):
        raise RefusedTimestamp(done) if is_beyond[done] else RefusedNanosecond(done)
    return out

"""A column of pandas whose items are moments: date-times, each at its own offset, to the
nanosecond, with gaps.

>>> import pandas
>>> import muxandu.pandas
>>> at = pandas.Series(["2024-02-29T00:30:00+02:00", None]).astype("moment")
>>> at.moment.hour.tolist()
[0, <NA>]

The dtype is `moment`. An item is an OffsetDateTime, and a gap is pandas.NA. Moments compare, sort
and group by their instants. The accessor `.moment` has the parts that clocks show, offsets, units,
months and texts. Each result comes from the calls over columns of muxandu.columns.
"""

from __future__ import annotations

import contextlib
import ctypes
import datetime
import numbers
import operator
from fractions import Fraction
from typing import Any, Callable, Iterator, Optional

import numpy
import pandas
from pandas.api.extensions import ExtensionDtype, register_extension_dtype, register_index_accessor, register_series_accessor
from pandas.api.indexers import check_array_indexer
from pandas.api.types import is_list_like

from . import _extension as _engine
from . import (
    Duration,
    OffsetDateTime,
    Refused,
    RefusedSyntax,
    Timestamp,
    Unit,
    UtcDateTime,
    _blocks,
    _formats,
    _steps,
    columns,
    rfc3339_from_date_times,
    texts_from_date_times,
)
from ._arrow_writes import ArrowMoments
from ._blocks import GAP, ROW, in_place
from ._columns import durations_in, number_of_unit, offset_number
from ._datetime64 import test_errors
from ._missing import is_missing
from ._moment_order import OrderedMoments
from ._moment_rows import (
    FIRST_LONG,
    MOMENTS,
    NO_LENGTH,
    are_gaps,
    as_date_time,
    is_zoned,
    items_of,
    nanoseconds_of,
    refuse_naive,
    rows_of,
    rows_of_arrow,
    rows_of_items,
    wide,
)
from ._pandas_asks import make_pandas_ask
from ._text_rows import Texts, rows_of_texts
from ._types import ZoneOrName
from ._words import limit, to_int
from .columns import NO_SECOND
from .fields import field_spans

__all__ = ["MomentArray", "MomentDtype", "date_range", "from_arrow", "from_block", "from_csv", "from_texts", "merge_asof"]

_PARTS = ("year", "month", "day", "hour", "minute", "second", "nanosecond", "offset_seconds")

# The rows that become objects by one call.
_ITEMS = 8_192

# The name of the column of numbers by which two tables are merged.
_KEY = "numbers of instants"

_DURATION = numpy.dtype(columns.DurationParts)

# The words of a DateOffset of pandas that are months, and that are lengths.
_MONTHS = {"years": 12, "months": 1}
_LENGTHS = ("weeks", "days", "hours", "minutes", "seconds", "microseconds")


@register_extension_dtype
class MomentDtype(ExtensionDtype):
    """The dtype of a column of moments, by the name `moment`."""

    name = "moment"
    type = OffsetDateTime
    kind = "O"
    na_value = pandas.NA
    _is_numeric = False

    @classmethod
    def construct_array_type(cls) -> Any:
        """The class of arrays of this dtype."""
        return MomentArray

    def __from_arrow__(self, array: Any) -> MomentArray:
        """The column of an Arrow array of structures."""
        chunks = getattr(array, "chunks", [array])
        return MomentArray(numpy.concatenate([numpy.zeros(0, ROW), *map(rows_of_arrow, chunks)]))


make_pandas_ask()


class MomentArray(OrderedMoments):
    """A column of moments: an array of rows of 16 bytes, which it does not copy."""

    def __init__(self, rows: Any, copy: bool = False) -> None:
        if not isinstance(rows, numpy.ndarray) or rows.dtype != ROW or rows.ndim != 1:
            raise TypeError("rows must be an array of one dimension of MomentParts")
        self._rows = wide(rows).copy().view(ROW) if copy else rows

    @classmethod
    def _from_sequence(cls, scalars: Any, *, dtype: Any = None, copy: bool = False) -> MomentArray:
        return cls(rows_of(scalars, copy))

    @classmethod
    def _from_sequence_of_strings(cls, strings: Any, *, dtype: Any = None, copy: bool = False) -> MomentArray:
        items = numpy.asarray(strings, object).tolist()
        try:
            return cls(rows_of_items(items))
        except RefusedSyntax:
            # A text that is empty is a gap, and few columns have one.
            return cls(rows_of_items([None if isinstance(item, str) and not item else item for item in items]))

    @classmethod
    def _from_scalars(cls, scalars: Any, *, dtype: Any) -> MomentArray:
        """The column of results of a call for each item. TypeError of any other than moments, such
        as texts."""
        items = list(scalars)
        odd = {type(item).__name__ for item in items if not isinstance(item, OffsetDateTime) and not is_missing(item)}
        if odd:
            raise TypeError(f"an item must be an OffsetDateTime, not {', '.join(sorted(odd))}")
        return cls._from_sequence(items)

    @classmethod
    def _from_factorized(cls, values: Any, original: MomentArray) -> MomentArray:
        places, values = original._firsts(), numpy.asarray(values)
        found, is_gap = original._values_for_factorize()[0][places], values == NO_LENGTH
        order = numpy.argsort(found)
        at = numpy.searchsorted(found, values, sorter=order).clip(max=max(len(found) - 1, 0))
        rows = places[order][at] if len(found) else at
        return original.take(numpy.where(is_gap, -1, rows), allow_fill=True)

    @classmethod
    def _concat_same_type(cls, to_concat: Any) -> MomentArray:
        return cls(numpy.concatenate([wide(array._rows) for array in to_concat]).view(ROW))

    @property
    def dtype(self) -> MomentDtype:
        """The dtype of the column."""
        return MomentDtype()

    @property
    def nbytes(self) -> int:
        """The bytes of the rows, 16 for each."""
        return int(self._rows.nbytes)

    def __len__(self) -> int:
        return len(self._rows)

    def isna(self) -> Any:
        """Which rows are gaps."""
        return are_gaps(self._rows)

    def copy(self) -> MomentArray:
        """The column with rows of its own."""
        return type(self)(wide(self._rows).copy().view(ROW))

    def view(self, dtype: Any = None) -> Any:
        """The same rows as another column."""
        if dtype is not None:
            raise NotImplementedError(f"a column of moments has no view of {dtype}")
        return type(self)(self._rows)

    def _item(self, row: Any) -> Any:
        seconds, nanoseconds, offset_seconds = row.item()
        if seconds == NO_SECOND:
            return pandas.NA
        return Timestamp(seconds, nanoseconds).to_offset(offset_seconds)

    def __getitem__(self, item: Any) -> Any:
        if isinstance(item, (str, float)):
            # NumPy would take a text as the name of a field: its error of numbers is the one for all.
            return self._rows["seconds"][item]
        item = check_array_indexer(self, item)
        if isinstance(item, numbers.Integral):
            return self._item(self._rows[item])
        if getattr(item, "dtype", None) == bool:
            return MomentArray(wide(self._rows).compress(item).view(ROW))
        return MomentArray(wide(self._rows)[item].view(ROW))

    def __setitem__(self, key: Any, value: Any) -> None:
        key = check_array_indexer(self, key)
        if self._marks_gaps(key, value):
            self._skips_gaps = True
            return
        is_many = is_list_like(value)
        if is_many and isinstance(key, numbers.Integral):
            raise ValueError("a row takes one item, not a sequence of them")
        rows = wide(rows_of(value if is_many else [value]))
        wide(self._rows)[key] = rows if is_many else rows[0]

    def __iter__(self) -> Any:
        for start in range(0, len(self), _ITEMS):
            yield from items_of(self._rows[start : start + _ITEMS])

    def __array__(self, dtype: Any = None, copy: Any = None) -> Any:
        """The items as an array of objects, or the instants in UTC as datetime64."""
        if dtype is not None and numpy.dtype(dtype).kind == "M":
            return self._datetime64().astype(dtype, copy=False)
        items = numpy.fromiter(items_of(self._rows), object, len(self))
        return items if dtype is None else items.astype(dtype, copy=False)

    def take(self, indices: Any, *, allow_fill: bool = False, fill_value: Any = None) -> MomentArray:
        """The rows at these places; with `allow_fill` a place of -1 has the filling, which is a gap
        by default."""
        places = numpy.asarray(indices, "intp")
        if not len(self) and len(places) and (not allow_fill or (places >= 0).any()):
            raise IndexError("cannot do a non-empty take from an empty axes")
        if not allow_fill:
            return type(self)(wide(self._rows).take(places).view(ROW))
        least, most = places.min(initial=0), places.max(initial=-1)
        if least < -1:
            raise ValueError("a place is below -1")
        if most >= len(self):
            raise IndexError("a place is out of bounds")
        filling = wide(rows_of([None if is_missing(fill_value) else fill_value]))
        made = wide(self._rows).take(places, mode="wrap") if most >= 0 else filling.take(numpy.zeros_like(places))
        if least < 0 <= most:
            made[places < 0] = filling[0]
        return type(self)(made.view(ROW))

    def _where(self, mask: Any, value: Any) -> MomentArray:
        """The rows where a mask says so, and elsewhere a value, or those of another column."""
        if is_list_like(value) and not isinstance(value, MomentArray):
            made: MomentArray = super()._where(mask, value)
            return made
        others = value._rows if isinstance(value, MomentArray) else rows_of([value])
        return type(self)(_blocks.choice(mask, self._rows, others))

    # Comparisons.

    def _comparison(self, other: Any, compare: Callable[..., Any]) -> Any:
        """How each row compares with another, or with one for all, with gaps masked."""
        found, gaps = _blocks.comparison(self._rows, other, _blocks.COMPARISONS.index(compare))
        return pandas.arrays.BooleanArray(found, gaps)

    def _compare(self, other: Any, compare: Callable[..., Any]) -> Any:
        if isinstance(other, pandas.DatetimeIndex):
            # Its own answer would be that no two are equal.
            other = other.array
        if isinstance(other, (pandas.Series, pandas.Index, pandas.DataFrame)):
            return NotImplemented
        if not is_list_like(other):
            return self._compare_one(other, compare)
        if len(other) != len(self):
            raise ValueError("Lengths must match")
        refuse_naive(other)
        try:
            return self._comparison(rows_of(other), compare)
        except TypeError:
            return self._compare_each(list(other), compare)

    def _compare_one(self, other: Any, compare: Callable[..., Any]) -> Any:
        """How each row compares with a value. A text that is no moment is an error."""
        if is_missing(other):
            return pandas.arrays.BooleanArray(numpy.zeros(len(self), bool), numpy.ones(len(self), bool))
        if not isinstance(other, MOMENTS):
            return self._unlike(compare)
        return self._comparison(as_date_time(other), compare)

    def _compare_each(self, others: list[Any], compare: Callable[..., Any]) -> Any:
        """How each row compares with its item of a list in which some are no moments."""
        alike = numpy.array([is_missing(item) or isinstance(item, MOMENTS) for item in others], bool)
        found = self._unlike(compare)
        rows = rows_of([item for item, is_like in zip(others, alike) if is_like])
        found[alike] = self[alike]._comparison(rows, compare)
        return found

    def _unlike(self, compare: Callable[..., Any]) -> Any:
        """The comparison with what is no moment: equal to none, and without an order."""
        if compare not in (operator.eq, operator.ne):
            raise TypeError("a moment has an order with moments alone")
        return pandas.arrays.BooleanArray(numpy.full(len(self), compare is operator.ne), self.isna())

    def __eq__(self, other: Any) -> Any:
        return self._compare(other, operator.eq)

    def __ne__(self, other: Any) -> Any:
        return self._compare(other, operator.ne)

    def __lt__(self, other: Any) -> Any:
        return self._compare(other, operator.lt)

    def __le__(self, other: Any) -> Any:
        return self._compare(other, operator.le)

    def __gt__(self, other: Any) -> Any:
        return self._compare(other, operator.gt)

    def __ge__(self, other: Any) -> Any:
        return self._compare(other, operator.ge)

    # Sums.

    def _is_length(self, other: Any) -> bool:
        kind = getattr(getattr(other, "dtype", None), "kind", "")
        return isinstance(other, (Duration, datetime.timedelta, numpy.timedelta64)) or kind == "m"

    def _sum(self, other: Any, call: Any) -> Any:
        if isinstance(other, (pandas.Series, pandas.Index, pandas.DataFrame)):
            return NotImplemented
        if isinstance(other, numpy.timedelta64):
            other = pandas.Timedelta(other)
        if is_list_like(other) and not self._is_length(other):
            other = list(other)
            if not all(is_missing(item) or self._is_length(item) for item in other):
                return NotImplemented
        elif not self._is_length(other):
            return NotImplemented
        is_column = self._is_length(other) and is_list_like(other)
        column = durations_in(numpy.asarray(other) if is_column else other, len(self))
        durations, is_one = numpy.frombuffer(memoryview(column.rows).cast("B"), _DURATION), column.count is not None
        return MomentArray(_blocks.sums(call, self._rows, durations[:1] if is_one else durations, is_one))

    def _move(self, offset: Any, sign: int) -> Any:
        """The column that a DateOffset of pandas makes, of months and lengths: the months come
        first, as in pandas."""
        if isinstance(offset, pandas.offsets.Tick):
            return self + sign * pandas.Timedelta(offset)
        words = offset.kwds or {"days": 1}
        if type(offset) is not pandas.DateOffset or not words.keys() <= {*_MONTHS, *_LENGTHS}:
            raise TypeError(
                f"a column of moments takes lengths, and DateOffset of {', '.join([*_MONTHS, *_LENGTHS])}, not {offset!r}"
            )
        months = sum(size * words.get(name, 0) for name, size in _MONTHS.items())
        length = pandas.Timedelta(**{"days": 0, **{name: words[name] for name in _LENGTHS if name in words}})
        return self.add_months(sign * offset.n * months) + sign * offset.n * length

    def __add__(self, other: Any) -> Any:
        if isinstance(other, pandas.offsets.BaseOffset):
            return self._move(other, 1)
        return self._sum(other, _engine.moments_add_past_gaps)

    __radd__ = __add__

    def __sub__(self, other: Any) -> Any:
        if isinstance(other, (MomentArray, OffsetDateTime)) or is_zoned(other):
            return self.since(other)
        if isinstance(other, pandas.offsets.BaseOffset):
            return self._move(other, -1)
        if isinstance(other, (Timestamp, UtcDateTime, datetime.datetime)) and not is_missing(other):
            return self.since(as_date_time(other))
        return self._sum(other, _engine.moments_subtract_past_gaps)

    def __rsub__(self, other: Any) -> Any:
        if is_zoned(other):
            return MomentArray(rows_of(other)).since(self)
        if not isinstance(other, (OffsetDateTime, Timestamp, UtcDateTime, datetime.datetime)) or is_missing(other):
            return NotImplemented
        return -self.since(as_date_time(other))

    def since(self, other: Any) -> Any:
        """The timedelta64 to each moment from the one of another column, or from one for all.
        OverflowError beyond 292 years."""
        earlier = other if isinstance(other, OffsetDateTime) else rows_of(other)
        if not isinstance(other, OffsetDateTime) and len(earlier) != len(self):
            raise ValueError(f"columns must have one length, not {len(self)} and {len(earlier)}")
        return pandas.array(_blocks.lengths(self._rows, earlier).view("m8[ns]"), copy=False)

    def min(self, *, axis: Any = None, skipna: bool = True) -> Any:
        """The first instant. An index of pandas asks for it."""
        return self._reduce("min", skipna=skipna)

    def max(self, *, axis: Any = None, skipna: bool = True) -> Any:
        """The last instant."""
        return self._reduce("max", skipna=skipna)

    def _reduce(self, name: str, *, skipna: bool = True, keepdims: bool = False, **words: Any) -> Any:
        if name not in ("min", "max", "median", "mean", "std"):
            raise TypeError(f"a column of moments has no {name}")
        is_gap = (not skipna and self.isna().any()) or self.isna().all()
        if name == "std":
            return pandas.NaT if is_gap else self._deviation(**words)
        found = pandas.NA
        if name in ("min", "max") and not is_gap:
            found = self._item(self._rows[self.argmin() if name == "min" else self.argmax()])
        elif name == "median" and not is_gap:
            found = self._quantile([0.5], "linear")[0]
        elif not is_gap:
            found = self._mean()
        return self._from_sequence([found]) if keepdims else found

    def _lengths(self) -> tuple[OffsetDateTime, Any]:
        """The first instant of a column that has one, and the durations to all from there."""
        first = self.min()
        return first, columns.moments_difference(self._rows[~self.isna()], first)

    def _mean(self) -> OffsetDateTime:
        """The mean of the instants, to the nanosecond below it, at the offset of the first."""
        first, lengths = self._lengths()
        # The sums of both halves of the seconds are in the range of 64 bits.
        high, low = lengths["seconds"] >> 20, lengths["seconds"] & 0xFFFFF
        whole = ((int(high.sum()) << 20) + int(low.sum())) * 1_000_000_000 + int(lengths["nanoseconds"].sum(dtype="int64"))
        return first + Duration(0, whole // len(lengths))

    def _deviation(self, ddof: int = 1, **words: Any) -> Any:
        """The standard deviation of the instants, to the nanoseconds that a float has."""
        _, lengths = self._lengths()
        counts = pandas.Series(lengths["seconds"] * 1e9 + lengths["nanoseconds"])
        return pandas.to_timedelta(counts.std(ddof=ddof), "ns")

    def _quantile(self, qs: Any, interpolation: str) -> MomentArray:
        """The moments at these shares of the column in its order, each at the offset of the one
        before it."""
        count = int((~self.isna()).sum())
        if not count:
            return self._from_sequence([pandas.NA] * len(qs))
        places = numpy.asarray(qs, float) * (count - 1)
        of_one = {"lower": numpy.floor, "higher": numpy.ceil, "nearest": numpy.round}.get(interpolation)
        if of_one is not None:
            places = of_one(places)
        low, high = self._at_shares(places)
        shares = (places % 1 > 0) / 2 if interpolation == "midpoint" else places % 1
        # A product with a float would be off by hundreds of nanoseconds.
        found = [
            one + Duration(0, int((other - one).whole_nanoseconds() * Fraction(part)))
            for one, other, part in zip(low, high, shares)
        ]
        return self._from_sequence(found)

    # What clocks show.

    def parts(self) -> Any:
        """The parts of each moment: items of DateTimeParts, of zeros for a gap."""
        return _blocks.parts_shown(self._rows)

    def texts(self, errors: str = "raise") -> Any:
        """The text of RFC 3339 of each moment, and NA for a gap. With errors="coerce" a moment
        outside the years 0 to 9999 is NA too."""
        return self._texts_by(lambda parts: rfc3339_from_date_times(parts, errors))

    def _texts_by(self, write: Callable[[Any], Any]) -> Any:
        """The text that a call writes of each moment, and NA for a gap and for None."""
        texts, places = numpy.full(len(self), pandas.NA, object), numpy.flatnonzero(~self.isna())
        with _named_rows(places):
            found = write(self.parts()[places])
        texts[places] = numpy.fromiter((pandas.NA if text is None else text for text in found), object, len(places))
        return texts

    def format_texts(self, description: str) -> Any:
        """The text of each moment by a format description, and NA for a gap."""
        return self._texts_by(lambda parts: texts_from_date_times(parts, description))

    def strftime(self, pattern: str) -> Any:
        """The text of each moment by a pattern of strftime, and NA for a gap."""
        described = _formats.of_strftime(pattern)
        for offset in numpy.unique(self._rows["offset_seconds"]).tolist():
            _formats.test_offset(described, offset)
        return self.format_texts(described.text)

    def _formatter(self, boxed: bool = False) -> Callable[[Any], str]:
        return lambda item: "<NA>" if item is pandas.NA else _text(item)

    def astype(self, dtype: Any, copy: bool = True) -> Any:
        """The column as another: of instants for datetime64, of texts of RFC 3339 for texts, else
        as pandas makes it of the items."""
        dtype = pandas.api.types.pandas_dtype(dtype)
        if isinstance(dtype, MomentDtype):
            return self.copy() if copy else self
        if isinstance(dtype, pandas.DatetimeTZDtype):
            return pandas.DatetimeIndex(self._datetime64()).tz_localize("UTC").tz_convert(dtype.tz).array
        if getattr(dtype, "kind", "") == "M":
            return self._datetime64().astype(dtype, copy=False)
        if isinstance(dtype, pandas.StringDtype) or getattr(dtype, "kind", "") == "U":
            return self._as_texts(dtype)
        return super().astype(dtype, copy)

    def _as_texts(self, dtype: Any) -> Any:
        """The text that a column shows of each moment, as texts of a dtype."""
        texts = self.texts("coerce")
        for place in numpy.flatnonzero(pandas.isna(texts) & ~self.isna()):
            texts[place] = _text(self[place])
        if isinstance(dtype, pandas.StringDtype):
            return pandas.array(texts, dtype)
        texts[self.isna()] = "<NA>"
        return texts.astype(dtype)

    def _datetime64(self, errors: str = "raise") -> Any:
        """The instants as datetime64 of nanoseconds in UTC. OverflowError beyond the years 1677 to
        2262, or with errors="coerce" NaT."""
        counts = nanoseconds_of(self._rows)
        if counts is None:
            rows, gaps = self._rows, self.isna()
            is_far = ~gaps & (numpy.abs(rows["seconds"]) >= FIRST_LONG)
            if not test_errors(errors):
                raise OverflowError(f'item {int(is_far.argmax())} is outside the years of datetime64: use errors="coerce"')
            counts = numpy.where(gaps | is_far, 0, rows["seconds"]) * 1_000_000_000 + rows["nanoseconds"]
            counts[gaps | is_far] = NO_LENGTH
        return counts.view("M8[ns]")

    def __arrow_array__(self, type: Any = None) -> Any:
        """The column as an Arrow array of structures."""
        import pyarrow

        fields = [pyarrow.array(self._rows[name].copy()) for name in ROW.names or ()]
        return pyarrow.StructArray.from_arrays(fields, names=list(ROW.names or ()), mask=pyarrow.array(self.isna()))

    def _as_arrow(self) -> ArrowMoments:
        return ArrowMoments(self._rows, self.isna())

    def __arrow_c_schema__(self) -> Any:
        """The schema of the column, as the C data interface of Arrow has it."""
        return self._as_arrow().__arrow_c_schema__()

    def __arrow_c_array__(self, requested_schema: Any = None) -> tuple[Any, Any]:
        """The column as the C data interface of Arrow has it: a structure of three, with a null for
        each gap."""
        return self._as_arrow().__arrow_c_array__(requested_schema)

    def __arrow_c_stream__(self, requested_schema: Any = None) -> Any:
        """The column as the C stream interface of Arrow has it: one array, as of
        `__arrow_c_array__`."""
        return self._as_arrow().__arrow_c_stream__(requested_schema)

    def to_offset(self, offset_seconds: Any) -> MomentArray:
        """The same instants at another offset, or each at the offset of its place. A row without an
        offset is a gap."""
        if is_list_like(offset_seconds):
            offsets = pandas.array(offset_seconds, dtype="Int64")
            rows = numpy.where(offsets.isna(), wide(rows_of([None])), wide(self._rows)).view(ROW)
            least, most = -(2**31), 2**31 - 1
            return MomentArray(_blocks.at_offsets(rows, offsets.to_numpy("int64", na_value=0).clip(least, most)))
        return MomentArray(_blocks.change(_engine.moments_to_offset_past_gaps, self._rows, offset_number(offset_seconds)))

    def to_zone(self, zone: ZoneOrName) -> MomentArray:
        """The same instants on the clocks of a zone, each at the offset that the zone has then."""
        known = numpy.flatnonzero(~self.isna())
        if len(known) == len(self):
            return MomentArray(columns.moments_to_zone(in_place(self._rows), zone))
        made = numpy.full(len(self), numpy.array(GAP, ROW))
        with _named_rows(known):
            made[known] = columns.moments_to_zone(self._rows[known], zone)
        return MomentArray(made)

    def truncated_to(self, unit: Unit) -> MomentArray:
        """Each moment, rounded down to a Unit by its own clocks."""
        return MomentArray(_blocks.change(_engine.moments_truncate_past_gaps, self._rows, number_of_unit(unit)))

    def floor(self, step: Any) -> MomentArray:
        """Each moment, rounded down to a step by its own clocks."""
        return MomentArray(_steps.floor(self, step)._rows)

    def add_months(self, months: int) -> MomentArray:
        """Each moment some months later, on the last day of a month that is shorter."""
        return MomentArray(_blocks.change(_engine.moments_add_months_past_gaps, self._rows, limit(months, ctypes.c_int32)))


@contextlib.contextmanager
def _named_rows(places: Any) -> Iterator[None]:
    """Raises the error of a call over the rows at these places with the place of the row."""
    try:
        yield
    except Refused as refused:
        if refused.count is None:
            raise
        raise type(refused)(int(places[refused.count])) from None


def _text(moment: OffsetDateTime) -> str:
    """The text of RFC 3339, or the library's own for what has none."""
    try:
        return moment.to_rfc3339()
    except ValueError:
        return str(moment)


@register_index_accessor("moment")
@register_series_accessor("moment")
class MomentAccessor:
    """The accessor of a column or an index of moments."""

    def __init__(self, series: Any) -> None:
        if not isinstance(series.dtype, MomentDtype):
            raise AttributeError("only a column of moments has .moment")
        self._series, self._array = series, series.array

    def _column(self, values: Any) -> Any:
        if isinstance(self._series, pandas.Index):
            return pandas.Index(values, name=self._series.name)
        return pandas.Series(values, self._series.index, name=self._series.name)

    def _integers(self, values: Any) -> Any:
        return self._column(pandas.arrays.IntegerArray(values.astype("int64"), self._array.isna()))

    def __getattr__(self, name: str) -> Any:
        if name in _PARTS:
            return self._integers(self._array.parts()[name])
        if name in _steps.NUMBERS:
            return self._integers(_steps.of_dates(self._array, _steps.NUMBERS[name], "int64", 0))
        if name in _steps.TRUTHS:
            found = _steps.of_dates(self._array, _steps.TRUTHS[name], bool, False)
            return self._column(pandas.arrays.BooleanArray(found, self._array.isna()))
        raise AttributeError(f"a column of moments has no {name}")

    def __dir__(self) -> Any:
        return [*super().__dir__(), *_PARTS, *_steps.NUMBERS, *_steps.TRUTHS]

    @property
    def date(self) -> Any:
        """The local date of each moment, a Date, and NA for a gap."""
        return self._column(_steps.of_dates(self._array, lambda date: date, object, pandas.NA))

    @property
    def seconds(self) -> Any:
        """The Unix second of each instant, rounded down."""
        return self._integers(numpy.where(self._array.isna(), 0, self._array._rows["seconds"]))

    def isocalendar(self) -> Any:
        """The ISO year, week and day, 1 for Monday, of the local date of each moment: a table."""
        found, dates, gaps = {}, _steps.dates_of(self._array), self._array.isna()
        for name, read in (
            ("year", lambda date: date.to_iso_week_date().year),
            ("week", lambda date: date.to_iso_week_date().week),
            ("day", lambda date: date.weekday() + 1),
        ):
            found[name] = pandas.arrays.IntegerArray(_steps.of_known_dates(dates, read, "int64", 0), gaps.copy())
        index = self._series if isinstance(self._series, pandas.Index) else self._series.index
        return pandas.DataFrame(found, index)

    def to_utc(self) -> Any:
        """The same instants in UTC."""
        return self.to_offset(0)

    def to_offset(self, offset_seconds: Any) -> Any:
        """The same instants at another offset, in seconds, or each at its own of a column."""
        return self._column(self._array.to_offset(offset_seconds))

    def to_zone(self, zone: ZoneOrName) -> Any:
        """The same instants on the clocks of a zone, each at the offset that the zone has then: of
        a Zone, or of the name of one."""
        return self._column(self._array.to_zone(zone))

    def floor(self, step: Any) -> Any:
        """Each moment, rounded down by its own clocks to a unit from "day" to "nanosecond", to a
        length that divides a day such as "15min", or to a "week" from Monday on, a "month",
        "quarter" or "year"."""
        return self._column(self._array.floor(step))

    def ceil(self, step: Any) -> Any:
        """Each moment, rounded up to a step as `floor` takes it."""
        return self._column(_steps.ceil(self._array, step))

    def round(self, step: Any) -> Any:
        """Each moment at the nearest unit or length, as `floor` takes them; from the middle of two
        at the even one, as pandas rounds."""
        return self._column(_steps.nearest(self._array, step))

    def describe(self) -> Any:
        """The number of moments, their mean, their ends and their quartiles, as pandas has them of
        datetime64."""
        shares = {"min": 0, "25%": 0.25, "50%": 0.5, "75%": 0.75, "max": 1}
        ends = self._array._quantile(list(shares.values()), "linear")
        known = {"count": int((~self._array.isna()).sum()), "mean": self._array._reduce("mean"), **dict(zip(shares, ends))}
        return pandas.Series(known, dtype=object, name=self._series.name)

    def strftime(self, pattern: str) -> Any:
        """The text of each moment by a pattern of strftime, as the method of its items."""
        return self._column(self._array.strftime(pattern))

    def format(self, description: str) -> Any:
        """The text of each moment by a format description, as the method of its items."""
        return self._column(self._array.format_texts(description))

    def day_name(self) -> Any:
        """The name of the day of the week of each moment."""
        return self.format("[weekday]")

    def month_name(self) -> Any:
        """The name of the month of each moment."""
        return self.format("[month repr:long]")

    def add_months(self, months: int) -> Any:
        """Each moment some months later, at the same local time."""
        return self._column(self._array.add_months(months))

    def since(self, other: Any) -> Any:
        """The timedelta64 to each moment from the one of another column, or from one for all."""
        return self._column(self._array.since(other))

    def to_rfc3339(self, errors: str = "raise") -> Any:
        """The text of RFC 3339 of each moment. With errors="coerce" it is NA for a moment outside
        the years 0 to 9999."""
        return self._column(self._array.texts(errors))

    def to_datetime64(self, errors: str = "raise") -> Any:
        """The instants as datetime64 of pandas in UTC. OverflowError beyond the years 1677 to 2262,
        or with errors="coerce" NaT."""
        return self._column(pandas.DatetimeIndex(self._array._datetime64(errors)).tz_localize("UTC"))


def date_range(start: Any, end: Any = None, periods: Any = None, freq: Any = "day") -> MomentArray:
    """The moments at each step from a first one on, at its offset: a number of periods, or up to an
    end. A step is a unit, a length such as "15min" of any size, a "week", a "month", a "quarter"
    or a "year"."""
    if (end is None) == (periods is None):
        raise TypeError("date_range() needs an end or a number of periods, and takes one of them")
    last = None if end is None else as_date_time(end)
    return MomentArray(_steps.rows_from(as_date_time(start), last, None if periods is None else to_int(periods), freq))


def _keys_of(left: MomentArray, right: MomentArray) -> tuple[Any, Any, bool]:
    """Numbers in the order of the instants of two columns, and whether they are nanoseconds."""
    keys = MomentArray._concat_same_type([left, right])._values_for_factorize()[0]
    is_near = keys.dtype != object
    if not is_near:
        keys = numpy.unique(keys, return_inverse=True)[1]
    return keys[: len(left)], keys[len(left) :], is_near


def merge_asof(
    left: Any, right: Any, on: Any = None, left_on: Any = None, right_on: Any = None, tolerance: Any = None, **words: Any
) -> Any:
    """pandas.merge_asof by columns of moments, which are both in order. A tolerance is a Duration
    or a timedelta. The other words are those of pandas."""
    names = [on, on] if on is not None else [left_on, right_on]
    if None in names or on is not None and (left_on, right_on) != (None, None):
        raise TypeError("merge_asof() needs the name of a column of moments, as `on`, or as `left_on` and `right_on`")
    arrays = [MomentArray._from_sequence(frame[name]) for frame, name in zip((left, right), names)]
    for array, side in zip(arrays, ("left", "right")):
        if array.isna().any():
            raise ValueError(f"the column of moments of the {side} table has a gap: drop it")
    *keys, is_near = _keys_of(*arrays)
    if tolerance is not None and not is_near:
        raise OverflowError("a tolerance needs moments of the years 1678 to 2261")
    whole = None if tolerance is None else Duration.of(tolerance).whole_nanoseconds()
    first = left.assign(**{_KEY: keys[0]})
    other = (right.drop(columns=on) if on is not None else right).assign(**{_KEY: keys[1]})
    return pandas.merge_asof(first, other, on=_KEY, tolerance=whole, **words).drop(columns=_KEY)


def from_texts(texts: Any, errors: str = "raise", offset_seconds: Any = None, pattern: Optional[str] = None) -> MomentArray:
    """The column of texts of RFC 3339, or of a format description. With errors="coerce" an invalid
    text is a gap.

    With `offset_seconds` a text can lack an offset, as 2024-02-29 12:34:56: it then has that
    offset, which is one for all texts or one for each. An offset in a text comes first.
    """
    return MomentArray(rows_of_texts(Texts(texts), test_errors(errors), pattern, offset_seconds))


def from_block(
    block: Any, spans: Any, errors: str = "raise", offset_seconds: Any = None, pattern: Optional[str] = None
) -> MomentArray:
    """The column of the texts at the spans of a block of bytes. The other words are those of
    from_texts."""
    return MomentArray(rows_of_texts(Texts(block, spans), test_errors(errors), pattern, offset_seconds))


def from_csv(
    block: Any,
    field: int = 0,
    separator: Any = ",",
    pattern: Optional[str] = None,
    errors: str = "raise",
    offset_seconds: Any = None,
    quote: Any = '"',
    skip: int = 0,
) -> MomentArray:
    """The column of a field of each line of a block of bytes, after some lines to skip. Fields
    count from 0. A field without a text is a gap. No line becomes an object. `separator` and
    `quote` are those of muxandu.fields.field_spans, and the other words those of from_texts."""
    spans = numpy.asarray(field_spans(block, field, separator, quote))[skip:]
    return MomentArray(rows_of_texts(Texts(block, spans, True), test_errors(errors), pattern, offset_seconds))


def from_arrow(column: Any) -> MomentArray:
    """The column of a column of Arrow, as columns.moments_from_arrow reads it."""
    return MomentArray(columns.moments_from_arrow(column))

"""The order of the instants of a column: what pandas sorts, finds, counts and groups by."""

from __future__ import annotations

from typing import Any, Callable

import numpy
import pandas
from pandas.api.extensions import ExtensionArray
from pandas.api.types import is_list_like

from ._missing import is_missing
from ._moment_rows import MOMENTS, NO_LENGTH, are_gaps, copy_with_gaps, nanoseconds_of, refuse_naive, rows_of, wide
from .columns import NO_SECOND

# The rows of a block.
_BLOCK = 131_072

# The number of a gap among those that pandas hashes.
_NO_NUMBER = complex(float("nan"), 0.0)


def _place_of_end(rows: Any, name: str) -> int:
    """The place of the first instant, for `min`, or of the last, for `max`; -1 of no instants."""
    seconds, end = rows["seconds"], numpy.min if name == "min" else numpy.max
    blocks = [slice(start, start + _BLOCK) for start in range(0, len(rows), _BLOCK)]
    # The second before that of a gap is the greatest of 64 bits, and no instant has it.
    ends: Any = [int(end(seconds[block] - 1)) + 1 if name == "min" else int(end(seconds[block])) for block in blocks]
    found = min(ends, default=NO_SECOND) if name == "min" else max(ends, default=NO_SECOND)
    if found in (NO_SECOND, -NO_SECOND):
        return -1
    places = [block.start + numpy.flatnonzero(seconds[block] == found) for block, one in zip(blocks, ends) if one == found]
    at = numpy.concatenate(places)
    nanoseconds = rows["nanoseconds"][at]
    return int(at[numpy.argmin(nanoseconds) if name == "min" else numpy.argmax(nanoseconds)])


def _ranks_of(rows: Any) -> Any:
    """A number for each instant, in their order, the same for equal instants, and that of NaT for a
    gap."""
    ranks = nanoseconds_of(rows)
    if ranks is None:
        gaps, seconds, nanoseconds = are_gaps(rows), rows["seconds"], rows["nanoseconds"]
        order, ranks = numpy.lexsort((nanoseconds, seconds)), numpy.zeros(len(rows), "int64")
        pairs = numpy.stack([seconds[order], nanoseconds[order]])
        ranks[order[1:]] = numpy.cumsum((pairs[:, 1:] != pairs[:, :-1]).any(axis=0))
        ranks[gaps] = NO_LENGTH
    return ranks


def firsts_of(codes: Any) -> Any:
    """The places at which each code comes first, of codes that are numbered as they come."""
    if not len(codes):
        return numpy.zeros(0, "intp")
    most = numpy.maximum.accumulate(codes)
    is_new = numpy.append(codes[:1] >= 0, codes[1:] > most[:-1])
    return numpy.flatnonzero(is_new)


class OrderedMoments(ExtensionArray):
    """A column of rows, in the order of their instants."""

    _rows: Any

    def _made_of(self, rows: Any) -> Any:
        """A column of these rows."""
        return type(self)(rows)

    def _ranks(self) -> Any:
        return _ranks_of(self._rows)

    def _values_for_argsort(self) -> Any:
        return self._ranks()

    def _values_for_factorize(self) -> tuple[Any, Any]:
        """The nanoseconds of each instant from 1970 on, and the number of a gap, the same in each
        column: of 64 bits where those of all rows fit, else whole numbers of Python. pandas merges
        two columns by them, and sorts them."""
        numbers = nanoseconds_of(self._rows)
        if numbers is None:
            numbers = self._rows["seconds"].astype(object) * 1_000_000_000 + self._rows["nanoseconds"].astype(object)
            numbers[self.isna()] = NO_LENGTH
        return numbers, NO_LENGTH

    def _as_hashed(self) -> Any:
        """A number of 128 bits for each instant, the same in each column. Dask sends a row to a
        partition by its hash."""
        numbers, gaps = self._rows["seconds"].astype("complex128"), self.isna()
        numbers.imag = self._rows["nanoseconds"]
        numbers[gaps] = _NO_NUMBER
        return numbers

    def _hash_pandas_object(self, *, encoding: str, hash_key: str, categorize: bool) -> Any:
        return pandas.util.hash_array(self._as_hashed(), encoding, hash_key, categorize)

    def _rank(
        self, *, axis: int = 0, method: str = "average", na_option: str = "keep", ascending: bool = True, pct: bool = False
    ) -> Any:
        """The place of each instant in their order, from 1, as pandas has it of datetime64."""
        ranks = pandas.Series(self._ranks().view("M8[ns]"))
        return ranks.rank(axis=axis, method=method, na_option=na_option, ascending=ascending, pct=pct).to_numpy()

    def duplicated(self, keep: Any = "first") -> Any:
        """Which rows repeat the instant, or the gap, of a row before; with keep="last" of a row
        after, with keep=False of any other."""
        return pandas.Series(self._ranks()).duplicated(keep).to_numpy()

    def argmin(self, skipna: bool = True) -> int:
        """The place of the first instant."""
        place = _place_of_end(self._rows, "min") if skipna else -1
        return int(super().argmin(skipna)) if place < 0 else place

    def argmax(self, skipna: bool = True) -> int:
        """The place of the last instant."""
        place = _place_of_end(self._rows, "max") if skipna else -1
        return int(super().argmax(skipna)) if place < 0 else place

    def factorize(self, na_sentinel: Any = -1, use_na_sentinel: Any = True) -> tuple[Any, Any]:
        """The number of each instant in the order of their first rows, the sentinel for a gap, and
        these rows."""
        is_marked = use_na_sentinel is not False and na_sentinel is not None
        keys = self._values_for_factorize()[0]
        if is_marked and keys.dtype != object:
            codes, _ = pandas.factorize(keys.view("M8[ns]"))
        elif is_marked:
            known = ~self.isna()
            codes = numpy.full(len(self), -1)
            codes[known], _ = pandas.factorize(keys[known])
        else:
            codes, _ = pandas.factorize(keys)
        firsts = firsts_of(codes)
        if isinstance(na_sentinel, int) and na_sentinel != -1:
            codes[codes == -1] = na_sentinel
        return codes, self.take(firsts)

    def isin(self, values: Any) -> Any:
        """Which rows have the instant of one of these values: date-times or their texts. No row has
        the instant of what is no moment."""
        refuse_naive(values)
        if not isinstance(getattr(values, "dtype", None), (type(self.dtype), pandas.DatetimeTZDtype)):
            values = [item for item in values if is_missing(item) or isinstance(item, MOMENTS)]
        keys, others = (column._values_for_factorize()[0] for column in (self, self._made_of(rows_of(values))))
        return pandas.Series(keys).isin(others).to_numpy()

    def searchsorted(self, value: Any, side: Any = "left", sorter: Any = None) -> Any:
        """The places at which moments, or their texts, keep the order of a sorted column."""
        is_many = is_list_like(value)
        rows = rows_of(value if is_many else [value])
        keys, others = (column._values_for_factorize()[0] for column in (self, self._made_of(rows)))
        places: Any = numpy.searchsorted(keys, others, side, sorter)
        return places if is_many else places[0]

    def _firsts(self) -> Any:
        """The places of the first row of each instant."""
        return numpy.flatnonzero(~self.duplicated())

    def unique(self) -> Any:
        """The first row of each instant."""
        return self.take(self._firsts())

    def _counts(self) -> tuple[Any, Any]:
        """How often each instant comes, and the place of its first row, in the order of these."""
        codes, _ = pandas.factorize(self)
        return numpy.bincount(codes[codes >= 0] if len(codes) else codes), firsts_of(codes)

    def value_counts(self, dropna: bool = True) -> Any:
        """How often each instant comes, the most frequent first."""
        counts, places = self._counts()
        gaps = numpy.flatnonzero(self.isna()) if not dropna else ()
        if len(gaps):
            counts, places = numpy.append(counts, len(gaps)), numpy.append(places, gaps[0])
        values = pandas.array(counts, dtype="Int64")
        return pandas.Series(values, pandas.Index(self.take(places))).sort_values(ascending=False, kind="stable")

    def _mode(self, dropna: bool = True) -> Any:
        """The most frequent instants, in their order."""
        counts, places = self._counts()
        gaps = numpy.flatnonzero(self.isna()) if not dropna else ()
        if len(gaps):
            counts, places = numpy.append(counts, len(gaps)), numpy.append(places, gaps[0])
        found = self.take(places[counts == counts.max(initial=0)])
        return found.take(numpy.argsort(found._ranks(), kind="stable"))

    # Ends, up to each row and of groups.

    # Whether pandas before 2.1 asks for ends that pass over gaps: it marks them so in a copy, and
    # then calls NumPy.
    _skips_gaps = False

    def _marks_gaps(self, key: Any, value: Any) -> bool:
        """Whether the value is infinite, and the rows are the gaps."""
        is_end = isinstance(value, float) and value in (float("inf"), -float("inf"))
        return is_end and getattr(key, "dtype", None) == bool and bool((key == self.isna()).all())

    def __array_ufunc__(self, ufunc: Any, method: str, *inputs: Any, **words: Any) -> Any:
        names = {numpy.maximum: "cummax", numpy.minimum: "cummin"}
        if method == "accumulate" and ufunc in names:
            return self._accumulate(names[ufunc], skipna=self._skips_gaps)
        return super().__array_ufunc__(ufunc, method, *inputs, **words)

    def _accumulate(self, name: str, *, skipna: bool = True, **words: Any) -> Any:
        """The first instant up to each row, for `cummin`, or the last, for `cummax`."""
        if name not in ("cummin", "cummax"):
            raise NotImplementedError(f"a column of moments has no {name}")
        gaps, ranks = self.isna(), self._ranks()
        ends, behind = (numpy.maximum, NO_LENGTH) if name == "cummax" else (numpy.minimum, 2**63 - 1)
        ranks[gaps] = behind
        before = numpy.append(behind, ends.accumulate(ranks))[:-1]
        is_new = ends(ranks, before) != before
        rows = numpy.maximum.accumulate(numpy.where(is_new, numpy.arange(len(self)), -1))
        is_gap = gaps if skipna else numpy.logical_or.accumulate(gaps)
        return self.take(numpy.where(is_gap, -1, rows), allow_fill=True)

    def _groupby_op(self, *, how: str, has_dropped_na: bool, min_count: int, ngroups: int, ids: Any, **words: Any) -> Any:
        """The answer to pandas from 2.1 on, which asks for the ends of each group, its first and
        its last row, and the places and the ends up to each of its rows."""
        asked = {"how": how, "has_dropped_na": has_dropped_na, "min_count": min_count, "ngroups": ngroups, "ids": ids}
        return self._by_groups(lambda instants: instants._groupby_op(**asked, **words), how, ids, ngroups)

    def _by_groups(self, ask: Callable[[Any], Any], how: str, ids: Any, ngroups: int) -> Any:
        """The answer of pandas for datetime64 in place of the rows: of their places or their ranks.
        NotImplementedError for what pandas then makes of each group by itself."""

        def answer(numbers: Any) -> Any:
            return numpy.asarray(ask(pandas.array(numbers.view("M8[ns]"))))

        if how == "rank":
            return answer(self._ranks())
        if how in ("first", "last"):
            places = numpy.arange(len(self))
            places[self.isna()] = NO_LENGTH
            return self._at(answer(places))
        if how in ("cummin", "cummax"):
            order, places = self._in_order(how == "cummax")
            return self._at(answer(places), order)
        if how not in ("min", "max"):
            raise NotImplementedError(f"pandas makes {how} of each group")
        ranks = self._ranks()
        ends = answer(ranks).view("int64")
        at = numpy.flatnonzero((ranks == ends.take(ids)) & (ids >= 0))[::-1] if ngroups else ids[:0]
        places = numpy.full(ngroups, -1)
        places[ids[at]] = at
        return self.take(places, allow_fill=True)

    def _at(self, instants: Any, order: Any = None) -> Any:
        """The rows at places that are written as datetime64, and a gap for NaT."""
        places, gaps = instants.view("int64").copy(), numpy.isnat(instants)
        places[gaps] = 0
        places = places if order is None or not len(order) else order.take(places)
        places[gaps] = -1
        return self.take(places, allow_fill=True)

    def _in_order(self, is_last_first: bool) -> tuple[Any, Any]:
        """The rows in the order of their instants, and the place of each row in it, that of NaT for
        a gap. Of equal instants the first row comes first, or the last."""
        ranks, count = self._ranks(), len(self)
        order = count - 1 - ranks[::-1].argsort(kind="stable") if is_last_first else ranks.argsort(kind="stable")
        places = numpy.empty(count, "int64")
        places[order] = numpy.arange(count)
        places[self.isna()] = NO_LENGTH
        return order, places

    def _at_shares(self, shares: Any) -> tuple[Any, Any]:
        """The rows before and after these places in the order of the instants, which are shares of
        the last one."""
        ranks = self._ranks()
        # The gaps are before the instants.
        ends = numpy.stack([numpy.floor(shares), numpy.ceil(shares)]).astype("intp") + numpy.count_nonzero(ranks == NO_LENGTH)
        wanted = numpy.unique(ends)
        numbers = numpy.partition(ranks, wanted)[wanted]
        rows = [(ranks == one).argmax() for one in numbers]
        low, high = (self.take(numpy.asarray(rows)[numpy.searchsorted(wanted, end)]) for end in ends)
        return low, high

    # Gaps that are filled from other rows.

    def fillna(self, value: Any = None, method: Any = None, limit: Any = None, copy: bool = True) -> Any:
        """The column with its gaps filled by a value, or by rows before or after them. pandas
        before 2.1 calls this for both."""
        if method is not None and value is None:
            return self._pad_or_backfill(method=method, limit=limit, copy=copy)
        if value is None or method is not None or limit is not None or is_list_like(value):
            return super().fillna(value, limit=limit, **({} if method is None else {"method": method}))
        made, gaps = copy_with_gaps(self._rows)
        wide(made)[gaps] = wide(rows_of([value]))[0]
        return self._made_of(made)

    def _pad_or_backfill(self, *, method: Any, limit: Any = None, limit_area: Any = None, copy: bool = True) -> Any:
        """The column in which a gap has the row before it, for `pad`, or the row after it, at most
        `limit` gaps in sequence. With a `limit_area` these are gaps between rows, for `inside`, or
        all others, for `outside`."""
        if method not in ("pad", "ffill", "backfill", "bfill"):
            raise ValueError(f"a gap is filled by pad (ffill) or backfill (bfill), not by {method!r}")
        is_back, count = method in ("backfill", "bfill"), len(self)
        if not copy and not self.isna().any():
            return self
        made, gaps = copy_with_gaps(self._rows)
        if not len(gaps):
            return self._made_of(made)
        # The gaps in sequence are runs. Each has a row before it, but at the start, and one after it, but at the end.
        begins = numpy.append(True, numpy.diff(gaps) > 1)
        runs = numpy.cumsum(begins) - 1
        before, after = gaps[begins][runs] - 1, gaps[numpy.append(begins[1:], True)][runs] + 1
        source = after if is_back else before
        is_filled = (source >= 0) & (source < count)
        if limit is not None:
            is_filled &= numpy.abs(gaps - source) <= limit
        if limit_area is not None:
            is_between = (before >= 0) & (after < count)
            is_filled &= ~is_between if limit_area == "outside" else is_between
        wide(made)[gaps[is_filled]] = wide(made)[source[is_filled]]
        return self._made_of(made)

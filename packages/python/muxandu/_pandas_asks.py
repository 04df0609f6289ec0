"""Questions that pandas answers by itself, and here asks a column of moments: the keys of an index,
and before pandas 2 the rows that repeat another and the ends of groups."""

from __future__ import annotations

import datetime
import functools
from typing import Any

import numpy
import pandas
from pandas.util._decorators import cache_readonly

from . import OffsetDateTime, Refused
from ._missing import is_missing
from ._moment_order import OrderedMoments
from ._moment_rows import NO_LENGTH, as_date_time, rows_of


def _as_key(index: Any, key: Any) -> Any:
    """The moment of a key. KeyError of a text that is none: pandas asks for names so."""
    is_read = isinstance(key, (str, datetime.datetime)) and str(index.dtype) == "moment" and not is_missing(key)
    if not is_read:
        return key
    try:
        return as_date_time(key)
    except Refused as refused:
        raise KeyError(key) from refused


def _read_keys_of_indexes() -> None:
    """Makes an index of moments read a key that is a text or a datetime, for `in` and for `.loc`.
    pandas finds a key by its hash, and lets no dtype read it first. Other indexes stay as they
    are."""
    contains, get_loc = pandas.Index.__contains__, pandas.Index.get_loc

    @functools.wraps(contains)
    def contains_moment(self: Any, key: Any) -> Any:
        try:
            return contains(self, _as_key(self, key))
        except KeyError:
            return False

    @functools.wraps(get_loc)
    def get_loc_of_moment(self: Any, key: Any, *words: Any, **named: Any) -> Any:
        return get_loc(self, _as_key(self, key), *words, **named)

    pandas.Index.__contains__, pandas.Index.get_loc = contains_moment, get_loc_of_moment


def _read_lists_of_keys() -> None:
    """Makes an index of moments read a list of keys that are texts or datetimes, for `.loc`,
    `reindex` and `drop`. A list with an item that is no moment stays as it is, and no row has
    it."""
    cast = pandas.Index._maybe_cast_listlike_indexer

    @functools.wraps(cast)
    def cast_to_moments(self: Any, target: Any) -> Any:
        keys = cast(self, target)
        if not isinstance(self._values, OrderedMoments) or getattr(keys.dtype, "kind", "") not in "OM":
            return keys
        try:
            return pandas.Index(self._values._made_of(rows_of(keys)), name=keys.name)
        except (Refused, TypeError):
            return keys

    pandas.Index._maybe_cast_listlike_indexer = cast_to_moments


def _slice_indexes() -> None:
    """Makes an index of moments that are in order find the ends of a slice by their numbers. pandas
    makes each row an object, and compares these."""
    get_bound, is_increasing = pandas.Index.get_slice_bound, pandas.Index.is_monotonic_increasing

    def _moments_in_order(self: Any) -> Any:
        """The numbers of the instants of an index, or None if it has a gap, or no order, or far
        years."""
        values = self._values
        numbers = values._values_for_factorize()[0] if isinstance(values, OrderedMoments) else None
        is_sorted = numbers is not None and numbers.dtype != object and not (numbers[1:] < numbers[:-1]).any()
        return numbers if is_sorted and (not len(numbers) or numbers[0] != NO_LENGTH) else None

    @functools.wraps(get_bound)
    def get_bound_of_moment(self: Any, label: Any, side: Any, *words: Any, **named: Any) -> int:
        key = _as_key(self, label)
        numbers = self._moments_in_order if isinstance(key, OffsetDateTime) else None
        if numbers is None:
            return int(get_bound(self, key, side, *words, **named))
        return int(numpy.searchsorted(numbers, key.to_timestamp().as_nanoseconds(), side))

    def is_monotonic_increasing(self: Any) -> bool:
        return self._moments_in_order is not None or bool(is_increasing.fget(self))

    pandas.Index._moments_in_order = cache_readonly(_moments_in_order)
    pandas.Index.get_slice_bound = get_bound_of_moment
    pandas.Index.is_monotonic_increasing = property(is_monotonic_increasing, doc=is_increasing.__doc__)


def _find_repeated_rows() -> None:
    """Makes a series ask its column which rows repeat another. pandas before 2 makes each row an
    object instead."""
    from pandas.core.base import IndexOpsMixin

    find = IndexOpsMixin._duplicated

    @functools.wraps(find)
    def find_in_column(self: Any, keep: Any = "first") -> Any:
        values = self._values
        return values.duplicated(keep) if isinstance(values, OrderedMoments) else find(self, keep)

    IndexOpsMixin._duplicated = find_in_column


def _answer_of_groups() -> None:
    """Makes a table that is grouped ask its column, as pandas from 2.1 on does. pandas before makes
    each group a series instead."""
    from pandas.core.groupby.ops import WrappedCythonOp

    answer = WrappedCythonOp._ea_wrap_cython_operation

    @functools.wraps(answer)
    def answer_of_column(self: Any, values: Any, min_count: int, ngroups: int, comp_ids: Any, **words: Any) -> Any:
        asked = {"min_count": min_count, "ngroups": ngroups, "comp_ids": comp_ids, **words}
        if not isinstance(values, OrderedMoments):
            return answer(self, values, **asked)
        return values._by_groups(lambda instants: answer(self, instants, **asked), self.how, comp_ids, ngroups)

    WrappedCythonOp._ea_wrap_cython_operation = answer_of_column


def make_pandas_ask() -> None:
    """Makes pandas ask a column of moments."""
    _read_keys_of_indexes()
    _read_lists_of_keys()
    _slice_indexes()
    if not hasattr(pandas.api.extensions.ExtensionArray, "duplicated"):
        _find_repeated_rows()
    if not hasattr(pandas.api.extensions.ExtensionArray, "_groupby_op"):
        _answer_of_groups()

"""Makes Dask know the column of moments of muxandu.pandas: import this module where a program uses
both.

The dtype of a column then needs no `meta` in map_partitions, groupby, set_index and filters. A
column has the accessor `.moment`, and Dask makes each of its results from each partition.
"""

from __future__ import annotations

import operator
from typing import Any, Callable

import pandas
from dask.dataframe.dispatch import hash_object_dispatch, make_meta_dispatch, meta_nonempty
from dask.dataframe.extensions import make_array_nonempty, make_scalar, register_series_accessor

from . import Duration, OffsetDateTime
from .pandas import MomentArray, MomentDtype

__all__: list[str] = []


@make_array_nonempty.register(MomentDtype)
def _two_items(dtype: Any) -> MomentArray:
    """An item and a gap, from which Dask sees how a call changes a column."""
    return MomentArray._from_sequence([_one_item(None), pandas.NA])


@make_scalar.register(OffsetDateTime)
def _one_item(item: Any) -> OffsetDateTime:
    return OffsetDateTime(2024, 1, 1)


def _of_partition(series: Any, name: str, words: tuple[Any, ...], is_call: bool) -> Any:
    """The member of the accessor of a partition with a name."""
    found = operator.attrgetter(f"moment.{name}")(series)
    return found(*words) if is_call else found


@register_series_accessor("moment")
class MomentAccessor:
    """The accessor of a column of Dask, as muxandu.pandas has it."""

    def __init__(self, series: Any) -> None:
        if not isinstance(series.dtype, MomentDtype):
            raise AttributeError("only a column of moments has .moment")
        self._series = series

    def __getattr__(self, name: str) -> Any:
        found = getattr(self._series._meta_nonempty.moment, name)
        if not callable(found):
            return self._series.map_partitions(_of_partition, name, (), False)
        call: Callable[..., Any] = lambda *words: self._series.map_partitions(_of_partition, name, words, True)
        return call


_index_of_pandas = meta_nonempty.dispatch(pandas.Index)


@meta_nonempty.register(pandas.Index)
def _two_items_of_index(index: Any) -> Any:
    """An index of moments, from which Dask sees how set_index changes a table; of others as
    ever."""
    if not isinstance(index.dtype, MomentDtype):
        return _index_of_pandas(index)
    first = _one_item(None)
    return pandas.Index(MomentArray._from_sequence([first, first + Duration(1)]), name=index.name)


@make_meta_dispatch.register(OffsetDateTime)
def _meta_of_item(item: Any, index: Any = None) -> OffsetDateTime:
    """A moment, from which Dask sees the type of a result such as the least of a column."""
    return _one_item(item)


_series_of_pandas = meta_nonempty.dispatch(pandas.Series)


@meta_nonempty.register(pandas.Series)
def _two_items_of_series(series: Any) -> Any:
    """A column with an index of moments, from which Dask sees how a call changes it; others as
    ever."""
    if not isinstance(series.index.dtype, MomentDtype):
        return _series_of_pandas(series)
    return _series_of_pandas(series, idx=_two_items_of_index(series.index))


_hash_of_pandas = hash_object_dispatch.dispatch(pandas.DataFrame)


def _in_numbers(values: Any) -> Any:
    """A column, an index or a table in which each moment is a number."""
    if isinstance(values, pandas.DataFrame):
        columns = {place: _in_numbers(values.iloc[:, place].array) for place in range(values.shape[1])}
        return pandas.DataFrame(columns, _in_numbers(values.index))
    if isinstance(values, pandas.Series):
        return pandas.Series(_in_numbers(values.array), _in_numbers(values.index))
    if not isinstance(values.dtype, MomentDtype):
        return values
    return pandas.Index(values.array._as_hashed()) if isinstance(values, pandas.Index) else values._as_hashed()


@hash_object_dispatch.register((pandas.DataFrame, pandas.Series, pandas.Index))
def _hash_of_rows(values: Any, index: bool = True, **words: Any) -> Any:
    """The hash of each row, by which Dask finds its partition: equal for equal instants."""
    return _hash_of_pandas(_in_numbers(values), index=index, **words)

"""A substitute for pandas 2: the base class of its columns, and what its series, indexes and groups ask of one.

Debian's pandas is 1.5, which answers much of this by itself. Import this module before muxandu.pandas: the column of moments then
derives from the substitute, and the calls below ask it in the words of pandas 2.2. `ASKED` counts the questions.
"""

import collections
import functools

import pandas
from pandas.core.arrays import DatetimeArray
from pandas.core.base import IndexOpsMixin
from pandas.core.generic import NDFrame
from pandas.core.groupby.ops import WrappedCythonOp

ASKED = collections.Counter()

# What groups ask of each row, and not of each group.
OF_ROWS = ("rank", "cummin", "cummax", "cumsum", "cumprod")


class ExtensionArray(pandas.api.extensions.ExtensionArray):
    """The base class, with the methods that it has since pandas 2 and that a column may replace."""

    def duplicated(self, keep="first"):
        raise NotImplementedError("pandas makes each row an object")

    def _pad_or_backfill(self, *, method, limit=None, limit_area=None, copy=True):
        raise NotImplementedError("pandas fills by a loop over objects")

    def _accumulate(self, name, *, skipna=True, **words):
        raise NotImplementedError(f"cannot perform {name} with type {self.dtype}")

    def _groupby_op(self, *, how, has_dropped_na, min_count, ngroups, ids, **words):
        raise NotImplementedError(f"function is not implemented for this dtype: {self.dtype}")

    def fillna(self, value=None, method=None, limit=None, copy=True):
        if method is not None:
            raise TypeError("pandas 2.2 fills by _pad_or_backfill")
        return super().fillna(value, None, limit)


def question(owner, name):
    """Makes a call of pandas ask a column that derives from the substitute, by a function of the column and the words of the call. It
    returns what the call returns of another column."""

    def decorate(ask):
        own = getattr(owner, name)

        @functools.wraps(own)
        def asks(self, *words, **named):
            values = named.get("values", getattr(self, "_values", None))
            if not isinstance(values, ExtensionArray):
                return own(self, *words, **named)
            ASKED[name] += 1
            return ask(self, values, *words, **{word: one for word, one in named.items() if word != "values"})

        setattr(owner, name, asks)
        return ask

    return decorate


def series_of(like, values):
    return like._constructor(values, like.index).__finalize__(like)


@question(IndexOpsMixin, "_duplicated")
def _(self, values, keep="first"):
    return values.duplicated(keep=keep)


@question(pandas.Series, "fillna")
def _(self, values, value=None, method=None, limit=None):
    if method is not None:
        return getattr(self, {"pad": "ffill", "backfill": "bfill"}.get(method, method))(limit=limit)
    return series_of(self, values.fillna(value=value, method=None, limit=limit, copy=True))


for _name, _method in (("ffill", "pad"), ("bfill", "backfill")):

    @question(pandas.Series, _name)
    def _(self, values, limit=None, limit_area=None, method=_method):
        return series_of(self, values._pad_or_backfill(method=method, limit=limit, limit_area=limit_area))


for _name in ("cummax", "cummin"):

    @question(pandas.Series, _name)
    def _(self, values, skipna=True, name=_name):
        return series_of(self, values._accumulate(name, skipna=skipna))


@question(NDFrame, "rank")
def _(self, values, axis=0, method="average", numeric_only=False, na_option="keep", ascending=True, pct=False):
    ranks = values._rank(axis=axis, method=method, ascending=ascending, na_option=na_option, pct=pct)
    return series_of(self, ranks)


@question(WrappedCythonOp, "cython_operation")
def _(self, values, *, axis, min_count=-1, comp_ids, ngroups, **words):
    asked = {"how": self.how, "has_dropped_na": self.has_dropped_na, "min_count": min_count, "ngroups": ngroups}
    return values._groupby_op(**asked, ids=comp_ids, **words)


def _groupby_op_of_instants(self, *, how, has_dropped_na, min_count, ngroups, ids, **words):
    """What pandas 2 has of its own columns of instants."""
    operation = WrappedCythonOp("transform" if how in OF_ROWS else "aggregate", how, has_dropped_na)
    return operation._ea_wrap_cython_operation(self, min_count=min_count, ngroups=ngroups, comp_ids=ids, **words)


DatetimeArray._groupby_op = _groupby_op_of_instants
pandas.api.extensions.ExtensionArray = ExtensionArray

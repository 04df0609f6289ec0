"""The tests that pandas has for columns of other libraries, over columns of moments: run them with pytest."""

import operator

import numpy
import pandas
import pytest
from pandas.conftest import *  # noqa: F401,F403
from pandas.tests.extension import base
from pandas.tests.extension.conftest import *  # noqa: F401,F403

from muxandu import Duration, OffsetDateTime
from muxandu.pandas import MomentArray, MomentDtype

FIRST = OffsetDateTime(-5, 1, 1)
SECOND = OffsetDateTime(2024, 2, 29, 12, 0, 0, 7, 3_600)
THIRD = OffsetDateTime(999_999, 1, 1, offset_seconds=-60)


def column(*items):
    return MomentArray._from_sequence(items)


@pytest.fixture
def dtype():
    return MomentDtype()


@pytest.fixture
def data():
    return column(*(OffsetDateTime(2000 + k, 1 + k % 12, 1, 0, 0, 0, k, k % 3 * 3_600) for k in range(100)))


@pytest.fixture
def data_for_twos():
    pytest.skip("a moment is no number")


@pytest.fixture
def data_missing():
    return column(pandas.NA, FIRST)


@pytest.fixture
def data_for_sorting():
    return column(SECOND, THIRD, FIRST)


@pytest.fixture
def data_missing_for_sorting():
    return column(SECOND, pandas.NA, FIRST)


@pytest.fixture
def na_cmp():
    return lambda one, other: one is pandas.NA and other is pandas.NA


@pytest.fixture
def na_value():
    return pandas.NA


@pytest.fixture
def data_for_grouping():
    return column(SECOND, SECOND, pandas.NA, pandas.NA, FIRST, FIRST, SECOND, THIRD)


class TestCasting(base.BaseCastingTests):
    """A column as texts has those that it shows, of RFC 3339, and not `str` of each item."""

    def test_astype_str(self, data):
        expected = pandas.Series([item.to_rfc3339() for item in data[:5]], dtype=str)
        self.assert_series_equal(pandas.Series(data[:5]).astype(str), expected)

    def test_astype_string(self, data):
        expected = pandas.Series([item.to_rfc3339() for item in data[:5]], dtype="string")
        self.assert_series_equal(pandas.Series(data[:5]).astype("string"), expected)


class TestConstructors(base.BaseConstructorsTests):
    pass


class TestDtype(base.BaseDtypeTests):
    pass


class TestGetitem(base.BaseGetitemTests):
    pass


class TestGroupby(base.BaseGroupbyTests):
    pass


class TestIndex(base.BaseIndexTests):
    pass


class TestInterface(base.BaseInterfaceTests):
    pass


class TestMethods(base.BaseMethodsTests):
    def test_combine_add(self, data_repeated):
        """Moments have no sum, as the datetime64 of pandas have none."""
        one, other = map(pandas.Series, data_repeated(2))
        with pytest.raises(TypeError):
            one.combine(other, operator.add)


class TestMissing(base.BaseMissingTests):
    pass


class TestParsing(base.BaseParsingTests):
    pass


class TestPrinting(base.BasePrintingTests):
    pass


class TestReshaping(base.BaseReshapingTests):
    pass


class TestSetitem(base.BaseSetitemTests):
    pass


class TestComparisons(base.BaseComparisonOpsTests):
    """Comparisons have a mask, so the tests of pandas get those of each pair as what is expected."""

    def _combine(self, frame, other, compare):
        if isinstance(frame, pandas.DataFrame):
            return frame.combine(other, lambda one, two: self._combine(one, two, compare))
        others = other if isinstance(other, pandas.Series) else [other] * len(frame)
        return pandas.Series([compare(one, two) for one, two in zip(frame, others)], dtype="boolean")

    def _compare_other(self, ser, data, op, other):
        if isinstance(other, pandas.Series):
            self.assert_series_equal(op(ser, other), self._combine(ser, other, op))
        elif op in (operator.eq, operator.ne):
            result = op(ser, other)
            assert result.dtype == "boolean" and (result == (op is operator.ne)).all()
        else:
            with pytest.raises(TypeError):
                op(ser, other)

    def test_compare_scalar(self, data, comparison_op):
        self.check_opname(pandas.Series(data), comparison_op.__name__, data[0])

    def check_opname(self, ser, op_name, other, exc=None):
        compare = self.get_op_from_name(op_name)
        self.assert_series_equal(compare(ser, other), self._combine(ser, other, compare))


class TestReductions(base.BaseNoReduceTests):
    """Ends, a mean, a median and a deviation there are, and no other reduction."""

    @pytest.mark.parametrize("skipna", [True, False])
    def test_reduce_series_numeric(self, data, all_numeric_reductions, skipna):
        series = pandas.Series(data)
        if all_numeric_reductions in ("min", "max"):
            place = 0 if all_numeric_reductions == "min" else len(data) - 1
            assert getattr(series, all_numeric_reductions)(skipna=skipna) == data[place]
            return
        if all_numeric_reductions in ("mean", "median"):
            assert data[0] < getattr(series, all_numeric_reductions)(skipna=skipna) < data[len(data) - 1]
            return
        if all_numeric_reductions == "std":
            assert pandas.Timedelta(0) < series.std(skipna=skipna) < series.max() - series.min()
            return
        with pytest.raises(TypeError):
            getattr(series, all_numeric_reductions)(skipna=skipna)


def test_sums_beside_each_item(data):
    series, length = pandas.Series(data), Duration(90_061, 5)
    self = base.BaseOpsUtil()
    self.assert_series_equal(series + length, pandas.Series(column(*(item + length for item in data))))
    self.assert_series_equal(series - length, pandas.Series(column(*(item - length for item in data))))
    assert (series - numpy.timedelta64(1, "s") == series - Duration(1)).all()

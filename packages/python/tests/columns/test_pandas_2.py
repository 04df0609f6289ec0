"""The column of moments over a substitute for pandas 2: each call of test_beside_pandas again, and the methods that pandas 2 asks for."""

import sys
import unittest

if "muxandu.pandas" in sys.modules:
    raise ImportError("the substitute for pandas 2 comes before muxandu.pandas: run this file in a process of its own")

import pandas
import pandas_2

import test_beside_pandas
from muxandu.pandas import MomentArray
from test_beside_pandas import columns

# What pandas 2 asks in these calls.
QUESTIONS = ("_duplicated", "fillna", "ffill", "bfill", "cummax", "cummin", "rank", "cython_operation")


class Calls(test_beside_pandas.Calls):
    """Each call that both columns take, with the answers of the column by the methods of pandas 2."""

    # What this pandas rules out is not of pandas 2.
    test_ruled_out = None

    def test_alike(self):
        pandas_2.ASKED.clear()
        super().test_alike()
        self.compare({"fillna": lambda at: [at.fillna(test_beside_pandas.NOON), at.ffill().fillna(test_beside_pandas.NOON)]})
        for question in QUESTIONS:
            self.assertGreater(pandas_2.ASKED[question], 0, question)


class Column(unittest.TestCase):
    def test_base_class(self):
        self.assertTrue(issubclass(MomentArray, pandas_2.ExtensionArray))
        for name in ("duplicated", "_pad_or_backfill", "_accumulate", "_groupby_op", "fillna"):
            self.assertIsNot(getattr(MomentArray, name), getattr(pandas_2.ExtensionArray, name), name)

    def test_areas_of_filled_gaps(self):
        for at, instants in columns():
            for way, method in (("ffill", "forward"), ("bfill", "backward")):
                for area in ("inside", "outside"):
                    numbers = pandas.Series(range(len(at)), dtype=float).mask(at.isna())
                    places = numbers.interpolate("pad" if way == "ffill" else "bfill", limit_area=area, limit_direction=method)
                    found = getattr(at, way)(limit_area=area)
                    wanted = [None if place != place else at.iloc[int(place)] for place in places]
                    self.assertEqual(test_beside_pandas.plain(list(found)), test_beside_pandas.plain(wanted))

    def test_ends_of_a_table_keep_their_dtype(self):
        for at, _ in columns():
            for name in ("min", "max", "median", "mean"):
                found = at.array._reduce(name, skipna=True, keepdims=True)
                self.assertEqual((type(found), len(found)), (MomentArray, 1))
                self.assertEqual(found[0], getattr(at, name)())


if __name__ == "__main__":
    unittest.main()

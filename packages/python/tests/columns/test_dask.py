"""Tables of Dask with moments: what it says of a result before it computes that, beside the result."""

import unittest

import dask
import dask.dataframe
import pandas
from dask.dataframe.dispatch import hash_object_dispatch

import muxandu.dask  # noqa: F401
from muxandu import Zone
from muxandu.pandas import from_texts

TEXTS = ["2024-02-29T00:00:00.9Z", "2024-02-29T01:00:00.1+01:00", None, "0001-01-01T00:00:00Z"]


class Tables(unittest.TestCase):
    def setUp(self):
        self.whole = pandas.DataFrame({"at": from_texts(TEXTS), "size": range(len(TEXTS))})

    def same(self, call):
        """Names and types of a result of Dask, before and after it is computed, and those of pandas."""
        said = call(dask.dataframe.from_pandas(self.whole, npartitions=2))
        with dask.config.set(scheduler="synchronous"):
            made = said.compute()
        wanted = call(self.whole)
        for table in (said, made):
            self.assertEqual((table.index.name, list(table.columns)), (wanted.index.name, list(wanted.columns)))
            self.assertEqual(table.dtypes.tolist(), wanted.dtypes.tolist())

    def test_names_of_columns_and_of_an_index(self):
        self.same(lambda table: table)
        self.same(lambda table: table.assign(hour=table["at"].moment.floor("hour"), second=table["at"].moment.second))
        zone = Zone.from_rule("CET-1CEST,M3.5.0,M10.5.0/3")
        self.same(lambda table: table.assign(at=table["at"].moment.to_zone(zone)))
        self.same(lambda table: table.dropna().set_index("at"))
        self.same(lambda table: table.dropna().set_index("at").reset_index())
        self.same(lambda table: table.dropna().set_index("at")["size"].reset_index())

    def test_partitions_are_by_instant(self):
        """A row goes to the partition of its instant, also where its column has years that nanoseconds of 64 bits lack."""
        whole = self.whole.assign(at=from_texts([*TEXTS[:3], "0001-01-01T01:00:00+01:00"]))
        near = whole.iloc[:3]
        numbers = pandas.Series(
            [complex(1_709_164_800, 9e8), complex(1_709_164_800, 1e8), complex("nan"), complex(-62_135_596_800)]
        )
        wanted = pandas.util.hash_array(numbers.to_numpy()).tolist()
        for table, count in ((whole, 4), (near, 3)):
            self.assertEqual(list(hash_object_dispatch(table["at"], index=False)), wanted[:count])
            self.assertEqual(list(hash_object_dispatch(pandas.Index(table["at"]), index=False)), wanted[:count])
            plain = pandas.DataFrame({"at": numbers[:count], "size": table["size"]})
            self.assertEqual(
                list(hash_object_dispatch(table, index=False)), list(pandas.util.hash_pandas_object(plain, index=False))
            )
            placed, numbered = table.set_index("at")["size"], plain.set_index("at")["size"]
            self.assertEqual(list(hash_object_dispatch(placed)), list(pandas.util.hash_pandas_object(numbered)))

    def test_tables_merge_by_instant(self):
        """Of two tables, of which one alone has a year that nanoseconds of 64 bits lack."""
        left = pandas.DataFrame({"at": from_texts([*TEXTS, *TEXTS[:2]] * 5), "n": range(30)})
        right = pandas.DataFrame({"at": from_texts(["2024-02-29T02:00:00.9+02:00", "2024-02-29T00:00:00.1Z"]), "m": range(2)})
        with dask.config.set(scheduler="synchronous"):
            parts = (dask.dataframe.from_pandas(left, npartitions=7), dask.dataframe.from_pandas(right, npartitions=2))
            found = parts[0].merge(parts[1], on="at", shuffle="tasks").compute()
        self.assertEqual(sorted(zip(found["n"], found["m"])), [(n, n % 6 % 4) for n in range(30) if n % 6 in (0, 1, 4, 5)])


if __name__ == "__main__":
    unittest.main()

"""Columns of moments in pandas, beside pandas' own columns and Python's datetime."""

import collections
import datetime
import io
import itertools
import operator
import pickle
import threading
import unittest
from unittest import mock

import numpy
import pandas

import muxandu.pandas
from muxandu import (
    DateParts,
    Duration,
    OffsetDateTime,
    RefusedDayOfMonth,
    RefusedMonth,
    RefusedNanosecond,
    RefusedOffsetSeconds,
    RefusedResult,
    RefusedSyntax,
    RefusedTimestamp,
    Timestamp,
    Unit,
    UtcDateTime,
    Zone,
    ZoneNameError,
)
from muxandu.columns import NO_SECOND
from muxandu.pandas import ROW, MomentArray

TEXTS = ["2024-02-29T00:30:00+02:00", None, "1969-12-31T23:59:59.999999999-23:00", "0001-01-01T00:00:00Z", "2024-02-28T22:30:00Z"]
FAR = OffsetDateTime(-999_999, 1, 1)


def moments(*texts):
    return pandas.Series(texts or TEXTS, dtype="object").astype("moment")


def instant(item):
    """The nanoseconds of a moment from 1970-01-01, and None for a gap."""
    return None if item is pandas.NA else item.to_timestamp().seconds * 10**9 + item.nanosecond


class Columns(unittest.TestCase):
    def test_what_clocks_show(self):
        at = moments()
        self.assertEqual(at.moment.hour.tolist(), [0, pandas.NA, 23, 0, 22])
        self.assertEqual(at.moment.year.tolist(), [2024, pandas.NA, 1969, 1, 2024])
        self.assertEqual(at.moment.nanosecond.tolist()[2], 999_999_999)
        self.assertEqual(at.moment.offset_seconds.tolist(), [7_200, pandas.NA, -82_800, 0, 0])
        self.assertEqual(at.moment.to_rfc3339().tolist(), [TEXTS[0], pandas.NA, *TEXTS[2:]])
        self.assertEqual(at.moment.to_utc().moment.hour.tolist(), [22, pandas.NA, 22, 0, 22])
        self.assertEqual(at.moment.to_offset(-3_600).moment.hour.tolist(), [21, pandas.NA, 21, 23, 21])
        self.assertEqual(at.moment.seconds.tolist()[4], 1_709_159_400)
        self.assertIn("hour", dir(at.moment))
        with self.assertRaises(AttributeError):
            at.moment.minutes
        with self.assertRaises(AttributeError):
            pandas.Series([1]).moment

    def test_clocks_of_a_zone(self):
        berlin = Zone.from_rule("CET-1CEST,M3.5.0,M10.5.0/3")
        at = moments("2024-03-31T00:59:59.9Z", None, "2024-03-31T01:00:00Z", "2024-10-27T03:00:00+02:00", "0001-01-01T00:00:00Z")
        shown = at.moment.to_zone(berlin)
        self.assertEqual(shown.moment.offset_seconds.tolist(), [3_600, pandas.NA, 7_200, 3_600, 3_600])
        self.assertEqual(shown.moment.hour.tolist(), [1, pandas.NA, 3, 2, 1])
        self.assertTrue((shown == at).dropna().all() and shown.isna().equals(at.isna()))
        self.assertEqual(at.iloc[:0].moment.to_zone(berlin).tolist(), [])
        self.assertEqual(pandas.Index(at[:3]).moment.to_zone(berlin).moment.hour.tolist(), [1, pandas.NA, 3])
        self.assertEqual(at.iloc[1:2].moment.to_zone(berlin).tolist(), [pandas.NA])
        late = pandas.Series([pandas.NA, at[0], OffsetDateTime(999_999, 12, 31, 23)], dtype="moment")
        with self.assertRaises(RefusedResult) as caught:
            late.moment.to_zone(Zone.from_rule("XXX-14"))
        self.assertEqual(caught.exception.count, 2)
        for column in (at, at.dropna()):
            self.assertRaises(ZoneNameError, column.moment.to_zone, "../x")

    def test_an_offset_for_each_row(self):
        at = moments()
        moved = at.moment.to_offset([3_600, 60, -60, 0, 93_599])
        self.assertEqual(moved.moment.offset_seconds.tolist(), [3_600, pandas.NA, -60, 0, 93_599])
        self.assertEqual((moved == at).tolist(), [True, pandas.NA, True, True, True])
        self.assertTrue(at.moment.to_utc().moment.to_offset(at.moment.offset_seconds).equals(at))
        one_is_missing = at.moment.to_offset(pandas.array([0, 0, None, 0, 0], "Int64"))
        self.assertEqual(one_is_missing.isna().tolist(), [False, True, True, False, False])
        for offset in (93_600, -(2**40)):
            with self.assertRaises(RefusedOffsetSeconds) as caught:
                at.moment.to_offset([0, 0, 0, offset, 0])
            self.assertEqual(caught.exception.count, 3)
        with self.assertRaisesRegex(ValueError, "columns must have one length, not 5 and 1"):
            at.moment.to_offset([0])
        with self.assertRaises(RefusedResult) as caught:
            pandas.Series([OffsetDateTime(2024, 1, 1), FAR]).astype("moment").moment.to_offset([3_600, -3_600])
        self.assertEqual(caught.exception.count, 1)
        self.assertRaises((TypeError, ValueError), at.moment.to_offset, ["UTC"] * 5)

    def test_units_and_months(self):
        at = moments(*TEXTS[:3])
        self.assertEqual(at.moment.floor("day").moment.to_rfc3339().tolist()[0], "2024-02-29T00:00:00+02:00")
        self.assertEqual(at.moment.floor(Unit.SECOND).moment.to_rfc3339().tolist()[2], "1969-12-31T23:59:59-23:00")
        self.assertEqual(at.moment.add_months(12).moment.to_rfc3339().tolist()[0], "2025-02-28T00:30:00+02:00")
        with self.assertRaisesRegex(ValueError, "a step is one of day, hour"):
            at.moment.floor("fortnight")

    def test_isocalendar_is_that_of_datetime(self):
        days = [
            datetime.datetime(2015, 12, 20, 23, tzinfo=datetime.timezone.utc) + datetime.timedelta(days=k) for k in range(800)
        ]
        found = pandas.Series(days).astype("moment").moment.isocalendar()
        self.assertEqual([tuple(row) for row in found.to_numpy()], [day.isocalendar() for day in days])
        self.assertIs(moments().moment.isocalendar()["week"].tolist()[1], pandas.NA)

    def test_sums_and_differences(self):
        at = moments()
        self.assertEqual((at + Duration(0, 1)).moment.nanosecond.tolist(), [1, pandas.NA, 0, 1, 1])
        self.assertTrue(((at + pandas.Timedelta(hours=1)) - pandas.Timedelta(hours=1)).equals(at))
        self.assertTrue(
            (at + numpy.array([1, 2, 3, 4, 5], "m8[s]")).equals(at + pandas.Series([1, 2, 3, 4, 5]).astype("m8[s]").array)
        )
        apart = at.drop(3) - at.iloc[4]
        self.assertEqual(apart.dtype, "m8[ns]")
        self.assertEqual(
            (apart.tolist()[0], apart.tolist()[2]), (pandas.Timedelta(0), pandas.Timestamp(TEXTS[2]) - pandas.Timestamp(TEXTS[4]))
        )
        self.assertTrue(pandas.isna(apart.tolist()[1]))
        with self.assertRaises(RefusedResult) as caught:
            pandas.Series([OffsetDateTime(2024, 1, 1), FAR]).astype("moment") - Duration(1)
        self.assertEqual(caught.exception.count, 1)
        with self.assertRaises(OverflowError):
            moments("0001-01-01T00:00:00Z") - moments("2024-01-01T00:00:00Z")
        with self.assertRaises(TypeError):
            at + 1

    def test_order_is_by_instant(self):
        at = moments()
        self.assertEqual((at == at.iloc[4]).tolist(), [True, pandas.NA, False, False, True])
        self.assertEqual((at < at.iloc[4]).tolist(), [False, pandas.NA, True, True, False])
        self.assertEqual(at.sort_values().index.tolist(), [3, 2, 0, 4, 1])
        self.assertEqual((at.min(), at.max()), (OffsetDateTime(1, 1, 1), at.iloc[0]))
        self.assertEqual(at.groupby(at).size().tolist(), [1, 1, 2])
        frame = pandas.DataFrame({"at": at.dropna(), "x": range(4)})
        self.assertEqual(len(frame.merge(frame, on="at")), 6)
        self.assertEqual(at.nunique(), 3)

    def test_columns_of_many_blocks(self):
        with mock.patch.object(muxandu._blocks, "BLOCK", 2), mock.patch.object(muxandu._columns, "BLOCK", 2):
            self.test_order_is_by_instant()
            self.test_sums_and_differences()
            at = moments("2024-01-01T00:00:00Z", *["1970-01-01T00:00:00Z"] * 3, None)
            for found in (at < at.iloc[0], at < at.drop(4).max()):
                self.assertEqual(found.tolist(), [False, True, True, True, pandas.NA])
            self.assertEqual(
                (at - at.iloc[1]).tolist()[:2], [pandas.Timestamp("2024-01-01") - pandas.Timestamp(0), pandas.Timedelta(0)]
            )
            with self.assertRaisesRegex(OverflowError, "item 3 is more than 292 years"):
                at - moments(*TEXTS[:3], "0001-01-01T00:00:00Z", None)
            lengths = numpy.arange(6).astype("m8[s]")
            self.assertEqual((at + lengths[:5]).moment.second.tolist(), [0, 1, 2, 3, pandas.NA])
            with self.assertRaisesRegex(ValueError, "columns must have one length, not 4 and 6"):
                at.array[:4] + lengths
            with self.assertRaises(RefusedResult) as caught:
                pandas.Series([*at[:3], Timestamp.MAX.to_offset(0)], dtype="moment") + Duration(1)
            self.assertEqual(caught.exception.count, 3)
            with self.assertRaisesRegex(ValueError, "columns must have one length, not 5 and 4"):
                at.array - at.array[:4]
            rows = at.array._rows.copy()
            rows["nanoseconds"][3] = 10**9
            with self.assertRaises(RefusedNanosecond) as caught:
                MomentArray(rows) < at.iloc[0]
            self.assertEqual(caught.exception.count, 3)

    def test_rows_that_no_call_reads_in_place(self):
        """Of every second row, of rows at an odd address, and of rows of which one is masked."""
        at = moments(*TEXTS[:1], *TEXTS[2:]).array
        odd = numpy.frombuffer(b"x" + at._rows.tobytes(), numpy.uint8)[1:].view(muxandu.pandas.ROW)
        masked = numpy.ma.MaskedArray(at._rows, [False, True, False, False])
        for rows, wanted, gaps in ((at._rows[::2], at[::2].copy(), 0), (odd, at, 0), (masked, at, 1)):
            column = MomentArray(rows)
            for first, second in ((column, wanted), (wanted, column), (column, column)):
                self.assertEqual(int((first == second).isna().sum()), gaps)
                self.assertTrue((first == second).all())
                self.assertEqual(int(pandas.isna(first - second).sum()), gaps)
            self.assertEqual(int((column < at[0]).isna().sum()), gaps)

    def test_merges_and_hashes_are_by_instant(self):
        """Of columns with another least instant each, at other offsets, and of years that nanoseconds of 64 bits do not have."""
        left = pandas.DataFrame(
            {"at": moments("2024-01-01T00:00:00Z", "2024-01-02T00:00:00+01:00", None, "0001-01-01T00:00:00Z")}
        )
        right = pandas.DataFrame(
            {"at": moments("2024-01-01T23:00:00Z", "9999-01-01T00:00:00Z", None, "2023-12-31T23:00:00-01:00")}
        )
        near = [column.drop(3 - which) for which, column in enumerate((left, right.drop(1)))]
        for one, other in ((left, right), (near[0], right.drop(1)), (left, right.iloc[3:]), (left.iloc[:1], right)):
            found = one.assign(x=one.index).merge(other.assign(y=other.index), on="at")
            pairs = {
                (x, y)
                for x, first in one["at"].items()
                for y, second in other["at"].items()
                if first is second or (first == second) is True
            }
            self.assertEqual(set(zip(found["x"], found["y"])), pairs)
        hashes = [pandas.util.hash_pandas_object(column["at"], index=False).tolist() for column in (left, right)]
        self.assertEqual((hashes[0][0], hashes[0][1], hashes[0][2]), (hashes[1][3], hashes[1][0], hashes[1][2]))
        self.assertEqual(len({*hashes[0], *hashes[1]}), 5)
        keys = left["at"].array._values_for_factorize()[0]
        self.assertTrue(MomentArray._from_factorized(keys, left["at"].array).equals(left["at"].array))

    def test_threads_on_one_column(self):
        """Eight threads compare, subtract, add and round one column at once, in several blocks: each has the results of one."""
        rows = numpy.zeros(1_000, muxandu.pandas.ROW)
        rows["seconds"], rows["nanoseconds"] = numpy.arange(1_000) * 7_919 % 5_003, numpy.arange(1_000)
        rows["seconds"][::7] = muxandu.columns.NO_SECOND
        at, found = pandas.Series(MomentArray(rows)), [None] * 8

        def results():
            later = (at + Duration(90_061, 5)).moment.floor("hour")
            return [(at < at.iloc[500]).tolist(), (later - at).tolist(), (at == later).tolist(), later.moment.hour.tolist()]

        def read(place):
            found[place] = repr([results() for _ in range(5)])

        with mock.patch.object(muxandu._blocks, "BLOCK", 64), mock.patch.object(muxandu._columns, "BLOCK", 64):
            wanted = repr([results()] * 5)
            threads = [threading.Thread(target=read, args=(place,)) for place in range(8)]
            for thread in threads:
                thread.start()
            for thread in threads:
                thread.join()
        self.assertEqual(set(found), {wanted})

    def test_ends_of_columns(self):
        gaps, at = moments(None, None), moments("2024-01-01T00:00:00Z", None, "1970-01-01T00:00:00.5Z", "1970-01-01T00:00:00.25Z")
        for size in (1, 3, 131_072):
            with mock.patch.object(muxandu._moment_order, "_BLOCK", size):
                self.assertEqual((at.min(), at.max()), (at.iloc[3], at.iloc[0]))
                for end in ("min", "max"):
                    for column in (gaps, gaps[:0]):
                        self.assertIs(getattr(column, end)(), pandas.NA)
                    self.assertIs(getattr(at, end)(skipna=False), pandas.NA)
                    self.assertEqual(getattr(at[2:], end)(skipna=False), getattr(at[2:], end)())

    def test_quantiles(self):
        """Beside those of datetime64, to the microsecond, which is what floats of pandas have."""
        instants = pandas.Series(numpy.array([5, 1, 9, 3, 3, 1_000_000_007], "M8[us]").astype("M8[ns]")).dt.tz_localize("UTC")
        at = instants.astype("moment")
        for way in ("linear", "lower", "higher", "nearest", "midpoint"):
            for share in (0, 0.1, 0.3, 0.5, 0.75, 1):
                found = at.quantile(share, interpolation=way).to_timestamp().as_nanoseconds()
                self.assertAlmostEqual(found, instants.quantile(share, interpolation=way).value, delta=1_000)
        # Lengths of more digits than a float has, and the offset of the row that is taken.
        ends = [Timestamp(5).to_offset(60), Timestamp.from_nanoseconds(5 * 10**9 + 10**19 + 1_234_567).to_offset(-60)]
        for way, share, wanted, offset in (
            ("lower", 0.9, 0, 60),
            ("higher", 0.1, 10**19 + 1_234_567, -60),
            ("nearest", 0.6, 10**19 + 1_234_567, -60),
            ("nearest", 0.4, 0, 60),
            ("midpoint", 0.1, 5 * 10**18 + 617_283, 60),
            ("linear", 0.25, 25 * 10**17 + 308_641, 60),
        ):
            found = pandas.Series(ends[::-1], dtype="moment").quantile(share, interpolation=way)
            self.assertEqual(((found - ends[0]).whole_nanoseconds(), found.offset_seconds), (wanted, offset), (way, share))
        found = moments().quantile([0, 1])
        self.assertEqual((found.dtype, found.tolist()), ("moment", [moments().min(), moments().max()]))
        self.assertIs(moments(None).quantile(0.5), pandas.NA)

    def test_resampling_by_floor(self):
        start = numpy.datetime64("2024-03-30T00:00", "m")
        frame = pandas.DataFrame({"at": MomentArray._from_sequence(start + 7 * numpy.arange(1_000)), "x": 1})
        found = frame.groupby(frame["at"].moment.floor("hour"))["x"].sum()
        wanted = pandas.Series(1, pandas.DatetimeIndex(start + 7 * numpy.arange(1_000))).resample("H").sum()
        self.assertEqual(found.tolist(), wanted.tolist())
        self.assertEqual([str(at.to_rfc3339()) for at in found.index], [f"{at:%Y-%m-%dT%H:%M:%SZ}" for at in wanted.index])

    def test_gaps(self):
        items = [None, float("nan"), pandas.NA, pandas.NaT, OffsetDateTime(2024, 1, 1)]
        at = pandas.Series(items, dtype="moment")
        self.assertEqual(at.isna().tolist(), [True] * 4 + [False])
        self.assertEqual(at.fillna(FAR).tolist(), [FAR] * 4 + [items[4]])
        self.assertEqual(
            muxandu.pandas.from_texts(["2024-13-01T00:00:00Z", None, TEXTS[0]], "coerce").isna().tolist(), [True, True, False]
        )
        with self.assertRaises(RefusedMonth) as caught:
            muxandu.pandas.from_texts([None, "2024-13-01T00:00:00Z"])
        self.assertEqual(caught.exception.count, 1)
        spans = numpy.array([(21, 20), (0, 20)], numpy.dtype(muxandu.Span))
        found = muxandu.pandas.from_block(b"1970-01-01T00:00:01Z 1970-01-41T00:00:02Z", spans, "coerce")
        self.assertEqual(found.isna().tolist(), [True, False])

    def test_texts_without_an_offset(self):
        texts = pandas.Series(["2024-02-29 12:34:56", None, "2024-02-29T12:34:56.5Z", "1969-12-31T23:59:59.25"])
        found = pandas.Series(muxandu.pandas.from_texts(texts, offset_seconds=3_600)).moment
        wanted = ["2024-02-29T12:34:56+01:00", pandas.NA, "2024-02-29T12:34:56.5Z", "1969-12-31T23:59:59.25+01:00"]
        self.assertEqual(found.to_rfc3339().tolist(), wanted)
        offsets = pandas.Series([3_600, 0, 7_200, -60])
        for each in (offsets, offsets.tolist(), offsets.to_numpy()):
            found = pandas.Series(muxandu.pandas.from_texts(texts, offset_seconds=each)).moment
            self.assertEqual(found.offset_seconds.tolist(), [3_600, pandas.NA, 0, -60])
        found = pandas.Series(muxandu.pandas.from_texts(texts, offset_seconds=offsets[2])).moment
        self.assertEqual(found.offset_seconds.tolist(), [7_200, pandas.NA, 0, 7_200])
        with self.assertRaises(RefusedSyntax) as caught:
            muxandu.pandas.from_texts(texts)
        self.assertEqual(caught.exception.count, 0)
        wrong = ["2024-02-29T12:34:56", "2024-02-30 12:34:56", "12:34:56", None]
        for errors, refusal, count in ((wrong, RefusedDayOfMonth, 1), (wrong[::3] + wrong[2:], RefusedSyntax, 2)):
            with self.assertRaises(refusal) as caught:
                muxandu.pandas.from_texts(errors, offset_seconds=0)
            self.assertEqual(caught.exception.count, count)
        self.assertEqual(muxandu.pandas.from_texts(wrong, "coerce", 0).isna().tolist(), [False, True, True, True])
        self.assertEqual(muxandu.pandas.from_texts(texts, "coerce", [None] * 4).isna().tolist(), [True, True, False, True])
        with self.assertRaisesRegex(ValueError, "one for each text: 4, not 3"):
            muxandu.pandas.from_texts(wrong, offset_seconds=[0] * 3)

    def test_other_columns(self):
        zoned = pandas.Series(pandas.to_datetime(["2024-03-31T00:59:59.5Z", None, "2024-03-31T01:00:00Z"])).dt.tz_convert(
            "Europe/Berlin"
        )
        at = zoned.astype("moment")
        self.assertEqual(at.moment.offset_seconds.tolist(), [3_600, pandas.NA, 7_200])
        self.assertTrue(at.moment.to_datetime64().equals(zoned.dt.tz_convert("UTC")))
        before = numpy.array(["1969-12-31T23:59:59.999999999", "NaT"], "M8[ns]")
        self.assertTrue(pandas.Series(before).equals(pandas.Series(before, dtype="moment").astype("M8[ns]")))
        mixed = [Timestamp(5), UtcDateTime(1970, 1, 1), datetime.datetime(1970, 1, 1, tzinfo=datetime.timezone.utc)]
        self.assertEqual(pandas.Series(mixed, dtype="object").astype("moment").moment.seconds.tolist(), [5, 0, 0])
        with self.assertRaisesRegex(OverflowError, 'item 0 is outside the years of datetime64: use errors="coerce"'):
            pandas.Series([FAR], dtype="moment").astype("M8[ns]")
        found = pandas.Series([FAR, None, OffsetDateTime(1970, 1, 1)], dtype="moment").moment.to_datetime64("coerce")
        self.assertEqual(found.tolist(), [pandas.NaT, pandas.NaT, pandas.Timestamp(0, tz="UTC")])
        with self.assertRaisesRegex(ValueError, 'errors must be "raise" or "coerce"'):
            pandas.Series([FAR], dtype="moment").moment.to_datetime64("ignore")

    def test_texts_of_years_without_one(self):
        column = pandas.Series([FAR, None, OffsetDateTime(1970, 1, 1)], dtype="moment")
        self.assertEqual(column.moment.to_rfc3339("coerce").tolist(), [pandas.NA, pandas.NA, "1970-01-01T00:00:00Z"])
        self.assertRaises(muxandu.RefusedNoText, column.moment.to_rfc3339)
        with self.assertRaises(TypeError):
            pandas.Series([5], dtype="object").astype("moment")

    def test_datetime64_out_of_range(self):
        for unit, count in (("D", 2**40), ("W", 2**50), ("Y", 10**9), ("h", -(2**62)), ("s", 31_494_784_780_800)):
            with self.assertRaises(RefusedTimestamp) as caught:
                MomentArray._from_sequence(numpy.array([0, "NaT", count], f"M8[{unit}]"))
            self.assertEqual(caught.exception.count, 2)

    def test_rows_are_not_copied(self):
        rows = numpy.zeros(3, muxandu.pandas.ROW)
        column = MomentArray(rows)
        rows["seconds"][1] = 5
        self.assertEqual((column[1], column.nbytes), (Timestamp(5).to_offset(0), 48))
        with self.assertRaises(TypeError):
            MomentArray(numpy.zeros(3, numpy.dtype(DateParts)))

    def test_csv_json_and_pickles(self):
        frame = pandas.DataFrame({"at": [*moments(), FAR], "x": range(6)})
        frame["at"] = frame["at"].astype("moment")
        read = pandas.read_csv(io.StringIO(frame.to_csv(index=False)), dtype={"at": "moment"})
        self.assertTrue(read.equals(frame))
        self.assertTrue(pickle.loads(pickle.dumps(frame)).equals(frame))
        texts = frame.iloc[:5].assign(at=frame["at"].iloc[:5].moment.to_rfc3339())
        read = pandas.read_json(io.StringIO(texts.to_json()), convert_dates=False)
        self.assertTrue(read["at"].astype("moment").equals(frame["at"].iloc[:5]))

    def test_years_beyond_nanoseconds_with_a_zone(self):
        """As pandas 2 has them, whose datetime64 has other units than nanoseconds."""
        instants = numpy.array(["3000-07-01T00:30:00", "NaT", "1000-01-01T00:00:00"], "M8[s]")
        index = mock.Mock(spec=["tz_convert", "tz_localize", "isna"])
        index.isna.return_value = numpy.isnat(instants)
        index.tz_convert.return_value.tz_localize.return_value = instants
        index.tz_localize.return_value = instants + numpy.array([7_200, 0, 3_208], "m8[s]")
        with mock.patch.object(pandas, "DatetimeIndex", return_value=index):
            rows = muxandu._moment_rows._rows_of_zoned(None)
        at = pandas.Series(MomentArray(rows)).moment
        self.assertEqual(at.year.tolist(), [3_000, pandas.NA, 1_000])
        self.assertEqual(at.offset_seconds.tolist(), [7_200, pandas.NA, 3_208])


class BesidePandas(unittest.TestCase):
    """What people write of a column, beside a column of datetime64 with the same instants."""

    # The second and the fourth are one instant.
    TEXTS = ["2024-02-28T23:45:00Z", "2024-02-29T00:30:00+02:00", "1969-12-31T23:59:59.999999999Z", "2024-02-28T22:30:00Z"]

    def setUp(self):
        self.at = moments(*self.TEXTS)
        self.instants = pandas.Series(pandas.to_datetime(self.TEXTS, utc=True))

    def both(self, call):
        """A result of both columns, which must be one."""
        found, wanted = call(self.at), call(self.instants)
        self.assertEqual(list(found), list(wanted))
        return list(found)

    def test_comparisons_with_a_text(self):
        own = str(self.at[0])
        self.assertNotEqual(own, self.TEXTS[0])
        for text in self.TEXTS:
            equal = self.both(lambda column: column == text)
            self.assertEqual(equal, [instant(at) == instant(OffsetDateTime.from_rfc3339(text)) for at in self.at])
            for compare in (operator.ne, operator.lt, operator.le, operator.gt, operator.ge):
                self.both(lambda column: compare(column, text))
            self.both(lambda column: column.between(text, self.TEXTS[0]))
            self.both(lambda column: column == [text] * 4)
            self.both(lambda column: pandas.DataFrame({"at": column, "x": range(4)})[column == text]["x"])
            for side in ("left", "right"):
                self.both(lambda column: [column.sort_values().searchsorted(text, side)])
        self.assertEqual((self.at == own).tolist(), [True, False, False, False])
        self.assertTrue((self.at == numpy.array(self.TEXTS, object)).all())

    def test_a_text_that_is_no_moment(self):
        for text in ("", "-", "2024-02-28", "2024-02-28T23:45:00", "2024-02-28T23:45:00+0100"):
            for call in (
                lambda: self.at == text,
                lambda: self.at != text,
                lambda: self.at < text,
                lambda: self.at.between(text, text),
                lambda: self.at == [text] * 4,
                lambda: self.at.isin([self.TEXTS[0], text]),
                lambda: self.at.searchsorted(text),
                lambda: moments(None).fillna(text),
            ):
                self.assertRaises(RefusedSyntax, call)
        with self.assertRaises(RefusedMonth):
            self.at == "2024-13-01T00:00:00Z"

    def test_values_of_a_column(self):
        for values in (self.TEXTS[:1], self.TEXTS[1:2], self.TEXTS[:3], []):
            self.assertEqual(self.at.isin(values).tolist(), self.instants.isin(pandas.to_datetime(values, utc=True)).tolist())
            self.assertTrue(self.at.isin(values).equals(self.at.isin(moments(*values) if values else [])))
        one, gap = self.at[0], moments(None, self.TEXTS[0])
        for values in ([one], [one.to_datetime()], [one.to_utc()], [one.to_timestamp()], [one, 5, "1970-01-01T00:00:00Z"]):
            self.assertEqual(self.at.isin(values).tolist(), [True, False, False, False])
        self.assertEqual(gap.isin([None]).tolist(), [True, False])
        self.assertEqual(self.at.isin([5, 1.5]).tolist(), [False] * 4)
        # 2**64 nanoseconds apart, and so one number of 64 bits.
        apart = pandas.array([Timestamp(0), Timestamp(18_446_744_073, 709_551_616)], dtype="moment")
        self.assertEqual((apart.isin([Timestamp(0)]).tolist(), apart.searchsorted(Timestamp(5))), ([True, False], 1))
        self.assertEqual(moments(*self.TEXTS, "0001-01-01T00:00:00Z").isin(self.TEXTS[:1]).tolist(), [True] + [False] * 4)

    def test_what_is_no_moment_in_a_list(self):
        others = [self.at[0], 5, None, self.TEXTS[3]]
        self.assertEqual((self.at == others).tolist(), [True, False, pandas.NA, True])
        self.assertEqual((self.at != others).tolist(), [False, True, pandas.NA, False])
        with self.assertRaisesRegex(TypeError, "a moment has an order with moments alone"):
            self.at < others

    def test_keys_of_an_index(self):
        tables = [pandas.Series(range(4), pandas.Index(column)) for column in (self.at, self.instants)]
        for text in self.TEXTS:
            for table in tables:
                self.assertIn(text, table.index)
            self.assertEqual(*(numpy.atleast_1d(table.loc[text]).tolist() for table in tables))
            self.assertEqual(*(numpy.atleast_1d(table.sort_index().loc[text:]).tolist() for table in tables))
            self.assertEqual(*(numpy.atleast_1d(table.sort_index().loc[:text]).tolist() for table in tables))
        self.assertEqual(tables[0][self.TEXTS[0]], 0)
        self.assertIn(self.at[1].to_datetime(), tables[0].index)
        later = "2030-01-01T00:00:00Z"
        for table in tables:
            self.assertEqual(table.sort_index().loc[later:].tolist(), [])
            self.assertFalse(hasattr(table, "later"))
            self.assertNotIn("later", table.index)
            self.assertRaises(KeyError, lambda: table.loc["later"])
        self.assertRaises(KeyError, lambda: tables[0].sort_index().loc["later":])
        self.assertNotIn(later, tables[0].index)
        self.assertRaises(KeyError, lambda: tables[0].loc[later])
        for text in self.TEXTS:
            found, wanted = (table.loc[[text]].tolist() for table in tables)
            self.assertEqual(found, wanted)
            self.assertEqual(*(table.drop([text]).tolist() for table in tables))
        once = [table[~table.index.duplicated()] for table in tables]
        keys = [self.TEXTS[0], later, self.TEXTS[-1]]
        self.assertEqual(*(table.reindex(keys).fillna(-1).tolist() for table in once))
        self.assertEqual(once[0].reindex(once[1].index).tolist(), once[0].tolist())
        self.assertEqual(once[0].reindex(["later", self.TEXTS[0], 5]).isna().tolist(), [True, True, True])
        self.assertRaises(KeyError, lambda: once[0].loc[["later"]])
        self.assertEqual(once[0].loc[[]].tolist(), [])
        with self.assertRaisesRegex(ValueError, "has no offset"):
            once[0].reindex(once[1].index.tz_localize(None))
        self.assertEqual(pandas.Series([1, 2], ["a", self.TEXTS[0]]).reindex([self.TEXTS[0]]).tolist(), [2])
        self.assertIn(pandas.NA, pandas.Index(moments(None)))
        self.assertIn("a", pandas.Index(["a"]))
        self.assertEqual(pandas.Index(["a", self.TEXTS[0]]).get_loc(self.TEXTS[0]), 1)

    def tables(self, places, is_far):
        """A table of moments, and one of datetime64, whose year 1700 stands for the year 1 of the moments."""
        for first, dtype in (("0001-01-01T00:00:00Z", "moment"), ("1700-01-01T00:00:00Z", "datetime64[ns, UTC]")):
            texts = [*(self.TEXTS[place] for place in places), *([first] if is_far else [])]
            at = texts if dtype == "moment" else pandas.to_datetime(texts, utc=True)
            yield pandas.DataFrame({"at": pandas.Series(at, dtype=dtype), "n": range(len(texts))})

    def rows(self, table):
        """The rows of a result in numbers, with the Unix second of each instant, and of 1700 for an earlier one."""
        for row in table.reset_index().itertuples(index=False):
            items = [item.to_timestamp() if isinstance(item, OffsetDateTime) else item for item in row]
            items = [item.seconds if isinstance(item, Timestamp) else getattr(item, "value", item) for item in items]
            yield repr([item // 10**9 if abs(item) > 10**17 else max(item, -8_520_336_000.0) for item in map(float, items)])

    def test_rows_that_repeat_an_instant(self):
        """Added, joined and merged, they have the rows and the order of datetime64."""
        calls = {
            "+": lambda one, other: (one.set_index("at").n + other.set_index("at").n).to_frame(),
            "-": lambda one, other: (one.set_index("at") - other.set_index("at")),
            "ordered": lambda one, other: pandas.merge_ordered(one, other, on="at"),
            "on indexes": lambda one, other: one.set_index("at").merge(other.set_index("at"), left_index=True, right_index=True),
        }
        for how in ("left", "right", "inner", "outer"):
            calls[f"join {how}"] = lambda one, other, how=how: one.set_index("at").join(
                other.set_index("at"), how=how, rsuffix="r"
            )
            calls[f"merge {how}"] = lambda one, other, how=how: pandas.merge(one, other, on="at", how=how, sort=True)
        for first, second in (([0, 1, 2, 3], [1, 3]), ([0, 1, 3], [0, 1, 3]), ([1, 3, 0], [])):
            for is_far in ((False, False), (True, False), (True, True)):
                left, right = (list(self.tables(*words)) for words in zip((first, second), is_far))
                for name, call in calls.items():
                    found, wanted = (list(self.rows(call(*both))) for both in zip(left, right))
                    self.assertEqual(found, wanted, (name, first, second, is_far))

    def test_a_column_without_an_offset(self):
        """Where pandas refuses an order with it, a column of moments refuses equality too."""
        naive = self.instants.dt.tz_localize(None)
        for other in (naive, naive.to_numpy(), naive.array, pandas.DatetimeIndex(naive)):
            for compare in (operator.eq, operator.ne, operator.lt, operator.ge):
                with self.assertRaisesRegex(ValueError, r"has no offset: .*\.dt\.tz_localize\(\"UTC\"\)"):
                    compare(self.at, other)
                with self.assertRaisesRegex(ValueError, r"has no offset: .*\.dt\.tz_localize\(\"UTC\"\)"):
                    compare(self.at.array, naive.to_numpy())
            with self.assertRaises(TypeError):
                self.instants < other
            self.assertRaisesRegex(ValueError, "has no offset", self.at.isin, other)
        for make in (
            lambda: naive.astype("moment"),
            lambda: naive.to_frame("at").astype({"at": "moment"}),
            lambda: pandas.array(naive, dtype="moment"),
            lambda: pandas.Series(pandas.DatetimeIndex(naive), dtype="moment"),
            lambda: self.at.moment.since(naive),
            lambda: moments(None).fillna(naive[0]),
        ):
            self.assertRaisesRegex(ValueError, "has no offset: .*tz_localize", make)
        for item in (naive[0], naive[0].to_pydatetime(), naive.to_numpy()[0]):
            for call in (
                lambda: self.at == item,
                lambda: self.at != item,
                lambda: self.at < item,
                lambda: self.at.isin([item]),
                lambda: pandas.Series([item], dtype="object").astype("moment"),
            ):
                self.assertRaisesRegex(ValueError, "has no offset: .*tz_localize", call)
        self.assertTrue((naive.dt.tz_localize("UTC").astype("moment") == self.at).all())
        self.assertTrue((MomentArray._from_sequence(naive.to_numpy()) == self.at).all())

    def test_differences_from_a_datetime(self):
        for item in (pandas.Timestamp(self.TEXTS[0]), pandas.Timestamp(self.TEXTS[0]).to_pydatetime()):
            self.both(lambda column: column - item)
            self.both(lambda column: item - column)
        self.assertEqual((self.at[0] - self.at).tolist(), (self.instants[0] - self.instants).tolist())

    def test_differences_from_an_instant(self):
        """Of any type with an instant, on either side."""
        first = pandas.Timestamp(self.TEXTS[0])
        for item in (self.at[0].to_timestamp(), self.at[0].to_utc()):
            self.assertEqual((self.at - item).tolist(), (self.instants - first).tolist())
            self.assertEqual((item - self.at).tolist(), (first - self.instants).tolist())
        self.assertRaisesRegex(ValueError, "has no offset", lambda: self.at - datetime.datetime(2024, 1, 1))

    def test_gaps_are_filled(self):
        """By fillna, which pandas before 2.1 asks for rows before and after too."""
        places = [None, 0, None, None, 1, None]
        texts = [None if place is None else self.TEXTS[place] for place in places]
        at, instants = moments(*texts), pandas.Series(pandas.to_datetime(texts, utc=True))
        for call in (
            lambda column: column.fillna(self.TEXTS[2]),
            lambda column: column.ffill(),
            lambda column: column.bfill(),
            lambda column: column.ffill(limit=1),
            lambda column: column.bfill(limit=1),
        ):
            found, wanted = call(at), call(instants)
            self.assertEqual(found.dtype, "moment")
            self.assertTrue((found.isna() == wanted.isna()).all())
            self.assertEqual(list(found.dropna()), list(wanted.dropna().astype("moment")))
        self.assertEqual(at.array.fillna(method="pad", limit=1).isna().tolist(), [True, False, False, True, False, False])
        self.assertRaises(ValueError, at.array.fillna)
        self.assertRaises(ValueError, at.array.fillna, self.at[0], "pad")
        for column in (at, instants):
            self.assertRaises(ValueError, column.interpolate)
        with self.assertRaisesRegex(ValueError, "by pad .ffill. or backfill .bfill., not by 'linear'"):
            at.array.fillna(method="linear")

    def test_numbers_of_instants(self):
        """By factorize, in the order of their first rows, with and without gaps."""
        for texts in ([*self.TEXTS, None, *self.TEXTS[::-1]], [None, None], [], [*self.TEXTS, None, "0001-01-01T00:00:00Z"]):
            at = pandas.array(texts, dtype="moment")
            instants = list(map(instant, at))
            for is_marked in (True, False):
                firsts = [it for it in dict.fromkeys(instants) if it is not None or not is_marked]
                codes, found = pandas.factorize(at, use_na_sentinel=is_marked)
                self.assertEqual(list(map(instant, found)), firsts)
                self.assertEqual(codes.tolist(), [firsts.index(it) if it in firsts else -1 for it in instants])
            for item in found[~found.isna()]:
                self.assertTrue(item.is_same(at[instants.index(instant(item))]))


class Objects(unittest.TestCase):
    """The rows of a column as objects, and objects as rows."""

    ENDS = [Timestamp.MIN.to_offset(0), Timestamp.MAX.to_offset(0), Timestamp(-1, 999_999_999).to_offset(-86_399)]

    def test_there_and_back(self):
        """In blocks of each size around that of a call of the library, and of a step of an iterator."""
        for count in (0, 1, 127, 128, 129, 8_191, 8_193):
            items = [
                pandas.NA if place % 50 == 7 else Timestamp(place, place).to_offset(place % 1_440 - 720) for place in range(count)
            ]
            items[: min(count, 3)] = self.ENDS[:count]
            column = pandas.array(items, dtype="moment")
            for found in (list(column), list(numpy.asarray(column)), column.astype(object).tolist(), column.tolist()):
                self.assertEqual(len(found), count)
                for item, wanted in zip(found, items):
                    self.assertTrue(item is wanted or type(item) is OffsetDateTime and item.is_same(wanted), (item, wanted))
            self.assertEqual(numpy.asarray(column).dtype, object)
            self.assertTrue(pandas.array(numpy.array([*items, 0], object)[:-1], dtype="moment").equals(column))

    def test_rows_out_of_range(self):
        rows = numpy.zeros(300, ROW)
        for field, value, refusal in (("nanoseconds", 10**9, RefusedNanosecond), ("seconds", 2**62, RefusedTimestamp)):
            for place in (0, 127, 128, 299):
                wrong = rows.copy()
                wrong[field][place] = value
                with self.assertRaises(refusal) as caught:
                    list(MomentArray(wrong))
                self.assertEqual(caught.exception.count, place)

    def test_items_of_other_types(self):
        class Own(OffsetDateTime):
            pass

        own, at = Own(2024, 1, 1, offset_seconds=60), OffsetDateTime(2024, 1, 1)
        zoned = datetime.datetime(2024, 1, 1, tzinfo=datetime.timezone.utc)
        found = pandas.array([at, own, UtcDateTime(2024, 1, 1), Timestamp(5), zoned, None, pandas.NaT, TEXTS[0]], dtype="moment")
        wanted = [at, own, at, Timestamp(5), at, pandas.NA, pandas.NA, OffsetDateTime.from_rfc3339(TEXTS[0])]
        self.assertEqual(list(found), wanted)
        self.assertEqual(found._rows["offset_seconds"].tolist(), [0, 60, 0, 0, 0, 0, 0, 7_200])
        for item in (5, 1.5, b"x", object(), datetime.date(2024, 1, 1), (at,)):
            self.assertRaises(TypeError, pandas.array, [at, item], dtype="moment")
        self.assertRaises(RefusedSyntax, pandas.array, [at, "x"], dtype="moment")
        # Clocks at the end of the range can show an instant beyond it.
        self.assertRaises(
            RefusedResult, pandas.array, [at, OffsetDateTime(999_999, 12, 31, 23, offset_seconds=-7_200)], dtype="moment"
        )


class MethodsOfPandas2(unittest.TestCase):
    """The methods that pandas 2 asks an array for, called by name: an older pandas has no caller for them."""

    NUMBERS = (5, None, 3, 3, None, 9, 1, None)

    def setUp(self):
        self.floats = pandas.Series(self.NUMBERS, dtype=float)
        self.at = MomentArray._from_sequence(
            [pandas.NA if n is None else Timestamp(n).to_offset(3_600 * n) for n in self.NUMBERS]
        )

    def same(self, column, floats):
        seconds = [float("nan") if item is pandas.NA else float(item.to_timestamp().seconds) for item in column]
        pandas.testing.assert_series_equal(pandas.Series(seconds), floats, check_names=False)

    def test_gaps_are_filled(self):
        for method in ("pad", "ffill", "backfill", "bfill"):
            for limit in (None, 1, 2):
                column = pandas.Series([1, None, None, 2, None, None, None])
                wanted = column.fillna(method=method, limit=limit)
                at = MomentArray._from_sequence([pandas.NA if pandas.isna(n) else Timestamp(int(n)).to_offset(0) for n in column])
                self.same(at._pad_or_backfill(method=method, limit=limit), wanted)
                self.same(
                    at[::-1]._pad_or_backfill(method=method, limit=limit),
                    column[::-1].fillna(method=method, limit=limit).reset_index(drop=True),
                )
            for area in ("inside", "outside"):
                way = "backward" if method in ("backfill", "bfill") else "forward"
                shown = pandas.Series([None, 1, None, None, 2, None, None])
                wanted = shown.interpolate("pad" if way == "forward" else "bfill", limit_area=area, limit_direction=way)
                at = MomentArray._from_sequence([pandas.NA if pandas.isna(n) else Timestamp(int(n)).to_offset(0) for n in shown])
                self.same(at._pad_or_backfill(method=method, limit_area=area), wanted)
        whole = self.at[[0, 2]]
        self.assertIs(whole._pad_or_backfill(method="pad", copy=False), whole)
        self.assertIsNot(whole._pad_or_backfill(method="pad")._rows, whole._rows)

    def test_accumulated(self):
        for name in ("cummin", "cummax"):
            for skipna in (True, False):
                self.same(self.at._accumulate(name, skipna=skipna), getattr(self.floats, name)(skipna=skipna))
            self.assertEqual(len(self.at[:0]._accumulate(name)), 0)
            gaps = self.at[[1, 4]]
            self.assertEqual(gaps._accumulate(name).isna().tolist(), [True, True])
        self.assertEqual(self.at._accumulate("cummin")[3], self.at[2])
        self.assertRaises(NotImplementedError, self.at._accumulate, "cumsum")

    def test_ranks_and_duplicates(self):
        for method in ("average", "min", "max", "first", "dense"):
            for option in ("keep", "top", "bottom"):
                for words in ({}, {"ascending": False}, {"pct": True}):
                    found = self.at._rank(method=method, na_option=option, **words)
                    wanted = self.floats.rank(method=method, na_option=option, **words)
                    self.assertTrue(pandas.Series(found).equals(wanted))
                    self.assertTrue(pandas.Series(self.at).rank(method=method, na_option=option, **words).equals(wanted))
        for keep in ("first", "last", False):
            self.assertEqual(self.at.duplicated(keep=keep).tolist(), self.floats.duplicated(keep=keep).tolist())

    def test_results_of_items(self):
        self.assertTrue(MomentArray._from_scalars(list(self.at), dtype=self.at.dtype).equals(self.at))
        for item in ("2024-01-01T00:00:00Z", 5, datetime.datetime(2024, 1, 1, tzinfo=datetime.timezone.utc)):
            self.assertRaises(TypeError, MomentArray._from_scalars, [self.at[0], item], dtype=self.at.dtype)
        self.assertEqual(self.at._reduce("max", keepdims=True).tolist(), [self.at[5]])
        self.assertEqual(self.at.fillna(self.at[0]).isna().any(), False)


class Laws(unittest.TestCase):
    """Each column of up to three rows beside a list of its instants: two of one second, one that nanoseconds of 64 bits do not
    reach from these, and gaps, each row at an offset of its own."""

    # Whole numbers of nanoseconds, and None for a gap.
    INSTANTS, MOST_ROWS = (None, 100_000_000, 900_000_000, 10**20 + 1), 3

    def columns(self):
        """Each list of instants, and its column."""
        gap = (NO_SECOND, 0, 0)
        for count in range(self.MOST_ROWS + 1):
            for instants in itertools.product(self.INSTANTS, repeat=count):
                rows = [gap if it is None else (*divmod(it, 10**9), 60 * at) for at, it in enumerate(instants)]
                yield instants, MomentArray(numpy.array(rows, ROW))

    def test_ends(self):
        for instants, column in self.columns():
            known = [it for it in instants if it is not None]
            for name, end in (("min", min), ("max", max)):
                found, wanted = getattr(pandas.Series(column), name), end(known, default=None)
                self.assertEqual(instant(found()), wanted, (name, instants))
                self.assertEqual(instant(found(skipna=False)), None if None in instants else wanted, (name, instants))

    def test_ends_up_to_each_row(self):
        for instants, column in self.columns():
            for name, end in (("cummin", min), ("cummax", max)):
                before = [instants[: place + 1] for place in range(len(instants))]
                ends = [end((it for it in those if it is not None), default=None) for those in before]
                skipped = [None if those[-1] is None else it for those, it in zip(before, ends)]
                stopped = [None if None in those else it for those, it in zip(before, ends)]
                for skipna, wanted in ((True, skipped), (False, stopped)):
                    found = list(map(instant, column._accumulate(name, skipna=skipna)))
                    self.assertEqual(found, wanted, (name, skipna, instants))

    def test_order_and_ranks(self):
        for instants, column in self.columns():
            gaps, known = ([at for at, it in enumerate(instants) if (it is None) == is_gap] for is_gap in (True, False))
            found = pandas.Series(column).sort_values(kind="stable").index.tolist()
            self.assertEqual(found, sorted(known, key=lambda at: instants[at]) + gaps, instants)
            ranks = column._rank(method="min")[known].tolist()
            self.assertEqual(ranks, [1 + sum(instants[it] < instants[at] for it in known) for at in known], instants)

    def test_instants_are_counted(self):
        for instants, column in self.columns():
            self.assertEqual(tuple(map(instant, column.unique())), tuple(dict.fromkeys(instants)))
            self.assertEqual(column.duplicated().tolist(), [it in instants[:at] for at, it in enumerate(instants)], instants)
            for dropna in (True, False):
                found = column.value_counts(dropna)
                wanted = collections.Counter(it for it in instants if it is not None or not dropna)
                self.assertEqual(dict(zip(map(instant, found.index), found)), wanted, instants)
                self.assertEqual(found.tolist(), sorted(wanted.values(), reverse=True), instants)

    def test_each_block_of_131_073_rows(self):
        """An end is found, and an error names its row, in each block of rows that a call reads."""
        epoch, plain = OffsetDateTime(1970, 1, 1), (0, 5, 0)
        rows = numpy.full(131_073, numpy.array(plain, ROW))
        column = MomentArray(rows)
        for place in (0, 16_383, 16_384, 131_071, 131_072):
            for name, row in (("min", (0, 4, 60)), ("max", (0, 6, 60)), ("min", (-1, 9, 60)), ("max", (1, 0, 60))):
                rows[place] = row
                self.assertTrue(column._reduce(name).is_same(Timestamp(*row[:2]).to_offset(60)), (name, place, row))
            rows[place] = (0, 10**9, 0)
            pairs = (lambda: column < epoch, lambda: column == column, lambda: column - epoch, lambda: column + Duration(1))
            for call in (*pairs, column.parts, lambda: column.to_offset(60)):
                with self.assertRaises(RefusedNanosecond) as caught:
                    call()
                self.assertEqual(caught.exception.count, place)
            rows[place] = (10**11, 0, 0)
            with self.assertRaisesRegex(OverflowError, f"item {place} is more than 292 years"):
                column - epoch
            rows[place] = plain


if __name__ == "__main__":
    unittest.main()

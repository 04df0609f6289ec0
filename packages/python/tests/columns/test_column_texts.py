"""Columns of moments of texts: of a field of lines, of a format description, of read_csv; and calls over gaps of the extension."""

import io
import operator
import unittest

import numpy
import pandas

from muxandu import (
    MISSING,
    OffsetDateTime,
    RefusedBuffer,
    RefusedDayOfMonth,
    RefusedNanosecond,
    RefusedNoText,
    RefusedResult,
    RefusedSyntax,
    RefusedTimestamp,
    Timestamp,
    Zone,
)
from muxandu import _blocks, _extension, _moment_rows
from muxandu.fields import field_spans
from muxandu.pandas import ROW, MomentArray, from_block, from_csv, from_texts

LOG = b'line,at,n\n1,2024-02-29T00:30:00+02:00,5\n2,,6\n3,"2024-02-28T23:45:00.5Z",7\n4\n'
RECORDS = "[day]/[month repr:short]/[year]:[hour]:[minute]:[second] [offset_hour sign:mandatory][offset_minute]"
WALLS = "[day].[month].[year] [hour]:[minute]"


def shown(column):
    return [None if item is pandas.NA else item.to_rfc3339() for item in column]


class Lines(unittest.TestCase):
    def test_a_field_of_each_line(self):
        wanted = ["2024-02-29T00:30:00+02:00", None, "2024-02-28T23:45:00.5Z", None]
        for block in (LOG, bytearray(LOG), memoryview(LOG), numpy.frombuffer(LOG, "uint8")):
            self.assertEqual(shown(from_csv(block, 1, skip=1)), wanted)
        self.assertEqual(shown(from_csv(LOG.replace(b",", b"\t"), 1, "\t", skip=1)), wanted)
        self.assertEqual(len(from_csv(b"")), 0)
        whole = b"\n".join([b"2024-02-29T00:30:00Z"] * 70_000)
        self.assertEqual((len(from_csv(whole)), from_csv(memoryview(whole)).unique().tolist()), (70_000, [from_csv(whole)[0]]))

    def test_an_error_names_row_and_text(self):
        for skip, row in ((1, 1), (2, 0)):
            with self.assertRaises(RefusedDayOfMonth) as caught:
                from_csv(b"at\n2024-02-28T00:00:00Z\n2024-02-30T00:00:00Z\n", skip=skip)
            self.assertEqual((caught.exception.count, caught.exception.value), (row, "2024-02-30T00:00:00Z"))
        with self.assertRaisesRegex(RefusedSyntax, "^item 0: SYNTAX: .*: 'line', at byte 0$"):
            from_csv(LOG)
        with self.assertRaisesRegex(RefusedSyntax, r"'2024\\\\xff', at byte 4$"):
            from_csv(b"2024\xff\n")
        for make in (from_texts, lambda texts: pandas.Series(texts).astype("moment")):
            with self.assertRaises(RefusedSyntax) as caught:
                make(["2024-02-29T00:00:00Z", None, "2024-02-29T00:00:00", "2024-02-30T00:00:00Z"])
            self.assertEqual((caught.exception.count, caught.exception.place), (2, 19))
        with self.assertRaisesRegex(RefusedDayOfMonth, "^item 1: DAY_OF_MONTH: .*: '2024-02-30T00:00:00Z'$"):
            pandas.read_csv(io.StringIO("at\n2024-02-29T00:00:00Z\n2024-02-30T00:00:00Z\nx\n"), dtype={"at": "moment"})

    def test_invalid_texts_are_gaps(self):
        self.assertEqual(
            shown(from_csv(LOG, 1, errors="coerce")), [None, "2024-02-29T00:30:00+02:00", None, "2024-02-28T23:45:00.5Z", None]
        )
        with self.assertRaisesRegex(RefusedSyntax, "^item 1"):
            from_block(LOG, numpy.asarray(field_spans(LOG, 1))[1:])

    def test_read_csv(self):
        """A text of RFC 3339, of `str`, an empty one, and names of gaps."""
        texts = ["2024-02-29T00:30:00+02:00", "2024-02-29 4:00:00.0 +02:00:00", "", "NaN", "-0005-02-28 4:00:00.5 +02:00:00"]
        for words in ({}, {"na_values": [""], "keep_default_na": True}, {"engine": "python"}):
            read = pandas.read_csv(
                io.StringIO("n,at\n" + "".join(f"1,{text}\n" for text in texts)), dtype={"at": "moment"}, **words
            )
            self.assertEqual(
                [str(item) for item in read["at"]], ["2024-02-29 0:30:00.0 +02:00:00", texts[1], "<NA>", "<NA>", texts[4]]
            )
        read = pandas.read_csv(io.StringIO("n,at\n1,\n2,2024-02-29T00:30:00Z\n"), dtype={"at": "moment"}, na_filter=False)
        self.assertEqual(shown(read["at"]), [None, "2024-02-29T00:30:00Z"])
        for texts, row in ((["", "x"], 1), (["2024-02-30T00:00:00Z", ""], 0), (["", "2024-02-30T00:00:00Z"], 1)):
            with self.assertRaises((RefusedSyntax, RefusedDayOfMonth)) as caught:
                MomentArray._from_sequence_of_strings(texts)
            self.assertEqual((caught.exception.count, caught.exception.value), (row, texts[row]))


class Patterns(unittest.TestCase):
    def test_texts_of_a_description(self):
        texts = ["29/Feb/2024:12:30:00 +0100", "01/Mar/2024:00:00:59 -0730"]
        wanted = ["2024-02-29T12:30:00+01:00", "2024-03-01T00:00:59-07:30"]
        self.assertEqual(shown(from_texts(texts, pattern=RECORDS)), wanted)
        block = "".join(f"GET;{text};200\n" for text in texts).encode()
        self.assertEqual(shown(from_csv(block, 1, ";", RECORDS)), wanted)
        self.assertEqual(shown(from_block(block, field_spans(block, 1, ";"), pattern=RECORDS)), wanted)
        self.assertEqual(shown(from_texts([texts[0], None, "-"], "coerce", pattern=RECORDS)), [wanted[0], None, None])

    def test_texts_without_an_offset(self):
        texts = ["29.02.2024 12:30", "01.03.2024 00:00", None]
        self.assertEqual(
            shown(from_texts(texts, "coerce", 3_600, WALLS)), ["2024-02-29T12:30:00+01:00", "2024-03-01T00:00:00+01:00", None]
        )
        offsets = [3_600, -1_800]
        self.assertEqual(shown(from_texts(texts[:2], "raise", offsets, WALLS))[1], "2024-03-01T00:00:00-00:30")
        self.assertEqual(
            shown(from_csv(b"29.02.2024 12:30;x\n", 0, ";", WALLS, offset_seconds=60)), ["2024-02-29T12:30:00+00:01"]
        )
        mixed = ["29/Feb/2024:12:30:00 +0100"]
        self.assertEqual(shown(from_texts(mixed, offset_seconds=7_200, pattern=RECORDS)), ["2024-02-29T12:30:00+01:00"])
        with self.assertRaisesRegex(ValueError, "one offset, or one for each text: 2, not 1"):
            from_texts(texts[:2], "raise", [0], WALLS)

    def test_errors(self):
        with self.assertRaisesRegex(
            RefusedSyntax, r"^item 1: .*'29/Feb/2024:12:30:0x \+0100', at byte 18: \[second\] is expected"
        ):
            from_texts(["29/Feb/2024:12:30:00 +0100", "29/Feb/2024:12:30:0x +0100"], pattern=RECORDS)
        with self.assertRaisesRegex(ValueError, r"^item 0: .*'31.02.2024 12:30', at byte 0"):
            from_csv(b"31.02.2024 12:30\n", 0, ";", WALLS, offset_seconds=0)
        with self.assertRaisesRegex(RefusedSyntax, "lacks a part: The hours of the offset"):
            from_texts(["29.02.2024 12:30"], pattern=WALLS)
        with self.assertRaises(TypeError):
            from_csv("2024-02-29T00:00:00Z")


class Written(unittest.TestCase):
    """Texts of a column in which any row is a gap."""

    def test_an_error_names_its_row(self):
        """Past the gaps before it, as of a year that RFC 3339 lacks, of a text too long, and of clocks outside the range."""
        at = pandas.Series([None, OffsetDateTime(2024, 1, 1), None, OffsetDateTime(10_000, 1, 1)], dtype="moment")
        late = pandas.Series([None, OffsetDateTime(999_999, 12, 31, 23)], dtype="moment").moment
        for call, row in (
            (at.moment.to_rfc3339, 3),
            (lambda: at.moment.format("-" * 60 + "[year]"), 3),
            (lambda: late.to_zone(Zone.from_rule("XXX-14")), 1),
        ):
            with self.assertRaises((RefusedNoText, RefusedResult)) as caught:
                call()
            self.assertEqual(caught.exception.count, row)
        self.assertEqual(at.moment.to_rfc3339("coerce").tolist(), [pandas.NA, "2024-01-01T00:00:00Z", pandas.NA, pandas.NA])

    def test_texts_at_spans(self):
        spans = numpy.array([(0, 2), (2, 0), (1, 3), (4, 0)], "uintp")
        call = _extension.texts_at_spans
        self.assertEqual(call(b"abcd", 4, spans, 4, b"", 0), ["ab", "", "bcd", ""])
        self.assertEqual(call(b"abcd", 4, spans, 4, numpy.array([0, 5, 0, 1], "uint32"), 4), ["ab", None, "bcd", None])
        for start, length in ((5, 0), (0, 5), (3, 2), (2**64 - 1, 2)):
            with self.assertRaisesRegex(ValueError, "a span must lie in its block"):
                call(b"abcd", 4, numpy.array([(0, 1), (start, length)], "uintp"), 2, b"", 0)
        self.assertRaises(UnicodeDecodeError, call, b"ab\xff", 3, numpy.array([(0, 3)], "uintp"), 1, b"", 0)


class Comparisons(unittest.TestCase):
    """Each comparison over columns of each number of rows around that of a call of the library, beside Python's of the instants."""

    COUNTS = (0, 1, 2, 511, 512, 513, 1_025)

    def column(self, count, share, seed):
        """A column of few instants, at any offset, with a share of gaps, and the instants with None for a gap."""
        drawn = numpy.random.default_rng(seed)
        rows, is_gap = numpy.zeros(count, ROW), drawn.random(count) < share
        rows["seconds"], rows["nanoseconds"] = drawn.integers(-1, 1, count), drawn.choice([0, 1, 999_999_999], count)
        rows["offset_seconds"] = drawn.choice([0, 3_600, -45], count)
        rows[is_gap] = _blocks.GAP
        instants = [None if gap else row["seconds"] * 10**9 + row["nanoseconds"] for gap, row in zip(is_gap, rows)]
        return MomentArray(rows), instants

    def test_beside_numbers(self):
        for count in self.COUNTS:
            for share in (0, 0.02, 1):
                (first, numbers), (second, others) = (self.column(count, share, seed) for seed in (count, count + 1))
                one = OffsetDateTime(1970, 1, 1, nanosecond=1, offset_seconds=0)
                for compare in (operator.lt, operator.le, operator.eq, operator.ne, operator.gt, operator.ge):
                    for other, those in ((second, others), (one, [1] * count)):
                        found = [None if item is pandas.NA else bool(item) for item in compare(first, other)]
                        wanted = [None if None in both else compare(*both) for both in zip(numbers, those)]
                        self.assertEqual(found, wanted, (compare, count, share))

    def test_the_first_row_that_fails(self):
        for place in (0, 511, 512, 1_024):
            for part, wrong in (("nanoseconds", 10**9), ("seconds", 2**62)):
                rows = self.column(1_025, 0.02, 5)[0]._rows.copy()
                rows[place] = (0, 0, 0)
                rows[part][place] = wrong
                for compare in (operator.lt, operator.eq):
                    for other in (MomentArray(numpy.zeros(1_025, ROW)), OffsetDateTime(1970, 1, 1)):
                        with self.assertRaises((RefusedNanosecond, RefusedTimestamp)) as caught:
                            compare(MomentArray(rows), other)
                        self.assertEqual(caught.exception.count, place)

    def test_buffers_that_are_too_short(self):
        rows, out = numpy.zeros(3, ROW), numpy.full(3, 7, "uint8")
        for others, count, marks in ((2, 3, 3), (3, 2, 3), (3, 3, 2), (0, 3, 3)):
            told = _extension.compare_moments(rows, 3, rows, others, 0, out, count, out, marks)
            self.assertEqual(told, (0, RefusedBuffer.status))
        self.assertEqual(out.tolist(), [7, 7, 7])
        with self.assertRaisesRegex(ValueError, "columns must have one length, not 3 and 2"):
            _blocks.comparison(rows, rows[:2], 0)

    def test_an_array_beside_an_index_of_datetime64(self):
        at, instants = self.column(4, 0, 1)
        index = pandas.DatetimeIndex(numpy.array(instants, "M8[ns]")).tz_localize("UTC")
        self.assertTrue((at == index).all() and not (at < index).any())
        with self.assertRaisesRegex(ValueError, "has no offset"):
            at == index.tz_localize(None)


class Choices(unittest.TestCase):
    def test_beside_items(self):
        """`where` of a value, of a column and of a list, of which only the rows that are taken must be moments."""
        at = MomentArray._from_sequence([Timestamp(second).to_offset(60) for second in range(6)])
        mask, other = numpy.array([True, False] * 3), at[::-1]
        for value, others in (
            (OffsetDateTime(2024, 1, 1), [OffsetDateTime(2024, 1, 1)] * 6),
            ("2024-01-01T00:00:00Z", [OffsetDateTime(2024, 1, 1)] * 6),
            (None, [pandas.NA] * 6),
            (other, list(other)),
            (numpy.array([5, *list(other)[1:]], object), list(other)),
        ):
            for column in (at, at[::-1][::-1]):
                found = column._where(mask, value)
                self.assertEqual(list(found), [one if here else there for here, one, there in zip(mask, at, others)])
        self.assertRaises(RefusedSyntax, at._where, mask, "x")
        self.assertEqual(len(at[:0]._where(mask[:0], None)), 0)
        for those, others, wrong in ((mask[:5], other, 5), (mask, other[:2], 2)):
            with self.assertRaisesRegex(ValueError, f"columns must have one length, not 6 and {wrong}"):
                at._where(those, others)
        rows, byte = numpy.zeros(3, ROW), numpy.zeros(3, "uint8")
        for others, masks, room in ((2, 3, 3), (0, 3, 3), (3, 2, 3), (3, 3, 2)):
            self.assertIs(_extension.choose_moments(rows, 3, rows, others, byte, masks, numpy.full(3, 7, ROW), room), False)
        self.assertEqual(list(at), [Timestamp(second) for second in range(6)])


class Gaps(unittest.TestCase):
    """Calls over columns of which any row is a gap, beside the calls of each row."""

    def columns(self):
        for count in (0, 1, 2, 5, 513, 2_000):
            for share in (0, 0.02, 0.5, 1):
                drawn = numpy.random.default_rng(count)
                rows = numpy.zeros(count, ROW)
                rows["seconds"], rows["nanoseconds"] = drawn.integers(0, 10**9, count), drawn.integers(0, 10**9, count)
                rows["offset_seconds"] = drawn.choice([0, 3_600, -45], count)
                rows[drawn.random(count) < share] = _blocks.GAP
                yield rows, rows[drawn.permutation(count)]

    def test_beside_items(self):
        for rows, others in self.columns():
            first, second = (MomentArray(one) for one in (rows, others))
            gaps = first.isna() | second.isna()
            pairs = [(None, None) if gap else (one, other) for gap, one, other in zip(gaps, first, second)]
            self.assertEqual(
                [None if one is pandas.NA else bool(one) for one in first < second], [one and one < other for one, other in pairs]
            )
            lengths = [None if pandas.isna(one) else one.value for one in pandas.Series(first - second)]
            self.assertEqual(lengths, [one and (one - other).whole_nanoseconds() for one, other in pairs])
            numbers = [_blocks.GAP[0] if one is pandas.NA else one.to_timestamp().as_nanoseconds() for one in first]
            self.assertEqual(_moment_rows.nanoseconds_of(rows).tolist(), numbers)
            copied, places = _moment_rows.copy_with_gaps(rows)
            self.assertTrue((copied == rows).all() and places.tolist() == numpy.flatnonzero(first.isna()).tolist())

    def test_counts_of_gaps(self):
        for rows, others in self.columns():
            out, gaps = numpy.full(len(rows), 7, "int32"), MomentArray(rows).isna() | MomentArray(others).isna()
            call = _extension.moments_compare_past_gaps
            self.assertEqual(_blocks.past_gaps(call, rows, out, others=others), gaps.sum())
            self.assertEqual((out == 2).tolist(), gaps.tolist())

    def test_the_first_row_that_fails(self):
        call = _extension.moments_compare_past_gaps
        for place in (0, 511, 512, 1_999):
            rows, _ = list(self.columns())[-3]
            rows[place] = (0, 10**9, 0)
            with self.assertRaises(RefusedNanosecond) as caught:
                _blocks.past_gaps(call, rows, numpy.zeros(2_000, "int32"), others=rows, start=5)
            self.assertEqual(caught.exception.count, place + 5)
        far = MomentArray._from_sequence([OffsetDateTime(2024, 1, 1), pandas.NA, OffsetDateTime(-999_999, 1, 1)])
        with self.assertRaisesRegex(OverflowError, "^item 2 is more than 292 years"):
            far.since(OffsetDateTime(2024, 1, 1))
        self.assertIsNone(_moment_rows.nanoseconds_of(far._rows))
        with self.assertRaises(RefusedBuffer):
            _blocks.past_gaps(call, far._rows, numpy.zeros(2, "int32"), others=far._rows)

    def test_lengths_with_gaps(self):
        at = MomentArray._from_sequence([Timestamp(0).to_offset(0), pandas.NA, Timestamp(5).to_offset(60)])
        found = at + pandas.array([1, 2, None], "m8[s]")
        self.assertEqual(shown(found), ["1970-01-01T00:00:01Z", None, None])
        self.assertEqual(at.isna().tolist(), [False, True, False])
        self.assertEqual(MISSING, 1_000)

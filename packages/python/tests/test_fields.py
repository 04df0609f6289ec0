"""Fields of lines beside Python's csv, and texts without an offset beside Python's datetime."""

import array
import csv
import datetime
import io
import random
import unittest
from unittest import mock

from muxandu import OffsetDateTime, RefusedOffsetSeconds, RefusedSyntax, fields

# The parts of blocks: quotes, separators and ends of lines more often than others.
PARTS = ('"', '""', ",", ",", "\n", "\r\n", "a", "b c", '"x,y"', '"x\ny"', '"x""y"', "2024-02-29T12:34:56", "é")


def fields_of_csv(text, field, quote='"'):
    """The field of each line by Python's csv; None in a line without it."""
    quoting = csv.QUOTE_MINIMAL if quote else csv.QUOTE_NONE
    lines = csv.reader(io.StringIO(text, newline=""), quotechar=quote or None, quoting=quoting)
    return [line[field] if field < len(line) else None for line in lines]


def text_of(block, span):
    """The text of a field, with one quote for two if it has quotes."""
    text = block[span.start : span.start + span.length].decode()
    return text.replace('""', '"') if span.length and block[span.start - 1 : span.start] == b'"' else text


def is_plain(text):
    """Whether no field has bytes after its last quote, and no quotes are left open: csv joins such texts."""
    try:
        for line in csv.reader(io.StringIO(text, newline=""), strict=True):
            del line
    except csv.Error:
        return False
    return True


class Fields(unittest.TestCase):
    def compare(self, text, field, quote='"'):
        block = text.encode()
        spans = fields.field_spans(block, field, ",", quote or ",")
        found = [text_of(block, span) for span in spans]
        self.assertEqual(found, [one or "" for one in fields_of_csv(text, field, quote)], (text, field))

    def test_random_blocks(self):
        pick, compared = random.Random(57), 0
        for _ in range(20_000):
            text = "".join(pick.choices(PARTS, k=pick.randrange(12)))
            if is_plain(text):
                self.compare(text, pick.randrange(4))
                compared += 1
        self.assertGreater(compared, 5_000)

    def test_random_lines_without_quotes(self):
        pick = random.Random(58)
        for _ in range(5_000):
            self.compare("".join(pick.choices(PARTS, k=pick.randrange(12))), pick.randrange(4), None)

    def test_marks(self):
        with self.assertRaises(ValueError):
            fields.field_spans(b"a", 0, "é")
        with self.assertRaises(ValueError):
            fields.field_spans(b"a", -1)
        for mark in (1, 44, None, [44]):
            self.assertRaises(TypeError, fields.field_spans, b"a", 0, mark)
            self.assertRaises(TypeError, fields.field_spans, b"a", 0, ",", mark)
        with self.assertRaises(TypeError):
            fields.field_spans("a", 0)
        self.assertEqual(len(fields.field_spans(b"", 0)), 0)


class Scalar:
    """A number that is like an array too, as those of NumPy are."""

    __array_interface__ = {}

    def __index__(self):
        return 3_600


class LocalTexts(unittest.TestCase):
    def test_offsets(self):
        texts, calls = ["1970-01-01T01:00:00"] * 2, (fields.moments_from_local, fields.moments_from_each_local)
        self.assertEqual([row.offset_seconds for row in fields.moments_from_local(texts, Scalar())], [3_600] * 2)
        for call in calls:
            for offsets in ([0], [0] * 3, array.array("i", [0] * 3), []):
                with self.assertRaisesRegex(ValueError, f"one for each text: 2, not {len(offsets)}"):
                    call(texts, offsets)

    def test_offsets_in_the_memory_of_the_statuses(self):
        held = array.array("i", [0] * 3)
        statuses = memoryview(held).cast("B").cast("I")[1:]
        call = fields._engine.moments_from_each_local_at

        def write_first(*words):
            """The call of a library that writes each status before it reads an offset."""
            statuses[0] = statuses[1] = 0
            return call(*words)

        for library in (call, write_first):
            held[:] = array.array("i", [3_600, 7_200, 5])
            with mock.patch.object(fields._engine, "moments_from_each_local_at", library):
                rows, _ = fields.moments_from_each_local(["1970-01-01T00:00:00"] * 2, memoryview(held)[:2], statuses=statuses)
            self.assertEqual(([row.offset_seconds for row in rows], list(statuses)), ([3_600, 7_200], [0, 0]))

    def test_random_clocks(self):
        pick = random.Random(59)
        epoch = datetime.datetime(1970, 1, 1, tzinfo=datetime.timezone.utc)
        clocks = [datetime.datetime(1, 1, 2) + datetime.timedelta(microseconds=pick.randrange(3 * 10**17)) for _ in range(500)]
        offsets = [pick.randrange(-86_000, 86_000) for _ in clocks]
        found = fields.moments_from_local([clock.isoformat(pick.choice("T ")) for clock in clocks], offsets)
        for clock, offset, row in zip(clocks, offsets, found):
            zone = datetime.timezone(datetime.timedelta(seconds=offset))
            length = clock.replace(tzinfo=zone) - epoch
            self.assertEqual((row.seconds, row.offset_seconds), (length // datetime.timedelta(seconds=1), offset))
            self.assertEqual(row.nanoseconds, clock.microsecond * 1_000)

    def test_own_offsets_stay(self):
        texts = ["1970-01-01T01:00:00", "1970-01-01T01:00:00Z", "1970-01-01T01:00:00-01:00", "1970-01-01"]
        rows, statuses = fields.moments_from_each_local(texts, 3_600)
        self.assertEqual([(row.seconds, row.offset_seconds) for row in rows[:3]], [(0, 3_600), (3_600, 0), (7_200, -3_600)])
        self.assertEqual(list(statuses), [0, 0, 0, RefusedSyntax.status])
        self.assertEqual(list(fields.moments_from_each_local(texts, [93_600] * 4)[1]), [RefusedOffsetSeconds.status] * 4)
        with self.assertRaises(RefusedSyntax):
            fields.moments_from_local(texts, 0)

    def test_one_text(self):
        self.assertEqual(OffsetDateTime.from_local("1970-01-01 01:00:00", 3_600).to_rfc3339(), "1970-01-01T01:00:00+01:00")
        self.assertEqual(OffsetDateTime.from_local(b"1970-01-01T01:00:00Z", 3_600).to_rfc3339(), "1970-01-01T01:00:00Z")

    def test_from_a_log_to_a_column(self):
        block = b'1970-01-01T00:00:01,"a,b"\n1970-01-01T00:00:02Z,c\nnothing\n'
        spans = fields.field_spans(block, 0)
        rows, statuses = fields.moments_from_each_local(block, 0, spans)
        self.assertEqual([row.seconds for row in rows[:2]], [1, 2])
        self.assertEqual(list(statuses), [0, 0, RefusedSyntax.status])


if __name__ == "__main__":
    unittest.main()

"""Columns of moments as arrays and streams of Arrow, by a consumer and a producer in C, and by pyarrow where it is."""

import ctypes
import gc
import pathlib
import random
import shutil
import subprocess
import sys
import tempfile
import unittest

import numpy

import muxandu
from muxandu import _arrow_structures, columns
from muxandu.pandas import ROW, MomentArray, from_arrow, from_texts

try:
    import pyarrow
except ImportError:
    pyarrow = None

HERE = pathlib.Path(__file__).parent
GAP = (columns.NO_SECOND, 0, 0)
ROOM = 80

# The faults of arrow_producer.c, in its order.
FAULTS = (
    """NONE REVERSED OTHER_FORMAT OTHER_NAME SHORT_CHILD NO_BUFFER MORE_BUFFERS FEWER_CHILDREN BELOW_ZERO NO_SCHEMA""".split()
)


class Plan(ctypes.Structure):
    """What arrow_producer.c makes."""

    _fields_ = [
        (name, ctypes.c_int64) for name in "rows chunk offset child_offset gap_every child_gap_every fail_after fault".split()
    ]


def plan(rows, chunk=1_000, offset=0, child_offset=0, gap_every=0, child_gap_every=0, fail_after=-1, fault="NONE"):
    return Plan(rows, chunk, offset, child_offset, gap_every, child_gap_every, fail_after, FAULTS.index(fault))


def row_of(number, gap_every=0, child_gap_every=0):
    """The row of a number as the producer makes it."""
    if any(every and number % every == 0 for every in (gap_every, child_gap_every)):
        return GAP
    return 7 * number - 3, number % 1_000, 3_600 * (number % 3) - 3_600


new_capsule = ctypes.PYFUNCTYPE(ctypes.py_object, ctypes.c_void_p, ctypes.c_char_p, ctypes.c_void_p)(
    ("PyCapsule_New", ctypes.pythonapi)
)
pointer = ctypes.PYFUNCTYPE(ctypes.c_void_p, ctypes.py_object, ctypes.c_char_p)(("PyCapsule_GetPointer", ctypes.pythonapi))


class Stream:
    """A stream of the producer, in a capsule that does not release it."""

    def __init__(self, library, wanted):
        self.room = (ctypes.c_uint64 * ROOM)()
        library.make_stream(self.room, ctypes.byref(wanted))

    def __arrow_c_stream__(self, requested_schema=None):
        return new_capsule(ctypes.addressof(self.room), b"arrow_array_stream", None)

    def release(self):
        ctypes.CFUNCTYPE(None, ctypes.c_void_p)(self.room[3])(ctypes.addressof(self.room))


class OneArray:
    """An array of the producer, in capsules that do not release it."""

    def __init__(self, library, wanted):
        self.schema, self.array = (ctypes.c_uint64 * ROOM)(), (ctypes.c_uint64 * ROOM)()
        assert library.make_moments(self.schema, self.array, ctypes.byref(wanted)) == 0

    def __arrow_c_array__(self, requested_schema=None):
        rooms = ((self.schema, b"arrow_schema"), (self.array, b"arrow_array"))
        return tuple(new_capsule(ctypes.addressof(room), name, None) for room, name in rooms)

    def release(self):
        for room, place in ((self.schema, 7), (self.array, 8)):
            ctypes.CFUNCTYPE(None, ctypes.c_void_p)(room[place])(ctypes.addressof(room))


def build(folder, name):
    """A library of a program in C of this folder."""
    library = f"{folder}/{name}.so"
    flags = ["-std=c99", "-Wall", "-Wextra", "-Werror", "-shared", "-fPIC"]
    subprocess.run(["cc", *flags, "-o", library, str(HERE / f"{name}.c")], check=True)
    return ctypes.CDLL(library)


@unittest.skipIf(shutil.which("cc") is None, "cc is not installed")
class Programs(unittest.TestCase):
    @classmethod
    def setUpClass(cls):
        cls.folder = tempfile.TemporaryDirectory()
        cls.consumer, cls.producer = build(cls.folder.name, "arrow_consumer"), build(cls.folder.name, "arrow_producer")
        addresses = [ctypes.c_void_p] * 3
        for call in (cls.consumer.take_moments, cls.consumer.take_stream, cls.consumer.take_next):
            call.restype, call.argtypes = ctypes.c_int64, addresses[: 2 if call is cls.consumer.take_next else 3]
        cls.producer.make_stream.argtypes = cls.producer.make_moments.argtypes = None

    @classmethod
    def tearDownClass(cls):
        cls.folder.cleanup()

    def live(self):
        """How many structures of the producer are not released."""
        return ctypes.c_int64.in_dll(self.producer, "live_structures").value


class Written(Programs):
    """What the consumer reads of a column."""

    def taken(self, column):
        """The rows that are no gaps, and the sums of their fields."""
        schema, array = column.__arrow_c_array__()
        sums = (ctypes.c_int64 * 3)()
        count = self.consumer.take_moments(pointer(schema, b"arrow_schema"), pointer(array, b"arrow_array"), sums)
        return count, list(sums)

    def streamed(self, column):
        """The same of its stream, which has one array."""
        sums, arrays = (ctypes.c_int64 * 3)(), ctypes.c_int64()
        stream = column.__arrow_c_stream__()
        count = self.consumer.take_stream(pointer(stream, b"arrow_array_stream"), sums, ctypes.byref(arrays))
        self.assertEqual(arrays.value, 1)
        return count, list(sums)

    def test_columns(self):
        rows = numpy.zeros(1_001, ROW)
        rows["seconds"] = numpy.arange(1_001) - 7
        rows["nanoseconds"], rows["offset_seconds"] = 999_999_999, -60
        wanted = [sum(range(-7, 994)), 1_001 * 999_999_999, -60 * 1_001]
        for taken in (self.taken, self.streamed):
            self.assertEqual(taken(MomentArray(rows)), (1_001, wanted))
            self.assertEqual(taken(columns.arrow_from_moments(rows)), (1_001, wanted))
            self.assertEqual(taken(MomentArray(rows[::2])), (501, [sum(range(-7, 994, 2)), 501 * 999_999_999, -60 * 501]))
            self.assertEqual(taken(MomentArray(rows[:0])), (0, [0, 0, 0]))
            self.assertEqual(taken(from_texts([None, "1970-01-01T00:00:05+01:00", None])), (1, [-3_595, 0, 3_600]))
            values = columns.arrow_from_moments([muxandu.OffsetDateTime(1970, 1, 1, 0, 0, 9), None])
            self.assertEqual((taken(values), len(values)), ((1, [9, 0, 0]), 2))

    def test_nothing_is_left(self):
        column = from_texts(["1970-01-01T00:00:05+01:00", None] * 50)
        for _ in range(100):
            self.taken(column)
            self.streamed(column)
            column.__arrow_c_array__()
            column.__arrow_c_schema__()
            column.__arrow_c_stream__()
            from_arrow(column)
        gc.collect()
        self.assertEqual((_arrow_structures.held, _arrow_structures.owned), ({}, {}))

    def test_an_error_of_a_stream_has_a_text(self):
        """A stream whose rows cannot be read, as where memory runs out, tells the consumer so."""
        column, text = columns.arrow_from_moments([]), ctypes.c_char_p()
        column._gaps = None
        stream = column.__arrow_c_stream__()
        for _ in range(2):
            self.assertEqual(self.consumer.take_next(pointer(stream, b"arrow_array_stream"), ctypes.byref(text)), -2)
            self.assertIn(b"AttributeError", text.value)
        del stream
        self.assertEqual(_arrow_structures.held, {})

    def test_capsules_at_the_end_of_the_program(self):
        """Capsules that live as long as the program end with it, and print nothing."""
        program = "from muxandu import columns\nc = columns.arrow_from_moments([])\n"
        program += "kept = [c.__arrow_c_array__(), c.__arrow_c_stream__(), c]\nkept.append(kept)\nimport sys; sys.kept = kept"
        ended = subprocess.run([sys.executable, "-B", "-c", program], capture_output=True, check=False)
        self.assertEqual((ended.returncode, ended.stdout, ended.stderr), (0, b"", b""))


class Read(Programs):
    """Columns that the producer makes."""

    def read(self, wanted, kind=Stream):
        """The rows of a column of the producer, all of whose structures are released."""
        before, column = self.live(), kind(self.producer, wanted)
        try:
            return columns.moments_from_arrow(column).tolist()
        finally:
            column.release()
            self.assertEqual(self.live(), before)

    def test_rows(self):
        source = random.Random(57)
        for _ in range(300):
            words = {
                "rows": source.choice((0, 1, 7, 8, 9, source.randrange(200))),
                "chunk": source.randrange(1, 60),
                "offset": source.choice((0, 0, 1, 8, source.randrange(20))),
                "child_offset": source.choice((0, 0, 3, source.randrange(20))),
                "gap_every": source.choice((0, 1, 2, 5)),
                "child_gap_every": source.choice((0, 0, 3)),
                "fault": source.choice(("NONE", "REVERSED")),
            }
            every = words["gap_every"], words["child_gap_every"]
            wanted = [row_of(number, *every) for number in range(words["rows"])]
            self.assertEqual(self.read(plan(**words)), wanted, words)
            if words["rows"]:
                self.assertEqual(self.read(plan(**words), OneArray), wanted[: words["chunk"]], words)

    def test_wrong_structures(self):
        for fault, refusal, told in (
            ("OTHER_FORMAT", TypeError, "must be a structure of seconds: int64, nanoseconds: uint32"),
            ("OTHER_NAME", TypeError, "must be a structure of seconds"),
            ("SHORT_CHILD", ValueError, "an array of Arrow has 14 items from 2 on, and needs 15"),
            ("NO_BUFFER", ValueError, "a buffer of Arrow must have 10 items, not the address 0"),
            ("MORE_BUFFERS", ValueError, "has 2 buffers and 3 children, not 1 and 3"),
            ("FEWER_CHILDREN", ValueError, "has 1 buffers and 2 children, not 1 and 3"),
            ("BELOW_ZERO", ValueError, "has 10 items from -1 on"),
        ):
            for kind in (Stream, OneArray):
                with self.assertRaisesRegex(refusal, told):
                    self.read(plan(20, 10, 5, 2, 3, fault=fault), kind)

    def test_a_stream_that_fails(self):
        with self.assertRaisesRegex(OSError, "failed in get_next: the disk is full") as caught:
            self.read(plan(20, 5, fail_after=2))
        self.assertEqual(caught.exception.errno, 5)
        with self.assertRaisesRegex(OSError, "failed in get_schema: it has no text for the error") as caught:
            self.read(plan(20, 5, fault="NO_SCHEMA"))
        self.assertEqual(caught.exception.errno, 22)


def record_batch(numbers, offsets, form, gaps):
    """A record batch as muxandu_arrow.h makes it: a timestamp, and an offset."""
    make, schema, array = _arrow_structures.make, _arrow_structures.Schema, _arrow_structures.Array
    fields = tuple(
        make(schema, None, format=each, name=name) for each, name in ((form.encode(), b"at"), (b"i", b"offset_seconds"))
    )
    children = []
    for values in (numpy.array(numbers, numpy.int64), numpy.array(offsets, numpy.int32)):
        bits = None if gaps is None else numpy.packbits(~numpy.array(gaps), bitorder="little")
        places = (ctypes.c_void_p * 2)(None if bits is None else bits.ctypes.data, values.ctypes.data)
        children.append(make(array, (values, bits, places), length=len(values), n_buffers=2, buffers=places))
    whole = _arrow_structures.make_parent(schema, None, fields, format=b"+s", name=b"")
    rows = _arrow_structures.make_parent(
        array, None, tuple(children), length=len(numbers), n_buffers=1, buffers=(ctypes.c_void_p * 1)(None)
    )
    return Capsules(*map(_arrow_structures.capsule_of, (whole, rows)))


class Columns(unittest.TestCase):
    """What a column gives to a reader of Arrow, and takes from one."""

    def test_a_column_is_read_as_it_is_written(self):
        column = from_texts(["2024-02-29T00:30:00.5+02:00", None, "0001-01-01T00:00:00Z"])
        for source in (column, columns.arrow_from_moments(column._rows), Streamed(column)):
            self.assertEqual(from_arrow(source)._rows.tolist(), column._rows.tolist())

    def test_other_columns_are_not_taken(self):
        with self.assertRaisesRegex(TypeError, "and list has neither"):
            columns.moments_from_arrow([])
        column = from_texts(["1970-01-01T00:00:00Z"])
        schema, array = column.__arrow_c_array__()
        for capsules in ((array, schema), (schema, schema), (None, array), (schema, 5)):
            with self.assertRaises(ValueError):
                columns.moments_from_arrow(Capsules(*capsules))
        taken = _arrow_structures.structure_in(array, _arrow_structures.Array)
        _arrow_structures.release(taken)
        with self.assertRaisesRegex(ValueError, "the arrow_array is released: ask for a new one"):
            columns.moments_from_arrow(Capsules(schema, array))

    def test_timestamps_beside_offsets(self):
        seconds, offsets = [-1, 0, 5, 1_709_159_400], [0, 7_200, -60, 93_599]
        for unit, units in (("s", 1), ("m", 10**3), ("u", 10**6), ("n", 10**9)):
            for zone in ("UTC", "Europe/Paris"):
                for gaps in (None, [False, True, False, False]):
                    numbers = [second * units + units // 3 for second in seconds]
                    read = columns.moments_from_arrow(record_batch(numbers, offsets, f"ts{unit}:{zone}", gaps)).tolist()
                    rest = units // 3 * (10**9 // units)
                    wanted = [(second, rest, offset) for second, offset in zip(seconds, offsets)]
                    self.assertEqual(read, [GAP if gap else row for row, gap in zip(wanted, gaps or [False] * 4)])
        self.assertEqual(from_arrow(record_batch([], [], "tsn:UTC", None)).tolist(), [])
        for form in ("tsn:", "tsx:UTC", "tdn", "l"):
            with self.assertRaisesRegex(TypeError, "or of at: timestamp and offset_seconds: int32"):
                columns.moments_from_arrow(record_batch([0], [0], form, None))
        with self.assertRaises(muxandu.RefusedOffsetSeconds):
            columns.moments_from_arrow(record_batch([0], [93_600], "tss:UTC", None))

    def test_rows_out_of_range_are_named(self):
        for row, refusal in (
            ((2**62, 0, 0), muxandu.RefusedTimestamp),
            ((0, 10**9, 0), muxandu.RefusedNanosecond),
            ((0, 0, 93_600), muxandu.RefusedOffsetSeconds),
        ):
            rows = numpy.array([(0, 0, 0), GAP, row], ROW)
            with self.assertRaises(refusal) as caught:
                columns.moments_from_arrow(columns.arrow_from_moments(rows))
            self.assertEqual(caught.exception.count, 2)

    @unittest.skipIf(pyarrow is None, "pyarrow is not installed")
    def test_pyarrow(self):
        column = from_texts(["2024-02-29T00:30:00.5+02:00", None, "0001-01-01T00:00:00Z"])
        for made in (pyarrow.array(column), pyarrow.chunked_array(column)):
            self.assertEqual(from_arrow(made)._rows.tolist(), column._rows.tolist())
            self.assertEqual(from_arrow(made[1:])._rows.tolist(), column._rows[1:].tolist())
            self.assertEqual(made.null_count, 1)


class Streamed:
    """A column that has a stream alone."""

    def __init__(self, column):
        self.column = column

    def __arrow_c_stream__(self, requested_schema=None):
        return self.column.__arrow_c_stream__(requested_schema)


class Capsules:
    """A column of two capsules."""

    def __init__(self, *capsules):
        self.capsules = capsules

    def __arrow_c_array__(self, requested_schema=None):
        return self.capsules


if __name__ == "__main__":
    unittest.main()

"""Each call of the library by its method or its function, with the rows of packages/c/tests/cases.json, whose head is in
make/cases. The tests need the repository."""

import ctypes
import importlib.util
import json
import unittest
from pathlib import Path

from muxandu import Duration, OffsetDateTime, Part, Refused, Timestamp, Unit, _extension, _structures
from muxandu._refusals import REFUSALS

ROOT = Path(__file__).resolve().parents[3]
INTERFACE, CASES, METHODS = (
    ROOT / name for name in ("packages/c/interface.json", "packages/c/tests/cases.json", "make/python_methods.py")
)

NUMBERS = {"u8": ctypes.c_uint8, "u32": ctypes.c_uint32, "i32": ctypes.c_int32, "i64": ctypes.c_int64, "usize": ctypes.c_size_t}
STATUSES = {"OK": 0} | {refusal.name: status for status, refusal in REFUSALS.items()}
CLASSES = {"MuxanduTimestamp": Timestamp, "MuxanduDateTime": OffsetDateTime, "MuxanduDuration": Duration}
ENUMS = {"MuxanduUnit": Unit, "MuxanduPart": Part, "MuxanduStatus": STATUSES}

# What no array has before a call.
BEFORE = 99

# The calls of operators, texts and constructors.
OPERATORS = {
    "timestamp_check": lambda at: None,
    "timestamp_compare": lambda first, second: (first > second) - (first < second),
    "timestamp_add": lambda at, duration: at + duration,
    "timestamp_subtract": lambda at, duration: at - duration,
    "timestamp_difference": lambda later, earlier: later - earlier,
    "timestamp_text": str,
    "date_time_check": lambda at: None,
    "date_time_compare": lambda first, second: (first > second) - (first < second),
    "date_time_add": lambda at, duration: at + duration,
    "date_time_subtract": lambda at, duration: at - duration,
    "date_time_difference": lambda later, earlier: later - earlier,
    "date_time_text": str,
}


def numbers_of(value):
    """A value as the table has it."""
    if isinstance(value, (Duration, Timestamp)):
        return [value.seconds, value.nanoseconds]
    if isinstance(value, OffsetDateTime):
        clock = [value.hour, value.minute, value.second, value.nanosecond]
        return [value.year, value.month, value.day, *clock, value.offset_seconds]
    return [numbers_of(one) for one in value] if isinstance(value, tuple) else value


def array_of(kind, items):
    """An array of ctypes; an item that is None is what stands there before a call."""
    if kind in NUMBERS or kind == "MuxanduStatus":
        numbers = [BEFORE if item is None else STATUSES.get(item, item) for item in items]
        return (NUMBERS.get(kind, ctypes.c_uint32) * len(items))(*numbers)
    structure = getattr(_structures, kind)
    unchanged = (BEFORE,) * len(structure._fields_)
    return (structure * len(items))(*(unchanged if item is None else tuple(item) for item in items))


def items_of(array):
    """The items of an array, each with its fields."""
    return [tuple(getattr(it, name) for name, _ in it._fields_) if isinstance(it, ctypes.Structure) else it for it in array]


@unittest.skipUnless(all(path.is_file() for path in (INTERFACE, CASES, METHODS)), "the tables are in the repository")
class Cases(unittest.TestCase):
    @classmethod
    def setUpClass(cls):
        cls.calls = json.loads(INTERFACE.read_text(encoding="utf-8"))["calls"]
        cls.rows = json.loads(CASES.read_text(encoding="utf-8"))
        found = importlib.util.spec_from_file_location("python_methods", METHODS)
        cls.tables = importlib.util.module_from_spec(found)
        found.loader.exec_module(cls.tables)
        cls.tables.complete({name.removeprefix("muxandu_"): call for name, call in cls.calls.items()})
        cls.methods = {
            call: getattr(CLASSES["Muxandu" + kind.removeprefix("Offset")], method)
            for kind in ("Timestamp", "OffsetDateTime")
            for method, call in cls.tables.METHODS[kind].items()
        }

    def parameters(self, call, *roles):
        return [one for one in self.calls[f"muxandu_{call}"]["parameters"] if one["role"] in roles]

    def answer_of(self, call, answer):
        """The answer of a row by Python: a value, or the name of an error."""
        if isinstance(answer, dict):
            return list(answer.values())
        if isinstance(answer, list) and isinstance(answer[0], str):
            return answer[0]
        if call == "time_check":
            return STATUSES[answer]
        return None if answer == "OK" else answer

    def test_single_calls(self):
        singles = [name for name in self.rows if self.calls[f"muxandu_{name}"]["result"] != "MuxanduBatch"]
        functions = {name: getattr(_extension, name) for name in singles if hasattr(_extension, name)}
        count = 0
        for call, make in {**OPERATORS, **self.methods, **functions}.items():
            for row in self.rows[call]:
                *arguments, answer = row
                with self.subTest(call=call, row=row):
                    made = self.call_with(call, make, arguments)
                    # A call that never fails takes numbers of which no value can be made.
                    if call != "timestamp_compare" or made not in ("TIMESTAMP", "NANOSECOND"):
                        self.assertEqual(made, self.answer_of(call, answer))
                        count += 1
        self.assertGreater(count, 500)

    def call_with(self, call, make, arguments):
        words = []
        try:
            for one, value in zip(self.parameters(call, "in", "text"), arguments):
                if one["type"] in CLASSES:
                    words.append(CLASSES[one["type"]](*value))
                elif one["type"] in ENUMS:
                    words.append(ENUMS[one["type"]][value] if isinstance(value, str) else value)
                else:
                    words += value if isinstance(value, list) else [value]
            made = numbers_of(make(*words))
        except Refused as refused:
            return refused.name
        return made

    def test_calls_over_many_items(self):
        count = 0
        many = {name for name in self.rows if self.calls[f"muxandu_{name}"]["result"] == "MuxanduBatch"}
        for call in sorted(many - {*self.tables.OF_ZONES}):
            for row in self.rows[call]:
                with self.subTest(call=call, row=row):
                    self.compare_batch(call, row)
                    count += 1
        self.assertGreater(count, 80)

    def compare_batch(self, call, row):
        answer = {"status": "OK", **row[-1]}
        words, outs = [], []
        for one, value in zip(self.parameters(call, "in", "text", "items in"), row):
            if one["role"] == "text":
                words += [value.encode(), len(value.encode())]
            elif one["role"] == "items in":
                words += [array_of(one["type"], value), len(value)]
            else:
                is_name = isinstance(value, str)
                words.append(ENUMS[one["type"]][value] if is_name and one["type"] in ENUMS else ord(value) if is_name else value)
        for one in self.parameters(call, "items out", "room", "out"):
            items = [answer[one["name"]]] if one["role"] == "out" else answer[one["name"]]
            if one["role"] == "room":
                outs.append((bytearray(b"!" * len(items)), items.encode()))
            else:
                outs.append(tuple(array_of(one["type"], given) for given in ([None] * len(items), items)))
            words += [outs[-1][0], len(items)]
        self.assertEqual(getattr(_extension, call)(*words), (answer["count"], STATUSES[answer["status"]]))
        for place, wanted in outs:
            self.assertEqual(items_of(place), items_of(wanted))


if __name__ == "__main__":
    unittest.main()

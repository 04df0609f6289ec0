"""make/python_calls: which parameters of a call it takes for written, and what it says of a call that its tables lack."""

import json
import shutil
import subprocess
import sys
import tempfile
import unittest
from pathlib import Path

ROOT = Path(__file__).resolve().parents[4]
INTERFACE = "packages/c/interface.json"
NEEDED = (
    "make/python_calls",
    "make/shared.py",
    "gate/shared/interface.py",
    "make/generated.py",
    "gate/shared/gate.py",
    "make/declare_c.py",
    INTERFACE,
    "make/python_methods.py",
    "packages/python/extension/types.pyi",
    "packages/python/muxandu/_refusals.py",
    "make/python_batches.py",
    *(f"packages/python/muxandu/{name}" for name in ("_batch.py", "_texts.py", "columns.py")),
)

# Calls whose names say nothing of what they write: one over many items, and one over none.
CALLS = {
    "muxandu_seconds_in_order": {
        "doc": "Sorts seconds where they lie.",
        "parameters": [
            {"name": "days", "type": "i32", "role": "items in"},
            {"name": "days_count", "type": "usize", "role": "count"},
            {"name": "seconds", "type": "i64", "role": "items out"},
            {"name": "seconds_count", "type": "usize", "role": "count"},
            {"name": "texts", "type": "u8", "role": "room"},
            {"name": "texts_count", "type": "usize", "role": "count"},
        ],
        "result": "MuxanduBatch",
    },
    "muxandu_day_of_luck": {"doc": "A day.", "parameters": [], "result": "MuxanduTimestamp"},
}


class Tables(unittest.TestCase):
    def setUp(self):
        self.folder = tempfile.TemporaryDirectory()
        self.addCleanup(self.folder.cleanup)
        self.root = Path(self.folder.name)
        for name in NEEDED:
            (self.root / name).parent.mkdir(parents=True, exist_ok=True)
            shutil.copy(ROOT / name, self.root / name)

    def change(self, name, old, new):
        path = self.root / name
        text = path.read_text(encoding="utf-8")
        self.assertEqual(text.count(old), 1, old)
        path.write_text(text.replace(old, new), encoding="utf-8")

    def run_tool(self, task):
        ended = subprocess.run([sys.executable, self.root / NEEDED[0], task], capture_output=True, encoding="utf-8", check=False)
        return ended.returncode, ended.stderr

    def test_what_stands_is_what_it_writes(self):
        self.assertEqual(self.run_tool("compare"), (0, ""))

    def add_calls(self, calls):
        path = self.root / INTERFACE
        interface = json.loads(path.read_text(encoding="utf-8"))
        interface["calls"].update(calls)
        path.write_text(json.dumps(interface), encoding="utf-8")
        return interface["calls"]

    def test_roles_say_what_a_call_writes(self):
        self.add_calls(CALLS)
        self.assertEqual(self.run_tool("build"), (0, ""))
        made = (self.root / "packages/python/extension/calls.h").read_text(encoding="utf-8")
        body = " ".join(made.partition("PyObject *seconds_in_order(")[2].partition("\n}")[0].split())
        for place, is_written in ((0, 0), (2, 1), (4, 1)):
            self.assertIn(f"take_items(words + {place}, &word_{place}, {is_written})", body)

    def test_a_call_without_a_row_is_a_method_of_its_class(self):
        calls = self.add_calls({})
        self.add_calls({**CALLS, "muxandu_timestamp_mirror": calls["muxandu_timestamp_truncate"]})
        self.assertEqual(self.run_tool("build"), (0, ""))
        stub = (self.root / "packages/python/muxandu/_extension.pyi").read_text(encoding="utf-8")
        lines = stub.partition("class _CallsOfTimestamp:")[2].partition("\n\n")[0]
        self.assertIn("    @classmethod\n    def day_of_luck(cls: type[_S]) -> _S: ...", lines)
        self.assertIn("    def mirror(self: _S, unit: SupportsIndex, /) -> _S: ...", lines)
        made = (self.root / "packages/python/extension/calls.h").read_text(encoding="utf-8")
        methods = made.partition("#define CALLS_OF_Timestamp")[2].partition("#define")[0]
        self.assertIn('{"mirror", FUNCTION(timestamp_mirror), METH_FASTCALL,', methods)
        self.assertIn('{"day_of_luck", FUNCTION(day_of_luck), METH_FASTCALL | METH_CLASS,', methods)

    def test_a_call_over_moments_without_a_row_has_the_comment_of_the_header(self):
        calls = self.add_calls({})
        negate = {**calls["muxandu_date_times_from_moments"], "doc": "Negates `muxandu_moments_add`."}
        self.add_calls({"muxandu_moments_negate": negate})
        self.assertEqual(self.run_tool("write"), (0, ""))
        made = (self.root / "packages/python/muxandu/columns.py").read_text(encoding="utf-8")
        self.assertIn("def moments_negate(moments: Any, out: Any = None) -> Any:", made)
        self.assertIn('"""Negates moments_add."""', made)

    def test_a_call_of_durations_alone_must_have_a_row(self):
        of_one = {"name": "whole", "type": "MuxanduDuration", "role": "in"}
        self.add_calls({"muxandu_duration_halve": {"doc": "A half.", "parameters": [of_one], "result": "MuxanduDuration"}})
        status, told = self.run_tool("write")
        self.assertEqual((status, told.strip().split()[-1]), (1, "duration_halve"))

    def test_overloads_follow_the_items(self):
        calls = self.add_calls({})
        self.add_calls({"muxandu_days_from_dates": calls["muxandu_dates_from_days"]})
        self.assertEqual(self.run_tool("write"), (0, ""))
        made = (self.root / "packages/python/muxandu/_batch.py").read_text(encoding="utf-8")
        self.assertIn("def days_from_dates(dates: SupportsArray, out: Optional[Out] = None) -> NumPyOr[Out]:", made)
        self.assertIn("def days_from_dates(dates: Numbers, out: Optional[Out] = None) -> DatesOr[Out]:", made)

    def test_the_room_of_a_text_is_that_of_its_contract(self):
        self.assertEqual(self.run_tool("build"), (0, ""))
        made = (self.root / "packages/python/extension/calls.h").read_text(encoding="utf-8")
        for name, room in (("date_time_text", 42), ("status_name", 15), ("date_to_rfc3339", 10)):
            body = made.partition(f"PyObject *{name}(")[2].partition("\n}")[0]
            self.assertIn(f"char text[{room}];", body)

    def test_what_is_stale_is_named(self):
        self.change("make/python_batches.py", "The date-time of each moment, at its own offset", "Others")
        status, said = self.run_tool("compare")
        self.assertEqual(status, 1)
        self.assertIn("muxandu/columns.py", said)

    def test_a_build_writes_in_another_folder(self):
        place = self.root / "copy"
        shutil.copytree(self.root / "packages/python", place)
        ended = subprocess.run([sys.executable, self.root / NEEDED[0], "build", place], check=False)
        self.assertEqual(ended.returncode, 0)
        stub = (place / "muxandu/_extension.pyi").read_text(encoding="utf-8")
        self.assertIn("class Timestamp(_CallsOfTimestamp, _Ordered[_Moment]):", stub)
        self.assertTrue((place / "extension/calls.h").is_file())
        self.assertFalse((self.root / "packages/python/extension/calls.h").exists())


if __name__ == "__main__":
    unittest.main()

"""How the package is imported: by a second interpreter, a second time, with no extension."""

import contextlib
import datetime
import gc
import importlib
import importlib.util
import os
import shutil
import subprocess
import sys
import tempfile
import unittest
from pathlib import Path

import muxandu
from muxandu import OffsetDateTime, Refused, Timestamp

FOLDER = Path(muxandu.__file__).resolve().parent


def variables(**others):
    """The variables of another Python that imports this package."""
    kept = {name: value for name, value in os.environ.items() if not name.startswith("MUXANDU_")}
    paths = os.pathsep.join([str(FOLDER.parent), *filter(None, [os.environ.get("PYTHONPATH")])])
    return {**kept, "PYTHONPATH": paths, **others}


def ended(program, *words, **others):
    """What another Python does."""
    command = [sys.executable, "-B", *words, "-c", program]
    return run(command, **others)


def run_package(*words, **others):
    """What the command line of the package does."""
    return run([sys.executable, "-B", "-m", "muxandu", *words], **others)


def run(command, **others):
    """What a command does in another folder, which has no package."""
    return subprocess.run(command, cwd=os.sep, env=variables(**others), capture_output=True, encoding="utf-8", check=False)


@contextlib.contextmanager
def imported_again():
    """Imports the package a second time, as a program that reloads modules does."""
    names = [name for name in sys.modules if name.partition(".")[0] == "muxandu"]
    kept = {name: sys.modules.pop(name) for name in names}
    try:
        yield importlib.import_module("muxandu")
    finally:
        for name in [name for name in sys.modules if name.partition(".")[0] == "muxandu"]:
            del sys.modules[name]
        sys.modules.update(kept)


# A second interpreter imports the package, uses it and ends; then the first goes on.
INTERPRETERS = """
import sys
import muxandu as m
from muxandu import columns
{0}
program = '''
import muxandu as m
from muxandu import columns
rows = columns.moments_from_rfc3339(["1970-01-01T00:00:01Z"] * 2)
later, statuses = columns.each_moment_add(rows, [m.Duration(1), None])
assert (later[0].seconds, list(statuses)) == (2, [0, m.MISSING])
assert m.Timestamp.from_rfc3339("1970-01-01T00:00:01Z") + m.Duration(1) == m.Timestamp(2)
try:
    m.OffsetDateTime(2023, 2, 30)
except m.Refused as refused:
    assert refused.value == 30
else:
    raise AssertionError("a day is not refused")
'''
for _ in range(3):
    {1}
    try:
        m.OffsetDateTime(2023, 2, 30)
    except m.Refused as refused:
        assert type(refused) is m.RefusedDayOfMonth
    assert repr(m.Timestamp(7)) == "Timestamp(7, 0)" and str(m.Timestamp(7).to_utc()) == "1970-01-01 0:00:07.0 +00"
    rows = columns.moments_from_date_times([m.OffsetDateTime(1970, 1, 2)])
    assert list(columns.moments_compare(rows, m.OffsetDateTime(1970, 1, 1))) == [1]
    assert m.Duration(1) * 3 == m.Duration(3) and hash(m.Date(1970, 1, 1)) == hash(m.Date.from_day_number(0))
print("right")
"""
# On 3.12 an interpreter with a lock of its own cannot load ctypes.
SHARED = "isolated=False" if sys.version_info >= (3, 12) else ""
BY_XX = ("import _xxsubinterpreters as s", f"i = s.create({SHARED}); s.run_string(i, program); s.destroy(i)")
BY_OWN = (
    "import _interpreters as s",
    "i = s.create('legacy'); failed = s.run_string(i, program); assert not failed, failed; s.destroy(i)",
)
MODULES = [name for name in ("_interpreters", "_xxsubinterpreters") if importlib.util.find_spec(name)]


# The extension is imported once more, alone since caches of Python's typing keep a package, and let go of. No type of it may be left,
# and the first import goes on. For a class of a program it looks at each import that is there, and freed memory has no addresses.
LET_GO = """
import gc, importlib.util
import muxandu as m
from muxandu import _extension as first

NAMES = {name for name, value in vars(first).items() if isinstance(value, type)}

class Own(m.Timestamp):
    pass

def count_types():
    gc.collect()
    return sum(type(it) is type and it.__name__ in NAMES for it in gc.get_objects())

before = count_types()
spec = importlib.util.spec_from_file_location(first.__name__, first.__file__)
second = importlib.util.module_from_spec(spec)
spec.loader.exec_module(second)
assert second.Timestamp is not first.Timestamp
assert second.Timestamp(7) + second.Duration(1) == second.Timestamp(8)
assert count_types() == before + len(NAMES)
del second
assert count_types() == before, f"{count_types() - before} types are left"
assert Own(7) + m.Duration(1) == m.Timestamp(8)
print("right")
"""


class Imports(unittest.TestCase):
    @unittest.skipUnless(MODULES, "this Python has no second interpreter")
    def test_a_second_interpreter_leaves_the_first_as_it_is(self):
        program = INTERPRETERS.format(*(BY_OWN if MODULES[0] == "_interpreters" else BY_XX))
        second = ended(program)
        self.assertEqual((second.returncode, second.stdout, second.stderr), (0, "right\n", ""))

    def test_an_import_that_is_let_go_of_leaves_nothing(self):
        second = ended(LET_GO, PYTHONMALLOC="malloc_debug")
        self.assertEqual((second.returncode, second.stdout, second.stderr), (0, "right\n", ""))

    def test_a_second_import_leaves_the_first_as_it_is(self):
        kept = []
        for _ in range(3):
            with imported_again() as other:
                self.assertIsNot(other, muxandu)
                self.assertIsNot(other.Timestamp, Timestamp)
                self.assertRaises(other.RefusedDayOfMonth, other.OffsetDateTime, 2023, 2, 30)
                self.assertEqual(repr(other.Timestamp(7) + other.Duration(1)), "Timestamp(8, 0)")
                self.assertIs(type(other.Date(2024, 2, 29) - other.Date(2024, 2, 28)), other.Duration)
                self.assertRaises(muxandu.RefusedDayOfMonth, OffsetDateTime, 2023, 2, 30)
                kept.append(other.Timestamp(7))
            del other
            gc.collect()
            self.assertRaises(Refused, OffsetDateTime, 2023, 2, 30)
            self.assertEqual(repr(Timestamp(7) + muxandu.Duration(1)), "Timestamp(8, 0)")
        self.assertEqual([repr(at + datetime.timedelta(1)) for at in kept], ["Timestamp(86407, 0)"] * 3)


class Program(unittest.TestCase):
    """The command line of the package."""

    def test_an_extension_that_is_lacking_is_named(self):
        with tempfile.TemporaryDirectory() as folder:
            shutil.copytree(FOLDER, Path(folder, "muxandu"), ignore=shutil.ignore_patterns("_extension*.so", "__pycache__"))
            # Without -S an installation that leads to sources would find theirs.
            other = ended("import muxandu", "-S", PYTHONPATH=folder)
        self.assertEqual(other.returncode, 1)
        self.assertIn(
            "ImportError: muxandu cannot import its extension, which pip makes for CPython from 3.11 on: ", other.stderr
        )

    def test_the_command_line_has_a_version(self):
        ended = run_package("--version")
        self.assertEqual((ended.returncode, ended.stdout, ended.stderr), (0, f"muxandu {muxandu.__version__}\n", ""))

    def test_the_command_line_has_a_usage(self):
        usage = (
            "usage: python -m muxandu TEXT | --version | --help\n"
            "TEXT is a date-time of RFC 3339 with an offset, or a Unix second such as 1709166600.5\n"
        )
        for words, wanted in (
            (["--help"], (0, usage, "")),
            (["--other"], (2, "", usage)),
            ([], (2, "", usage)),
            (["1", "2"], (2, "", usage)),
        ):
            ended = run_package(*words)
            self.assertEqual((ended.returncode, ended.stdout, ended.stderr), wanted)


if __name__ == "__main__":
    unittest.main()

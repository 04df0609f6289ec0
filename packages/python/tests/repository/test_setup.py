"""What packages/python/setup.py makes: the wheel, the source archive, and the extension by the words of CC.

MUXANDU_ARCHIVE names the archive of the library. Without it the extensions are compiled of muxandu.c.
"""

import os
import re
import shutil
import subprocess
import sys
import tarfile
import tempfile
import unittest
import zipfile
from pathlib import Path

SOURCES = Path(__file__).resolve().parents[2]
ARCHIVE = os.environ.get("MUXANDU_ARCHIVE", "")
LICENCES = {"LICENSE-APACHE", "LICENSE-MIT"}
EXTENSION = "muxandu/_extension.abi3.so"

# A program that is asked for in front of the compiler leaves its words in a file.
STUB = """#!/bin/sh
echo "$@" >> "{0}"
exec "$@"
"""


class Folder(unittest.TestCase):
    """A folder for each test, and in it a copy of the sources, which has the library as a source archive has it."""

    def setUp(self):
        self.folder = Path(tempfile.mkdtemp())
        self.addCleanup(shutil.rmtree, self.folder)
        self.sources = self.folder / "sources"
        shutil.copytree(SOURCES, self.sources, ignore=shutil.ignore_patterns("*.so", "__pycache__", "*.egg-info"))
        subprocess.run([SOURCES.parents[1] / "make" / "python_calls", "build", self.sources], check=True)
        subprocess.run([SOURCES.parents[1] / "make" / "one_c_file", self.sources / "library"], check=True)

    def setup(self, *words, sources=None, **variables):
        """What a command of setup.py does, with plain flags."""
        kept = {name: value for name, value in os.environ.items() if not name.startswith("MUXANDU") and name != "CC"}
        given = {"MUXANDU_ARCHIVE": ARCHIVE, "SOURCE_DATE_EPOCH": "1700000000", "CFLAGS": "-O0", **variables}
        command = [sys.executable, "-B", "setup.py", "-q", *words]
        return subprocess.run(
            command, cwd=sources or self.sources, env={**kept, **given}, capture_output=True, encoding="utf-8", check=False
        )

    def made(self, *words, **variables):
        """The path of the archive that a command makes."""
        place = Path(tempfile.mkdtemp(dir=self.folder))
        ended = self.setup(*words, "--dist-dir", str(place), **variables)
        self.assertEqual(ended.returncode, 0, ended.stderr)
        (path,) = place.iterdir()
        return path

    def wheel(self, **variables):
        return self.made("bdist_wheel", MUXANDU_EXTENSION="must", **variables)


class Calls(Folder):
    def test_a_folder_without_the_calls_says_how_they_are_made(self):
        (self.sources / "extension" / "calls.h").unlink()
        ended = self.setup("build")
        self.assertEqual(ended.returncode, 1)
        self.assertIn(f"run make/python_calls build {self.sources}", ended.stderr)


class Archives(Folder):
    def test_the_wheel_has_what_it_says(self):
        path = self.wheel()
        self.assertRegex(path.name, r"^muxandu-[\d.]+-cp311-abi3-manylinux_2_\d+_\w+\.whl$")
        project = (SOURCES / "pyproject.toml").read_text(encoding="utf-8")
        fields = dict(re.findall(r"^([\w-]+) = \"?([^\"\n]*)\"?$", project, re.MULTILINE))
        with zipfile.ZipFile(path) as packed:
            names = packed.namelist()
            info = next(name.partition("/")[0] for name in names if ".dist-info/" in name)
            metadata = packed.read(f"{info}/METADATA").decode("utf-8")
            licences = {name.rpartition("/")[2]: packed.read(name) for name in names if "LICENSE" in name}
        self.assertEqual(licences, {name: (SOURCES.parents[1] / name).read_bytes() for name in LICENCES})
        for name, field in (
            ("Name", "name"),
            ("Version", "version"),
            ("Summary", "description"),
            ("Requires-Python", "requires-python"),
        ):
            self.assertIn(f"\n{name}: {fields[field]}\n", metadata)
        self.assertIn("\nLicense: MIT OR Apache-2.0\n", metadata)
        self.assertIn((SOURCES / "README.md").read_text(encoding="utf-8").strip(), metadata)
        modules = {
            f"muxandu/{path.name}" for path in (self.sources / "muxandu").iterdir() if path.suffix in (".py", ".pyi", ".typed")
        }
        self.assertEqual({name for name in names if not name.startswith(info)}, {*modules, EXTENSION})

    def test_two_builds_are_the_same_bytes(self):
        self.assertEqual(self.wheel().read_bytes(), self.wheel().read_bytes())

    def test_the_source_archive_has_the_library_as_a_file_of_c(self):
        path = self.made("sdist")
        place = self.folder / "unpacked"
        with tarfile.open(path) as archive:
            archive.extractall(place)
        (inside,) = place.iterdir()
        self.assertEqual(list(inside.rglob("*.a")), [])
        needed = {
            "library/muxandu.c",
            "library/muxandu.h",
            "library/muxandu_time.h",
            "pyproject.toml",
            "setup.py",
            "extension/extension.c",
            "extension/calls.h",
            "extension/module.h",
            *LICENCES,
        }
        for name in needed | {"muxandu/py.typed", "muxandu/_extension.pyi", "tests/test_laws.py"}:
            self.assertTrue((inside / name).is_file(), name)
        ended = self.setup("build", "--build-lib", str(self.folder / "lib"), sources=inside, MUXANDU_ARCHIVE="")
        self.assertEqual(ended.returncode, 0, ended.stderr)
        self.assertTrue((self.folder / "lib" / EXTENSION).is_file())


class Extensions(Folder):
    def built(self, **variables):
        """What a build prints where it fails, and the extension."""
        place = Path(tempfile.mkdtemp(dir=self.folder))
        ended = self.setup("build", "--build-lib", str(place), MUXANDU_EXTENSION="must", **variables)
        return ended, place / EXTENSION

    def test_it_exports_one_name(self):
        ended, path = self.built()
        self.assertEqual(ended.returncode, 0, ended.stderr)
        words = ["nm", "-D", "--defined-only", str(path)]
        printed = subprocess.run(words, capture_output=True, encoding="utf-8", check=True).stdout
        self.assertEqual([line.split()[2] for line in printed.splitlines()], ["PyInit__extension"])

    def test_cc_has_words(self):
        stub, told = self.folder / "ccache", self.folder / "told"
        stub.write_text(STUB.format(told), encoding="utf-8")
        stub.chmod(0o755)
        for words in ("ccache cc", "cc -pthread"):
            told.unlink(missing_ok=True)
            ended, path = self.built(CC=words, PATH=f"{self.folder}:{os.environ['PATH']}")
            self.assertEqual((ended.returncode, path.is_file()), (0, True), ended.stderr)
            self.assertEqual(told.is_file() and told.read_text(encoding="utf-8").startswith("cc "), "ccache" in words)

    def test_cflags_have_words(self):
        ended, path = self.built(CFLAGS="-O0 -DSOME='a b'")
        self.assertEqual((ended.returncode, path.is_file()), (0, True), ended.stderr)

    def test_a_compiler_that_fails_ends_the_build(self):
        for words in ("nowhere gcc", "false"):
            ended, path = self.built(CC=words)
            self.assertEqual((ended.returncode, path.is_file()), (1, False))
            self.assertIn(words.split()[0], ended.stderr)

    def test_a_lost_archive_is_named(self):
        ended, _ = self.built(MUXANDU_ARCHIVE="/nowhere")
        self.assertEqual(ended.returncode, 1)
        wanted = "muxandu: cannot find /nowhere, which MUXANDU_ARCHIVE names: run ./build-library, or leave the variable out"
        self.assertEqual(ended.stderr.strip(), wanted)

    def test_a_copy_without_the_library_says_what_it_lacks(self):
        shutil.rmtree(self.sources / "library")
        ended, path = self.built(MUXANDU_ARCHIVE="")
        self.assertEqual((ended.returncode, path.is_file()), (1, False))
        wanted = "library/muxandu.c: take the whole source archive, or a clone of the repository"
        self.assertIn(f"muxandu: cannot find {self.sources.resolve()}/{wanted}", ended.stderr)


if __name__ == "__main__":
    unittest.main()

"""Builds the extension with the library inside: compiled of muxandu.c, or the archive that MUXANDU_ARCHIVE names.

The source archive has muxandu.c in library/. In a clone of the repository, make/one_c_file writes it for each build.
CC and CFLAGS name the compiler and its flags, each of several words if you like, as CC='ccache gcc'.
MUXANDU_EXTENSION=must ends a build with a warning.
"""

import os
import platform
import re
import shutil
import subprocess
import sys
import tempfile
from pathlib import Path
from sysconfig import get_platform

from setuptools import Extension, setup
from setuptools.command.build_ext import build_ext
from setuptools.command.sdist import sdist

try:
    from setuptools.command.bdist_wheel import bdist_wheel
except ImportError:
    from wheel.bdist_wheel import bdist_wheel

HERE = Path(__file__).resolve().parent
FILES = ("muxandu.c", "muxandu.h", "muxandu_time.h")
ARCHIVE = os.environ.get("MUXANDU_ARCHIVE")

# What the source archive has of the library, and where the header of an archive is.
KEPT = HERE / "library"
HEADERS = KEPT if KEPT.is_dir() else HERE.parents[1] / "packages" / "c"

# The oldest C library of a manylinux tag.
OLDEST = (2, 17)


def library(folder):
    """The folder that has muxandu.c and its header: that of the source archive, or this one, in which they are made."""
    writer = HERE.parents[1] / "make" / "one_c_file"
    if all((KEPT / name).is_file() for name in FILES):
        return KEPT
    if not writer.is_file():
        sys.exit(f"muxandu: cannot find {KEPT / FILES[0]}: take the whole source archive, or a clone of the repository")
    if subprocess.run([sys.executable, writer, folder], check=False).returncode != 0:
        sys.exit("muxandu: make/one_c_file has not written muxandu.c: see its lines above")
    return Path(folder)


class Build(build_ext):
    """The extension, with the library inside."""

    def build_extension(self, extension):
        with tempfile.TemporaryDirectory() as folder:
            place = HEADERS if ARCHIVE else library(folder)
            extension.include_dirs = [str(place)]
            if ARCHIVE:
                extension.extra_objects = [ARCHIVE]
            else:
                extension.sources = [*extension.sources, str(place / FILES[0])]
            super().build_extension(extension)


def write_calls():
    """Writes the calls and their types, which a source archive has and a checkout makes."""
    maker = HERE.parents[1] / "make" / "python_calls"
    if maker.is_file():
        subprocess.run([sys.executable, "-B", maker, "build", HERE], check=True)
    if not (HERE / "extension" / "calls.h").is_file():
        sys.exit(f"muxandu: {HERE} has no extension/calls.h: run make/python_calls build {HERE} in the repository")


class Wheel(bdist_wheel):
    """A wheel whose platform is the oldest C library that its extension runs on."""

    def get_tag(self):
        *first, plain = super().get_tag()
        built = "".join(path.read_bytes().decode("latin-1") for path in Path(self.bdist_dir).rglob("*.so"))
        if not built or sys.platform != "linux" or platform.libc_ver()[0] != "glibc":
            return (*first, plain)
        asked = [tuple(map(int, found)) for found in re.findall(r"\bGLIBC_(\d+)\.(\d+)", built)]
        major, minor = max([OLDEST, *asked])
        return (*first, f"manylinux_{major}_{minor}_{plain.removeprefix('linux_')}")


class SourceArchive(sdist):
    """A source archive with the library as one file of C."""

    def make_release_tree(self, base_dir, files):
        super().make_release_tree(base_dir, files)
        with tempfile.TemporaryDirectory() as folder:
            place = library(folder)
            for name in FILES:
                path = Path(base_dir, "library", name)
                path.parent.mkdir(parents=True, exist_ok=True)
                shutil.copyfile(place / name, path)


write_calls()
if ARCHIVE and not Path(ARCHIVE).is_file():
    sys.exit(f"muxandu: cannot find {ARCHIVE}, which MUXANDU_ARCHIVE names: run ./build-library, or leave the variable out")
LINKED = ["-Wl,--exclude-libs,ALL", "-Wl,-z,now"] if sys.platform == "linux" else []
if ARCHIVE and get_platform() == "linux-x86_64":
    # a loader that knows the mark rejects the extension by name on a processor that the archive is not for
    LINKED.append("-Wl,-z,x86-64-v2")
EXTENSION = Extension(
    "muxandu._extension",
    ["extension/extension.c"],
    extra_compile_args=["-std=c11", "-Wall", "-Wextra", "-g0", "-fvisibility=hidden"],
    extra_link_args=LINKED,
    py_limited_api=True,
)
if os.environ.get("MUXANDU_EXTENSION") == "must":
    EXTENSION.extra_compile_args.append("-Werror")

# Nothing of an earlier build, which may have had other flags, goes into this one.
with tempfile.TemporaryDirectory() as work:
    setup(
        packages=["muxandu"],
        package_data={"muxandu": ["py.typed", "*.pyi"]},
        ext_modules=[EXTENSION],
        cmdclass={"bdist_wheel": Wheel, "build_ext": Build, "sdist": SourceArchive},
        options={"bdist_wheel": {"py_limited_api": "cp311"}, "build": {"build_base": work}, "build_ext": {"force": True}},
    )

#!/usr/bin/env python3
"""Builds the Rust package where a build is not the usual one: after it was packed, in place of the crate `time`, with each
feature of that crate, without std, and with literals that name no date.

    python3 gate/rust_builds.py [CASE]

gate/library has all cases tried. With CASE that one alone is. The last line is 'N passed, M failed', a build each.
"""

import os
import re
import shutil
import sys
import tempfile

from shared.debian_crates import SOURCE, lacking
from shared.gate import REPOSITORY, Tally, run, write_text

# The crates that features of the folder `time` need, and its tests.
CRATES = ("chrono", "quickcheck", "rand", "serde", "serde_derive", "serde_json")

# What cargo says of a package that is published nowhere.
NO_ADDRESS = "manifest has no documentation, homepage or repository"

MANIFEST = """\
[package]
name = "caller"
version = "0.0.0"
edition = "2024"

[dependencies]
muxandu = {{ path = "{}" }}
"""

# A library over `time`.
LIBRARY_MANIFEST = """\
[package]
name = "library"
version = "0.0.0"
edition = "2024"

[dependencies]
time = { version = "0.3", features = ["macros", "formatting", "parsing", "large-dates"] }
"""

LIBRARY = """\
use time::OffsetDateTime;
use time::ext::NumericalDuration;
use time::macros::datetime;

pub const LAST: OffsetDateTime = datetime!(9999-12-31 23:59:59 UTC);

pub fn earlier() -> OffsetDateTime {
    LAST - 90.minutes()
}
"""

# A program over that library, in which `time` is this package's, and has the name `muxandu`.
PATCHED = """\
[package]
name = "caller"
version = "0.0.0"
edition = "2024"

[dependencies]
library = {{ path = "library" }}
muxandu = {{ package = "time", version = "0.3", features = ["serde-human-readable"] }}
serde_json = "1"

[patch.crates-io]
time = {{ path = "{}" }}
"""

CALLER = """\
fn main() {
    let earlier: muxandu::OffsetDateTime = library::earlier();
    println!("{earlier}");
    println!("{}", serde_json::to_string(&vec![earlier.date()]).unwrap());
}
"""
CALLED = '9999-12-31 22:29:59.0 +00:00:00\n["9999-12-31"]\n'

# The features of the folder `time`, each of which builds alone.
FEATURES = (
    "alloc", "chrono", "formatting", "large-dates", "local-offset", "macros", "parsing", "quickcheck", "rand", "serde",
    "serde-human-readable", "serde-well-known", "std",
)  # fmt: skip

# Literals that name no date or time, and what the compiler must say of each in its line.
LITERALS = {
    "date!(2023-02-29)": "the month of that year does not have the day",
    "date!(2023-366)": "the year does not have 366 days",
    "date!(2023-W53-1)": "the year does not have 53 weeks",
    "date!(1000000-01-01)": "the year is out of the range, -999999 to 999999",
    "time!(24:00)": "the hour is not 0 to 23",
    "offset!(+1:60)": "the minutes of the offset are not -59 to 59",
    "datetime!(2024-02-29 1:60)": "the minute is not 0 to 59",
    "datetime!(2024-13-01 1:00 UTC)": "the month is not 1 to 12",
    "utc_datetime!(2024-02-00 0:00)": "the day is not 1 to 31",
    "timestamp!(99_999_999_999_999)": "the seconds are out of their range",
    "date!(2023)": None,
    "date!(tomorrow)": None,
    "time!(1)": None,
    "datetime!(2024-02-29)": None,
}

NO_LITERAL = {"date": "no date: ", "time": "no time of day: ", "datetime": "no date and time of day: "}


class Package:
    """The Rust package, and a folder for what is built."""

    def __init__(self, folder, work):
        self.folder, self.work = folder, work
        self.target = os.path.join(work, "target")

    def place(self, name):
        """The path of a new folder."""
        path = os.path.join(self.work, name)
        os.makedirs(path)
        return path

    def cargo(self, *words, folder=None, **variables):
        """Runs cargo in the folder of the package, or in another."""
        variables.setdefault("CARGO_TARGET_DIR", self.target)
        return run(["cargo", *words, "--offline"], folder or self.folder, **variables)

    def caller(self, name, program, manifest, path):
        """The folder of a program over a package at a path."""
        folder = self.place(name)
        write_text(os.path.join(folder, "Cargo.toml"), manifest.format(path))
        write_text(os.path.join(folder, "src", "main.rs"), program)
        return folder


def build_problem(ended):
    """Why a build failed, or None."""
    return None if ended.returncode == 0 else f"status {ended.returncode}", ended.stdout


def copy_of(package, name):
    """The folder of a copy of the package alone."""
    folder = os.path.join(package.place(name), "rust")
    shutil.copytree(package.folder, folder, ignore=shutil.ignore_patterns("target"))
    return folder


def build_after_packing(package):
    """What cargo packs is built where nothing of the repository is, and then the package itself."""
    folder = copy_of(package, "packed")
    target = os.path.join(package.work, "packing")
    ended = package.cargo("package", "--allow-dirty", folder=folder, CARGO_TARGET_DIR=target)
    warnings = [line for line in re.findall("^warning: (.*)", ended.stdout, re.MULTILINE) if line != NO_ADDRESS]
    if ended.returncode != 0 or warnings:
        return f"cargo package: status {ended.returncode}, {warnings}", ended.stdout
    return build_problem(package.cargo("build", "--examples", folder=folder, CARGO_TARGET_DIR=target))


def build_without_std(package):
    """The package is built over core and alloc."""
    return build_problem(package.cargo("build", "--no-default-features"))


def build_in_place_of_time(package):
    """A library over `time` has this package by the manifest of a program alone, and its types are those of the program."""
    folder = package.caller("patched", CALLER, PATCHED, os.path.join(package.folder, "time"))
    write_text(os.path.join(folder, "library", "Cargo.toml"), LIBRARY_MANIFEST)
    write_text(os.path.join(folder, "library", "src", "lib.rs"), LIBRARY)
    write_text(os.path.join(folder, ".cargo", "config.toml"), SOURCE)
    ended = package.cargo("run", "--quiet", folder=folder)
    if (ended.returncode, ended.stdout) != (0, CALLED):
        return f"status {ended.returncode}, must print {CALLED!r}", ended.stdout
    # Where the package is not what the library asks for, cargo takes the crate of the registry without a word.
    tree = package.cargo("tree", "--prefix", "none", folder=folder).stdout
    others = [
        line for line in tree.splitlines() if line.startswith("time v") and os.path.join(package.folder, "time") not in line
    ]
    return f"cargo takes {others[0]}" if others else None, tree


def build_each_feature(package):
    """Each feature builds alone, and cargo names one that is not there."""
    folder = os.path.join(package.place("features"), "rust")
    shutil.copytree(package.folder, folder, ignore=shutil.ignore_patterns("target"))
    folder = os.path.join(folder, "time")
    write_text(os.path.join(folder, ".cargo", "config.toml"), SOURCE)
    for feature in FEATURES:
        words = ["check", "--quiet", "--no-default-features", "--features", feature]
        ended = package.cargo(*words, folder=folder, RUSTFLAGS="-D warnings")
        if ended.returncode != 0:
            return f"{feature}: status {ended.returncode}", ended.stdout
    ended = package.cargo("check", "--features", "wasm", folder=folder)
    return None if ended.returncode and "wasm" in ended.stdout else "cargo has a feature `wasm`", ended.stdout


def test_literals(package):
    """The compiler names the line of each literal that names no date, and says what is wrong with it."""
    lines = [f"    let _ = muxandu::macros::{literal};" for literal in LITERALS]
    folder = package.caller("literals", "\n".join(["fn main() {", *lines, "}", ""]), MANIFEST, package.folder)
    ended = package.cargo("check", folder=folder)
    said = {}
    for text, line in re.findall(r"^error(?:\[E0080\])?: (.*)\n\s*--> src/main.rs:(\d+):", ended.stdout, re.MULTILINE):
        said[int(line)] = text.removeprefix("evaluation panicked: ")
    for line, (literal, sentence) in enumerate(LITERALS.items(), 2):
        macro, _, parts = literal.rstrip(")").partition("!(")
        # The compiler chooses the spaces between the tokens of a literal.
        wanted = sentence or NO_LITERAL[macro] + parts
        if said.get(line, "").replace(" ", "") != wanted.replace(" ", ""):
            return f"{literal} must be {wanted!r}, and is {said.get(line)!r}", ended.stdout
    return None, ""


OVER_CRATES = (build_in_place_of_time, build_each_feature)
CASES = {case.__name__: case for case in (build_after_packing, build_without_std, *OVER_CRATES, test_literals)}


def count(tally, folder, names=tuple(CASES)):
    """Counts these cases of the package in that folder."""
    with tempfile.TemporaryDirectory(prefix="rust-builds-") as work:
        package, absent = Package(folder, work), lacking(CRATES)
        for name in names:
            if absent and CASES[name] in OVER_CRATES:
                tally.skip(f"Rust package: {name}", absent)
                continue
            problem, printed = CASES[name](package)
            tally.count(f"Rust package: {name}", problem, printed)


def main():
    if len(sys.argv) > 2 or set(sys.argv[1:]) - set(CASES):
        sys.exit(f"usage: {sys.argv[0]} [{' | '.join(CASES)}]")
    tally = Tally()
    count(tally, os.path.join(REPOSITORY, "packages", "rust"), sys.argv[1:] or tuple(CASES))
    tally.end()


if __name__ == "__main__":
    main()

"""The tests of the libraries and the program times_bench as Rust, in packages of the erased text: they call what is closed there."""

import os
import re
import shutil

from shared.erasure import (
    BY_PACKAGE,
    CRATES,
    FOLDER,
    LEFT_OUT,
    MADE,
    MODULE,
    NAME,
    ROOT,
    Source,
    erased_name,
    shim_names,
    sources,
)
from shared.gate import GATE, REPOSITORY, read_text, write_text
from shared.test_crates import files_of, module_of

OWN = os.path.join(GATE, "erased_sources")

# What the program has of std and not of core.
MODULES_OF_PROGRAMS = ("io",)

MANIFEST = f"""\
[package]
name = "{NAME}"
version = "0.0.0"
edition = "2024"

[profile.checked]
inherits = "release"
overflow-checks = true
debug-assertions = true

[workspace]
"""


def read(*parts):
    return read_text(os.path.join(*parts))


def write(text, *parts):
    path = os.path.join(*parts)
    os.makedirs(os.path.dirname(path), exist_ok=True)
    write_text(path, text)


def copy_with_std(folder, more):
    """Makes a package of the erased text in a folder, over std in place of core, with more lines in the root of that text."""
    place = os.path.join(folder, os.path.relpath(MADE, FOLDER))
    shutil.copytree(os.path.join(REPOSITORY, MADE), place)
    write(MANIFEST, folder, "Cargo.toml")
    write(f"extern crate alloc;\npub mod {MODULE};\npub use {MODULE}::*;\n{BY_PACKAGE}", folder, "src", "lib.rs")
    write(read(REPOSITORY, ROOT) + more, f"{place}.rs")
    return place


class Test(Source):
    """A file of tests: what it has of the runtime is taken out."""

    RUNTIME = (
        ("rt : HostRuntime ,", 4, ""),
        ("rt : HostRuntime", 3, ""),
        ("_rt : HostRuntime", 3, ""),
        ("rt : & impl Abort ,", 6, ""),
        ("rt : & impl Abort", 5, ""),
        ("in rt . alloc ( ) ;", 7, ""),
        ("rt . alloc ( )", 5, f"crate::{MODULE}::memory::Global"),
        ("& rt ,", 3, ""),
        ("& rt ;", 3, ""),
        ("rt ,", 2, ""),
        ("rt ;", 2, ""),
        ("use std : : process : : Abort ;", 9, ""),
        ("std : : test", 4, f"crate::{MODULE}::erased_tests"),
        ("to_vec", 1, "to_list"),
    )

    def take_runtime(self):
        for place in range(len(self.code)):
            for words, count, instead in self.RUNTIME:
                if self.has(place, words):
                    self.take_out(place, place + count - 1, "runtime")
                    self.code[place].before = instead
                    break

    def erase(self):
        self.take_ghosts()
        self.take_attributes()
        self.take_models()
        self.take_runtime()
        self.put_paths(shim_names())
        self.take_comments()
        return re.sub(r"^//!", "//", self.text_left(), flags=re.MULTILINE)


class Part(Source):
    """A file of a program, or of a library that is left out elsewhere."""

    def erase(self):
        self.take_ghosts()
        self.take_attributes()
        self.take_models()
        self.take_writers()
        self.put_paths(shim_names())
        self.take_comments()
        return self.text_left()


def source_text(crate, path):
    name = os.path.join("crates", crate, "src", path)
    return name, read(REPOSITORY, name)


def add_left_out(place):
    """Adds the modules that are left out, which tests call, to the erased text in a folder."""
    for crate in CRATES:
        root = f"{crate}.rs"
        for module in LEFT_OUT:
            if os.path.exists(os.path.join(REPOSITORY, "crates", crate, "src", f"{module}.rt")):
                part = Part(*source_text(crate, f"{module}.rt"), crate)
                write(part.erase(), place, crate, f"{module}.rs")
                write(read(place, root) + f"pub mod {module};\n", place, root)


def make_tests(folder):
    """Makes a package of the erased text with the tests of the libraries in a folder."""
    made = copy_with_std(folder, "\n#[cfg(test)]\n#[macro_use]\nmod erased_tests;\n")
    write(read(REPOSITORY, FOLDER, "tests", "requires.rs"), folder, "tests", "requires.rs")
    add_left_out(made)
    head = read(OWN, "tests.rs")
    for crate in CRATES:
        head += f"\nmod {crate};"
        for path, text in files_of(crate).items():
            text = Test(f"crates/{crate}/tests/{path}", text, "").erase()
            lead = f"#[allow(unused_imports)]\nuse crate::{MODULE}::erased_tests::ToList;\n"
            write(lead + text, made, "erased_tests", os.path.join(crate, *module_of(path)) + ".rs")
    write(head + "\n", made, "erased_tests.rs")


def make_program(folder):
    """Makes a package of the erased text with the program in a folder."""
    made = copy_with_std(folder, "\npub mod line_devices;\npub mod simd;\npub mod times_bench;\n")
    write(read(OWN, "simd.rs"), made, "simd.rs")
    for crate in ("line_devices", "times_bench"):
        for _, path in sources(crates=(crate,), left_out=("main", "tests")):
            part = Part(*source_text(crate, path), crate)
            part.libraries, part.modules = (*CRATES, "line_devices"), (*part.modules, *MODULES_OF_PROGRAMS)
            write(part.erase(), made, erased_name(crate, path))
    modules = [
        name for name in re.findall(r"^mod (\w+);$", source_text("times_bench", "main.rt")[1], re.MULTILINE) if name != "tests"
    ]
    lines = "".join(f"mod {name};\n" for name in modules)
    write(lines + read(OWN, "run.rs"), made, "times_bench.rs")
    write(f"fn main() -> std::process::ExitCode {{\n    {NAME}::{MODULE}::times_bench::run()\n}}\n", folder, "src", "main.rs")

"""The Rust package for other machines, where rustc has their core: installed, or made of the sources of std that it has."""

import os
import re
import shutil
import subprocess

from shared.erasure import FOLDER, NAME
from shared.gate import GATE, REPOSITORY

OWN = os.path.join(GATE, "erased_sources")

WASM = "wasm32-unknown-unknown"
TARGETS = (
    WASM,
    "aarch64-unknown-linux-gnu",
    "riscv32imc-unknown-none-elf",
    "i686-unknown-linux-gnu",
    "thumbv6m-none-eabi",
    "s390x-unknown-linux-gnu",
)

# The oldest rustc that the package is for.
OLDEST = (1, 85)


class Compiler:
    """A rustc, and what it has for other machines."""

    def __init__(self, path):
        self.path = path
        said = subprocess.run([path, "--version"], capture_output=True, encoding="utf-8", check=False).stdout
        found = re.match(r"rustc (\d+)\.(\d+)", said)
        self.version = (int(found[1]), int(found[2])) if found else (0, 0)
        words = [path, "--print", "sysroot"]
        self.sysroot = subprocess.run(words, capture_output=True, encoding="utf-8", check=False).stdout.strip()

    def has(self, target):
        return os.path.isdir(os.path.join(self.sysroot, "lib", "rustlib", target, "lib"))

    @property
    def sources(self):
        """The folder of the sources of std, or None."""
        path = os.path.join(self.sysroot, "lib", "rustlib", "src", "rust", "library")
        return path if os.path.exists(os.path.join(path, "alloc", "src", "lib.rs")) else None


def compilers():
    paths = [shutil.which("rustc"), "/usr/bin/rustc"]
    found = [Compiler(path) for path in dict.fromkeys(paths) if path and os.path.exists(path)]
    return [compiler for compiler in found if compiler.version >= OLDEST]


def compiler_for(target):
    """A rustc that has core for a machine, or its sources; or None."""
    every = compilers()
    return next((it for it in every if it.has(target)), next((it for it in every if it.sources), None))


class Build:
    """The crates that are built for a machine, in a folder."""

    def __init__(self, compiler, target, folder):
        self.compiler, self.target, self.folder, self.printed = compiler, target, folder, ""
        self.is_own = not compiler.has(target)
        self.kind = "metadata,link" if target == WASM else "metadata"
        os.makedirs(folder)

    def rustc(self, name, root, *words, is_std=False):
        """Compiles a crate, and says whether that ended well."""
        command = [self.compiler.path, "--crate-name", name, "--crate-type", "rlib", "--edition", "2024", root]
        command += ["--target", self.target, "-C", "panic=abort", f"--emit={self.kind}", "--out-dir", self.folder]
        command += ["--cap-lints", "allow", *words]
        variables = dict(os.environ)
        command += ["-C", f"opt-level={1 if is_std else 3}"]
        if is_std:
            command += ["-Z", "force-unstable-if-unmarked"]
            variables["RUSTC_BOOTSTRAP"] = "1"
        elif self.is_own:
            command += ["--sysroot", os.path.join(self.folder, "none")]
        if self.is_own:
            command += ["-L", self.folder]
        run = subprocess.run(command, env=variables, capture_output=True, encoding="utf-8", check=False)
        self.printed = run.stderr
        return run.returncode == 0

    def path_of(self, name):
        ending = "rlib" if self.target == WASM else "rmeta"
        return ["--extern", f"{name}={os.path.join(self.folder, f'lib{name}.{ending}')}"]

    def build_std(self):
        """Makes core and alloc of their sources."""
        library = self.compiler.sources
        features = ["--cfg", 'feature="compiler-builtins"', "--cfg", 'feature="unmangled-names"', "--cfg", 'feature="mem"']
        builtins = os.path.join(library, "compiler-builtins", "compiler-builtins", "src", "lib.rs")
        core, below = os.path.join(library, "core", "src", "lib.rs"), self.path_of("core")
        above = [*below, *self.path_of("compiler_builtins")]
        return (
            self.rustc("core", core, is_std=True)
            and self.rustc("compiler_builtins", builtins, *below, *features, is_std=True)
            and self.rustc("alloc", os.path.join(library, "alloc", "src", "lib.rs"), *above, is_std=True)
        )

    def build(self):
        """Compiles the package. What is wrong, or None."""
        if self.is_own and not self.build_std():
            return f"its core does not compile with {self.compiler.path}"
        if not self.rustc(NAME, os.path.join(REPOSITORY, FOLDER, "src", "lib.rs")):
            return "it does not compile"
        return None

    def link_wasm(self):
        """Links the module with the calls of wasm.rs. Its path, or None."""
        harness = os.path.join(OWN, "wasm.rs")
        if not self.rustc("wasm", harness, "--emit=obj", *self.path_of(NAME)):
            return None
        libraries = [os.path.join(self.folder, f"lib{name}.rlib") for name in (NAME, "alloc", "core", "compiler_builtins")]
        if not self.is_own:
            place = os.path.join(self.compiler.sysroot, "lib", "rustlib", self.target, "lib")
            names = sorted(
                name for name in os.listdir(place) if name.startswith(("liballoc-", "libcore-", "libcompiler_builtins-"))
            )
            libraries = [libraries[0], *(os.path.join(place, name) for name in names if name.endswith(".rlib"))]
        made = os.path.join(self.folder, "erased.wasm")
        command = ["wasm-ld", "--no-entry", "--export-all", "--gc-sections", "--allow-undefined"]
        command += [os.path.join(self.folder, "wasm.o"), *libraries, "-o", made]
        run = subprocess.run(command, capture_output=True, encoding="utf-8", check=False)
        self.printed = run.stderr
        return made if run.returncode == 0 else None

"""The files of a release, each a function of the sources, the archive and the programs, and of nothing else of the machine."""

import gzip
import hashlib
import io
import json
import os
import re
import shlex
import shutil
import stat
import subprocess
import tarfile
from dataclasses import dataclass
from pathlib import Path

from shared.gate import REPOSITORY
from shared.interface import read as read_interface
from shared.python_package import PYTHON

ROOT = Path(REPOSITORY)
MAINTAINERS = "Muxandu maintainers <maintainers@users.noreply.muxandu.example>"
LICENCE = "MIT OR Apache-2.0"

# The other machine, by the word of ./build-library and the folder with what it laid out.
OF_ARM = "aarch64"
SUMMARY = "dates and times whose every answer is proved"
DESCRIPTION = """\
 Date-times of the proleptic Gregorian calendar, the years -999999 to 999999,
 Unix time, texts of RFC 3339 and offsets from UTC, by calls that are proved
 to meet their contracts."""


@dataclass
class Release:
    """What a release is made of: its version and commit, the second of the commit, and what is proved and built."""

    version: str
    commit: str
    second: int
    built: Path
    work: Path
    out: Path

    def run(self, *words, folder=ROOT, **variables):
        """Runs a command that must end well, with the second of the commit in place of the clock's."""
        environment = {**os.environ, "LC_ALL": "C.UTF-8", "TZ": "UTC", "SOURCE_DATE_EPOCH": str(self.second), **variables}
        ended = subprocess.run(
            [str(word) for word in words],
            cwd=folder,
            env=environment,
            stdout=subprocess.PIPE,
            stderr=subprocess.STDOUT,
            check=False,
        )
        if ended.returncode != 0:
            raise Failed(f"{Path(words[0]).name} failed: {ended.stdout.decode(errors='replace')[-2000:]}")
        return ended.stdout

    def folder(self, name):
        """A folder of the release."""
        made = self.out / name
        made.mkdir(parents=True, exist_ok=True)
        return made

    def empty(self, name):
        """An empty folder to work in."""
        made = self.work / name
        made.mkdir(parents=True)
        return made


class Failed(Exception):
    """A release cannot be made, for this reason."""


@dataclass
class Machine:
    """A processor that the release is for: its names, its compiler, the library that it has and in which form, laid out in a folder."""

    name: str
    debian: str
    compiler: str
    archive: Path
    form: str
    dist: Path

    @property
    def words(self):
        """What ./build-library is told of it."""
        return ("--archive", self.archive, *(("--target", self.name) if self.name == OF_ARM else ()))

    @property
    def libraries(self):
        """Where Debian has its libraries."""
        return f"lib/{self.name}-linux-gnu"

    def variables(self):
        """How a package is compiled for it."""
        return {"MUXANDU_ARCHIVE": str(self.archive), "CC": self.compiler}


# The forms of the library in a file of the release.
PROVED_ARCHIVE, ONE_FILE, COMPILED, MODULE, ERASED, PROGRAM, SOURCES = (
    "the proved archive",
    "muxandu.c",
    "muxandu.c, compiled",
    "the module of WebAssembly, cut by wasm-opt and wasm-metadce",
    "the proved sources as plain Rust",
    "the proved program",
    "the sources",
)


def machines(release):
    """The machines of the release: this one, and 64-bit ARM where its library is built or its compiler is there."""
    found = [Machine("x86_64", "amd64", "cc", release.built / "libmuxandu_c.a", PROVED_ARCHIVE, release.work / "dist")]
    compiler, built = "aarch64-linux-gnu-gcc", release.built / OF_ARM / "lib" / "libmuxandu.a"
    if built.is_file():
        found.append(Machine(OF_ARM, "arm64", compiler, built, PROVED_ARCHIVE, release.work / "arm"))
    elif shutil.which(compiler):
        made = release.empty("compiled") / "libmuxandu.a"
        release.run(ROOT / "make" / "unproved_archive", made, CC=compiler)
        found.append(Machine(OF_ARM, "arm64", compiler, made, COMPILED, release.work / "arm"))
    for machine in found:
        release.run(ROOT / "build-library", *machine.words, machine.dist)
    return found


def compress(content):
    """A text or bytes, compressed, without the time and the name."""
    data = io.BytesIO()
    with gzip.GzipFile("", "wb", 9, data, mtime=0) as file:
        file.write(content)
    return data.getvalue()


def write_tar(release, path, files):
    """Writes a compressed tar of files, each a name and its path, owned by root and of the second of the commit."""
    data = io.BytesIO()
    with tarfile.open(fileobj=data, mode="w", format=tarfile.PAX_FORMAT) as archive:
        for name, source in sorted(files.items()):
            member = tarfile.TarInfo(name)
            member.mtime = release.second
            if source.is_symlink():
                member.type, member.linkname = tarfile.SYMTYPE, os.readlink(source)
                archive.addfile(member)
                continue
            content = source.read_bytes()
            member.size = len(content)
            member.mode = 0o755 if source.stat().st_mode & stat.S_IXUSR else 0o644
            archive.addfile(member, io.BytesIO(content))
    path.write_bytes(compress(data.getvalue()))


def files_below(folder, prefix):
    """All files below a folder, with their names in an archive."""
    return {f"{prefix}/{path.relative_to(folder)}": path for path in folder.rglob("*") if path.is_symlink() or not path.is_dir()}


def write_sources(release):
    """The sources of the commit."""
    name = f"muxandu-{release.version}"
    content = release.run("git", "archive", "--format=tar", f"--prefix={name}/", release.commit)
    (release.folder("source") / f"{name}-source.tar.gz").write_bytes(compress(content))


def write_rust(release):
    """The crate, and the crate named `time` with the same sources."""
    folder, target = release.folder("rust"), release.empty("rust")
    package = ROOT / "packages" / "rust"
    words = ("--offline", "--no-verify", "--allow-dirty", "--quiet")
    release.run("cargo", "package", *words, "--target-dir", target, folder=package)
    name = f"muxandu-{release.version}.crate"
    shutil.copyfile(target / "package" / name, folder / name)
    manifest = (package / "time" / "Cargo.toml").read_text(encoding="utf-8")
    changed = target / "Cargo.toml"
    changed.write_text(manifest.replace('path = "../src/lib.rs"', 'path = "src/lib.rs"'), encoding="utf-8")
    if changed.read_text(encoding="utf-8") == manifest:
        raise Failed("packages/rust/time/Cargo.toml names no path of its sources")
    kind = f"time-{value_of(manifest, 'version')}"
    files = files_below(package / "src", f"{kind}/src") | files_below(package / "time" / "tests", f"{kind}/tests")
    files |= {f"{kind}/Cargo.toml": changed} | {f"{kind}/{path.name}": path for path in ROOT.glob("LICENSE-*")}
    write_tar(release, folder / f"{kind}.crate", files)


def value_of(manifest, key):
    """The first value of a key in a file of TOML."""
    return next(line.split('"')[1] for line in manifest.splitlines() if line.startswith(f"{key} = "))


def write_python(release, machine_list):
    """A wheel for each machine, which has the library inside, and the archive of sources, which has it as one file of C."""
    folder, work = release.folder("python"), release.empty("python")
    sources = plain_copy(ROOT / "packages" / "python", work / "sources")
    release.run(ROOT / "make" / "python_calls", "build", sources)
    release.run(ROOT / "make" / "one_c_file", sources / "library")
    variables = {"MUXANDU_EXTENSION": "must", "PYTHONDONTWRITEBYTECODE": "1"}
    for machine in machine_list:
        if machine.name == OF_ARM and not shutil.which(machine.compiler):
            continue
        release.run(
            PYTHON,
            "setup.py",
            "-q",
            "bdist_wheel",
            "--dist-dir",
            folder,
            folder=sources,
            **{**variables, **machine.variables(), **headers_for(release, machine)},
        )
    release.run(PYTHON, "setup.py", "-q", "sdist", "--formats", "tar", "--dist-dir", work, folder=sources, **variables)
    name = f"muxandu-{release.version}"
    release.run("tar", "--extract", "--file", f"{name}.tar", folder=work)
    write_tar(release, folder / f"{name}.tar.gz", files_below(work / name, name))


def headers_for(release, machine):
    """What Python is told to build for another machine. Of its headers one is not there: pyconfig.h, whose sizes are those of this
    machine, since both have pointers of 64 bits and `long` as wide. The extension has the stable ABI, in which no struct depends
    on more."""
    if machine.name != OF_ARM:
        return {}
    words = "import sysconfig; print(sysconfig.get_config_h_filename(), sysconfig.get_path('include'))"
    config, include = map(Path, release.run(PYTHON, "-c", words).decode().split())
    place = release.empty("headers") / f"{machine.name}-linux-gnu" / include.name / "pyconfig.h"
    place.parent.mkdir(parents=True)
    own = include.parent / "x86_64-linux-gnu" / include.name / "pyconfig.h"
    shutil.copyfile(own if own.is_file() else config, place)
    flags = f"{shlex.quote(f'-I{place.parents[2]}')} {shlex.quote(f'-I{place.parent}')}"
    return {"CFLAGS": flags, "_PYTHON_HOST_PLATFORM": f"linux-{machine.name}"}


def plain_copy(source, target):
    """A copy of the files of the commit in a folder, which all may read."""
    for name in subprocess.run(["git", "ls-files"], cwd=source, capture_output=True, encoding="utf-8", check=True).stdout.split():
        path = target / name
        path.parent.mkdir(parents=True, exist_ok=True)
        shutil.copyfile(source / name, path)
        path.chmod(0o644)
    return target


def write_javascript(release):
    """The package for npm."""
    source = ROOT / "packages" / "javascript"
    package = json.loads((source / "package.json").read_text(encoding="utf-8"))
    paths = [path for form in ("package.json", *package["files"]) for path in source.glob(form)]
    files = {f"package/{path.name}": path for path in [*paths, *ROOT.glob("LICENSE-*")]}
    write_tar(release, release.folder("javascript") / f"muxandu-{release.version}.tgz", files)


def write_sqlite(release, machine):
    """The extension, whose name must be that of its entry point."""
    folder = release.folder("sqlite" if machine.name != OF_ARM else f"sqlite/{machine.name}")
    release.run(ROOT / "packages" / "sqlite" / "build", folder / "muxandu.so", **machine.variables())


def write_postgres(release, machine):
    """The extension for PostgreSQL, for the version whose headers are here. Those of another machine differ in its instructions alone,
    which the extension does not name."""
    said = release.run("pg_config", "--version", "--pgxs").decode().split()
    if not os.path.exists(said[-1]):
        return
    made, version = release.empty(f"postgres-{machine.name}"), said[1].partition(".")[0]
    shutil.copytree(ROOT / "packages" / "postgres", made, dirs_exist_ok=True, ignore=shutil.ignore_patterns("*.o", "*.so"))
    words = (f"MUXANDU={ROOT}", f"MUXANDU_ARCHIVE={machine.archive}", f"CC={machine.compiler}", "COPT=-g0")
    release.run("make", *words, folder=made)
    name = f"muxandu-{release.version}-postgresql-{version}-{machine.name}-linux"
    files = {f"{name}/lib/muxandu.so": made / "muxandu.so", f"{name}/extension/muxandu.control": made / "muxandu.control"}
    files |= {f"{name}/extension/{path.name}": path for path in made.glob("muxandu--*.sql")}
    files |= {f"{name}/{path.name}": path for path in ROOT.glob("LICENSE-*")}
    write_tar(release, release.folder("postgres") / f"{name}.tar.gz", files)


def write_library(release, machine):
    """The library for C, as ./build-library lays it out."""
    name = f"muxandu-{release.version}"
    write_tar(release, release.folder("c") / f"{name}-{machine.name}-linux.tar.gz", files_below(machine.dist, name))


def write_c_file(release):
    """The library as one file of C, with what CMake's add_subdirectory reads."""
    name, made = f"muxandu-{release.version}-c", release.work / "c"
    release.run(ROOT / "make" / "one_c_file", made)
    shutil.copy(ROOT / "packages" / "c" / "CMakeLists.txt", made)
    files = files_below(made, name) | {f"{name}/{path.name}": path for path in ROOT.glob("LICENSE-*")}
    write_tar(release, release.folder("c") / f"{name}.tar.gz", files)


def write_programs(release):
    """The two programs, which need no library of the machine where their objects are there. glibc is linked: the kit reads the words of a
    program as glibc gives them to it before main, which musl does not."""
    folder, kit = release.folder("programs"), Path(shutil.which("rattle") or "").resolve().parent.parent
    for name in ("stamps", "times_bench"):
        built = release.built / f"{name}.o"
        if built.is_file():
            kept = (built, kit / "c" / "libos_c.a", kit / "c" / "liblibc_c.a")
            release.run("cc", "-O2", "-static", "-o", folder / name, *kept)
        else:
            shutil.copyfile(release.built / name, folder / name)
        (folder / name).chmod(0o755)


def write_proofs(release):
    """The libraries as they are proved, for callers in Rattle, where they were built: make/proofs takes them."""
    for path in release.built.glob("muxandu-proofs-*.tar.zst"):
        shutil.copyfile(path, release.folder("proofs") / path.name)
        (release.folder("proofs") / path.name).chmod(0o644)


def write_page(release):
    """The page on which one can try the library."""
    shutil.copyfile(ROOT / "docs" / "try.html", release.folder("page") / "try.html")


class Package:
    """A Debian package: its name, its fields, and a folder with its files."""

    def __init__(self, release, machine, name, section, depends, about, others):
        self.release, self.machine, self.name = release, machine, name
        self.root = release.empty(f"debian/{machine.debian}/{name}")
        self.fields = {
            "Package": name,
            "Version": f"{release.version}-1",
            "Architecture": machine.debian,
            "Section": section,
            "Priority": "optional",
            "Maintainer": MAINTAINERS,
            "Depends": depends,
            "Description": f"{SUMMARY} - {about}\n{DESCRIPTION}",
        }
        self.others = others

    def add_file(self, name, content, mode=0o644):
        """Writes a file of the package."""
        path = self.root / name
        path.parent.mkdir(parents=True, exist_ok=True)
        path.write_bytes(content)
        path.chmod(mode)

    def copy(self, name, source):
        """Copies a file, or a link, into the package."""
        path = self.root / name
        path.parent.mkdir(parents=True, exist_ok=True)
        if source.is_symlink():
            path.symlink_to(os.readlink(source))
        else:
            self.add_file(name, source.read_bytes(), 0o755 if source.stat().st_mode & stat.S_IXUSR else 0o644)

    def build(self):
        """Writes the package."""
        share = f"usr/share/doc/{self.name}"
        self.add_file(f"{share}/copyright", copyright_text(self.name == TOOLS).encode())
        self.add_file(f"{share}/changelog.Debian.gz", compress(changelog(self.release).encode()))
        files = {name: path for name, path in files_below(self.root, "").items() if not path.is_symlink()}
        sums = "".join(f"{hashlib.md5(path.read_bytes()).hexdigest()}  {name[1:]}\n" for name, path in sorted(files.items()))
        self.fields["Installed-Size"] = str(sum(path.stat().st_size for path in files.values()) // 1024 + 1)
        control = "".join(f"{field}: {text}\n" for field, text in self.fields.items())
        for name, text in {"control": control, "md5sums": sums, **self.others}.items():
            self.add_file(f"DEBIAN/{name}", text.encode())
        for path in [self.root, *self.root.rglob("*")]:
            if path.is_dir():
                path.chmod(0o755)
        target = self.release.folder("debian") / f"{self.name}_{self.release.version}-1_{self.machine.debian}.deb"
        self.release.run("dpkg-deb", "--root-owner-group", "--threads-max=1", "-Zxz", "--build", self.root, target)


def copyright_text(is_program):
    """The licences as Debian has them, and for a program what else is linked into it."""
    mit = (ROOT / "LICENSE-MIT").read_text(encoding="utf-8").strip().splitlines()
    kit = [
        "",
        "Files: usr/bin/*",
        "Copyright: The Muxandu authors and Jacob Pratt et al.; the authors of the kit of Rattle",
        "License: MIT or Apache-2.0",
        "Comment: The library of the kit of Rattle is linked in. The kit's files name no licence.",
    ]
    return "\n".join(
        [
            "Format: https://www.debian.org/doc/packaging-manuals/copyright-format/1.0/",
            "Upstream-Name: muxandu",
            "",
            "Files: *",
            "Copyright: The Muxandu authors and Jacob Pratt et al.",
            "License: MIT or Apache-2.0",
            *(kit if is_program else []),
            "",
            "License: MIT or Apache-2.0",
            " On Debian systems, the Apache License 2.0 is in /usr/share/common-licenses/Apache-2.0.",
            " The other licence is:",
            " .",
            *(f" {line}".rstrip() if line.strip() else " ." for line in mit),
            "",
        ]
    )


def changelog(release):
    """The changes as Debian has them."""
    date = release.run("date", "--utc", "--rfc-email", f"--date=@{release.second}").decode().strip()
    return (
        f"muxandu ({release.version}-1) unstable; urgency=medium\n\n  * Release {release.version}.\n\n -- {MAINTAINERS}  {date}\n"
    )


def least_libc(path):
    """The version of the C library that a file asks for."""
    printed = subprocess.run(
        ["readelf", "--version-info", "--wide", path], capture_output=True, encoding="utf-8", check=True
    ).stdout
    asked = [tuple(map(int, word[6:].split("."))) for word in printed.split() if word.startswith("GLIBC_2")]
    return ".".join(map(str, max(asked, default=(2, 17))))


# The package of Debian with the programs.
TOOLS = "muxandu-tools"


def write_debian(release, machine):
    """The packages of Debian: the shared library, and the files to compile with."""
    staged = release.empty(f"debian/{machine.debian}/staged")
    words = ("--libdir", machine.libraries, "--destdir", staged, "/usr")
    release.run(ROOT / "build-library", *machine.words, *words)
    major, shared = release.version.split(".")[0], staged / "usr" / machine.libraries / f"libmuxandu.so.{release.version}"
    runs, compiles = f"libmuxandu{major}", "libmuxandu-dev"
    calls = sorted(read_interface()["calls"])
    symbols = [f"libmuxandu.so.{major} {runs} #MINVER#", f" MUXANDU_{major}@MUXANDU_{major} {release.version}"]
    symbols += [f" {call}@MUXANDU_{major} {release.version}" for call in calls]
    library = Package(
        release,
        machine,
        runs,
        "libs",
        f"libc6 (>= {least_libc(shared)})",
        "shared library",
        {
            "shlibs": f"libmuxandu {major} {runs} (>= {release.version})\n",
            "symbols": "\n".join(symbols) + "\n",
            "triggers": "activate-noawait ldconfig\n",
        },
    )
    library.fields["Multi-Arch"] = "same"
    develop = Package(release, machine, compiles, "libdevel", f"{runs} (= {release.version}-1)", "development files", {})
    for name, path in files_below(staged, "").items():
        inside = name[1:]
        if "libmuxandu.so." in path.name:
            library.copy(inside, path)
            if not path.is_symlink():
                release.run(
                    machine.compiler.replace("gcc", "strip") if machine.name == OF_ARM else "strip",
                    "--strip-unneeded",
                    library.root / inside,
                )
                (library.root / inside).chmod(0o644)
        elif "/share/man/" in name and not path.is_symlink():
            develop.add_file(f"{inside}.gz", compress(path.read_bytes()))
        elif "/share/" not in name:
            develop.copy(inside, path)
    for package in (library, develop):
        package.build()


def write_debian_tools(release, machine):
    """The package of Debian with the programs, for this machine."""
    tools = Package(
        release, machine, TOOLS, "utils", f"libc6 (>= {least_libc(release.built / 'stamps')})", "programs for logs", {}
    )
    tools.copy("usr/bin/stamps", release.built / "stamps")
    release.run("strip", tools.root / "usr/bin/stamps")
    share = ROOT / "crates" / "stamps" / "share"
    tools.add_file("usr/share/man/man1/stamps.1.gz", compress((share / "stamps.1").read_bytes()))
    tools.add_file("usr/share/bash-completion/completions/stamps", (share / "stamps.bash").read_bytes())
    tools.add_file("usr/share/zsh/vendor-completions/_stamps", (share / "_stamps").read_bytes())
    tools.add_file("usr/share/fish/vendor_completions.d/stamps.fish", (share / "stamps.fish").read_bytes())
    tools.build()


def hash_of(path):
    """The SHA-256 of a file."""
    return hashlib.sha256(path.read_bytes()).hexdigest()


def artefacts(release):
    """The files of the release but those that name the others, with their names."""
    return {
        name.removeprefix("/"): path
        for name, path in sorted(files_below(release.out, "").items())
        if name.count("/") > 1 or name == "/muxandu.spdx.json"
    }


def form_of(name, machine_list):
    """The form of the library that a file of the release has."""
    kind = name.partition("/")[0]
    if kind == "programs" or Path(name).name.startswith(TOOLS):
        return PROGRAM
    if name.endswith("-c.tar.gz") or (kind == "python" and name.endswith(".tar.gz")):
        return ONE_FILE
    if kind in ("c", "python", "sqlite", "postgres", "debian"):
        own = machine_list[0]
        return next(
            (one.form for one in machine_list[1:] if re.search(rf"\b({one.name}|{one.debian})\b", name.replace("_", " "))),
            own.form,
        )
    return {"rust": ERASED, "javascript": MODULE, "page": MODULE}.get(kind, SOURCES)


def write_proof(release, toolchain, machine_list):
    """CHECKSUMS: the commit, the kit that proved it, the checksum of each source and each file of the release, and its form."""
    listed = release.run("git", "ls-tree", "-r", "-z", "--name-only", release.commit, "crates", "crates.txt").decode()
    sources = [ROOT / name for name in listed.split("\0") if name]
    files = artefacts(release)
    lines = [f"version {release.version}", f"commit {release.commit}", f"rt {toolchain}", ""]
    lines += ["Sources:"] + [f"{hash_of(path)}  {path.relative_to(ROOT)}" for path in sources]
    lines += ["", "Files:"] + [f"{hash_of(path)}  {name}" for name, path in files.items()]
    lines += ["", "Forms of the library:"]
    lines += [f"{name}: {form_of(name, machine_list)}" for name in files if "/" in name]
    (release.out / "CHECKSUMS").write_text("\n".join(lines) + "\n", encoding="utf-8")


def write_sums(release):
    """SHA256SUMS, which `sha256sum --check` reads."""
    names = {**artefacts(release), "CHECKSUMS": release.out / "CHECKSUMS"}
    text = "".join(f"{hash_of(path)}  {name}\n" for name, path in names.items())
    (release.out / "SHA256SUMS").write_text(text, encoding="utf-8")


# What is linked into files of the release, and the tools that made them: the licence of each, and how a tool says its version.
KIT_LICENCE = "LicenseRef-Rattle-Kit"
KIT_TEXT = "The files of the kit of Rattle name no licence for the library that it compiles into programs, archives and modules."
GLIBC_LICENCE = "LGPL-2.1-or-later"
TOOLS_OF_RELEASE = {
    "gcc": ("GPL-3.0-or-later WITH GCC-exception-3.1", ("cc", "--version")),
    "gcc-aarch64": ("GPL-3.0-or-later WITH GCC-exception-3.1", ("aarch64-linux-gnu-gcc", "--version")),
    "binutils": ("GPL-3.0-or-later", ("ld", "--version")),
    "binaryen": ("Apache-2.0", ("wasm-opt", "--version")),
    "cargo": (LICENCE, ("cargo", "--version")),
    "python": ("PSF-2.0", (PYTHON, "--version")),
    "setuptools": ("MIT", (PYTHON, "-c", "import setuptools; print(setuptools.__version__)")),
    "wheel": ("MIT", (PYTHON, "-c", "import wheel; print(wheel.__version__)")),
    "dpkg": ("GPL-2.0-or-later", ("dpkg-deb", "--version")),
    "postgresql": ("PostgreSQL", ("pg_config", "--version")),
    "zstd": ("BSD-3-Clause", ("zstd", "--version")),
}


def version_said(words):
    """The version in the first line that a tool prints, or None where it is not there."""
    if shutil.which(str(words[0])) is None:
        return None
    said = subprocess.run([str(word) for word in words], capture_output=True, encoding="utf-8", check=False)
    if said.returncode != 0:
        return None
    first = said.stdout.partition("\n")[0]
    found = re.search(r"\d+(?:\.\d+)+[\w+~-]*", first) or re.search(r"\d+", first)
    return found and found[0]


def clang_of_kit():
    """The compiler of the kit, which made the archive, the programs and the module."""
    return Path(shutil.which("rattle") or "").resolve().parent.parent / "toolchain" / "bin" / "clang"


def packages_of_bill(release, toolchain):
    """The packages of the bill, each with its licence and how the release is related to it."""
    found = [("Package", "muxandu", release.version, LICENCE, None), ("Kit", "rattle", toolchain, KIT_LICENCE, "STATIC_LINK")]
    if any(release.built.glob("*.o")):
        found.append(("Linked-glibc", "glibc", version_said(("ldd", "--version")), GLIBC_LICENCE, "STATIC_LINK"))
    tools = {"llvm": ("Apache-2.0 WITH LLVM-exception", (clang_of_kit(), "--version")), **TOOLS_OF_RELEASE}
    for name, (licence, words) in tools.items():
        said = version_said(words)
        if said:
            found.append((f"Tool-{name}", name, said, licence, "BUILD_TOOL_OF"))
    return found


def licence_of(name, release):
    """The licence of a file of the release, with that of what is compiled or linked into it."""
    kind = name.partition("/")[0]
    if kind in ("source", "rust", "proofs") or "/" not in name:
        return LICENCE
    linked = f"({LICENCE}) AND {KIT_LICENCE}"
    if kind == "programs" and any(release.built.glob("*.o")):
        linked += f" AND {GLIBC_LICENCE}"
    return linked


def write_bill(release, toolchain):
    """The bill of materials in the form of SPDX 2.3: the files of the release, what is linked into them, and the tools."""
    created = release.run("date", "--utc", "+%Y-%m-%dT%H:%M:%SZ", f"--date=@{release.second}").decode().strip()
    files = [
        {
            "SPDXID": f"SPDXRef-File-{number}",
            "fileName": f"./{name}",
            "checksums": [
                {"algorithm": "SHA1", "checksumValue": hashlib.sha1(path.read_bytes()).hexdigest()},
                {"algorithm": "SHA256", "checksumValue": hash_of(path)},
            ],
            "licenseConcluded": licence_of(name, release),
            "copyrightText": "NOASSERTION",
        }
        for number, (name, path) in enumerate(artefacts(release).items())
    ]
    packages, relations = [], [("SPDXRef-DOCUMENT", "DESCRIBES", "SPDXRef-Package")]
    for ident, name, version, licence, kind in packages_of_bill(release, toolchain):
        packages.append({"SPDXID": f"SPDXRef-{ident}", "name": name, "versionInfo": version, "licenseDeclared": licence})
        packages[-1] |= {"downloadLocation": "NOASSERTION", "licenseConcluded": licence, "copyrightText": "NOASSERTION"}
        if kind == "BUILD_TOOL_OF":
            relations.append((f"SPDXRef-{ident}", kind, "SPDXRef-Package"))
        elif kind:
            relations.append(("SPDXRef-Package", kind, f"SPDXRef-{ident}"))
            packages[-1]["filesAnalyzed"] = False
        elif files:
            code = "".join(sorted(file["checksums"][0]["checksumValue"] for file in files))
            packages[-1]["packageVerificationCode"] = {"packageVerificationCodeValue": hashlib.sha1(code.encode()).hexdigest()}
            packages[-1]["licenseInfoFromFiles"] = ["NOASSERTION"]
        if kind == "BUILD_TOOL_OF":
            packages[-1]["filesAnalyzed"] = False
    relations += [("SPDXRef-Package", "CONTAINS", file["SPDXID"]) for file in files]
    bill = {
        "spdxVersion": "SPDX-2.3",
        "dataLicense": "CC0-1.0",
        "SPDXID": "SPDXRef-DOCUMENT",
        "name": f"muxandu-{release.version}",
        "documentNamespace": f"https://muxandu.example/spdx/{release.version}-{release.commit}",
        "creationInfo": {"created": created, "creators": ["Organization: Muxandu maintainers"]},
        "hasExtractedLicensingInfos": [{"licenseId": KIT_LICENCE, "extractedText": KIT_TEXT}],
        "packages": packages,
        "files": files,
        "relationships": [
            {"spdxElementId": one, "relationshipType": kind, "relatedSpdxElement": other} for one, kind, other in relations
        ],
    }
    (release.out / "muxandu.spdx.json").write_text(json.dumps(bill, indent=1) + "\n", encoding="utf-8")


def write_all(release, toolchain):
    """Writes each file of the release."""
    machine_list = machines(release)
    write_sources(release)
    write_rust(release)
    write_python(release, machine_list)
    write_javascript(release)
    for machine in machine_list:
        write_library(release, machine)
        if machine.name == OF_ARM and not shutil.which(machine.compiler):
            continue
        write_sqlite(release, machine)
        if shutil.which("pg_config") is not None:
            write_postgres(release, machine)
        if shutil.which("dpkg-deb"):
            write_debian(release, machine)
    if shutil.which("dpkg-deb"):
        write_debian_tools(release, machine_list[0])
    write_c_file(release)
    write_programs(release)
    write_proofs(release)
    write_page(release)
    write_bill(release, toolchain)
    write_proof(release, toolchain, machine_list)
    write_sums(release)

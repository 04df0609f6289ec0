"""Programs over crates that Debian has installed, for the tools that measure beside them: cargo builds them offline."""

import os
import shutil
import subprocess
import sys

from shared.gate import write_text

# Where Debian puts the sources of crates.
REGISTRY = "/usr/share/cargo/registry"

SOURCE = f"""\
[source.crates-io]
replace-with = "debian"

[source.debian]
directory = "{REGISTRY}"
"""


def installed_versions(names):
    """Those of the crates that Debian has installed, and their versions. Each is told of, and how to install one that is not
    there."""
    folders = os.listdir(REGISTRY) if os.path.isdir(REGISTRY) else []
    versions = {name: version for name, _, version in (folder.rpartition("-") for folder in sorted(folders))}
    found = {name: versions[name] for name in names if name in versions}
    for name in names:
        missing = f"{name}: not installed, and left out (apt-get install librust-{name}-dev)"
        print(f"{name} {found[name]}" if name in found else missing, flush=True)
    return found


def lacking(names):
    """Which of the crates Debian has not installed, as a sentence, or None."""
    folders = os.listdir(REGISTRY) if os.path.isdir(REGISTRY) else []
    absent = sorted(set(names) - {folder.rpartition("-")[0] for folder in folders})
    packages = ", ".join(f"librust-{name.replace('_', '-')}-dev" for name in absent)
    return f"Debian's {packages} is not installed" if absent else None


def build(folder, manifest, features, is_over_crates=True):
    """Has cargo build a release of the package in the folder, over Debian's crates if it is over any. The folder of its
    programs."""
    write_text(os.path.join(folder, "Cargo.toml"), manifest)
    if is_over_crates:
        write_text(os.path.join(folder, ".cargo", "config.toml"), SOURCE)
    command = ["cargo", "build", "--release", "--offline", "--quiet", "--features", ",".join(features)]
    if shutil.which("cargo") is None or subprocess.run(command, cwd=folder, check=False).returncode != 0:
        sys.exit("cargo does not build the program")
    return os.path.join(folder, "target", "release")

"""The version of the library, which one file has: the constant of crates/muxandu_c/src/version.rt, that the library answers."""

import os
import re

from shared.gate import REPOSITORY, read_text

SOURCE = os.path.join("crates", "muxandu_c", "src", "version.rt")
CONSTANT = re.compile(r"^pub const MUXANDU_VERSION: u32 = ([\d_]+);$", re.MULTILINE)


def version_text(number):
    """The text of a version, of its number: 0.1.0 of 100."""
    return f"{number // 10_000}.{number // 100 % 100}.{number % 100}"


def version():
    """The text of the version."""
    [number] = CONSTANT.findall(read_text(os.path.join(REPOSITORY, SOURCE)))
    return version_text(int(number))

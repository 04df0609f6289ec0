"""The Python package with its extension, in a folder that programs have on PYTHONPATH."""

import os
import sys

from shared.gate import REPOSITORY, run

# Debian's Python, which has setuptools and the headers.
PYTHON = "/usr/bin/python3" if os.path.exists("/usr/bin/python3") else sys.executable


def build_package(dist, folder, root=REPOSITORY):
    """Builds the package over the archive of a library that is laid out. Returns None, or what the build printed if it failed."""
    archive = os.path.join(os.path.abspath(dist), "lib", "libmuxandu.a")
    variables = {"MUXANDU_ARCHIVE": archive, "MUXANDU_EXTENSION": "must", "PYTHONDONTWRITEBYTECODE": "1"}
    words = [PYTHON, "setup.py", "--quiet", "build", "--build-lib", os.path.abspath(folder)]
    ended = run(words, os.path.join(root, "packages", "python"), **variables)
    return None if ended.returncode == 0 else ended.stdout

"""Where the steps of the gate that stand on the library for C find it.

There are two archives. The proved one is there once the crates are proved. The other is of the module of WebAssembly in packages/c,
and is there in half a minute: the tests of a package see the same by it. So a step takes it, unless it judges the archive itself.
"""

import contextlib
import os
import subprocess
import sys
import time

from shared.gate import (
    ARCHIVE, ARCHIVE_CHOICE, MAKE, NO_UNPROVED_ARCHIVE, PROVED_ALWAYS, REPOSITORY, SHARED_FOLDER, UNPROVED_ALWAYS,
    UNPROVED_ARCHIVE, copy_repository, own_folder, read_text, run, wait_for, write_text,
)  # fmt: skip


def is_unproved_run():
    """Whether this step belongs to a run in which nothing is proved."""
    return os.environ.get(ARCHIVE_CHOICE) == UNPROVED_ALWAYS


@contextlib.contextmanager
def archive_of(path, is_proved=False):
    """The archive of the library: the one at the path, that of the gate, or one that is made here. It is the proved one if the caller
    asks for that, and in a run with proofs then gets it."""
    shared = os.environ.get(SHARED_FOLDER)
    is_proved = not is_unproved_run() and (is_proved or os.environ.get(ARCHIVE_CHOICE) == PROVED_ALWAYS)
    if path is not None:
        yield os.path.abspath(path)
    elif shared:
        yield archive_of_gate(shared, is_proved)
    else:
        with own_folder() as folder:
            yield (None if is_proved else make_unproved(folder)) or make_proved(folder)


def archive_of_gate(shared, is_proved):
    """The path of the archive in the folder that the steps share, once it is there."""
    names = [os.path.join(shared, name) for name in (UNPROVED_ARCHIVE, NO_UNPROVED_ARCHIVE)]
    while not is_proved and not any(map(os.path.exists, names)):
        time.sleep(1)
    if not is_proved and os.path.exists(names[0]):
        return names[0]
    if not is_proved:
        print(f"this step waits for the proved archive: {read_text(names[1]).strip()}", flush=True)
    wait_for(shared, ARCHIVE)
    return os.path.join(shared, ARCHIVE)


def make_unproved(folder):
    """Makes the archive that nothing proves in a folder, and says of what. Its path, or None where it is not made."""
    archive = os.path.join(folder, UNPROVED_ARCHIVE)
    ended = run([os.path.join(MAKE, "unproved_archive"), archive])
    if ended.returncode != 0:
        write_text(os.path.join(folder, NO_UNPROVED_ARCHIVE), ended.stdout)
        print(f"no archive is made without proofs: {ended.stdout.strip()}", flush=True)
        return None
    print(f"the archive is of packages/c/muxandu.wasm, and not proved; {ended.stdout.strip()}", flush=True)
    return archive


def make_proved(folder):
    """Proves and builds the archive in a copy of the repository in a folder. Its path."""
    copy = copy_repository(folder)
    if subprocess.run([os.path.join(copy, "build-library")], stdin=subprocess.DEVNULL, check=False).returncode != 0:
        sys.exit("the library is not proved and built")
    return os.path.join(copy, "dist", "lib", "libmuxandu.a")


def proved_root(archive):
    """Where the crates are proved of which an archive is: the copy of the gate, the copy that it lies in, or this repository."""
    shared, copy = os.environ.get(SHARED_FOLDER), os.path.dirname(os.path.dirname(os.path.dirname(archive)))
    if shared:
        return os.path.join(shared, "copy")
    return copy if os.path.exists(os.path.join(copy, "crates.txt")) else REPOSITORY


def add_words(parser):
    """Gives a parser of words those that name a library."""
    parser.add_argument("--archive", metavar="PATH", help="the archive of the library, which is else made")
    parser.add_argument("--dist", metavar="FOLDER", help="the library as ./build-library lays it out")


def library_of(words, folder):
    """The path of the library as ./build-library lays it out: that of the words, or one in the folder."""
    if words.dist:
        return os.path.abspath(words.dist)
    dist = os.path.join(folder, "dist")
    with archive_of(words.archive) as archive:
        lay_out(archive, dist)
    return dist


def lay_out(archive, folder):
    """Lays out that archive in a folder, as ./build-library does in dist/."""
    command = [os.path.join(REPOSITORY, "build-library"), "--archive", archive, folder]
    if subprocess.run(command, check=False).returncode != 0:
        sys.exit("the library is not laid out")

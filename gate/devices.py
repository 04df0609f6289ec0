"""Runs a program over devices that hand over their bytes in parts, or that fail after so many bytes."""

import array
import contextlib
import fcntl
import os
import resource
import socket
import subprocess
import tempfile
import termios
import threading
import time
from collections import namedtuple

# How many seconds a program may take that takes one on a machine with nothing else to do.
SECONDS = 600

# What a program wrote to standard output and to standard error, and its exit status.
Ended = namedtuple("Ended", "written told status")


def run_over(program, source, feed=None, room=None):
    """Runs the program, a path or a path and its words, with this standard input, and with standard output to a file that has
    room for so many bytes.

    `feed` is called once the program runs. A write past the room of the file fails; where it has none, no write does.
    """

    def limit():
        resource.setrlimit(resource.RLIMIT_FSIZE, (room, room))

    command = [program] if isinstance(program, str) else program
    # A start with nothing to do before it copies no memory of this process.
    before = None if room is None else limit
    with tempfile.TemporaryFile() as sink:
        # The signal of a write past the limit stays ignored, as Python has it, so the write itself fails.
        with subprocess.Popen(
            command, stdin=source, stdout=sink, stderr=subprocess.PIPE, preexec_fn=before, restore_signals=False
        ) as running:
            try:
                if feed is not None:
                    feed()
                _, told = running.communicate(timeout=SECONDS)
            except (subprocess.TimeoutExpired, OSError):
                running.kill()
                raise
        sink.seek(0)
        return Ended(sink.read(), told, running.returncode)


def run_on(program, data, room=None):
    """Runs the program on a file of these bytes."""
    with tempfile.TemporaryFile() as source:
        source.write(data)
        source.seek(0)
        return run_over(program, source, room=room)


def run_on_parts(program, data, size):
    """Runs the program on input of which each read gives a part of so many bytes."""
    ours, theirs = socket.socketpair(socket.AF_UNIX, socket.SOCK_SEQPACKET)

    def feed():
        theirs.close()
        ours.settimeout(SECONDS)
        with ours:
            for start in range(0, len(data), size):
                ours.send(data[start : start + size])

    with theirs:
        return run_over(program, theirs, feed)


def run_on_broken(program, data):
    """Runs the program on input of which a read fails once these bytes are read."""
    ours, theirs = socket.socketpair(socket.AF_UNIX, socket.SOCK_STREAM)
    # Where one end closes with a byte that it never read, the other end reads what was sent to it, and then a read fails.
    theirs.send(b"unread")

    def feed():
        theirs.close()
        ours.settimeout(SECONDS)
        with ours:
            ours.sendall(data)

    with theirs:
        return run_over(program, theirs, feed)


def parts_of(data, size):
    """The parts of so many bytes each."""
    return [data[start : start + size] for start in range(0, len(data), size)]


def make_input(path, text):
    """Writes a file, or makes a pipe if its text comes in parts."""
    if isinstance(text, list):
        os.mkfifo(path)
    else:
        with open(path, "wb") as file:
            file.write(text)


def unread(pipe):
    """How many bytes nothing has read yet."""
    count = array.array("i", [0])
    fcntl.ioctl(pipe, termios.FIONREAD, count)
    return count[0]


def feed_pipe(path, parts, is_over):
    """Hands over the parts to a program that opens the pipe, one for each read of it, until the program is over."""
    while not is_over.is_set():
        with contextlib.suppress(OSError):
            pipe = os.open(path, os.O_WRONLY | os.O_NONBLOCK)
            break
        time.sleep(0.01)
    else:
        return
    os.set_blocking(pipe, True)
    with contextlib.suppress(BrokenPipeError), open(pipe, "wb", buffering=0) as file:
        for part in parts:
            file.write(part)
            while unread(file) and not is_over.is_set():
                time.sleep(0.001)


@contextlib.contextmanager
def feed_pipes(folder, names, files):
    """Feeds the pipes of these names among the files while a program runs."""
    is_over, feeders = threading.Event(), []
    for name in names:
        if isinstance(files.get(name), list):
            feeders.append(threading.Thread(target=feed_pipe, args=(os.path.join(folder, name), files[name], is_over)))
            feeders[-1].start()
    try:
        yield
    finally:
        is_over.set()
        for feeder in feeders:
            feeder.join()

"""A server of PostgreSQL in a folder of its own, with the extension, and a connection that sends bytes as they are.

The programs of PostgreSQL find their files by the place that they are called from. So a copy of them beside links to all other
files takes the extension without a change of the installed PostgreSQL, and for a user who is not root.
"""

import contextlib
import os
import pathlib
import pwd
import re
import shutil
import signal
import socket
import struct
import subprocess
import tempfile
import time

from shared import gate
from shared.gate import REPOSITORY, read_text

# The sources of the extension.
SOURCE = os.path.join(REPOSITORY, "packages", "postgres")

# How the servers are started: no address but a socket in their folder, and nothing that must outlive the machine.
SETTINGS = {"listen_addresses": "", "fsync": "off", "max_connections": "20", "shared_buffers": "64MB", "jit": "off"}

PROGRAMS = ("initdb", "pg_ctl", "pg_dump", "pg_upgrade", "postgres", "psql", "pg_controldata", "pg_resetwal", "pg_dumpall")
MORE_PROGRAMS = ("pg_restore", "vacuumdb")

# The most seconds that a command takes, and the longest path of a folder, so that a socket below it has a path.
LONGEST, LONGEST_PATH = 1_800, 60


def pg_config():
    """The places of the installed PostgreSQL, by their names, or none where it has no server or no headers."""
    if shutil.which("pg_config") is None:
        return {}
    printed = subprocess.run(["pg_config"], stdout=subprocess.PIPE, encoding="utf-8", check=False).stdout
    places = dict(re.findall(r"^(\w+(?:-\w+)*) = (.*)$", printed, re.MULTILINE))
    needed = (("BINDIR", "postgres"), ("BINDIR", "initdb"), ("INCLUDEDIR-SERVER", "postgres.h"), ("PGXS", ""))
    is_whole = all(os.path.exists(os.path.join(places.get(place, "/nowhere"), name).rstrip("/")) for place, name in needed)
    return places if is_whole else {}


def leave_root():
    """The words before a command that is not to run as root: PostgreSQL refuses root."""
    if os.geteuid() != 0:
        return []
    user = pwd.getpwnam("nobody")
    return ["setpriv", f"--reuid={user.pw_uid}", f"--regid={user.pw_gid}", "--clear-groups"]


def public_folder():
    """The folder for temporary files; or /tmp, where the user of the servers cannot reach it or the path of a socket is too long."""
    path = os.path.realpath(tempfile.gettempdir())
    is_open = os.geteuid() != 0 or all(os.stat(each).st_mode & 0o001 for each in (path, *pathlib.Path(path).parents))
    return path if is_open and len(path) < LONGEST_PATH else "/tmp"


def give_away(folder):
    """Gives a folder to the user of the servers."""
    if os.geteuid() == 0:
        user = pwd.getpwnam("nobody")
        os.chown(folder, user.pw_uid, user.pw_gid)


def run(words, folder=None, text=None, **variables):
    """Runs a command on a text, for at most LONGEST, and gives the ended process with all that it printed, in one text."""
    return gate.run(words, folder, text, timeout=LONGEST, **variables)


def link_all(source, copy, but=()):
    """Makes a folder of links to all that another has, but some names."""
    os.makedirs(copy, exist_ok=True)
    for name in os.listdir(source):
        if name not in but:
            os.symlink(os.path.join(source, name), os.path.join(copy, name))


def copy_postgres(places, root):
    """Makes a PostgreSQL in a folder, of copies of its programs and of links. Returns the folder of its programs."""
    inside = {name: root + os.path.realpath(places[name]) for name in ("BINDIR", "PKGLIBDIR", "SHAREDIR")}
    os.makedirs(inside["BINDIR"])
    for name in (*PROGRAMS, *MORE_PROGRAMS):
        shutil.copy2(os.path.join(places["BINDIR"], name), inside["BINDIR"])
    link_all(places["PKGLIBDIR"], inside["PKGLIBDIR"], ("muxandu.so",))
    link_all(places["SHAREDIR"], inside["SHAREDIR"], ("extension",))
    extensions = os.path.join(places["SHAREDIR"], "extension")
    own = [name for name in os.listdir(extensions) if name.startswith("muxandu")]
    link_all(extensions, os.path.join(inside["SHAREDIR"], "extension"), own)
    return inside["BINDIR"]


class Server:
    """A server over a folder: its data, its socket and its log."""

    def __init__(self, programs, folder, port=5432):
        self.programs, self.folder, self.port = programs, folder, port
        self.data = os.path.join(folder, "data")
        os.makedirs(folder)
        give_away(folder)

    def command(self, name, *words):
        return [*leave_root(), os.path.join(self.programs, name), *words]

    def run(self, name, *words, text=""):
        """Runs a program of PostgreSQL, as the user of the server and in its folder."""
        return run(self.command(name, *words), self.folder, text, **self.variables())

    def variables(self):
        return {
            "PGHOST": self.folder,
            "PGPORT": str(self.port),
            "PGUSER": "postgres",
            "PGDATABASE": "postgres",
            "PGTZ": "UTC",
            "PGCTLTIMEOUT": str(LONGEST),
            "HOME": self.folder,
            "PSQLRC": os.devnull,
        }

    def create(self):
        ended = self.run("initdb", "-D", self.data, "-A", "trust", "-U", "postgres", "--locale", "C.UTF-8", "--no-sync")
        if ended.returncode != 0:
            raise RuntimeError(ended.stdout)
        return self

    def start(self, **settings):
        """Starts the server, and waits until it answers."""
        words = [f"-c {name}='{value}'" for name, value in {**SETTINGS, **settings}.items()]
        options = " ".join([f"-k '{self.folder}' -p {self.port}", *words])
        ended = self.run("pg_ctl", "-w", "-D", self.data, "-l", os.path.join(self.folder, "log"), "-o", options, "start")
        if ended.returncode != 0:
            raise RuntimeError(ended.stdout + read_text(os.path.join(self.folder, "log")))
        return self

    def is_running(self):
        return os.path.exists(os.path.join(self.data, "postmaster.pid"))

    def process(self):
        """The number of the process of the server."""
        with open(os.path.join(self.data, "postmaster.pid"), encoding="utf-8") as file:
            return int(file.readline())

    def stop(self):
        """Ends the server by the number of its process, and waits for it."""
        if self.is_running():
            number = self.process()
            with contextlib.suppress(ProcessLookupError):
                os.kill(number, signal.SIGINT)
            wait_for_end(number)

    def kill(self):
        """Ends the server and each of its processes at once, as a loss of power does."""
        number = self.process()
        # a process that is stopped starts no other
        os.kill(number, signal.SIGSTOP)
        ended = (number, *children(number))
        for each in ended:
            with contextlib.suppress(ProcessLookupError):
                os.kill(each, signal.SIGKILL)
        # the next server does not start while one of them has the memory that they share
        for each in ended:
            wait_for_end(each)
        # a process that nobody waits for keeps its number, which the next server would take for one that runs
        os.remove(os.path.join(self.data, "postmaster.pid"))
        os.remove(os.path.join(self.folder, f".s.PGSQL.{self.port}.lock"))

    def ask(self, text, *words, database="postgres"):
        """What psql prints of these commands, without headers."""
        return self.run("psql", "-XqAt", "-d", database, *words, text=text).stdout

    def connect(self):
        return Connection(os.path.join(self.folder, f".s.PGSQL.{self.port}"))


class Extension:
    """The extension, built over a library, in a PostgreSQL of its own. It begins with what is compiled beside the sources, or from nothing."""

    def __init__(self, folder, dist, places, is_built=False):
        self.folder, self.dist = folder, dist
        self.source = os.path.join(folder, "extension")
        self.root = os.path.join(folder, "root")
        shutil.copytree(SOURCE, self.source, ignore=None if is_built else shutil.ignore_patterns("*.o", "*.so"))
        give_away(self.source)
        self.programs = copy_postgres(places, self.root)
        self.servers = []

    def make(self, *words, folder=None, **variables):
        library = (f"MUXANDU={REPOSITORY}", f"MUXANDU_ARCHIVE={self.dist}/lib/libmuxandu.a")
        return run(["make", "-C", folder or self.source, *library, *words], **variables)

    def server(self, name, port=None):
        """A server that is not yet started. All are ended with the extension."""
        server = Server(self.programs, os.path.join(self.folder, name), port or 5432 + len(self.servers))
        self.servers.append(server)
        return server.create()

    def running(self, name, port=None, **settings):
        """A server that is started, and has the extension."""
        server = self.server(name, port).start(**settings)
        printed = server.ask("CREATE EXTENSION muxandu;")
        if printed:
            raise RuntimeError(printed)
        return server

    def install(self):
        """Builds the extension, and installs it into the PostgreSQL of its own. Returns the ended process."""
        return self.make("COPT=-Werror", "install", f"DESTDIR={self.root}")

    def end(self):
        for server in self.servers:
            server.stop()


def free_port():
    """A port at which no program of this machine listens now."""
    with socket.socket() as free:
        free.bind(("127.0.0.1", 0))
        return free.getsockname()[1]


def children(number):
    """The processes that a process has started."""
    printed = run(["ps", "-o", "pid=", "--ppid", str(number)]).stdout
    return [int(word) for word in printed.split()]


def wait_for_end(number):
    """Waits until a process has ended."""
    end = time.monotonic() + LONGEST
    while time.monotonic() < end:
        try:
            with open(f"/proc/{number}/stat", encoding="utf-8") as file:
                if file.read().rpartition(")")[2].split()[0] == "Z":
                    return
        except (FileNotFoundError, ProcessLookupError):
            return
        time.sleep(0.02)
    raise RuntimeError(f"the process {number} does not end")


class Connection:
    """A connection that speaks PostgreSQL's protocol 3: https://www.postgresql.org/docs/15/protocol.html"""

    def __init__(self, path):
        self.socket = socket.socket(socket.AF_UNIX)
        self.socket.settimeout(LONGEST)
        self.socket.connect(path)
        self.file = self.socket.makefile("rb")
        words = b"user\0postgres\0database\0postgres\0TimeZone\0UTC\0\0"
        self.socket.sendall(struct.pack("!ii", len(words) + 8, 196_608) + words)
        self.until_ready()

    def messages(self):
        """Each message up to the one that says the server is ready, by its kind and its bytes."""
        while True:
            kind, size = struct.unpack("!ci", self.file.read(5))
            yield kind, self.file.read(size - 4)
            if kind == b"Z":
                return

    def until_ready(self):
        return list(self.messages())

    def send(self, kind, content):
        self.socket.sendall(message(kind, content))

    def query(self, text):
        """The rows that a statement gives, and the code of its error, or None."""
        self.send(b"Q", text.encode() + b"\0")
        rows, code = [], None
        for kind, content in self.messages():
            if kind == b"D":
                rows.append(fields(content))
            if kind == b"E":
                code = code_of(content)
        return rows, code

    def answers(self, statement, values, is_binary):
        """What a statement with one parameter gives for each value: the value that comes back, or the code of its error and its
        name. Values go in parts of a thousand, and are bytes of the text or of the binary form."""
        self.socket.sendall(message(b"P", b"\0" + statement.encode() + b"\0\0\0") + message(b"S", b""))
        self.until_ready()
        form = struct.pack("!hh", 1, int(is_binary))
        run_it = message(b"E", b"\0\0\0\0\0") + message(b"S", b"")
        for start in range(0, len(values), 200):
            part = values[start : start + 200]
            self.socket.sendall(
                b"".join(
                    message(b"B", b"\0\0" + form + struct.pack("!hi", 1, len(value)) + value + form) + run_it for value in part
                )
            )
            for _ in part:
                yield self.answer()

    def answer(self):
        given = None
        for kind, content in self.messages():
            if kind == b"D":
                (given,) = fields(content)
            if kind == b"E":
                given = code_of(content), name_in(content)
        return given

    def close(self):
        self.file.close()
        self.socket.close()


def message(kind, content):
    return kind + struct.pack("!i", len(content) + 4) + content


def fields(content):
    """The values of a row, None for NULL."""
    (count,), at, found = struct.unpack_from("!h", content), 2, []
    for _ in range(count):
        (size,) = struct.unpack_from("!i", content, at)
        at += 4
        found.append(None if size < 0 else content[at : at + size])
        at += max(size, 0)
    return found


def parts_of_error(content):
    return {part[:1]: part[1:] for part in content.split(b"\0") if part}


def code_of(content):
    return parts_of_error(content)[b"C"].decode()


def name_in(content):
    """The name of the status that an error has, or an empty text."""
    return parts_of_error(content).get(b"D", b"").partition(b":")[0].decode()

"""What the steps of the gate share: how cases are counted, and the copy of the repository that they work on."""

import contextlib
import errno
import os
import re
import shutil
import signal
import subprocess
import sys
import tempfile
import threading
import time

SHARED = os.path.dirname(os.path.realpath(__file__))
GATE = os.path.dirname(SHARED)
REPOSITORY = os.path.dirname(GATE)
MAKE = os.path.join(REPOSITORY, "make")
MEASURE = os.path.join(REPOSITORY, "measure")

# The variable that names the folder that the steps of one gate share. ./test sets it.
SHARED_FOLDER = "GATE_FOLDER"

# What ./test, and then gate/proved_copy, leave in that folder: the first for as long as other work goes on beside.
BESIDE, PROVED, UNPROVED = "beside", "proved", "unproved"

# The library for C in that folder, once it is proved and built; the one of the module that is committed, with nothing proved, or why
# there is none.
ARCHIVE = "libmuxandu_c.a"
UNPROVED_ARCHIVE, NO_UNPROVED_ARCHIVE = "unproved_muxandu_c.a", "no_unproved_archive"

# The variable by which ./test has each step take the one archive, or the other.
ARCHIVE_CHOICE, UNPROVED_ALWAYS, PROVED_ALWAYS = "GATE_ARCHIVE", "unproved", "proved"

# What `rt ci` has printed so far, in that folder.
CI_LOG = "rt.log"

# The compilers that build a program, by the names that `rt` has for them.
COMPILERS = ("llvm", "rattle")

# The programs, and the commands that prove, build and run them.
STARTERS = {"times_bench": ("bench",), "stamps": ("stamps", "check")}

# What gate/proved_copy leaves there at its begin: the names of the crates that it proves though the proofs of `rt ci` are at hand; and
# another file where it proves each crate, since checks had kept something in the checkout.
PROVED_IN_COPY, KEPT = "proved_in_copy", "kept"

# The crates of callers. They have no proofs of their own, and nothing for other crates.
CRATES_OF_CALLERS = ("uses", "pattern_uses", "zone_uses")

# How much of what a command printed is shown where it failed.
SHOWN = 3_000

# The variable by which ./test tells when it began, and for how many seconds from then on its steps begin to try what has no verdict.
BEGUN, TRYING = "GATE_BEGUN", 130 * 60

# How many seconds a step waits for another: seven times those of the whole gate on a machine with nothing else to do.
LONGEST_WAIT = 40_000

# The last line of a step: how many cases passed, failed and were skipped.
COUNT = re.compile(r"(\d+) passed, (\d+) failed(?:, (\d+) skipped)?")

# The least cases, passed and skipped, that each step has.
FLOORS = os.path.join(GATE, "counts.txt")
FLOORS_HEAD = "# The least cases, passed and skipped, that a step has. Made by gate/counts.\n"

# Programs say the same on every machine, and `bash` does not complain of a locale that is not installed.
os.environ["LC_ALL"] = "C.UTF-8"

# How many seconds `rt` gives a test and a program, which take some: its own sixty pass on a machine with much to do.
os.environ.setdefault("RT_SECONDS", "600")


def say_full_disk(kind, error, trace):
    """Ends a step with one line where a disk is full, and as ever otherwise."""
    if isinstance(error, OSError) and error.errno in (errno.ENOSPC, errno.EDQUOT, errno.EFBIG):
        place = error.filename or tempfile.gettempdir()
        print(f"FAILED: no room is left on the disk of {place}: {error.strerror}", file=sys.stderr, flush=True)
        return
    sys.__excepthook__(kind, error, trace)


sys.excepthook = say_full_disk


def has_gnu_parallel():
    """Whether `parallel` is GNU's, which the pages use: that of moreutils takes other words."""
    if shutil.which("parallel") is None:
        return False
    ended = subprocess.run(["parallel", "--version"], stdin=subprocess.DEVNULL, capture_output=True, check=False)
    return ended.returncode == 0 and b"GNU parallel" in ended.stdout


def floors():
    """The least cases of each step, by its name."""
    if not os.path.exists(FLOORS):
        return {}
    with open(FLOORS, encoding="utf-8") as file:
        lines = [line.rpartition(": ") for line in file.read().splitlines() if not line.startswith("#")]
    return {name: int(cases) for name, _, cases in lines}


def write_floors(found):
    """Writes the least cases of each step."""
    with open(FLOORS, "w", encoding="utf-8") as file:
        file.write(FLOORS_HEAD + "".join(f"{name}: {cases}\n" for name, cases in sorted(found.items())))


class Tally:
    """The cases of a step: how many passed, how many failed, and how many were skipped."""

    def __init__(self):
        self.passed = 0
        self.failed = 0
        self.skipped = []

    def count(self, case, problem=None, printed=""):
        """Counts a case and tells of it: it failed if it has a problem, and then the end of what was printed is shown."""
        if problem is None:
            self.passed += 1
            print(case, flush=True)
            return
        self.failed += 1
        print(f"{case}: FAILED: {problem}\n{printed[-SHOWN:]}".rstrip(), flush=True)

    def skip(self, case, reason, cases=1):
        """Counts cases that this machine cannot run, for a reason. The step prints them again at its end."""
        self.skipped.append((case, reason, cases))
        print(f"{case}: skipped: {reason}", flush=True)

    def skip_rest(self, reason):
        """Counts all cases that the step has beyond those that were counted as skipped, for a reason: as many as it has on a
        machine where each can run."""
        step = os.path.basename(sys.argv[0])
        counted = self.passed + self.failed + sum(cases for _, _, cases in self.skipped)
        self.skip(f"the rest of {step}", reason, max(1, floors().get(step, 0) - counted))

    def end(self, *others):
        """Prints the count, with those of other halves of the step, and ends the step: as a failure where a case failed,
        or where none passed and none was skipped in one of the halves."""
        halves = (self, *others)
        passed, failed = (sum(getattr(half, name) for half in halves) for name in ("passed", "failed"))
        skipped = [case for half in halves for case in half.skipped]
        if failed == 0 and not all(half.passed or half.skipped for half in halves):
            failed = 1
            print("a part of this step checked nothing", flush=True)
        for case, reason, cases in skipped:
            print(f"skipped: {case}, {cases} {'case' if cases == 1 else 'cases'}: {reason}", flush=True)
        print(f"{passed} passed, {failed} failed, {sum(cases for _, _, cases in skipped)} skipped", flush=True)
        sys.exit(0 if failed == 0 else 1)


def read_text(path):
    """The text of a file."""
    with open(path, encoding="utf-8") as file:
        return file.read()


def write_text(path, text):
    """Writes a file, and its folder if that is not there."""
    os.makedirs(os.path.dirname(path) or ".", exist_ok=True)
    with open(path, "w", encoding="utf-8") as file:
        file.write(text)


def replace_text(path, text):
    """Writes a file that others may read at the same time, if it is not so already."""
    if os.path.exists(path) and read_text(path) == text:
        return
    written = f"{path}.{os.getpid()}"
    write_text(written, text)
    os.replace(written, path)


def run(words, folder=None, text=None, env=None, timeout=None, **variables):
    """Runs a command on a text, with more variables, and gives the ended process with all that it printed, in one text."""
    return subprocess.run(
        [str(word) for word in words],
        cwd=folder,
        env={**(os.environ if env is None else env), **variables},
        input=text or "",
        stdout=subprocess.PIPE,
        stderr=subprocess.STDOUT,
        encoding="utf-8",
        errors="replace",
        timeout=timeout,
        check=False,
    )


def rt(words, folder):
    """Runs `rt` in a folder, and gives the ended process with all that it printed, in one text."""
    return run(["rt", *words], folder)


def is_beside():
    """Whether this step runs beside another that takes all processors."""
    shared = os.environ.get(SHARED_FOLDER)
    return bool(shared) and os.path.exists(os.path.join(shared, BESIDE))


def why_late():
    """Why a step begins to try nothing more, or None: ./test began too long ago. Outside of ./test no step is late."""
    begun = os.environ.get(BEGUN)
    is_late = begun and time.time() - float(begun) > TRYING
    step = os.path.basename(sys.argv[0])
    return f"./test tries new ones for {TRYING // 60} minutes, and gate/{step} without it tries all" if is_late else None


def most_jobs():
    """How many jobs a check may have on this machine, as gate/jobs says."""
    return int(subprocess.run([os.path.join(GATE, "jobs")], stdout=subprocess.PIPE, check=True).stdout)


def jobs():
    """How many jobs a check may have now: as many as this machine has room for, or one beside other work."""
    return 1 if is_beside() else most_jobs()


class Room:
    """Room for checks of one job side by side: as many as there are jobs at the time."""

    def __init__(self):
        self.running, self.waiting = 0, []
        self.condition = threading.Condition()

    @contextlib.contextmanager
    def of(self, work):
        """The place of a check with that much work, which it gets before checks with less."""
        with self.condition:
            self.waiting.append(work)
            while work < max(self.waiting) or self.running >= jobs():
                self.condition.wait(timeout=10)
            self.waiting.remove(work)
            self.running += 1
            self.condition.notify_all()
        try:
            yield
        finally:
            with self.condition:
                self.running -= 1
                self.condition.notify_all()


def crates(root=REPOSITORY):
    """The names of the crates of a repository, each after those that it stands on, as crates.txt lists them."""
    with open(os.path.join(root, "crates.txt"), encoding="utf-8") as lines:
        return [line.split(":")[0].split()[0] for line in lines if ":" in line and not line.startswith("#")]


def link_kept(source, target):
    """Copies a file, what a check has kept by a link, as `rt` does: a check replaces such a file, and never changes it."""
    try:
        if source.endswith(".oantt"):
            return os.link(source, target)
    except OSError:
        pass
    return shutil.copy2(source, target)


def copy_repository(folder, repository=REPOSITORY):
    """The path of a copy of a repository in the folder, with what checks have kept."""
    copy = os.path.join(folder, "copy")
    ignored = shutil.ignore_patterns(".git", "__pycache__")
    shutil.copytree(repository, copy, symlinks=True, ignore=ignored, copy_function=link_kept)
    return copy


def fresh_copy(folder, repository=REPOSITORY):
    """The path of a copy of a repository in the folder, as a clone of it has its files: with the edits that are not committed,
    and without what checks have kept. Wrong and right bodies are left out, since no command but the gate reads them."""
    copy, left_out = os.path.join(folder, "fresh copy"), ("wrong", "must-fail", "right")
    words = ["git", "ls-files", "-z", "--cached", "--others", "--exclude-standard"]
    listed = subprocess.run(words, cwd=repository, stdout=subprocess.PIPE, stderr=subprocess.DEVNULL, check=False)
    if listed.returncode != 0:
        ignored = shutil.ignore_patterns(".git", "__pycache__", "out", "dist", "target", "*.so", *left_out)
        return shutil.copytree(repository, copy, symlinks=True, ignore=ignored)
    for name in map(os.fsdecode, filter(None, listed.stdout.split(b"\0"))):
        path = os.path.join(repository, name)
        if os.path.lexists(path) and not set(left_out) & set(name.split("/")):
            os.makedirs(os.path.dirname(os.path.join(copy, name)), exist_ok=True)
            shutil.copy2(path, os.path.join(copy, name), follow_symlinks=False)
    return copy


def program(folder, compiler, crate):
    """The path in the folder of the program of a crate as that compiler builds it."""
    return os.path.join(folder, f"{crate}_{compiler}")


def build(folder, crate):
    """Makes a copy of the repository in the folder, has the program of a crate proved and built in it, and then has Rattle's
    own compiler build it too. What checks kept in the repository comes along, so little is left to do where it is proved."""
    print("building a copy of the repository", flush=True)
    copy = copy_repository(folder)
    starter, *words = STARTERS[crate]
    if subprocess.run([os.path.join(copy, starter), *words], stdin=subprocess.DEVNULL, check=False).returncode != 0:
        sys.exit("the copy of the repository is not proved and built")
    place = os.path.join(copy, "crates", crate)
    shutil.copy(os.path.join(place, "out", crate), program(folder, "llvm", crate))
    run = rt(["run", "--backend", "rattle", *(["--", *words] if words else [])], place)
    if run.returncode != 0:
        sys.exit(f"Rattle's own compiler does not build {crate}:\n{run.stdout[-SHOWN:]}")
    shutil.copy(os.path.join(place, "out", crate), program(folder, "rattle", crate))


@contextlib.contextmanager
def own_folder():
    """A folder for this step alone, which is removed at the end, and where the step is asked to end early."""
    signal.signal(signal.SIGTERM, lambda *_: sys.exit("asked to end"))
    with tempfile.TemporaryDirectory(prefix="gate-") as folder:
        yield folder


def proof_of(crate):
    """The file that gate/proved_copy leaves in the folder that the steps share, once that crate is proved, in the copy or by
    `rt ci`, whose library is then there."""
    return f"{PROVED}_{crate}"


def has_proved(folder, crate):
    """Whether `rt ci` has said so far that it has proved that crate, in this run or an earlier one, and so has built it."""
    try:
        with open(os.path.join(folder, CI_LOG), encoding="utf-8", errors="replace") as log:
            return re.search(rf"^rt: {crate} (?:proved$|is kept: )", log.read(), re.MULTILINE) is not None
    except FileNotFoundError:
        return False


def proved_in_copy(folder):
    """The crates that gate/proved_copy proves in any case."""
    return read_text(os.path.join(folder, PROVED_IN_COPY)).split()


def is_proved_in_copy(folder, crate):
    """Whether gate/proved_copy proves that crate, and does not only take its library from `rt ci`."""
    return crate in proved_in_copy(folder) or os.path.exists(os.path.join(folder, KEPT))


def wait_for(folder, name):
    """Waits until gate/proved_copy has left that file in the folder. Ends the step where it could not."""
    end = time.monotonic() + LONGEST_WAIT
    while not os.path.exists(os.path.join(folder, name)):
        if os.path.exists(os.path.join(folder, UNPROVED)) or time.monotonic() > end:
            sys.exit("the copy of the repository is not proved")
        time.sleep(1)


@contextlib.contextmanager
def proved_copy(names):
    """The path of a copy of the repository that may be changed, with what checks kept: of that of the gate, or one in which these
    crates are proved."""
    shared = os.environ.get(SHARED_FOLDER)
    if shared:
        wait_for(shared, PROVED)
    with own_folder() as folder:
        copy = copy_repository(folder, os.path.join(shared, "copy") if shared else REPOSITORY)
        for crate in names if not shared else ():
            prove(copy, crate)
        yield copy


def prove(root, crate, is_built=False):
    """Proves a crate of that repository, and keeps what the check keeps; a library is built too, unless it is built elsewhere. Ends
    the step where it is not proved."""
    folder = os.path.join(root, "crates", crate)
    is_library = crate not in CRATES_OF_CALLERS and not is_built and not os.path.exists(os.path.join(folder, "src", "main.rt"))
    # a library that was built by its statements alone has kept nothing
    for word in ("lib", "check") if is_library else ("check",):
        if word == "check" and is_library and os.path.exists(os.path.join(folder, "out", "incremental")):
            continue
        run = rt([word, "--jobs", str(jobs())], folder)
        if run.returncode != 0:
            sys.exit(f"{crate} is not proved:\n{run.stdout[-SHOWN:]}")


@contextlib.contextmanager
def programs(crate="times_bench"):
    """What the program of a crate is, and its path: as each compiler builds it, or the one program that `--program PATH` names
    on the command line. In the gate these are the programs that `rt ci` has proved and built, else those of a copy."""
    words = sys.argv[1:]
    if words[:1] == ["--program"] and len(words) == 2:
        yield [(words[1], os.path.abspath(words[1]))]
        return
    if words:
        sys.exit(f"usage: {sys.argv[0]} [--program PATH]")
    shared = os.environ.get(SHARED_FOLDER)
    with contextlib.nullcontext(shared) if shared else own_folder() as folder:
        if not shared:
            build(folder, crate)
        lacking = [compiler for compiler in COMPILERS if not os.path.exists(program(folder, compiler, crate))]
        if lacking:
            sys.exit(f"there is no {crate} built by {' or '.join(lacking)}")
        yield [(f"{crate} built by {compiler}", program(folder, compiler, crate)) for compiler in COMPILERS]


def lines_and_answers(tool, *numbers):
    """The lines for times_bench that a tool prints, and the answers that it says they must have, as bytes."""

    def output_of(*flags):
        command = [os.path.join(GATE, tool), *flags, *map(str, numbers)]
        return subprocess.run(command, stdout=subprocess.PIPE, check=True).stdout

    return output_of(), output_of("--answers")

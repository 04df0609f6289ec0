"""When each step of ./test begins: once what it needs is there, and as the processors have room."""

import os
import shutil
import subprocess
import sys
import time

from .gate import (
    ARCHIVE, ARCHIVE_CHOICE, BEGUN, BESIDE, NO_UNPROVED_ARCHIVE, PROVED_ALWAYS, SHARED_FOLDER, STARTERS, UNPROVED, UNPROVED_ALWAYS,
    UNPROVED_ARCHIVE, has_proved, write_text,
)  # fmt: skip
from .tasks import Counts, Task, known_before_the_end, processors

PROOFS = "rt ci"

# The steps that begin at once, and wait for what is proved: on a copy of the repository, or with work for each processor at any time.
# The latter take what the others leave, so that no step that has one task after another ends last for them.
BESIDE_STEPS = ("proved_copy", "refused", "promises", "root_line", "planted", "newcomer", "crate_tests")
FILLING = ("refused", "planted", "crate_tests")

# The others, in the order in which they begin: those that need nothing proved; those over the library for C, which may be the one of
# the module that is committed; those that judge the proved library, or its module; those that run programs of `rt ci`, the longest
# first, and which programs. Any other step follows `rt ci`.
FREE = (
    "lint",
    "gate_tests",
    "first_builds",
    "forms",
    "zones",
    "documented",
    "package_beside_time",
    "formats_beside_time",
    "crates_over_time",
    "refused_memory",
)
OVER_A_LIBRARY = ("postgres", "python", "sqlite", "python_columns", "layout", "example_programs")
OVER_THE_PROVED = ("library", "portable", "beside_time")
OVER_THE_MODULE = ("javascript",)
OF_BOTH = ("test_release", "instructions")
OF_PROGRAMS = {"stamps": ("stamps",), **dict.fromkeys(OF_BOTH, ("times_bench", "stamps"))}
OF_PROGRAMS |= dict.fromkeys(("erased", "answers", "pages", "faults"), ("times_bench",))

# The steps that wait for no Debian packages.
WITHOUT_PACKAGES = (PROOFS, "proved_copy", "refused", "promises", "root_line", "crate_tests")

# The steps that take more rounds, and those that keep verdicts or prove a sample.
LONGER = ("forms", "library", "postgres", "python", "stamps", "test_release", "zones")
SAMPLED = ("refused", "promises", "root_line", "planted", "crate_tests", "documented", "crates_over_time", "refused_memory")

# The steps of --quick, with the words of those that then have fewer cases; and why it leaves the others out.
TOO_LONG = ("planted", "refused_memory", "crates_over_time", "portable")
QUICK = dict.fromkeys((*FREE, *OVER_A_LIBRARY, *OVER_THE_PROVED, *OVER_THE_MODULE, "erased"), ())
QUICK |= {"pages": ("--still",), "newcomer": ("--static",), "crate_tests": ("--unproved",)}
QUICK = {step: words for step, words in QUICK.items() if step not in TOO_LONG}
NEEDS_PROOFS, TAKES_LONG = "it needs what is proved, and --quick proves nothing", "it takes long for --quick"

# How many seconds pass between the lines that say what runs.
PERIOD = float(os.environ.get("GATE_PERIOD", "60"))


def why_left_out(step):
    """Why --quick leaves a step out."""
    return TAKES_LONG if step in TOO_LONG else NEEDS_PROOFS


class Gate:
    """The steps that run, in a folder that they share, and their count."""

    def __init__(self, words, folder):
        self.words, self.folder, self.counts = words, folder, Counts()
        self.tasks, self.others, self.waiting, self.kept = {}, {}, [], set()
        self.begun = self.told = self.looked = time.monotonic()
        self.began_at = int(time.time())
        self.followed, self.followed_to = None, 0

    def path(self, name):
        return os.path.join(self.folder, name)

    def has(self, name):
        return os.path.exists(self.path(name))

    def variables(self, is_shared):
        """The variables of a step."""
        found = {SHARED_FOLDER: self.folder} if is_shared else {}
        found |= {BEGUN: str(self.began_at)} if is_shared and not self.words.all else {}
        choice = UNPROVED_ALWAYS if self.words.quick else PROVED_ALWAYS if self.words.all else None
        return found | ({ARCHIVE_CHOICE: choice} if choice else {})

    def command(self, step):
        """The command of a step."""
        if step == PROOFS:
            return ["rt", "ci"]
        if step == "proved_copy":
            return ["gate/proved_copy", "prove"]
        words = ["--long"] if step in LONGER and (self.words.all or self.words.long) else []
        words += ["--all"] if step in SAMPLED and self.words.all else []
        return [f"gate/{step}", *words, *(QUICK.get(step, ()) if self.words.quick else ())]

    def begin(self, step, is_shared, nice=0):
        log = self.path(f"{step.split()[0]}.log")
        with known_before_the_end():
            self.tasks[step] = Task(step, self.command(step), log, nice, **self.variables(is_shared))

    def stop(self):
        """Ends all that runs, and waits until it has."""
        for task in (*self.tasks.values(), *self.others.values()):
            task.stop()
        end = time.monotonic() + 20
        while time.monotonic() < end and not all(task.has_ended() for task in (*self.tasks.values(), *self.others.values())):
            time.sleep(0.1)

    def running(self):
        return [task for task in self.tasks.values() if not task.has_ended()]

    # -- what is printed

    def follow(self):
        """Prints what the step in front has printed since."""
        with open(self.followed.log, "rb") as log:
            log.seek(self.followed_to)
            more = log.read()
        if more:
            sys.stdout.flush()
            sys.stdout.buffer.write(more)
            sys.stdout.flush()
            self.followed_to += len(more)
        return bool(more)

    def tell(self):
        """Prints what runs, where a period has passed since it did."""
        if time.monotonic() - self.told < PERIOD:
            return
        self.told = time.monotonic()
        tasks = [*self.running(), *(task for task in self.others.values() if not task.has_ended())]
        running = ", ".join(f"{task.name} ({task.last_line()})" if task.last_line() else task.name for task in tasks)
        print(f"-- {(self.told - self.begun) / 60:.0f} min: {running or 'no step runs'}", flush=True)

    def print_step(self, task, is_beside):
        """Prints how a step ended, with what it printed if it ran beside others, and counts it."""
        if is_beside:
            print(f"== {task.name}\n{task.text()}", end="")
        print(
            f"== {task.name}: {task.seconds} s{', beside others' if is_beside else ''}, {task.worked} s of processors", flush=True
        )
        self.counts.count(task, NEEDS_PROOFS if self.words.quick and QUICK.get(task.name) else None)

    def run_in_front(self, step, is_shared):
        """Runs a step, and prints as it does. Each other step that can begins and goes on beside it."""
        print(f"== {step}", flush=True)
        self.begin(step, is_shared)
        task = self.followed = self.tasks[step]
        self.followed_to, self.told = 0, time.monotonic()
        while True:
            has_ended, is_alone = task.has_ended(), not self.waiting and len(self.tasks) == 1
            if self.follow() and is_alone:
                self.told = time.monotonic()
            if has_ended:
                break
            self.begin_ready()
            self.tell()
            time.sleep(0.1)
        self.print_step(task, is_beside=False)

    # -- what begins when

    def is_proving(self):
        return PROOFS in self.tasks and not self.tasks[PROOFS].has_ended()

    def has_proved_library(self):
        """Whether the proved library is there, or will not come."""
        copy = self.tasks.get("proved_copy")
        return self.has(ARCHIVE) or self.has(UNPROVED) or copy is None or copy.has_ended()

    def is_ready(self, step):
        """Whether a step can begin: what it needs is there, or will not come, of which it tells itself."""
        if step not in WITHOUT_PACKAGES and "packages" in self.others and not self.others["packages"].has_ended():
            return False
        if step in OVER_A_LIBRARY or self.words.quick and step in OVER_THE_PROVED:
            return self.has(UNPROVED_ARCHIVE) or self.has(NO_UNPROVED_ARCHIVE) and self.has_proved_library()
        if self.words.quick or not self.is_proving():
            return step not in OVER_THE_PROVED or self.has_proved_library()
        if step in (*OVER_THE_PROVED, *OVER_THE_MODULE, *OF_BOTH) and not self.has_proved_library():
            return False
        return step in (*BESIDE_STEPS, *FREE, *OVER_THE_PROVED, *OVER_THE_MODULE) or self.has_programs(OF_PROGRAMS.get(step, ()))

    def most(self):
        """How many of the steps that do not begin at once run at the same time: few while `rt ci` runs, which takes all processors."""
        count = processors()
        if self.is_proving():
            return max(1, count // 2)
        return count if self.words.quick else max(2, count - 1)

    def begin_ready(self):
        """Begins the steps that can begin."""
        self.make_unproved_library()
        if time.monotonic() - self.looked > 1:
            self.keep_programs()
            self.looked = time.monotonic()
        for step in list(self.waiting):
            is_beside = step in BESIDE_STEPS and not self.words.quick
            many = sum(task.name not in (PROOFS, *BESIDE_STEPS) or self.words.quick for task in self.running())
            if self.is_ready(step) and (is_beside or many < self.most()):
                self.waiting.remove(step)
                self.begin(step, True, 10 if step in FILLING else 5 if step != "proved_copy" and self.is_proving() else 0)
        if not self.waiting and not self.is_proving() and self.has(BESIDE):
            # the last ones have all processors
            os.remove(self.path(BESIDE))

    def make_unproved_library(self):
        """Has the library made of the committed module once the packages are there, and notes why there is none."""
        made = self.others.get("library")
        if made is None and not self.has(NO_UNPROVED_ARCHIVE) and self.needs_library() and self.is_ready("lint"):
            words = ["make/unproved_archive", self.path(UNPROVED_ARCHIVE)]
            with known_before_the_end():
                self.others["library"] = Task(words[0], words, self.path("made"))
        elif made and made.has_ended() and not self.has(UNPROVED_ARCHIVE) and not self.has(NO_UNPROVED_ARCHIVE):
            self.note_no_library(f"no library is made with nothing proved: {made.last_line()}")

    def needs_library(self):
        return any(step in (*OVER_A_LIBRARY, *OVER_THE_PROVED, "planted") for step in self.waiting)

    def note_no_library(self, reason):
        """Leaves the steps out that then cannot run, and has the others take the proved library."""
        print(reason, flush=True)
        write_text(self.path(NO_UNPROVED_ARCHIVE), f"{reason}\n")
        if "proved_copy" not in self.tasks:
            # no step waits for an archive that will not come
            write_text(self.path(UNPROVED), "")
        for step in list(self.waiting):
            if self.words.quick and step in (*OVER_A_LIBRARY, *OVER_THE_PROVED):
                self.waiting.remove(step)
                self.counts.leave_out(step, reason)

    def keep_programs(self):
        """Keeps each program that `rt ci` has proved and built for the steps that run it, and what it was linked from, if it was compiled
        now. Once `rt ci` has ended, each that is there."""
        for program in STARTERS:
            built = f"crates/{program}/out/{program}"
            if program in self.kept or self.is_proving() and not has_proved(self.folder, program):
                continue
            self.kept.add(program)
            for source, name in ((f"{built}.o", "llvm.o"), (built, "llvm"), (f"{built}.by-rattle", "rattle")):
                if os.path.exists(source):
                    # whoever looks for it finds it whole
                    kept = self.path(f"{program}_{name}")
                    shutil.copy(source, f"{kept}.new")
                    os.replace(f"{kept}.new", kept)

    def has_programs(self, names):
        """Whether a step can run these programs while `rt ci` proves others; a step of no program cannot."""
        return bool(names) and all(name in self.kept for name in names)

    # -- all steps, some of them, or each alone

    def run_together(self, steps):
        """Runs these steps: `rt ci` in front, if it is one of them, and the others beside it."""
        order = [*BESIDE_STEPS, *FREE, *OVER_A_LIBRARY, *OVER_THE_PROVED, *OF_PROGRAMS, *OVER_THE_MODULE]
        self.waiting = sorted((step for step in steps if step != PROOFS), key=lambda it: (*order, it).index(it))
        printed = [step for step in steps if step not in (PROOFS, *BESIDE_STEPS)] + [
            step for step in BESIDE_STEPS if step in steps
        ]
        write_text(self.path(BESIDE), "")
        if self.words.all:
            write_text(self.path(NO_UNPROVED_ARCHIVE), "--all takes the proved archive\n")
        if "proved_copy" in steps:
            subprocess.run(["gate/proved_copy", "make"], env={**os.environ, **self.variables(True)}, check=False)
        if self.words.install:
            with known_before_the_end():
                self.others["packages"] = Task("gate/packages", ["gate/packages", "install"], self.path("packages.log"))
        if PROOFS in steps:
            self.run_in_front(PROOFS, True)
            self.keep_programs()
            if self.has(BESIDE):
                os.remove(self.path(BESIDE))
        for step in printed:
            while step in self.waiting or step in self.tasks and not self.tasks[step].has_ended():
                self.begin_ready()
                self.tell()
                time.sleep(0.1)
            if "packages" in self.others and self.others["packages"].has_ended():
                print(self.others.pop("packages").text(), end="")
            if step in self.tasks:
                self.print_step(self.tasks[step], is_beside=True)

    def run_alone(self, steps):
        """Runs each of these steps by itself."""
        if self.words.install:
            subprocess.run(["gate/packages", "install"], check=False)
        for step in steps:
            is_shared = step == "proved_copy"
            if is_shared:
                subprocess.run(["gate/proved_copy", "make"], env={**os.environ, **self.variables(True)}, check=False)
            self.run_in_front(step, is_shared)
            self.tasks = {}

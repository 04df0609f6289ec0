"""Programs that ./test runs side by side, and the count of their cases."""

import contextlib
import functools
import os
import re
import signal
import subprocess
import textwrap
import time

from .gate import COUNT, floors

# How much of the last line of a program is shown.
SHOWN = 60

# What is printed of a case that failed.
TOLD = re.compile("FAILED|NOT PROVED|NOT REFUSED")


def processors():
    """How many processors this program may have."""
    return len(os.sched_getaffinity(0))


# The signals that end the gate.
ENDING = (signal.SIGINT, signal.SIGTERM)


@contextlib.contextmanager
def known_before_the_end():
    """Holds the signals that end the gate until the program that begins is noted, so that it is ended too."""
    signal.pthread_sigmask(signal.SIG_BLOCK, ENDING)
    try:
        yield
    finally:
        signal.pthread_sigmask(signal.SIG_UNBLOCK, ENDING)


def step_aside(nice):
    """Has this process and all that it starts in a group, which can be ended as one, and take less of the processors. A session of its
    own would have as much of them as each other session, whatever it is nice by."""
    os.setpgid(0, 0)
    os.nice(nice)
    signal.pthread_sigmask(signal.SIG_UNBLOCK, ENDING)


class Task:
    """A program that runs, or has ended: what it prints, its status, its seconds, and those of the processors."""

    def __init__(self, name, words, log, nice=0, **variables):
        self.name, self.log, self.begun, self.status = name, log, time.monotonic(), None
        self.seconds = self.worked = 0
        with open(log, "wb") as out:
            try:
                self.process = subprocess.Popen(
                    words,
                    env={**os.environ, **variables},
                    stdin=subprocess.DEVNULL,
                    stdout=out,
                    stderr=subprocess.STDOUT,
                    preexec_fn=functools.partial(step_aside, nice),
                )
            except OSError as error:
                out.write(f"{words[0]}: {error.strerror}\n".encode())
                self.process, self.status = None, 127

    def has_ended(self):
        if self.status is None:
            child, status, used = os.wait4(self.process.pid, os.WNOHANG)
            if child:
                self.status = self.process.returncode = os.waitstatus_to_exitcode(status)
                self.seconds = int(time.monotonic() - self.begun)
                self.worked = int(used.ru_utime + used.ru_stime)
        return self.status is not None

    def stop(self):
        """Ends the program, and those that it has started."""
        if not self.has_ended():
            os.killpg(self.process.pid, signal.SIGTERM)

    def minutes(self, begun):
        """Its name, and the minutes from that moment to its begin and its end."""
        return f"{self.name} {(self.begun - begun) / 60:.0f} to {(self.begun + self.seconds - begun) / 60:.0f}"

    def text(self):
        with open(self.log, encoding="utf-8", errors="replace") as log:
            return log.read()

    def last_line(self):
        """The last line of what it has printed so far, or its beginning."""
        with open(self.log, "rb") as log:
            log.seek(max(0, os.path.getsize(self.log) - 2_000))
            lines = log.read().decode(errors="replace").split("\n")
        return next((line.strip()[:SHOWN] for line in reversed(lines) if line.strip()), "")


class Counts:
    """The cases of all steps: how many passed, failed and were skipped, and what the end says of them."""

    def __init__(self):
        self.passed = self.failed = self.skipped = 0
        self.failures, self.skips, self.tasks, self.least = [], [], [], floors()
        # what each step that passed counted: the cases that passed and those that were skipped, and the lines of the latter
        self.good = {}

    def fail(self, step, problem):
        """Counts a step that failed for a reason that it does not count itself."""
        print(f"{step}: FAILED: {problem}", flush=True)
        self.failures.append(f"{step}: FAILED: {problem}")
        self.failed += 1

    def leave_out(self, step, reason, cases=None):
        """Counts cases of a step that does not run, or all of them, as skipped."""
        cases = max(1, self.least.get(step, 1)) if cases is None else cases
        self.skips.append(f"{step}: skipped: {cases} {'case' if cases == 1 else 'cases'}: {reason}")
        self.skipped += cases

    def keep(self, step, passed, skipped, skips):
        """Counts a step that passed in an earlier run, and is not run again."""
        print(f"== {step}: kept: {passed} passed, {skipped} skipped: no file has changed since that can break it", flush=True)
        self.passed, self.skipped, self.skips = self.passed + passed, self.skipped + skipped, self.skips + skips

    def count(self, task, less=None):
        """Counts what a step printed, and how it ended. Where there is a reason for which it may have fewer cases, those are skipped."""
        step, lines, least = task.name, task.text().rstrip("\n").split("\n"), self.least.get(task.name)
        found = COUNT.fullmatch(lines[-1])
        passed, failed, skipped = (int(it or 0) for it in found.groups()) if found else (0, 0, 0)
        problems, skips = len(self.failures), [f"{step}: {line}" for line in lines if line.startswith("skipped: ")]
        self.passed, self.failed, self.skipped = self.passed + passed, self.failed + failed, self.skipped + skipped
        self.skips += skips
        self.tasks.append(task)
        cases = passed + skipped
        if failed:
            shown = {at for number, line in enumerate(lines) if TOLD.search(line) for at in range(max(0, number - 2), number + 1)}
            self.failures += [f"{step}: {failed} failed", *[lines[at][:300] for at in sorted(shown)][-30:]]
        elif not found or task.status or not cases:
            self.fail(step, f"it ended with status {task.status}, and its last line was '{lines[-1]}'")
        elif least is None:
            self.fail(step, "gate/counts.txt has no line for it: gate/counts write")
        elif cases < least and less:
            self.leave_out(step, less, least - cases)
        elif cases < least:
            self.fail(step, f"it has {cases} cases, and gate/counts.txt says {least} or more")
        if len(self.failures) == problems:
            self.good[step] = (passed, skipped, skips)

    def print_end(self, begun):
        print("\n".join([*self.skips, *self.failures, ""]), end="")
        worked = (f"{task.name} {task.worked}" for task in sorted(self.tasks, key=lambda it: -it.worked))
        print(textwrap.fill(f"seconds of processors: {', '.join(worked)}", 130))
        ended = sorted(self.tasks, key=lambda it: it.begun + it.seconds)
        print(textwrap.fill(f"minutes from begin to end: {', '.join(task.minutes(begun) for task in ended)}", 130))
        minutes, worked = (int(it / 60) for it in (time.monotonic() - begun, sum(os.times()[:4])))
        print(f"{minutes} min on {processors()} processors, which worked for {worked} min")
        print(f"{self.passed} passed, {self.failed} failed, {self.skipped} skipped", flush=True)

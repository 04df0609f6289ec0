"""Verdicts that a step keeps: the cases that passed, each with a key, the sum of all that decides its verdict.

A case that has the key of its kept verdict passes untried. A step tries the cases whose keys are new or changed, and of the others
a sample, which the tree of the commit chooses. A file of verdicts has a head, and then a line for each case:

    # Verdicts of gate/STEP, a line `KEY CHECK PLACE` each. gate/STEP alone writes this file: change no line.
    # kit: NAME
    KEY CHECK PLACE

CHECK is a sum of the line, of the step and of the kit. So a line that was added or changed by hand is seen, and lines of two branches
merge. It guards against accidents, not against malice: whoever can write a line can write its sum. Where a file is missing, damaged
or of another kit, none of its verdicts counts, and where a line is not whole, that one does not: `Kept.problem` says so, and the step
tries those cases.

The variable GATE_BASE names a commit, whose files then count in place of today's: the base of a review, or the last release. In
./test (variable GATE_FOLDER) no file is written.
"""

import hashlib
import inspect
import math
import os
import re
import subprocess
import sys
from dataclasses import dataclass, field

from shared.gate import REPOSITORY, SHARED_FOLDER, write_text

# The share of the cases with verdicts that is tried all the same.
SHARE = 0.03

# The folder of the files of verdicts, but for those of wrong bodies, which lie with the bodies: crates/NAME/wrong/VERDICTS.
FOLDER = os.path.join("gate", "verdicts")

# The variable that names a commit whose verdicts count.
BASE = "GATE_BASE"

HEAD = "# Verdicts of gate/{step}, a line `KEY CHECK PLACE` each. gate/{step} alone writes this file: change no line.\n"
KIT = "# kit: "


def sum_of(*parts):
    """A key: a sum of these parts, texts or lists and tuples of them."""
    return hashlib.sha256(repr(parts).encode()).hexdigest()[:24]


def code_of(*parts):
    """The code of functions, without comments and docstrings, and the texts of patterns: what a key has of the judge itself."""
    texts = [it.pattern if isinstance(it, re.Pattern) else inspect.getsource(it) for it in parts]
    code = [re.sub(r'"""[\s\S]*?"""|^ *#.*$', "", text, flags=re.M) for text in texts]
    return [" ".join(text.split()) for text in code]


def kit_name():
    """The name of the kit with its logic, as `rt version` says it."""
    return subprocess.run(["rt", "version"], stdout=subprocess.PIPE, encoding="utf-8", check=True).stdout.strip()


def seed():
    """What chooses the sample: the tree of this commit, so that two runs of one commit try the same. Outside of a clone it is empty."""
    said = subprocess.run(["git", "rev-parse", "HEAD^{tree}"], cwd=REPOSITORY, capture_output=True, encoding="utf-8", check=False)
    return said.stdout.strip() if said.returncode == 0 else ""


def path_of(step):
    """The file of the verdicts of a step, from the root."""
    return os.path.join(FOLDER, step)


def line_of(step, kit, key, place):
    """The line of a case in a file of verdicts."""
    return f"{key} {sum_of(step, kit, key, place)[:8]} {place}"


def text_of_file(step, kit, keys):
    """The text of a file of verdicts, of the key of each case by its place."""
    lines = [line_of(step, kit, key, place) for place, key in sorted(keys.items())]
    return "\n".join([HEAD.format(step=step) + KIT + kit, *lines, ""])


@dataclass
class Kept:
    """What counts of a file of verdicts: the keys by their places. Then what is wrong with the file, or None, and the places that
    have no verdict for it: None where all have none."""

    keys: dict = field(default_factory=dict)
    problem: str = None
    lost: set = field(default_factory=set)


def read_file(step, kit, text):
    """What counts of a file of verdicts with this text."""
    head, _, rest = text.partition("\n")
    named, _, rest = rest.partition("\n")
    if f"{head}\n" != HEAD.format(step=step) or not named.startswith(KIT):
        return Kept({}, "it is damaged, since its head is not whole", None)
    if named != f"{KIT}{kit}":
        return Kept({}, f"it is of another kit, {named.removeprefix(KIT)!r}", None)
    found, bad = Kept(), 0
    for line in filter(None, rest.split("\n")):
        key, _, place = (*line.split(" ", 2), "", "")[:3]
        if line == line_of(step, kit, key, place) and place not in found.keys:
            found.keys[place] = key
        else:
            bad += 1
            found.lost.add(place)
    # a case with two lines is as uncertain as one with a changed line
    found.keys = {place: key for place, key in found.keys.items() if place not in found.lost}
    found.problem = f"{bad} of its lines were changed, and not by gate/{step}" if bad else None
    return found


def text_at(root, path):
    """The text of a file of verdicts that counts, of the commit GATE_BASE or of today; and why there is none, or None."""
    base = os.environ.get(BASE)
    if base:
        words = ["git", "show", f"{base}:{path.replace(os.sep, '/')}"]
        said = subprocess.run(words, cwd=root, capture_output=True, encoding="utf-8", errors="replace", check=False)
        return (said.stdout, None) if said.returncode == 0 else (None, f"the commit {base} has no such file")
    try:
        with open(os.path.join(root, path), encoding="utf-8", errors="replace") as file:
            return file.read(), None
    except FileNotFoundError:
        return None, "there is no such file"
    except OSError as error:
        return None, f"it cannot be read: {error.strerror}"


def kept_in(step, kit, path, root=REPOSITORY):
    """What counts of a file of verdicts."""
    text, problem = text_at(root, path)
    return Kept({}, problem, None) if text is None else read_file(step, kit, text)


def check_base(root=REPOSITORY):
    """Ends the step where GATE_BASE names no commit."""
    base = os.environ.get(BASE)
    words = ["git", "rev-parse", "--verify", "--quiet", f"{base}^{{commit}}"]
    if base and subprocess.run(words, cwd=root, capture_output=True, check=False).returncode != 0:
        sys.exit(f"{BASE}={base} names no commit: give a commit of this repository")


def writes():
    """Whether this run of a step writes its files of verdicts: in ./test none does."""
    return SHARED_FOLDER not in os.environ


def write(step, kit, path, keys, root=REPOSITORY):
    """Writes the keys of the cases that passed, by their places, or takes the file away where there is none; in ./test nothing."""
    path = os.path.join(root, path)
    if not writes():
        return
    if keys:
        write_text(f"{path}.new", text_of_file(step, kit, keys))
        os.replace(f"{path}.new", path)
    elif os.path.exists(path):
        os.remove(path)


def sample(cases, share=SHARE, most=None, by=None):
    """A share of these cases, rounded up, by a seed, or else by this commit's. Cases are pairs of a group and a place. No group has
    more than `most` of the sample while another has a case left, since each group tried costs a start."""
    by = seed() if by is None else by
    left, taken = sorted(cases, key=lambda case: sum_of(by, *case)), []
    wanted = math.ceil(len(left) * share)
    while len(taken) < wanted:
        group = left[0][0]
        some = [case for case in left if case[0] == group][: min(most or wanted, wanted - len(taken))]
        taken += some
        others = [case for case in left if case not in some]
        left = [case for case in others if case[0] != group] + [case for case in others if case[0] == group]
    return set(taken)


@dataclass
class Verdicts:
    """The cases of one file of verdicts: the key that each has now, by its place; what counts of the file; the places whose keys are
    new or changed; those of the sample."""

    step: str
    kit: str
    path: str
    keys: dict
    kept: Kept
    new: set = field(default_factory=set)
    sampled: set = field(default_factory=set)

    def tried(self):
        """The places of the cases to try."""
        return self.new | self.sampled

    def untried(self):
        """The places of the cases that have their verdicts and are not tried: they count as passed."""
        return {place for place, key in self.keys.items() if key and self.kept.keys.get(place) == key} - self.tried()

    def gone(self):
        """The places of the file that no case has any more."""
        return set(self.kept.keys) - set(self.keys)

    def places_lost(self):
        """The places of the cases that are tried since something is wrong with the file."""
        return set(self.keys) if self.kept.lost is None else set(self.keys) & self.kept.lost

    def write(self, passed, failed=(), root=REPOSITORY):
        """Writes what is known now: the cases that passed here, and those before that have the same key and did not fail here."""
        stand = {place: key for place, key in self.kept.keys.items() if self.keys.get(place) == key and place not in failed}
        found = stand | {place: self.keys[place] for place in passed if self.keys[place]}
        write(self.step, self.kit, self.path, found, root)


def choose(step, kit, files, is_all=False, share=SHARE, most=None, root=REPOSITORY):
    """The verdicts of a step, one a file. `files` has the keys of the cases by their places, by the path of the file. A case whose key
    is None is tried each time, and with `is_all` each one is."""
    check_base(root)
    chosen = [Verdicts(step, kit, path, keys, kept_in(step, kit, path, root)) for path, keys in files.items()]
    for it in chosen:
        it.new = {place for place, key in it.keys.items() if is_all or not key or it.kept.keys.get(place) != key}
    same = [(it.path, place) for it in chosen for place in it.keys if place not in it.new]
    taken = sample(same, share, most)
    for it in chosen:
        it.sampled = {place for path, place in taken if path == it.path}
    return chosen


def report(chosen, what, tally=None):
    """Prints what is wrong with files of verdicts, how many cases, which `what` names, a step has and how many it tries. Counts the
    others as passed."""
    for it in chosen:
        if it.kept.problem and it.keys:
            print(
                f"{it.path}: {it.kept.problem}: {len(it.places_lost())} of its {len(it.keys)} {what} are tried for it", flush=True
            )
        if it.gone():
            print(f"{it.path}: {len(it.gone())} of its lines are of {what} that are no more", flush=True)
    total, untried, new, sampled = (
        sum(len(part(it)) for it in chosen)
        for part in (lambda it: it.keys, Verdicts.untried, lambda it: it.new, lambda it: it.sampled)
    )
    print(f"{total} {what}: {untried} have their verdicts, {new} are new or changed, {sampled} of a sample", flush=True)
    if sampled and not seed():
        print("the sample is the same each time, since this is no clone with a commit", flush=True)
    if tally:
        tally.passed += untried


def list_tried(chosen):
    """Prints the cases that a run would try, each with why: the option `--keys` of a step."""
    for it in chosen:
        for place in sorted(it.tried()):
            print(f"{it.path}: {place}: {'new or changed' if place in it.new else 'of the sample'}", flush=True)


def tell_unwritten(step, number):
    """Says in ./test that new verdicts are not kept there, and how to keep them."""
    if number and not writes():
        print(f"{number} verdicts are new: run gate/{step} alone to keep them, and commit its files of verdicts", flush=True)


def try_cases(it, tally, run, is_kept=lambda: True, cases=len):
    """Tries the cases of a file of verdicts that are new, changed or of the sample. `run` takes their places, counts each case, and
    gives the places of those that passed and of those that failed. Where one of the sample fails, the others are tried too: `cases`
    says how many cases places have. Keeps the verdicts of those that passed, where `is_kept` says so."""
    passed, failed = run(it.tried())
    if failed & it.sampled:
        rest = it.untried()
        print(f"{it.path}: one of the sample failed, so the {len(rest)} others are tried too", flush=True)
        tally.passed -= cases(rest)
        more, wrong = run(rest)
        passed, failed = passed | more, failed | wrong
    if is_kept():
        it.write(passed, failed)
        tell_unwritten(it.step, len(passed & it.new))

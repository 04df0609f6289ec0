"""Cases of gate/gate_tests over `planted`: the keys of faults, the verdicts that it keeps by them, and faults as arms of one
build. They run over small repositories of their own."""

import contextlib
import io
import os
import sys
import tempfile
import time
from unittest import mock

import fault_arms
from case_texts import python_parts, rust_parts, script_parts
from fault_keys import Keys
from shared import verdicts
from shared.gate import BEGUN, GATE, SHARED_FOLDER, Tally, read_text, write_text
from shared.toolchain import load

planted = load("planted", os.path.join(GATE, "planted"))

STEP = """\
#!/usr/bin/env python3
import rows
from shared.tools import tell

DATA = "data.txt"


def main():
    from later import LATE

    tell(rows.LAST, DATA, LATE)


if __name__ == "__main__":
    main()
"""

TESTS = """\
#!/usr/bin/env python3
import more_tests
from shared.tools import tell

ROWS = {
    "a_row": (1, 2),
    "other_row": (3, 4),
}


def judge(number, wanted):
    assert number + 1 == wanted


def a_case():
    \"\"\"It is so, as another is.\"\"\"
    tell(helper())


def helper():
    return 1


def another():
    \"\"\"It names a_case and helper in words alone.\"\"\"


def cases():
    found = {name: judge(*row) for name, row in ROWS.items()}
    return found, a_case, another, more_tests


if __name__ == "__main__":
    cases()
"""

IN_PYTHON = """\
import unittest

import code_of_the_package
from values import FIRST, SECOND

NUMBER = 1
OTHER = 2


def helper():
    return NUMBER


class Cases(unittest.TestCase):
    def setUp(self):
        self.at = 1

    def test_one(self):
        self.assertEqual(helper(), FIRST)

    def test_two(self):
        self.assertEqual(OTHER, SECOND)
"""

IN_RUST = """\
use kept::{First, two::{Second, Third}};

const NUMBER: u32 = 1;

fn helper() -> char { '{' }

#[test]
fn one() {
    // }
    assert_eq!(helper(), First::new("}", NUMBER));
}

#[test]
fn two() {
    assert_eq!(Second, Third);
}
"""

IN_SCRIPT = """\
import test from "node:test";

import { first, second } from "./values.js";

const NUMBER = /[}"]/;

function helper() {
    return NUMBER;
}

test("one is one", () => {
    first(helper(), `}`);
});

test("two is two", () => {
    second();
});
"""

# A repository: a program that runs cases, cases of each kind, and what they name.
FILES = {
    "gate/step": STEP,
    "gate/rows.py": "FIRST = 1\nLAST = 2\n",
    "gate/shared/tools.py": "import os\n\n\ndef tell(*words):\n    print(words)\n\n\ndef unused():\n    pass\n",
    "gate/later.py": "EARLY = 1\nLATE = 2\n",
    "gate/data.txt": "data\n",
    "gate/other.txt": "data\n",
    "gate/gate_tests": TESTS,
    "gate/more_tests.py": "def further():\n    assert True\n\n\ndef more():\n    assert True\n",
    "gate/sqlite": "#!/usr/bin/env python3\n",
    "gate/postgres": "#!/usr/bin/env python3\n",
    "packages/one/code.c": "int f(void) { return 1; }\n",
    "packages/one/other.c": "int g(void) { return 1; }\n",
    "packages/one/code_of_the_package.py": "",
    "packages/one/tests/test_one.py": IN_PYTHON,
    "packages/one/tests/values.py": "FIRST = 1\nSECOND = 2\n",
    "packages/one/tests/one.rs": IN_RUST,
    "packages/one/tests/one.test.js": IN_SCRIPT,
    "packages/one/tests/values.js": "export const first = 1;\n",
    "packages/one/tests/odd.test.js": "test('one' + ' is one', () => {});\ntest('two', () => {});\n",
    "packages/sqlite/tests/cases.txt": "Calls.\nf(1)\n=> 1\ng(1)\n=> 2\n",
    "packages/postgres/sql/texts.sql": "SELECT 1;\n",
    "packages/postgres/sql/sums.sql": "SELECT 2;\n",
    "packages/postgres/expected/texts.out": "1\n",
}

# How cases of each kind are run, with one of them.
RUNS = {
    "step": ("gate/step {case}", "any"),
    "gate": ("gate/gate_tests {case}", "a_case"),
    "row": ("gate/gate_tests {case}", "a_row"),
    "more": ("gate/gate_tests {case}", "further"),
    "python": ("cd packages/one; PYTHONPATH=tests python3 -m unittest {cases}", "test_one.Cases.test_one"),
    "rust": ("cd packages/one; cargo test --test one -- --exact {cases}", "one"),
    "script": ("cd packages/one && node --test tests/one.test.js", "one is one"),
    "odd": ("cd packages/one && node --test tests/odd.test.js", "one is one"),
    "sqlite": ("gate/sqlite --only cases", "f(1)"),
    "postgres": ("gate/postgres --only installcheck", "installcheck: texts"),
    "unknown": ("true", "any"),
}

# Changes that must change the key of a fault: its kind, the file, the old text and the new.
MOVES = (
    ("step", "packages/one/code.c", "return 1", "return 2"),
    ("step", "gate/step", "DATA, LATE)", "DATA, 1)"),
    ("step", "gate/rows.py", "LAST = 2", "LAST = 3"),
    ("step", "gate/shared/tools.py", "print(words)", "print()"),
    ("step", "gate/later.py", "LATE = 2", "LATE = 3"),
    ("step", "gate/data.txt", "data", "more"),
    ("gate", "gate/gate_tests", "tell(helper())", "tell(helper)"),
    ("gate", "gate/gate_tests", "    return 1", "    return 2"),
    ("gate", "gate/shared/tools.py", "print(words)", "print()"),
    ("row", "gate/gate_tests", "(1, 2)", "(1, 3)"),
    ("row", "gate/gate_tests", "number + 1", "number"),
    ("row", "gate/gate_tests", "judge(*row)", "judge(1, *row)"),
    ("more", "gate/more_tests.py", "further():\n    assert True", "further():\n    assert 1"),
    ("python", "packages/one/tests/test_one.py", "helper(), FIRST", "helper(), 1"),
    ("python", "packages/one/tests/test_one.py", "NUMBER = 1", "NUMBER = 2"),
    ("python", "packages/one/tests/test_one.py", "self.at = 1", "self.at = 2"),
    ("python", "packages/one/tests/test_one.py", "from values import FIRST", "from one import FIRST"),
    ("python", "packages/one/tests/values.py", "FIRST = 1", "FIRST = 2"),
    ("rust", "packages/one/tests/one.rs", '"}", NUMBER', '"{", NUMBER'),
    ("rust", "packages/one/tests/one.rs", "u32 = 1", "u32 = 2"),
    ("rust", "packages/one/tests/one.rs", "{ '{' }", "{ '}' }"),
    ("rust", "packages/one/tests/one.rs", "use kept::", "use three::"),
    ("script", "packages/one/tests/one.test.js", "`}`", "`{`"),
    ("script", "packages/one/tests/one.test.js", "return NUMBER", "return 1"),
    ("script", "packages/one/tests/one.test.js", '[}"]', '[{"]'),
    ("script", "packages/one/tests/values.js", "first = 1", "first = 2"),
    ("odd", "packages/one/tests/odd.test.js", "'two'", "'three'"),
    ("sqlite", "packages/sqlite/tests/cases.txt", "f(1)\n=> 1", "f(1)\n=> 2"),
    ("sqlite", "gate/sqlite", "python3\n", "python3\nimport os\n"),
    ("postgres", "packages/postgres/sql/texts.sql", "1", "2"),
    ("postgres", "packages/postgres/expected/texts.out", "1", "2"),
    ("unknown", "packages/one/tests/values.py", "FIRST = 1", "FIRST = 2"),
)

# Changes that must not.
STAYS = (
    ("step", "gate/rows.py", "FIRST = 1", "FIRST = 2"),
    ("step", "gate/shared/tools.py", "    pass", "    return"),
    ("step", "gate/later.py", "EARLY = 1", "EARLY = 2"),
    ("step", "gate/other.txt", "data", "more"),
    ("step", "packages/one/other.c", "return 1", "return 2"),
    ("gate", "gate/gate_tests", "and helper in words", "and helper in texts"),
    ("gate", "gate/gate_tests", "(1, 2)", "(1, 3)"),
    ("gate", "gate/more_tests.py", "assert True", "assert 1"),
    ("row", "gate/gate_tests", "(3, 4)", "(3, 5)"),
    ("row", "gate/gate_tests", "tell(helper())", "tell(helper)"),
    ("more", "gate/more_tests.py", "more():\n    assert True", "more():\n    assert 1"),
    ("python", "packages/one/tests/test_one.py", "OTHER, SECOND", "OTHER, 2"),
    ("python", "packages/one/tests/test_one.py", "OTHER = 2", "OTHER = 3"),
    ("python", "packages/one/tests/values.py", "SECOND = 2", "SECOND = 3"),
    ("python", "packages/one/tests/one.rs", "Second, Third", "Third, Second"),
    ("rust", "packages/one/tests/one.rs", "Second, Third)", "Third, Second)"),
    ("rust", "packages/one/tests/one.rs", "{Second, Third}", "{Second, Third, Fourth}"),
    ("script", "packages/one/tests/one.test.js", "second();", "second(1);"),
    ("sqlite", "packages/sqlite/tests/cases.txt", "g(1)\n=> 2", "g(1)\n=> 3"),
    ("postgres", "packages/postgres/sql/sums.sql", "2", "3"),
)


def fault_of(kind, **lines):
    """A fault whose case is of that kind, with other lines in its head or its block."""
    run, case = RUNS[kind]
    head = {
        "copy": "gate packages",
        "run": run,
        "failed": "{case}: FAILED",
        **{key: it for key, it in lines.items() if key != "new"},
    }
    edits = [("packages/one/code.c", "return 1", lines.get("new", "return 0"))]
    return planted.Fault("faults/one.faults:1", "a fault", edits, case, planted.Head({key: [text] for key, text in head.items()}))


@contextlib.contextmanager
def repository_of(files):
    with tempfile.TemporaryDirectory(prefix="gate-tests-") as root:
        for name, text in files.items():
            write_text(os.path.join(root, name), text)
        yield root


def key_of(fault, *change):
    """The key of a fault in the repository of FILES, once it is changed so: a file, the old text and the new."""
    files = dict(FILES)
    if change:
        name, old, new = change
        assert files[name].count(old) >= 1, f"{name} has no {old!r}"
        files[name] = files[name].replace(old, new)
    with repository_of(files) as root:
        return Keys(root, verdicts.sum_of).key(fault)


def keys_of_faults_have_all_that_decides():
    """The case with all that it names, the program with what it imports, the edited file."""
    wrong = [row for row in MOVES if key_of(fault_of(row[0])) == key_of(fault_of(row[0]), *row[1:])]
    assert not wrong, wrong


def keys_of_faults_have_nothing_else():
    """No other case, helper, row or file."""
    wrong = [row for row in STAYS if key_of(fault_of(row[0])) != key_of(fault_of(row[0]), *row[1:])]
    assert not wrong, wrong


def keys_of_faults_have_edits_and_heads():
    """Each of these gives another key. Why a list is tried alone, and the programs that it needs, give the same."""
    words = {
        "copy": "gate",
        "prepare": "true",
        "build": "true",
        "run": "gate/step",
        "failed": "no",
        "archive": "proved",
        "new": "x",
    }
    keys = [key_of(fault_of("step", **{key: text})) for key, text in words.items()]
    assert len({*keys, key_of(fault_of("step"))}) == len(words) + 1, keys
    assert key_of(fault_of("step", needs="cc", alone="so")) == key_of(fault_of("step"))


def files_that_are_not_understood_are_one_part():
    assert [reader(text) for reader, text in ((python_parts, "def"), (rust_parts, "fn f() {"), (script_parts, "f("))] == [
        None
    ] * 3
    with repository_of({"one.rs": "fn f() {", "two.py": "def"}) as root:
        files = planted.Keys(root, verdicts.sum_of).files
        assert [it.text for name in ("one.rs", "two.py") for it in files.parts(name)] == ["fn f() {", "def"]


SEE = """\
is=0
for number in 1 2 3; do
    [ ! -e no$number ] || is=1
    [ ! -e no$number ] || echo case $number: FAILED
    grep -q good f$number.txt || is=1
    grep -q good f$number.txt || [ -e blind$number ] || echo case $number: FAILED
done
exit $is
"""


def list_of_faults(numbers=(1, 2, 3), new="bad"):
    blocks = [f"fault: fault {n}\nfile: f{n}.txt\nold: good\nnew: {new}\ncase: case {n}\n" for n in numbers]
    return "\n".join(["copy: .\nrun: bash ./see.sh\nfailed: {case}: FAILED\nalone: so\n", *blocks])


def plant_in(root, *words):
    """What gate/planted prints in a repository, and its status."""
    variables = {name: text for name, text in os.environ.items() if name not in (SHARED_FOLDER, verdicts.BASE)}
    with contextlib.ExitStack() as stack:
        printed = stack.enter_context(contextlib.redirect_stdout(io.StringIO()))
        stack.enter_context(mock.patch.dict(os.environ, {**variables, "JOBS": "1"}, clear=True))
        stack.enter_context(mock.patch.multiple(planted, REPOSITORY=root, FAULTS=os.path.join(root, "faults")))
        stack.enter_context(mock.patch.object(sys, "argv", ["planted", *words]))
        stack.enter_context(mock.patch.object(planted, "own_folder", lambda: tempfile.TemporaryDirectory(prefix="gate-tests-")))
        try:
            planted.main()
            status = 0
        except SystemExit as error:
            status = error.code
    return status, printed.getvalue()


@contextlib.contextmanager
def three_faults(**files):
    """A repository whose three faults are seen, with their verdicts."""
    files |= {"see.sh": SEE, "faults/one.faults": list_of_faults(), **{f"f{n}.txt": "good\n" for n in (1, 2, 3)}}
    with repository_of(files) as root:
        status, printed = plant_in(root)
        assert status == 0 and "3 faults: 0 have their verdicts, 3 are new or changed" in printed, printed
        assert "there is no such file: 3" in printed and "are tried for it" in printed, printed
        yield root


def count_of(printed):
    return printed.rstrip("\n").rpartition("\n")[2]


def a_fault_with_its_verdict_is_not_tried_again():
    """But for the sample, by which one in three is tried here. All count as before."""
    with three_faults() as root:
        status, printed = plant_in(root)
        assert status == 0 and "3 faults: 2 have their verdicts, 0 are new or changed, 1 of a sample" in printed, printed
        assert count_of(printed) == "6 passed, 0 failed, 0 skipped" and "1 faults were planted" in printed, printed
        _, printed = plant_in(root, "--all")
        assert "3 faults: 0 have their verdicts, 3 are new" in printed and "3 faults were planted" in printed, printed


def a_fault_that_changed_is_tried():
    """So is each whose file, case or head changed, and what `--keys` lists. A new fault has no verdict until it is seen."""
    with three_faults() as root:
        write_text(os.path.join(root, "f2.txt"), "good, better\n")
        _, printed = plant_in(root, "--keys")
        assert "planted/one: fault 2: new or changed\n" in printed and "FAILED" not in printed, printed
        write_text(os.path.join(root, "blind2"), "")
        status, printed = plant_in(root)
        assert status == 1 and "fault 2: FAILED: `case 2` does not see it" in printed, printed
        text = read_text(os.path.join(root, verdicts.path_of("planted"), "one"))
        assert "fault 2" not in text, text


def a_verdict_by_a_case_that_fails_anyway_is_none():
    """A fault is not seen by a case that fails with no fault."""
    files = {"see.sh": SEE, "faults/one.faults": list_of_faults((1,)), "f1.txt": "good\n", "no1": ""}
    with repository_of(files) as root:
        status, printed = plant_in(root)
        assert status == 1 and "case 1, with no fault: FAILED" in printed, printed
        assert not os.path.exists(os.path.join(root, verdicts.path_of("planted"), "one")), printed


def a_sample_that_is_not_seen_has_its_list_tried():
    """Nothing of the keys changed, and no case sees a fault any more."""
    with three_faults() as root:
        for number in (1, 2, 3):
            write_text(os.path.join(root, f"blind{number}"), "")
        status, printed = plant_in(root)
        assert status == 1 and "so the 2 others of its list are tried" in printed, printed
        assert count_of(printed) == "3 passed, 3 failed, 0 skipped", printed
        assert not os.path.exists(os.path.join(root, verdicts.path_of("planted"), "one")), printed


def faults_that_come_too_late_are_skipped():
    """Where ./test began too long ago; else, and in a run of its own, all are tried."""
    with three_faults() as root:
        write_text(os.path.join(root, "faults", "one.faults"), list_of_faults(new="worse"))
        for begun, counts in ((0, "0 passed, 0 failed, 6 skipped"), (time.time(), "6 passed, 0 failed, 0 skipped")):
            with mock.patch.dict(os.environ, {BEGUN: str(begun)}):
                status, printed = plant_in(root)
            assert status == 0 and count_of(printed) == counts, printed
            assert begun or "3 faults of one: skipped: ./test tries new ones for 130 minutes" in printed, printed


def a_verdict_that_was_changed_by_hand_is_told():
    with three_faults() as root:
        path = os.path.join(root, verdicts.path_of("planted"), "one")
        write_text(path, read_text(path).replace("fault 2", "fault 3"))
        status, printed = plant_in(root)
        assert status == 0 and "planted/one: 1 of its lines were changed" in printed, printed
        assert "2 are new or changed" in printed, printed


def a_list_that_needs_no_archive_waits_for_none():
    """The others have the archive that they name, and the proved one where their head says so."""
    needs = {"true": "none", "cc $ARCHIVE": "any", "ls $DIST": "any"}
    heads = {run: planted.Head({"run": [run], "copy": ["gate"]}).archive() for run in needs}
    assert heads == needs, heads
    assert planted.Head({"run": ["true"], "copy": ["gate dist"]}).archive() == "any"
    assert planted.Head({"run": ["cc $ARCHIVE"], "archive": ["proved"]}).archive() == "proved"
    asked = []

    def archive_of(path, is_proved):
        asked.append((path, is_proved))
        return contextlib.nullcontext("an archive")

    faults = [
        fault_of("step", run=run, **more) for run, more in (("true", {}), ("ls $DIST", {}), ("ls $DIST", {"archive": "proved"}))
    ]
    with mock.patch.multiple(
        planted, archive_of=archive_of, lay_out=lambda *_: None, plant_all=lambda *words: asked.append(len(words[1]))
    ):
        with mock.patch.object(planted, "own_folder", lambda: contextlib.nullcontext("a folder")):
            planted.plant_over_archives(Tally(), faults, None, None)
    assert asked == [1, (None, False), 1, (None, True), 1], asked


def a_command_has_a_limit_of_processor_seconds():
    """So it ends where a fault has it go on for ever, and does not end since the machine has much other work."""
    with repository_of({}) as folder:
        copy = planted.Copy(folder, 0, {})
        os.makedirs(copy.root)
        # another limit than that under which this may run
        with mock.patch.object(planted, "LONGEST", planted.LONGEST - 1):
            assert copy.run("ulimit -t") == (0, f"{planted.LONGEST}\n")


IN_C = """\
#include <stdio.h>
#define THREE 3

static int one(void) {
    return 1;
}

/* } */
static int two(int number) {
    if (number == '}') goto end;
    return 2;
end:
    return 0;
}

int main(void) {
    static const int FOUR[] = {4};
    printf("1: %s\\n", one() == 1 ? "passed" : "FAILED");
    printf("2: %s\\n", two(0) == 2 ? "passed" : "FAILED");
    printf("3: %s\\n", THREE == 3 ? "passed" : "FAILED");
    printf("4: %s\\n", FOUR[0] == 4 ? "passed" : "FAILED");
    return one() != 1 || two(0) != 2 || THREE != 3 || FOUR[0] != 4;
}
"""

FAULTS_IN_C = """\
copy: code.c
build: cc -w code.c -o code
run: ./code
failed: {case}: FAILED

fault: an arm
file: code.c
old: return 1;
new: return 0;
case: 1

fault: another arm of one function
old: return 1;
new: return 7;

fault: a label twice
old: return 2;
new: return 1;
case: 2

fault: a macro
old: THREE 3
new: THREE 4
case: 3

fault: a table in a function
old: = {4}
new: = {5}
case: 4

fault: an arm that nothing sees
old: THREE != 3
new: 3 != THREE
case: 1
"""


def faults_of_c_are_arms_of_one_build():
    """Each is on alone. One that is no arm, whose arm does not compile or that no case sees as an arm is planted as before."""
    with repository_of({"code.c": IN_C, "faults/one.faults": FAULTS_IN_C}) as root:
        status, printed = plant_in(root, "one")
        said = {
            "a macro: it is no part of the body of one function",
            "a label twice: it does not compile as an arm",
            "an arm that nothing sees: it is not seen as an arm",
            "6 faults: 3 were seen as arms of one build",
            "an arm that nothing sees: FAILED: `1` does not see it",
        }
        lacking = [it for it in said if it not in printed]
        assert status == 1 and not lacking and count_of(printed) == "9 passed, 1 failed, 0 skipped", (lacking, printed)


def a_build_whose_arms_change_a_case_counts_for_nothing():
    """Where a case fails with no arm on, each fault is planted as before."""
    with repository_of({"code.c": IN_C, "faults/one.faults": FAULTS_IN_C.split("fault: a label")[0]}) as root:
        with mock.patch.object(fault_arms, "SWITCH", "static int planted_fault_is(int number) { return number == 1; }\n"):
            status, printed = plant_in(root, "one")
        assert status == 0 and "0 were seen as arms" in printed and "an arm: it is not seen as an arm" in printed, printed


def arms_are_taken_out_again():
    with repository_of({"code.c": IN_C, "faults/one.faults": FAULTS_IN_C}) as root:
        with mock.patch.object(planted, "FAULTS", os.path.join(root, "faults")):
            faults = planted.faults_of("one")
        for status in (0, 1):
            arms = fault_arms.Arms(root, faults)
            arms.build(lambda status=status: (status, ""))
            assert ("planted_fault_is" in read_text(os.path.join(root, "code.c"))) is (status == 0)
            arms.take_out()
            assert read_text(os.path.join(root, "code.c")) == IN_C

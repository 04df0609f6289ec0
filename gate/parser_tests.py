"""Cases of gate/gate_tests over the readers of sources on which the gate rests: `items`, `definitions`, `wrong` and `test_crates`,
and over `crate_tests`, `participles` and `misplaced`, which read what is printed, names, and the places of wrong bodies."""

import contextlib
import importlib.machinery
import importlib.util
import io
import os
import subprocess
import tempfile

from shared.definitions import declarations, imports, module_of, words_of
from shared.gate import GATE, Tally, read_text, write_text
from shared.items import contracts, exports_of, first_sentence, implementations, public_items
from shared.named import Named, named_as_functions, tried_by_twins
from shared.seen import modules_that_see
from shared.test_crates import folders_of_no_crate, is_no_library, is_top, lay_inside, lay_out, tests_of
from shared.wrong import Wrong, is_in_function, put_body, read, right_bodies, unread_files, wrong_bodies

ROOT = """//! A library.
mod hidden;
pub mod open;

pub use hidden::Known;
pub use open::{Moved, moved};
"""

HIDDEN = """/// A known type, as [`Moved`](crate::Moved) is. More words.
#[derive(Clone, Copy)]
pub struct Known {
    value: u32,
}

/// A type that the root does not pass on.
pub struct Unknown(u32);

impl<'a> Known {
    /// The first value.
    pub const FIRST: Known = Known { value: 0 };

    /// Returns the value. Then more.
    #[inline]
    pub const fn value(
        self,
        step: u32,
    ) -> u32
        requires { step ≤ 1 }
        ensures value { result ≡
            self.value }
    {
        self.value
    }

    pub(crate) fn inner(self) -> u32 {
        self.value
    }

    fn own(self) {}
}

impl PartialEq for Known {
    fn eq(&self, other: &Self) -> bool
        ensures { result ≡ true }
    {
        true
    }
}
"""

OPEN = """/// A trait of this module.
pub trait Moved: Sized {
    /// Moves it.
    fn moved(self) -> Self
        ensures { result ≡ self };
}

/// Moves nothing.
pub fn moved() {}

/// Stays here.
pub fn stays()
    ensures { true ≡ true }
{}

fn private() {}
"""

FILES = {
    "crates/one/src/lib.rt": ROOT,
    "crates/one/src/hidden.rt": HIDDEN,
    "crates/one/src/open.rt": OPEN,
    "crates/one/src/tests.rt": "pub fn test() {}\n",
    "crates/one/tests/mod.rs": "pub fn other() {}\n",
    "crates/uses/src/lib.rt": "pub fn caller() {}\n",
}


def library_items():
    """The public items of the library above, by their full names."""
    return {item.full_name(): item for item in public_items(FILES)}


def items_are_those_that_the_root_passes_on():
    names = {"Known", "Known::FIRST", "Known::value", "Moved", "Moved::moved", "moved", "open::stays"}
    assert set(library_items()) == names, set(library_items())


def items_have_their_docs_heads_and_clauses():
    value, known = library_items()["Known::value"], library_items()["Known"]
    assert value.signature == "const fn value(self, step: u32) -> u32", value.signature
    assert value.doc == "Returns the value. Then more.", value.doc
    assert value.clauses.split() == "requires { step ≤ 1 } ensures value { result ≡ self.value }".split(), value.clauses
    assert HIDDEN.split("\n")[value.line - 1].strip() == "pub const fn value(", value.line
    assert known.derived == ("Clone", "Copy") and first_sentence(known.doc) == "A known type, as `Moved` is.", known
    assert library_items()["Known::FIRST"].signature == "const FIRST: Known"
    assert library_items()["Moved::moved"].clauses.strip() == "ensures { result ≡ self };", library_items()[
        "Moved::moved"
    ].clauses


def contracts_are_those_of_private_functions_too():
    clauses = {(owner, name): text for owner, name, text in contracts(HIDDEN)}
    assert set(clauses) == {("Known", "value"), ("Known", "inner"), ("Known", "own"), ("Known", "eq")}, set(clauses)
    assert clauses["Known", "eq"].strip() == "ensures { result ≡ true }" and not clauses["Known", "own"]
    assert list(implementations(HIDDEN)) == [("Known", "PartialEq", HIDDEN[: HIDDEN.index("impl PartialEq")].count("\n") + 1)]


def exports_are_found_with_their_clauses():
    text = '/// Adds.\n#[unsafe(no_mangle)]\npub extern "C" fn muxandu_add(a: u32) -> u32\n    ensures status { result ≡ a }\n{\n    a\n}\n'
    (call,) = exports_of("crates/muxandu_c/src/sums.rt", text)
    assert (call.name, call.doc, call.line, call.clauses.strip()) == ("muxandu_add", "Adds.", 3, "ensures status { result ≡ a }")


ANTT = """-- A module.
use Rattle.std.specs.Prelude.{◌≡◌, ℕ};
pub use Rattle.one.specs.Days as Days;

-- The next number.
abbrev next : ℕ → ℕ
next n = add n 1

-- Two numbers.
record Pair where
  first : ℕ
  second : ℕ

data Side : Type where
  Left : Side
  Right : Side

infix 4 ◌<<◌
-- Less by two.
unfoldable ◌<<◌ : ℕ → ℕ → Type
a << b = next a ≤ b

next-first : next 0 ≡ 1
next-first = refl

ruleset all = (next-first, Days.known)
"""


def definitions_have_their_names_comments_and_lines():
    known = {each.name: each for each in declarations("crates/one/specs/Numbers.antt", ANTT)}
    assert list(known) == ["next", "Pair", "Side", "◌<<◌", "next-first", "all"], list(known)
    assert known["next"].comment == ["-- The next number."] and known["next"].size == 2, known["next"]
    assert known["Pair"].names == {"Pair", "first", "second"} and known["Side"].names == {"Side", "Left", "Right"}
    assert known["◌<<◌"].size == 2 and "a << b" in known["◌<<◌"].text(), known["◌<<◌"]
    lines = ANTT.split("\n")
    assert all(name in lines[each.line - 1] for name, each in known.items()), known


def definitions_are_told_from_lemmas():
    known = [each.name for each in declarations("crates/one/specs/Numbers.antt", ANTT) if each.is_definition]
    assert known == ["next", "Pair", "Side", "◌<<◌"], known


def imports_lead_to_their_modules():
    assert imports(ANTT) == {"◌≡◌": "std.specs.Prelude", "ℕ": "std.specs.Prelude", "Days": "one.specs.Days"}, imports(ANTT)
    assert module_of("crates/one/specs/more/Numbers.antt") == "one.specs.more.Numbers"
    assert words_of("(next a ≤ b) × Days.known") == {"next", "a", "≤", "b", "×", "Days", "known"}


EDIT = """says: It adds two.
function: next
clause: value
file: src/lib.rt
after: fn next
old: + 1
new: + 2
old: return
new: break
"""

EDITS = """file: src/lib.rt

# adds_two
says: It adds two.
function: next
clause: value
after: fn next
old: + 1
new: + 2

# adds_nothing
says: It adds nothing, and the test is another.
function: last
clause: ensures
after: fn last
old: + 1
new: + 0
file: src/more.rt
old: # test
new: # other

# breaks
function: last
old: return
new: break
"""


def crate_with(folder, **files):
    """A crate with a wrong body, and files of this name."""
    for name, text in {
        "src/lib.rt": "fn next { n + 1 }\nfn last { n + 1; return }\n",
        "must-fail/adds_two.edit": EDIT,
        **files,
    }.items():
        os.makedirs(os.path.dirname(os.path.join(folder, name)), exist_ok=True)
        write_text(os.path.join(folder, name), text)
    return folder


def read_one(folder):
    """The wrong body of the file above."""
    (wrong,) = read(os.path.join(folder, "must-fail", "adds_two.edit"))
    return wrong


def wrong_bodies_are_read_as_they_are():
    with tempfile.TemporaryDirectory() as folder:
        wrong = read_one(crate_with(folder, **{"right/same.edit": EDIT, "wrong/lib.edits": EDITS}))
        assert (wrong.name, wrong.says, wrong.function, wrong.clause) == ("adds_two", "It adds two.", "next", "value"), wrong
        assert wrong.changes == [("src/lib.rt", "fn next", "+ 1", "+ 2"), ("src/lib.rt", "", "return", "break")], wrong.changes
        assert [each.name for each in wrong_bodies(folder)] == ["adds_two", "adds_two", "adds_nothing", "breaks"]
        assert [each.name for each in wrong_bodies(folder, ["breaks"])] == ["breaks"]
        assert [each.name for each in right_bodies(folder)] == ["same"]


def files_of_many_bodies_are_read_body_by_body():
    with tempfile.TemporaryDirectory() as folder:
        crate_with(folder, **{"wrong/more/lib.edits": EDITS})
        two, none, breaks = wrong_bodies(folder, parts=["wrong"])
        assert (two.name, two.says, two.function, two.clause) == ("adds_two", "It adds two.", "next", "value"), two
        assert two.changes == [("src/lib.rt", "fn next", "+ 1", "+ 2")], two.changes
        changes = [("src/lib.rt", "fn last", "+ 1", "+ 0"), ("src/more.rt", "", "# test", "# other")]
        assert (none.name, none.clause, none.changes) == ("adds_nothing", "ensures", changes), none
        assert (breaks.name, breaks.says, breaks.clause) == ("breaks", "", ""), breaks
        assert breaks.changes == [("src/lib.rt", "", "return", "break")], breaks.changes
        assert len({each.place for each in (two, none, breaks)}) == 3 and two.path == none.path, two.place


def files_without_bodies_have_none():
    for text in ("", "file: src/lib.rt\n", "says: a body before its name\nold: a\nnew: b\n"):
        with tempfile.TemporaryDirectory() as folder:
            crate_with(folder, **{"wrong/lib.edits": text})
            assert not wrong_bodies(folder, parts=["wrong"]), text


def files_of_another_ending_are_named():
    with tempfile.TemporaryDirectory() as folder:
        others = ("wrong/adds_two.edit", "wrong/notes.txt", "must-fail/lib.edits", "right/lib.edits")
        crate_with(folder, **{"wrong/lib.edits": EDITS, "wrong/VERDICTS": "", **dict.fromkeys(others, EDIT)})
        assert {os.path.relpath(path, folder) for path in unread_files(folder)} == set(others)
        assert [each.name for each in wrong_bodies(folder, parts=["wrong"])] == ["adds_two", "adds_nothing", "breaks"]


def wrong_bodies_are_put_at_their_places():
    with tempfile.TemporaryDirectory() as folder:
        texts = {}
        crate_with(folder)
        assert put_body(folder, texts, read_one(folder)) is None
        assert texts == {"src/lib.rt": "fn next { n + 2 }\nfn last { n + 1; break }\n"}, texts


# Changes of the edit above that have no place, and what is said of each.
MISPLACED = (
    ("old: return", "old: fn", "an `old:` text stands 2 times in src/lib.rt"),
    ("old: return", "old: continue", "an `old:` text stands 0 times in src/lib.rt"),
    ("after: fn next", "after: fn first", "an `after:` text does not stand once in src/lib.rt"),
    ("after: fn next", "after: fn", "an `after:` text does not stand once in src/lib.rt"),
    ("file: src/lib.rt", "file: src/none.rt", "there is no file src/none.rt"),
    (EDIT[EDIT.index("after") :], "", "it changes nothing"),
)


def wrong_bodies_without_a_place_are_named():
    for old, new, problem in MISPLACED:
        with tempfile.TemporaryDirectory() as folder:
            crate_with(folder, **{"must-fail/adds_two.edit": EDIT.replace(old, new)})
            texts = {}
            fault = put_body(folder, texts, read_one(folder))
            assert fault == problem and not texts, f"{new}: {fault}, {texts}"


# A source, and changes of it: the function, the old text after another, and whether the change is in that function alone.
SOURCE_OF_TWO = """\
const STEP: u64 = 1;
pub const fn next(n: u64) -> u64 {
    n + STEP
}
impl Of {
    pub(crate) fn first(self) -> u64 { 0 }
    const LAST: u64 = 9;
    /// The last number.
    pub extern "C" fn last(self) -> u64 {
        next(LAST)
    }
}
"""
REACHES = (
    ("next", "", "n + STEP", True),
    ("module::Of::last", "fn last", "LAST", True),
    ("module::Of::first", "", "{ 0 }", True),
    ("next", "", "u64 = 1", False),
    ("next", "", "next(LAST)", False),
    ("module::Of::last", "", "u64 = 9", False),
    ("module::Of::last", "", "/// The last", False),
    ("next", "", "n + STEP\n}\nimpl", False),
)


def changes_of_wrong_bodies_are_in_their_function_or_not():
    with tempfile.TemporaryDirectory() as folder:
        crate_with(folder, **{"src/lib.rt": SOURCE_OF_TWO})
        for function, after, old, is_in in REACHES:
            wrong = Wrong("", "", function=function, changes=[("src/lib.rt", after, old, "")])
            assert is_in_function(folder, wrong) == is_in, f"{function}: {old!r}"
        twice = Wrong("", "", function="next", changes=[("src/lib.rt", "", old, "") for old in ("n + STEP", "u64 = 1")])
        assert not is_in_function(folder, twice)


# A crate with a law and a definition that a contract cites, and changes of it: the function, the file, the old text, and the modules
# whose functions can see the change, or None where any may.
SEEN_CRATE = {
    "src/lib.rt": "mod laws;\nmod numbers;\nmod texts;\n",
    "src/laws.rt": "pub fn sums_are_even()\n    ensures { SumsAreEven }\n{}\n",
    "src/numbers.rt": "const STEP: u64 = 1;\npub const FIRST: u64 = 0;\n\npub fn next(n: u64) -> u64\n    ensures { result ≡ sum n }\n"
    "{\n    n + STEP\n}\n\n/// The last number.\nfn last() -> u64 {\n    next(0)\n}\n",
    "src/texts.rt": "fn text() -> u64 {\n    numbers::FIRST\n}\n",
    "specs/Sums.antt": "-- a sum\npub sum : ℕ → ℕ\nsum n = n + 1\n\n-- an even sum\npub record Even (n : ℕ) : Type 0 where\n"
    "  pub half : ℕ\n  pub twice : n ≡ half + half\n\n-- sums are even\nabbrev pub SumsAreEven : Type 0\n"
    "SumsAreEven = (n : ℕ) → Even (n + n)\n",
    "proofs/SumLemmas.antt": "pub even : (n : ℕ) → Even (n + n)\neven n = record { half = n; twice = refl }\n",
    "proofs/laws/sums_are_even/Answers.antt": "pub returns : goal.returns\nreturns c = even\n",
    "proofs/numbers/next/Answers.antt": "pub returns : goal.returns\nreturns c = refl\n",
}
SEEN = (
    ("numbers::next", "src/numbers.rt", "n + STEP", []),
    ("numbers::next", "src/numbers.rt", "STEP: u64 = 1", ["numbers"]),
    ("numbers::next", "src/numbers.rt", "/// The last", ["numbers"]),
    ("numbers::next", "src/numbers.rt", "next(0)", None),
    ("numbers::next", "src/numbers.rt", "FIRST: u64 = 0", None),
    ("numbers::next", "proofs/numbers/next/Answers.antt", "returns c", ["numbers"]),
    ("numbers::next", "proofs/SumLemmas.antt", "even n", None),
    ("laws::sums_are_even", "specs/Sums.antt", "→ Even (n + n)", ["laws"]),
    ("laws::sums_are_even", "specs/Sums.antt", "n ≡ half + half", ["laws"]),
    ("laws::sums_are_even", "specs/Sums.antt", "sum n = n + 1", None),
)


def changes_are_seen_by_modules_or_by_any_function():
    with tempfile.TemporaryDirectory() as folder:
        crate_with(folder, **SEEN_CRATE)
        for function, file, old, modules in SEEN:
            found = modules_that_see(folder, [Wrong("", "", function=function, changes=[(file, "", old, "")])])
            assert found == modules, f"{function}: {old!r}: {found}"
        write_text(os.path.join(folder, "src", "texts.rt"), "ghost use Rattle.a.specs.Sums.{Even};\n")
        wrong = Wrong("", "", function="laws::sums_are_even", changes=[("specs/Sums.antt", "", "n ≡ half + half", "")])
        assert modules_that_see(folder, [wrong]) is None


def list_of(name):
    """The module of a list of `lint`, a program of this folder."""
    loader = importlib.machinery.SourceFileLoader(name, os.path.join(GATE, name))
    module = importlib.util.module_from_spec(importlib.util.spec_from_loader(name, loader))
    loader.exec_module(module)
    return module


# Files, and the names of each that are bare.
NAMED = (
    ("crates/one/src/sums.rt", "pub fn moved<T>() {}\nfn move_by() {}\nfn failed() {}\n// fn of a shape\n", ["moved"]),
    ("crates/one/specs/Sums.antt", "abbrev pub kept : ℕ\nunfoldable pub whole : ℕ\npub kept-none : ℕ\n", ["kept", "whole"]),
    ("crates/one/proofs/Sums.antt", "abbrev pub kept : ℕ\n", []),
    ("gate/step", "#!/usr/bin/env python3\ndef _told():\n    def count_of():\n", ["_told"]),
    ("gate/words", "#!/usr/bin/env bash\ndef told():\n", []),
    ("packages/one/one.js", "export function held(a) {}\nconst put = 1;\n    const said = 2;\n", ["held", "put"]),
    ("packages/one/one.c", "static int shown(int a) {\n    return told(a);\n}\n", ["shown"]),
    ("packages/one/made.py", '"""Made by make/one."""\ndef told():\n', []),
    ("packages/one/tests/one.py", "def told():\n", []),
)


def names_that_are_bare_are_listed():
    participles = list_of("participles")
    for path, text, names in NAMED:
        bare = [name for name, _ in participles.names_of(path, text) if participles.is_bare(name)]
        assert bare == names, f"{path}: {bare}"
    assert list(participles.names_of("gate/one.py", "\ndef one():\n")) == [("one", 2)]


# Files of a crate `one`, and what is wrong with the place of the first wrong body that they have.
PLACES = (
    ({"wrong/lib.edits": EDITS}, None),
    ({"wrong/more.edits": EDITS}, "its file must be wrong/lib.edits"),
    ({"wrong/lib.edits": EDITS.replace("function: next", "function: first")}, "there is no function first"),
    ({"wrong/lib.edits": EDITS.replace("function: next", "function: more::next")}, "there is no module more"),
    ({"wrong/lib.edits": EDITS.replace("clause: value\n", "")}, "it names no function or no clause"),
)


def places_of_wrong_bodies_are_those_of_their_sources():
    misplaced = list_of("misplaced")
    for files, problem in PLACES:
        with tempfile.TemporaryDirectory() as root, contextlib.ExitStack() as stack:
            stack.callback(setattr, misplaced, "REPOSITORY", misplaced.REPOSITORY)
            misplaced.REPOSITORY = root
            folder = crate_with(os.path.join(root, "crates", "one"), **files)
            sources = {"crates/one/src/lib.rt": "fn next { n + 1 }\nfn last { n + 1; return }\n"}
            fault = misplaced.fault_of_place(sources, "one", wrong_bodies(folder, parts=["wrong"])[0])
            assert fault == problem, f"{sorted(files)}: {fault}"


# A repository of four crates: two libraries with tests, a static library with tests, and a program.
TESTED = {
    "crates.txt": "# Each crate.\none:\ntwo: one\nfor_c staticlib: one two\nprogram: one two\n",
    "crates/one/src/lib.rt": "",
    "crates/one/tests/mod.rs": "mod days;\nmod days_of_weeks;\n\n#[test]\nfn first(rt: HostRuntime) {}\n",
    "crates/one/tests/days.rs": "#[test]\n#[tactic(auto)]\n// A day.\nfn begins() {}\n\nfn helper() {}\n",
    "crates/one/tests/days_of_weeks.rs": "mod short;\n",
    "crates/one/tests/days_of_weeks/short.rs": "use one::Day;\n\n#[test]\nfn ends() {}\n",
    "crates/two/src/lib.rt": "",
    "crates/two/tests/mod.rs": "use one::Day;\nuse two::Week;\n\n#[test]\nfn begins() {}\n",
    "crates/for_c/src/lib.rt": "mod calls;\n",
    "crates/for_c/tests/mod.rs": "use crate::calls::call;\n",
    "crates/program/src/main.rt": "",
    "crates/gone/tests/mod.rs": "",
}


@contextlib.contextmanager
def tested_repository(**more):
    """The path of that repository, with these files of tests of `one` too."""
    with tempfile.TemporaryDirectory() as root:
        for path, text in {**TESTED, **{f"crates/one/tests/{name}": text for name, text in more.items()}}.items():
            write_text(os.path.join(root, path), text)
        yield root


def names_of_tests(root):
    """The names of the tests of `one`, or why they cannot be read."""
    try:
        return sorted(tests_of("one", root))
    except ValueError as error:
        return str(error)


def tests_are_named_by_their_files():
    with tested_repository() as root:
        names = names_of_tests(root)
        assert names == ["days::begins", "days_of_weeks::short::ends", "first"], names
        assert folders_of_no_crate(root) == ["gone"], folders_of_no_crate(root)
    for name, text in (("more.rt", ""), ("more.rs", "#[test]\nstruct NoTest;\n")):
        with tested_repository(**{name: text}) as root:
            said = names_of_tests(root)
            assert f"crates/one/tests/{name} is no file of tests" in said, said


def tests_of_libraries_are_laid_out_as_one_crate():
    with tested_repository() as root:
        assert lay_out(root, "both", ["one", "two"]) == {"one": "one_tests", "two": "two_tests"}
        assert read_text(os.path.join(root, "crates.txt")).endswith("\nboth: one two\n")
        source, found = os.path.join(root, "crates", "both", "src"), {}
        for folder, _, names in os.walk(source):
            found.update((os.path.relpath(os.path.join(folder, name), source), os.path.join(folder, name)) for name in names)
        wanted = {
            "lib.rt",
            "one_tests.rt",
            "one_tests/days.rt",
            "one_tests/days_of_weeks.rt",
            "one_tests/days_of_weeks/short.rt",
            "two_tests.rt",
        }
        assert set(found) == wanted, sorted(found)
        assert read_text(found["lib.rt"]).endswith("\n#[cfg(test)]\nmod one_tests;\n\n#[cfg(test)]\nmod two_tests;\n")
        assert read_text(found["two_tests.rt"]) == TESTED["crates/two/tests/mod.rs"]


def tests_of_no_library_are_inside_of_their_crate():
    with tested_repository() as root:
        assert [name for name in ("one", "two", "for_c", "program") if is_no_library(root, name)] == ["for_c", "program"]
        assert [name for name in ("one", "two", "for_c", "program") if is_top(root, name)] == ["for_c", "program"]
        assert lay_inside(root, "for_c") == lay_inside(root, "two") == "tests"
        assert read_text(os.path.join(root, "crates", "for_c", "src", "lib.rt")) == "mod calls;\n\n#[cfg(test)]\nmod tests;\n"
        inside = read_text(os.path.join(root, "crates", "two", "src", "tests.rt"))
        assert inside == "use one::Day;\nuse crate::Week;\n\n#[test]\nfn begins() {}\n", inside


class LaidOut:
    """Tests of a crate `one`, as crate_tests has them."""

    name, crates = "both", ["one"]
    names = {("one", name): f"one_tests::{name}" for name in ("first", "second", "third")}

    def of(self, wanted):
        return wanted


def judged_of(count):
    """What is counted, and what is told, of a call of `crate_tests` with a tally."""
    tally, said = Tally(), io.StringIO()
    with contextlib.redirect_stdout(said):
        count(tally)
    return (tally.passed, tally.failed), said.getvalue()


def tests_that_fail_or_do_not_run_are_named():
    crate_tests = list_of("crate_tests")
    fails = "test one_tests::second ... FAILED\n    1 is not 2\ntest result: FAILED. 1 passed; 1 failed\n"
    for printed, status, counts, told in (
        (
            f"tests: 2\ntest one_tests::first ... ok\n{fails}",
            1,
            (1, 2),
            ["one: second: FAILED: it does not pass", "1 is not 2", "one: third: FAILED: it did not run"],
        ),
        ("".join(f"test {name} ... ok\n" for name in LaidOut.names.values()), 0, (3, 0), ["one: 3 tests pass"]),
        (
            "".join(f"test {name} ... ok\n" for name in LaidOut.names.values()),
            1,
            (3, 1),
            ["the end of the tests of one: FAILED: status 1"],
        ),
        (
            "src/one_tests.rt:1:1: error[unknown-name]: no Day\n",
            1,
            (0, 3),
            ["error[unknown-name]: no Day", "one: first: FAILED: it did not run"],
        ),
    ):
        ended = subprocess.CompletedProcess([], status, printed)
        counted, said = judged_of(lambda tally: crate_tests.count_runs(tally, LaidOut(), list(LaidOut.names), ended))
        assert counted == counts, f"{counted}: {said}"
        assert all(line in said for line in told), said


def tests_that_are_not_proved_are_named():
    crate_tests = list_of("crate_tests")
    second = "fn both::one_tests::second: not proved: it calls both::one_tests::help\n"
    proofs, wanted = object.__new__(crate_tests.Proofs), list(LaidOut.names)
    for proved in ("proved", "proved, may abort"):

        def count(tally, printed=f"fn both::one_tests::first: {proved}\n{second}"):
            proofs.tally = tally
            assert proofs.count(LaidOut(), wanted, printed) == wanted[1:]

        counted, said = judged_of(count)
        assert counted == (1, 2), said
    assert "one: second, its proof: FAILED: it is not proved\nfn both::one_tests::second: not proved" in said, said
    assert "one: third, its proof: FAILED" in said and "one: first, its proof\n" in said, said


# Definitions beside a source: two with a function's name, one of a type, one of a lemma, and one that no function has.
SUMS = """use Rattle.std.specs.Prelude.{ℕ}

-- ---- sums

-- the sum of two numbers,
-- and their difference
unfoldable pub sum_of : ℕ → ℕ → ℕ
sum_of a b =
    let c = a + b in
    c + 0

abbrev pub difference_of : ℕ → ℕ → ℕ
difference_of a b = a - b

-- twice a number
abbrev pub twice : ℕ → ℕ
twice a = sum_of a a

-- a sum is itself
pub same_sum : 1 ≡ 1
same_sum = refl
"""

SUMS_SOURCE = "pub fn sum_of(a: u8) {\n}\n\nimpl Sums {\n    const fn difference_of(a: u8) {\n    }\n}\n\nfn same_sum() {\n}\n"


def definitions_with_the_name_of_a_function_are_found():
    """With the comment above them, also where another definition is between; a twin tries what it changes, and its function's."""
    with tempfile.TemporaryDirectory(prefix="gate-tests-") as folder:
        write_text(os.path.join(folder, "src", "lib.rt"), SUMS_SOURCE)
        write_text(os.path.join(folder, "specs", "Sums.antt"), SUMS)
        words = "the sum of two numbers, and their difference"
        found = [Named("specs/Sums.antt", "sum_of", words), Named("specs/Sums.antt", "difference_of", words)]
        assert named_as_functions(folder) == (3, found), named_as_functions(folder)
        edits = os.path.join(folder, "wrong", "lib.edits")
        body = "file: src/lib.rt\n\n# one\nfunction: Sums::difference_of\nclause: ensures\n{}old: u8\nnew: u16\n"
        write_text(edits, body.format(""))
        assert not tried_by_twins(folder)
        write_text(edits, body.format("twin: laws::sums\n") + "file: specs/Sums.antt\nold:     c + 0\nnew:     c + 1\n")
        assert tried_by_twins(folder) == {"sum_of", "difference_of"}, tried_by_twins(folder)

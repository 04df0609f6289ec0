"""Cases of gate/gate_tests over verdicts that steps keep: what changes the key of a wrong body and what does not, by a small
repository, and how files of verdicts are written, read and told of."""

import contextlib
import functools
import io
import os
import re
import subprocess
import tempfile

from shared import verdicts
from shared.gate import SHARED_FOLDER, Tally, read_text, write_text
from shared.toolchain import load
from shared.verdict_keys import Keys
from shared.wrong import read_many

# A repository of two crates. The body of `after` is made wrong, and what is below it is seen by that body in one way each.
DAYS = """\
ghost use Rattle.low.specs.Days.{IsDay, ◌<<◌};
use crate::kinds::Kind::{self, Plain};
use crate::kinds::Mark::Left;

/// A day.
#[derive(Clone, Copy)]
pub struct Day {
    pub number: i64,
    kind: Kind,
}

impl PartialEq for Day {
    fn eq(&self, other: &Day) -> bool
        ensures { result ≡ same self other }
    {
        self.number == other.number
    }
}

impl Sub for Day {
    type Output = Day;

    fn sub(self, other: Day) -> Day
        ensures { result ≡ difference }
    {
        self
    }
}

impl Model for Day {
    ghost view = { λ day. day.number };
}

impl Day {
    /// The greatest.
    pub const LAST: Self = Day::from_number(9);

    const fn from_number(number: i64) -> Day
        ensures { value_of result ≡ number }
    {
        Day { number, kind: Plain }
    }

    /// The next day.
    pub fn next(self) -> Day
        requires { self << 9 }
        ensures { IsDay result (self + 1) }
    {
        Day { number: self.number + 1, kind: self.kind }
    }

    pub fn previous(self, count: u32) -> Day
        ensures { result ≡ previous_of self }
    {
        self
    }
}

pub const FIRST: i64 = 1;

pub fn plain() -> i64
    ensures { result ≡ Left }
{
    0
}

pub const fn hidden_step() -> i64
    ensures { result ≡ 1 }
{
    1
}
"""

KINDS = """\
/// The kind of a day.
pub enum Kind {
    Plain,
    Other,
}

pub enum Mark {
    Left,
    Right,
}

pub type Count = u32;

pub struct Fault;

impl From<Fault> for Failure {
    fn from(fault: Fault) -> Failure
        ensures { result ≡ failure }
    {
        Failure
    }
}

pub struct Failure;
"""

STEPS = """\
use crate::days::Day;

/// What goes on.
pub trait Steps: Sized {
    ghost length_of: { Self → ℕ };

    fn step(self) -> Self
        ensures { length_of result ≡ 1 };

    fn after(self) -> Self
        ensures moves { length_of result ≡ 2 };
}

impl Steps for u64 {
    fn step(self) -> Self
        ensures { result ≡ self }
    {
        self
    }
}

macro_rules! stepped {
    ($day:expr, $part:ident) => {
        $day.$part(counted())
    };
}

pub fn counted() -> u32
    ensures { result ≡ 3 }
{
    3
}
"""

DAYS_SPECS = """\
use Rattle.std.specs.Prelude.{◌≡◌}

infix 4 ◌<<◌

-- A day.
unfoldable pub IsDay : Day → ℕ → Prop
  = λ day n. value_of day ≡ n × IsWhole day × day.piece

unfoldable pub value_of : Day → ℕ
  = λ day. day.number

unfoldable pub ◌<<◌ : Day → ℕ → Prop
a << b = a ≤ b

unfoldable pub unrelated : ℕ
  = 7

pub record IsWhole (day : Day) : Type 0 where
  pub part : value_of day ≡ 0

pub record IsOther : Type 0 where
  pub part : ℕ

pub record IsNamed : Type 0 where
  pub piece : ℕ

pub some_lemma : 1 ≡ 1
  = refl

ruleset days = (some_lemma, shorthand)

unfoldable pub shorthand : ℕ
  = 8
"""

HIGH = """\
#![tactic(auto)]
ghost use Rattle.high.specs.Words.{Follows, Passed};
ghost use Rattle.low.specs.Days.{IsDay};
use low::days::{Day, FIRST};
use low::kinds::Count as Number;
use low::passed::Shift;
use low::steps::{Steps, stepped};

/// The day after.
#[tactic(auto, using(low::specs::Days::days), unfolding(crate::specs::Words::opened))]
pub fn after<T: Steps>(day: Day, steps: T) -> Result<Day, Failure>
    ensures { IsDay result (day + 1) × Follows day result × Passed }
{
    // Goes on.
    let next = day.next();
    let count: Number = stepped!(next, previous);
    read(count)?;
    while next == day {
        let moved = Shift;
    }
    Ok(if next == Day::LAST { next } else { map(next, by_value) })
}

fn read(count: u32) -> Result<(), Fault>
    ensures { result ≡ nothing }
{
    Ok(())
}

fn mapped(day: Day) -> Day
    ensures { IsDay result day }
{
    map(day, by_value)
}

fn by_value(day: Day) -> Day
    ensures { result ≡ day }
{
    day
}

fn other(day: Day) -> Day
    ensures { IsDay result (day + 3) }
{
    day
}

fn later(day: Day) -> Day
    ensures { IsDay result day }
{
    day.next()
}

impl Steps for Day {
    fn step(self) -> Self {
        self
    }
}
"""

FILES = {
    "crates.txt": "# The crates.\nlow:\nhigh: low\ntop: low high\n",
    "crates/top/src/lib.rt": "pub fn next()\n    ensures { result ≡ 1 }\n{}\n",
    "crates/high/src/inner.rt": "pub fn deep() -> u8 {\n    let deep = 1;\n}\n",
    "crates/low/src/lib.rt": "pub mod days;\nmod moved;\npub mod passed;\npub mod kinds;\npub mod steps;\n",
    "crates/low/src/passed.rt": "pub use crate::moved::Moved as Shift;\n",
    "crates/low/src/moved.rt": "/// It moves.\npub struct Moved;\n",
    "crates/low/src/days.rt": DAYS,
    "crates/low/src/kinds.rt": KINDS,
    "crates/low/src/steps.rt": STEPS,
    "crates/low/specs/Lib.antt": "pub mod Days\n",
    "crates/low/specs/Days.antt": DAYS_SPECS,
    "crates/low/specs/More.antt": "unfoldable pub Follow : ℕ\n  = 1\n\nunfoldable pub Passed : ℕ\n  = 10\n",
    "crates/low/specs/Most.antt": "unfoldable pub Passed : ℕ\n  = 2\n",
    "crates/high/src/lib.rt": HIGH,
    "crates/high/specs/Words.antt": """\
pub use Rattle.low.specs.More.{Passed, Unused}
use Rattle.low.specs.More.{Follow}
use Rattle.high.specs.declared.lib.Shown.{Shown}

unfoldable pub Follows : ℕ
  = Follow × Shown

unfoldable pub opened : ℕ
  = 5
""",
    "crates/high/src/shown.rt": "pub enum Shown {\n    Whole,\n}\n",
    "crates/high/proofs/Rounds.antt": "unfoldable pub turns : ℕ\n  = 4\n\npub turns-end : 1 ≡ 1\n  = refl\n",
    "crates/high/proofs/+after/Invariants.antt": "use Rattle.high.proofs.Rounds.{turns, turns-end}\n\nwhile-1 : ℕ\n  = turns\n",
    "crates/high/proofs/+after/Answers.antt": "use Rattle.high.proofs.Rounds.{turns-end}\n\nresult = omega turns-end\n",
}

BODY = """\
file: src/lib.rt

# stays
says: it stays
function: after
clause: ensures
old:     let next = day.next();
new:     let next = day;
"""

# A body whose change is in a definition of the crate, one that names what the function does not, and one of a trait's method.
OF_SPECS = BODY.replace("old: ", "file: specs/Words.antt\nold: ").replace("    let next = day.next();", "  = Follow × Shown")
OF_SPECS = OF_SPECS.replace("    let next = day;", "  = Follow")
NAMES_MORE = BODY.replace("let next = day;", "let next = Day::first_of(hidden_step(), FIRST);")
OF_TRAIT = BODY.replace("function: after", "function: DaySteps::step").replace("    let next = day.next();", "        self")
OF_VALUE = BODY.replace("function: after", "function: mapped").replace("let next = day.next();", "map(day, by_value)")
OF_SIGN, OF_PATH, OF_MODULE = (
    BODY.replace("= day;", f"= {it};") for it in ("day - day", "by::<dyn Sub>(day)", "days::plain(day)")
)
OF_METHOD = (
    BODY.replace("function: after", "function: later")
    .replace("let next = day.next();", "day.next()")
    .replace("let next = day;", "day")
)
OF_INNER = (
    BODY.replace("function: after", "function: inner::deep")
    .replace("src/lib.rt", "src/inner.rt")
    .replace("let next = day.next();", "let deep = 1;")
)

# A twin: its second edit is of a definition, and the function `mapped` must refuse it.
TWIN = BODY.replace("function: after", "function: after\ntwin: mapped")
TWIN += "file: specs/Words.antt\nold:   = Follow × Shown\nnew:   = Follow\n"

LOW, KIND, STEP = "crates/low/src/days.rt", "crates/low/src/kinds.rt", "crates/low/src/steps.rt"
SPECS, WORDS, TOP = "crates/low/specs/Days.antt", "crates/high/specs/Words.antt", "crates/high/src/lib.rt"
ANSWERS, INVARIANTS = (f"crates/high/proofs/+after/{name}.antt" for name in ("Answers", "Invariants"))
ROUNDS = "crates/high/proofs/Rounds.antt"


class Files(dict):
    """The texts of a repository by their paths, as `Texts` has them of a disk."""

    def files(self, folder):
        return sorted(path for path in self if path.startswith(f"{folder}/"))

    def read(self, path):
        if path not in self:
            raise FileNotFoundError(path)
        return self[path]


def key(files=FILES, body=BODY, kit="a kit", twin_judge="its code"):
    """The key of a body of the crate above, in a repository of these files."""
    (wrong,) = read_many("crates/high/wrong/lib.edits", body.split("\n"))
    return Keys(Files(files), kit, twin_judge).key("high", wrong)


def with_change(path, old, new):
    """The files with another text in one of them."""
    assert FILES[path].count(old) == 1, f"{old!r} stands {FILES[path].count(old)} times in {path}"
    return {**FILES, path: FILES[path].replace(old, new)}


# What changes the key of a body, by the words of its case: the file, the old text and the new one, and the body where it is another.
CHANGES = {
    "of_its_function": (TOP, "Ok(if next", "Ok(if moved"),
    "of_its_contract": (TOP, "IsDay result (day + 1)", "IsDay result (day + 2)"),
    "of_its_attribute": (TOP, "unfolding(crate::specs::Words::opened)", "unfolding(crate::specs::Words::Follows)"),
    "of_a_definition_that_its_attribute_names": (WORDS, "  = 5", "  = 6"),
    "of_a_definition_in_a_list_of_its_attribute": (SPECS, "  = 8", "  = 9"),
    "of_the_attribute_of_its_root": (TOP, "#![tactic(auto)]", "#![tactic(auto, split)]", OF_INNER),
    "of_an_import_of_its_names": (TOP, "use low::days::{Day, FIRST};", "use low::other::{Day, FIRST};"),
    "of_the_contract_of_a_function_that_it_calls": (LOW, "IsDay result (self + 1)", "IsDay result (self + 2)"),
    "of_what_a_function_requires_that_it_calls": (LOW, "self << 9", "self << 8"),
    "of_the_contract_of_a_function_that_it_passes": (TOP, "ensures { result ≡ day }", "ensures { result ≡ next }", OF_VALUE),
    "of_the_contract_of_a_function_that_the_body_names": (LOW, "value_of result ≡ number", "value_of result ≡ 1"),
    "of_the_contract_of_an_operator": (LOW, "same self other", "same other self"),
    "of_the_contract_of_an_operator_whose_sign_the_body_has": (LOW, "result ≡ difference", "result ≡ same", OF_SIGN),
    "of_the_contract_of_an_operator_whose_trait_the_body_names": (LOW, "result ≡ difference", "result ≡ same", OF_PATH),
    "of_a_function_of_a_module_that_the_body_names": (LOW, "result ≡ Left", "result ≡ Right", OF_MODULE),
    "of_a_field_that_a_definition_names": (SPECS, "pub piece : ℕ", "pub piece : ℤ"),
    "of_the_contract_by_which_a_fault_is_converted": (KIND, "result ≡ failure", "result ≡ fault"),
    "of_a_type_that_it_has": (LOW, "pub number: i64", "pub number: i32"),
    "of_a_type_in_a_type_that_it_has": (KIND, "    Other,", "    Others,"),
    "of_a_type_of_an_imported_variant": (KIND, "    Right,", "    Wrong,", BODY.replace("next = day;", "next = plain();")),
    "of_a_derive_of_a_type": (LOW, "#[derive(Clone, Copy)]", "#[derive(Clone)]"),
    "of_the_value_of_a_type_in_contracts": (LOW, "λ day. day.number }", "λ day. day.number + 1 }"),
    "of_a_type_by_its_other_name": (KIND, "type Count = u32", "type Count = u64"),
    "of_a_name_that_a_module_passes_on": ("crates/low/src/passed.rt", "crate::moved::Moved", "crate::days::Moved"),
    "of_a_type_that_a_module_passes_on_by_another_name": (
        "crates/low/src/moved.rt",
        "pub struct Moved;",
        "pub struct Moved(u8);",
    ),
    "of_a_constant_of_a_type": (LOW, "Day::from_number(9)", "Day::from_number(8)"),
    "of_a_macro": (STEP, "$day.$part(counted())", "$day.$part(counted() + 1)"),
    "of_the_contract_of_a_function_that_a_macro_calls": (STEP, "ensures { result ≡ 3 }", "ensures { result ≡ 4 }"),
    "of_the_contract_of_a_method_that_is_passed_to_a_macro": (LOW, "previous_of self", "next_of self"),
    "of_the_contract_of_a_bound": (STEP, "length_of result ≡ 1", "length_of result ≡ 0"),
    "of_a_ghost_of_a_bound": (STEP, "Self → ℕ", "Self → ℤ"),
    "of_the_contract_of_the_trait_that_has_its_method": (STEP, "length_of result ≡ 1", "length_of result ≡ 3", OF_TRAIT),
    "of_the_contract_of_a_trait_of_a_number": (STEP, "ensures { result ≡ self }", "ensures { self ≡ result }"),
    "of_a_definition_that_its_contract_names": (SPECS, "value_of day ≡ n", "value_of day ≡ n + 1"),
    "of_a_definition_that_a_definition_names": (SPECS, "λ day. day.number", "λ day. day.number + 0"),
    "of_an_operator": (SPECS, "a << b = a ≤ b", "a << b = a < b"),
    "of_how_an_operator_binds": (SPECS, "infix 4 ◌<<◌", "infix 5 ◌<<◌"),
    "of_a_definition_that_another_file_passes_on": ("crates/low/specs/More.antt", "  = 10", "  = 11"),
    "of_where_a_definition_is_passed_on_from": (WORDS, "More.{Passed", "Most.{Passed"),
    "of_a_type_that_a_definition_names": ("crates/high/src/shown.rt", "    Whole,", "    Part,"),
    "of_its_answers": (ANSWERS, "omega", "omega (arith)"),
    "of_its_invariants": (INVARIANTS, "  = turns", "  = turns + 1"),
    "of_a_definition_that_its_invariants_name": (ROUNDS, "  = 4", "  = 5"),
    "of_a_function_that_the_body_names": (LOW, "ensures { result ≡ 1 }", "ensures { result ≡ 2 }", NAMES_MORE),
    "of_a_constant_that_the_body_names": (LOW, "FIRST: i64 = 1", "FIRST: i64 = 2", NAMES_MORE),
    "of_a_function_that_sees_the_same_definition": (TOP, "(day + 3)", "(day + 4)", OF_SPECS),
    "of_a_definition_in_a_file_that_the_body_changes": ("crates/low/specs/More.antt", "  = 1\n", "  = 3\n", OF_SPECS),
}

# What does not change the key.
KEEPS = {
    "of_a_comment_above": (TOP, "/// The day after.", "/// The day that comes after."),
    "of_a_comment_in_the_body": (TOP, "    // Goes on.", "    // Goes on and on."),
    "of_a_comment_of_a_definition": (SPECS, "-- A day.", "-- Some day."),
    "of_the_body_of_a_function_that_it_calls": (LOW, "number: self.number + 1", "number: 1 + self.number"),
    "of_another_function_of_its_file": (TOP, "(day + 3)", "(day + 4)"),
    "of_the_body_of_a_function_of_its_file": (TOP, "    Ok(())", "    return Ok(())"),
    "of_a_definition_that_nothing_names": (SPECS, "  = 7", "  = 8"),
    "of_a_lemma": (SPECS, "  = refl", "  = trivial"),
    "of_a_lemma_that_its_answers_name": (ROUNDS, "  = refl", "  = trivial"),
    "of_a_definition_of_that_name_elsewhere": ("crates/low/specs/Most.antt", "  = 2", "  = 3"),
    "of_a_function_that_nothing_calls": (LOW, "ensures { result ≡ 1 }", "ensures { result ≡ 2 }"),
    "of_a_crate_above": ("crates/top/src/lib.rt", "result ≡ 1", "result ≡ 2"),
    "of_a_block_of_functions_that_nothing_calls": (
        LOW,
        "impl Model for Day",
        "impl Day {\n    fn last() -> u8 {}\n}\n\nimpl Model for Day",
    ),
    "of_a_function_with_the_name_of_a_method": (
        KIND,
        "pub struct Failure;",
        "pub struct Failure;\n\npub fn next() -> u8 {}\n",
        OF_METHOD,
    ),
    "of_an_operator_without_its_sign": (LOW, "result ≡ difference", "result ≡ same"),
    "of_a_record_with_a_field_of_that_name": (SPECS, "pub part : ℕ", "pub part : ℤ"),
}


def judge_change(is_changed, path, old, new, body=BODY):
    """Asserts whether that change of a file changes the key of the body."""
    before, after = key(body=body), key(with_change(path, old, new), body)
    assert before and after, "the body has no place"
    assert (before != after) is is_changed, f"{old!r} for {new!r} in {path}"


def a_body_has_a_key_of_its_own():
    """Its edit, its function, its clause and the kit are in its key; its words are not, nor the time of day."""
    for old, new in (("day;", "day ;"), ("function: after", "function: other"), ("clause: ensures", "clause: value")):
        assert key(body=BODY.replace(old, new)) != key(), f"{old} for {new}"
    assert key(kit="another kit") != key()
    assert key(body=BODY.replace("it stays", "it does not go on")) == key() == key(dict(reversed(FILES.items())))


def a_twin_has_the_function_that_refuses_it_in_its_key():
    """With its answers, and the code that judges twins, which no other body has."""
    assert key(body=TWIN.replace("twin: mapped", "twin: other")) != key(body=TWIN) != key(body=TWIN.replace("twin: mapped\n", ""))
    answers = {"crates/high/proofs/mapped/Answers.antt": "result = omega arith\n"}
    assert key({**FILES, **answers}, TWIN) != key(body=TWIN) and key({**FILES, **answers}) == key()
    assert key(body=TWIN, twin_judge="another") != key(body=TWIN) and key(twin_judge="another") == key()


def what_judges_is_in_the_key():
    """Its code and its patterns, and neither its comments nor its layout."""
    with tempfile.TemporaryDirectory() as folder:
        found = []
        for number, text in enumerate(
            ("    # Adds.\n    return a + 1\n", '    """Adds one."""\n    return  a + 1\n', "    return a + 2\n")
        ):
            path = os.path.join(folder, f"judge{number}.py")
            write_text(path, f"def judge(a):\n{text}")
            found.append(verdicts.code_of(load(f"judge{number}", path).judge, re.compile("a pattern")))
    assert found[0] == found[1] != found[2] and found[0][1] == "a pattern", found


def a_body_without_a_place_has_no_key():
    """Where its old text is not there, or stands twice, or its file is no more."""
    assert key(with_change(TOP, "let next = day.next();", "let next = day;")) is None
    assert key(with_change(TOP, "    Ok(())\n", "    let next = day.next();\n    Ok(())\n")) is None
    assert key(body=BODY.replace("file: src/lib.rt", "file: src/none.rt")) is None


def a_body_of_a_function_that_is_not_found_has_all_sources_in_its_key():
    body = BODY.replace("function: after", "function: made_by_a_macro")
    for path, old, new in (KEEPS["of_a_definition_that_nothing_names"], KEEPS["of_another_function_of_its_file"]):
        assert key(with_change(path, old, new), body) != key(body=body), path


def a_method_of_a_module_is_found_in_its_folder():
    """A type's functions may stand in files of the folder of its module."""
    files = {path: text for path, text in FILES.items() if path != TOP}
    moved = {
        **files,
        "crates/high/src/lib.rt": "pub mod days;\n",
        "crates/high/src/days/reads.rt": HIGH,
        "crates/high/src/days.rt": "",
    }
    body = BODY.replace("file: src/lib.rt", "file: src/days/reads.rt").replace("function: after", "function: days::Day::after")
    changed = {**moved, "crates/high/src/days/reads.rt": HIGH.replace("(day + 3)", "(day + 4)")}
    assert key(moved, body) and key(changed, body) == key(moved, body)
    other = {**moved, "crates/high/src/days/reads.rt": HIGH.replace("IsDay result (day + 1)", "IsDay result (day + 2)")}
    assert key(other, body) != key(moved, body)


# A file of verdicts: of a step, of a kit, with three cases.
PLACES = {"one": "1" * 24, "some case: two": "2" * 24, "three": "3" * 24}
TEXT = verdicts.text_of_file("step", "a kit", PLACES)


@contextlib.contextmanager
def repository(text=TEXT):
    """The path of a repository with a commit and that file of verdicts, outside of ./test."""
    variables = {name: os.environ.pop(name) for name in (SHARED_FOLDER, verdicts.BASE) if name in os.environ}
    try:
        with tempfile.TemporaryDirectory(prefix="gate-tests-") as root:
            write_text(os.path.join(root, "VERDICTS"), text)
            for words in (["init", "-q"], ["add", "."], ["-c", "user.name=a", "-c", "user.email=a", "commit", "-qm", "a"]):
                subprocess.run(["git", *words], cwd=root, check=True)
            yield root
    finally:
        for name in (SHARED_FOLDER, verdicts.BASE):
            os.environ.pop(name, None)
        os.environ.update(variables)


def chosen(root, keys, **more):
    """The verdicts of that file, and what is printed of them, with the cases that a tally has of it."""
    (found,) = verdicts.choose("step", "a kit", {"VERDICTS": keys}, root=root, **more)
    tally, printed = Tally(), io.StringIO()
    with contextlib.redirect_stdout(printed):
        verdicts.report([found], "bodies", tally)
    assert tally.passed == len(found.untried()), tally.passed
    return found, printed.getvalue()


def a_verdict_stands_while_its_key_is_the_same():
    with repository() as root:
        found, printed = chosen(root, {**PLACES, "three": "4" * 24, "four": "5" * 24}, share=0)
        assert found.new == {"three", "four"} == found.tried() and not found.kept.problem, found
        assert printed == "4 bodies: 2 have their verdicts, 2 are new or changed, 0 of a sample\n", printed
        assert chosen(root, PLACES, share=0, is_all=True)[0].tried() == set(PLACES)


def a_case_without_a_key_is_tried_each_time():
    with repository(verdicts.text_of_file("step", "a kit", {**PLACES, "four": None})) as root:
        found, _ = chosen(root, {**PLACES, "four": None}, share=0)
        assert found.tried() == {"four"} and "four" not in found.untried(), found
        found.write({"four"}, root=root)
        assert read_text(os.path.join(root, "VERDICTS")) == TEXT


def a_sample_of_verdicts_is_tried():
    """A share, rounded up, by the seed, with at most so many of one file while another has some."""
    with repository() as root:
        found, printed = chosen(root, PLACES)
        assert (
            len(found.sampled) == 1 and not found.new and "2 have their verdicts, 0 are new or changed, 1 of a sample" in printed
        )
    cases = [(f"file {number % 5}", f"case {number}") for number in range(1_000)]
    one, other = (verdicts.sample(cases, by=seed) for seed in ("a tree", "another"))
    assert len(one) == len(other) == 30 and one != other and one == verdicts.sample(cases[::-1], by="a tree")
    assert len(verdicts.sample(cases, share=0.0001, by="a tree")) == 1 and not verdicts.sample([], by="a tree")
    few = verdicts.sample(cases, most=12, by="a tree")
    by_file = sorted(sum(1 for group, _ in few if group == name) for name in {group for group, _ in few})
    assert by_file == [6, 12, 12], by_file
    assert len(verdicts.sample(cases, share=1, most=12, by="a tree")) == 1_000


def a_file_of_verdicts_that_is_damaged_is_told():
    """Where it is missing, of another kit or another step, has no head, or a line that was added or changed."""
    changed = {
        "there is no such file: 3 of its 3 bodies": None,
        "it is of another kit, 'a kit of old': 3 of its 3 bodies": verdicts.text_of_file("step", "a kit of old", PLACES),
        "its head is not whole: 3 of its 3 bodies": TEXT.partition("\n")[2],
        "damaged, since its head": verdicts.text_of_file("another", "a kit", PLACES),
        "1 of its lines were changed, and not by gate/step: 1 of its 3 bodies": TEXT.replace("1" * 24, "9" * 24),
        "1 of its lines were changed, and not by gate/step: 0 of its 3 bodies": TEXT + "<<<<<<< HEAD\n",
        "2 of its lines were changed, and not by gate/step: 1 of its 3 bodies": TEXT.replace(" one", " onE").replace(
            "three", "one"
        ),
        "3 of its lines were changed, and not by gate/step": TEXT.replace(" one\n", " one \n")
        .replace("2" * 24, "")
        .replace(" three", "three"),
        "its head is not whole": "",
    }
    for said, text in changed.items():
        with repository() as root:
            os.remove(os.path.join(root, "VERDICTS"))
            if text is not None:
                write_text(os.path.join(root, "VERDICTS"), text)
            found, printed = chosen(root, PLACES, share=0)
            assert "VERDICTS: " in printed and said in printed, f"{said!r}: {printed}"
            assert found.tried() >= found.places_lost(), f"{said!r}: {found}"


def a_case_that_a_changed_line_names_is_tried():
    added = TEXT + verdicts.line_of("another", "a kit", "6" * 24, "four") + "\n"
    with repository(added) as root:
        found, printed = chosen(root, {**PLACES, "four": "6" * 24}, share=0)
        assert found.tried() == {"four"} and "1 of its lines were changed" in printed, printed
    with repository(TEXT + TEXT.split("\n")[2] + "\n") as root:
        assert chosen(root, PLACES, share=0)[0].tried() == {TEXT.split("\n")[2].split(" ", 2)[2]}


def lines_of_two_branches_merge():
    """Each line has its own sum, so that lines of two files in one are those of both."""
    one, other = (verdicts.text_of_file("step", "a kit", {name: PLACES[name]}) for name in ("one", "three"))
    merged = one + other.split("\n", 2)[2]
    assert verdicts.read_file("step", "a kit", merged).keys == {"one": PLACES["one"], "three": PLACES["three"]}


def lines_of_cases_that_are_no_more_are_told_and_go():
    with repository() as root:
        found, printed = chosen(root, {"one": PLACES["one"]}, share=0)
        assert "VERDICTS: 2 of its lines are of bodies that are no more" in printed, printed
        found.write(set(), root=root)
        assert read_text(os.path.join(root, "VERDICTS")) == verdicts.text_of_file("step", "a kit", {"one": PLACES["one"]})


def verdicts_are_written_of_what_passed():
    """Those that passed here, and those before with the same key that did not fail; a file without a verdict goes."""
    with repository() as root:
        path = os.path.join(root, "VERDICTS")
        found, _ = chosen(
            root, {"one": "7" * 24, "some case: two": "8" * 24, "three": PLACES["three"], "four": "9" * 24}, share=0
        )
        found.write({"one"}, {"four"}, root)
        assert read_text(path) == verdicts.text_of_file("step", "a kit", {"one": "7" * 24, "three": PLACES["three"]})
        found.write(set(), {"three"}, root)
        assert not os.path.exists(path) and os.listdir(root) == [".git"], os.listdir(root)


def no_verdict_is_written_in_the_gate():
    with repository() as root:
        os.environ[SHARED_FOLDER] = root
        printed = io.StringIO()
        with contextlib.redirect_stdout(printed):
            found, _ = chosen(root, {"four": "9" * 24}, share=0)
            found.write({"four"}, root=root)
            verdicts.tell_unwritten("step", 1)
            verdicts.tell_unwritten("step", 0)
        assert read_text(os.path.join(root, "VERDICTS")) == TEXT
        assert printed.getvalue().count("run gate/step alone to keep them") == 1, printed.getvalue()


def a_commit_may_give_the_verdicts():
    """GATE_BASE names the commit whose file counts: what it has not is tried, and a commit that is none ends the step."""
    with repository() as root:
        more = {**PLACES, "four": "9" * 24}
        write_text(os.path.join(root, "VERDICTS"), verdicts.text_of_file("step", "a kit", more))
        assert not chosen(root, more, share=0)[0].tried()
        os.environ[verdicts.BASE] = "HEAD"
        assert chosen(root, more, share=0)[0].tried() == {"four"}
        (found,) = verdicts.choose("step", "a kit", {"NONE": PLACES}, root=root)
        assert found.tried() == set(PLACES) and "the commit HEAD has no such file" in found.kept.problem, found
        os.environ[verdicts.BASE] = "no-such-commit"
        try:
            chosen(root, more)
        except SystemExit as error:
            assert "GATE_BASE=no-such-commit names no commit" in str(error), error
        else:
            raise AssertionError("a commit that is none gives verdicts")


def what_would_be_tried_is_listed():
    with repository() as root:
        found, _ = chosen(root, {**PLACES, "three": "4" * 24}, share=0.5)
        printed = io.StringIO()
        with contextlib.redirect_stdout(printed):
            verdicts.list_tried([found])
        lines = printed.getvalue().splitlines()
        assert len(lines) == 2 and "VERDICTS: three: new or changed" in lines, lines
        assert sum(line.endswith(": of the sample") for line in lines) == 1, lines


def cases():
    """The cases of the tables, by their names."""
    found = {f"a_change_{name}_changes_the_key": functools.partial(judge_change, True, *row) for name, row in CHANGES.items()}
    return found | {f"a_change_{name}_keeps_the_key": functools.partial(judge_change, False, *row) for name, row in KEEPS.items()}

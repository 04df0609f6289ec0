"""Cases of gate/gate_tests over the judges of wrong bodies, promises and callers, `refused`, `promises` and `root_line`: what they make of
the lines that a check prints. recorded_checks.txt has such lines, of checks of line_devices."""

import contextlib
import io
import os
import re
import tempfile
from dataclasses import replace
from unittest import mock

from shared import verdicts
from shared.gate import GATE, REPOSITORY, SHARED_FOLDER, Tally, read_text, write_text
from shared.toolchain import load
from shared.wrong import Wrong
from verdict_tests import Files

refused = load("refused", os.path.join(GATE, "refused"))
promises = load("promises", os.path.join(GATE, "promises"))
refused_memory = load("refused_memory", os.path.join(GATE, "refused_memory"))
root_line = load("root_line", os.path.join(GATE, "root_line"))

# What a check printed, by what was wrong.
RECORDED = dict(re.findall(r"^== (.*)\n((?:(?!== ).*\n)*)", read_text(os.path.join(GATE, "recorded_checks.txt")), re.M))
WITH_WRONG_BODIES = RECORDED["wrong bodies, one a function"]
WITH_OTHER_NAMES = RECORDED["a name that the answers use is another"]
WITH_NO_NAME = RECORDED["a name that is not there"]
WITHOUT_A_PROMISE = RECORDED["items without its promise"]
OUT_OF_RANGE = RECORDED["a turn that goes on too far, and a difference below zero"]
OF_WEEKDAYS, OF_LAST_WEEK, OF_ROW_BEFORE = (
    RECORDED[f"a body and its definition, of {part}"] for part in ("weekdays", "the last week", "the row before")
)


def verdict_on(function, clause, printed=WITH_WRONG_BODIES):
    """Whether a body of line_devices that makes this function wrong is refused at this clause, by what a check printed."""
    said = refused.said_of_functions("line_devices", printed)
    return refused.verdict(Wrong("", "", "", function, clause), said.get(f"line_devices::{function}"))


def is_judged(verdict, *rows, printed=WITH_WRONG_BODIES):
    """Asserts that bodies of these functions, each with a clause, have that verdict: True, False, or None where it is left open."""
    for function, clause in rows:
        found, told = verdict_on(function, clause, printed)
        assert found is verdict, f"{function}, {clause}: {found}, {told}"


def a_crate_of_which_nothing_is_kept_has_a_line():
    """What it lacks, how long that takes, and the command that keeps it; a crate that is proved has none."""
    for waiting, has_kept, is_proved, wanted in (
        (["low"], False, False, ("low below it must be built first", "minutes", "`rt lib`")),
        ([], False, False, ("no check of it is kept", "one to seven minutes", "`rt check` in crates/one")),
        ([], True, False, ("no whole check since its last change", "five minutes")),
        ([], True, True, ()),
    ):
        said = refused.lack_of("one", waiting, has_kept, is_proved) or ""
        assert all(words in said for words in wanted) and bool(said) == bool(wanted), said


def a_body_that_fails_at_its_clause_is_refused():
    is_judged(True, ("devices::DeviceSink::write_some", "last"), ("table::Table::items", "value"))


def a_body_that_fails_at_one_end_of_its_clause_is_refused():
    """Its goal has the way to that end of the function, before the clause's name."""
    is_judged(True, ("places::place_of", "byte_there"), ("devices::Device::has_written", "ensures"))


def a_body_that_fails_at_an_ensures_without_a_name_is_refused():
    is_judged(True, ("table::Table::room", "ensures"))


def a_body_whose_answers_fail_at_its_clause_is_refused():
    """Also where the function waits for others, and so has no line for its goals."""
    is_judged(True, ("sending::send", "sent"), ("sending::send", "kept"))


def a_body_that_fails_at_another_clause_is_not_refused():
    is_judged(False, ("devices::DeviceSink::write_some", "progress"), ("places::place_of", "before"))


def a_clause_is_named_whole():
    """A clause is none whose name begins or ends so."""
    is_judged(False, ("places::place_of", "byte"), ("places::place_of", "there"), ("table::Table::items", "val"))


def a_body_that_is_proved_is_not_refused():
    is_judged(False, ("devices::write_whole", "ensures"))
    assert verdict_on("devices::write_whole", "ensures")[1].startswith("NOT REFUSED"), verdict_on(
        "devices::write_whole", "ensures"
    )


def a_body_that_waits_is_left_open():
    """A function that calls another that is not proved is judged in a further check, unless its own clause fails."""
    is_judged(None, ("sending::send", "waits"), ("sending::flush", "written"))
    is_judged(True, ("sending::flush", "kept"))


def a_body_whose_answers_name_what_is_no_more_is_not_refused():
    """A local variable of another name lays the answers aside, and shows nothing of the body."""
    is_judged(False, ("places::count_before", "bound"), ("places::count_before", "byte_there"), printed=WITH_OTHER_NAMES)
    said = verdict_on("places::count_before", "bound", WITH_OTHER_NAMES)[1]
    assert "name what is no more at returns-clause-before, returns-clause-bound" in said, said


def a_body_that_fails_at_an_invariant_is_refused_there_alone():
    is_judged(True, ("places::place_of", "invariant"), printed=OUT_OF_RANGE)
    is_judged(False, ("places::place_of", "before"), printed=OUT_OF_RANGE)
    goals = {"init": True, "runs-preserved": True, "runs-preserved-in_err-flush": True, "runs-preserved-clause-requires": False}
    for goal, is_invariant in {**goals, "overflow_add-place": False}.items():
        assert refused.is_of_clause(goal, "invariant") is is_invariant, goal


def a_body_that_fails_at_no_clause_is_not_refused():
    """A difference below zero is no clause of the contract."""
    is_judged(True, ("table::Table::room", "ensures"), printed=OUT_OF_RANGE)
    no_clause = OUT_OF_RANGE.replace("holds when it returns (`returns`)", "holds").replace(", `returns`", "")
    is_judged(False, ("table::Table::room", "ensures"), printed=no_clause)
    assert "fails at overflow_sub-result-2, and not at" in verdict_on("table::Table::room", "ensures", no_clause)[1]


def a_body_of_which_nothing_is_said_is_left_open():
    is_judged(None, ("devices::Device::clear", "ensures"), ("send", "sent"))


def twin_verdict_on(printed, function, twin, clause):
    """Whether a twin of zones that changes this function is refused at this clause of another, by what a check printed."""
    found, left_out = refused.said_of_functions("zones", printed), refused.goals_left_out("zones", printed)
    return refused.twin_verdict(Wrong("", "", "", function, clause, twin), "zones", found, left_out)


def a_twin_is_refused_where_a_lemma_of_the_clause_fails():
    """In the file of answers, or in a lemma that stands on one that fails; and at the named clause alone."""
    for printed, function, twin, clause, wanted in (
        (OF_ROW_BEFORE, "tables::row_before", "tables::last", "ensures", True),
        (OF_WEEKDAYS, "rule_day::nth_weekday", "rule_day::nth_weekday", "place", True),
        (OF_WEEKDAYS, "rule_day::days_to_week", "rule_day::nth_weekday", "value", False),
    ):
        found, told = twin_verdict_on(printed, function, twin, clause)
        assert found is wanted, f"{function}, {twin}, {clause}: {found}, {told}"
    assert told == "rule_day::nth_weekday fails at returns-clause-place, and not at value", told


def a_twin_whose_own_function_fails_is_not_refused():
    """Its body and its definition differ then, or its proof names the old one."""
    found, told = twin_verdict_on(OF_LAST_WEEK, "rule_day::days_to_week", "rule_day::nth_weekday", "place")
    assert found is False and "its body and its definition differ" in told, told
    found, told = twin_verdict_on(OF_WEEKDAYS, "rule_day::nth_weekday", "rule_day::nth_weekday", "value")
    assert found is False and "its body and its definition differ" in told, told


def a_twin_that_is_proved_is_not_refused():
    found, told = twin_verdict_on(OF_ROW_BEFORE, "tables::row_before", "tables::count_at", "value")
    assert found is False and told == "NOT REFUSED: tables::count_at is proved", told


def bodies_that_come_too_late_are_left():
    """A run that is too late tries none, and says of how many bodies that is so; another tries each."""
    body, twin = Wrong("", "a", "", "sums::add", "ensures"), Wrong("", "b", "", "sums::add", "ensures", "laws::sums")
    for why, late, judged in (("it is late", 2, []), (None, 0, [[body], [twin]])):
        with contextlib.ExitStack() as stack:
            for name, answer in (
                ("bodies_to_try", ([body, twin], [])), ("a_round", ([body], {})), ("try_round", ({": a": (True, "")}, {})),
                ("try_twin", (True, "")), ("why_late", why), ("place_of", ""), ("crate_at", mock.Mock()),
            ):  # fmt: skip
                stack.enter_context(mock.patch.object(refused, name, lambda *_, answer=answer: answer))
            told = []
            trial = refused.Trial("", "one", refused.Room(), lambda some, _, told=told: told.append([it[0] for it in some]))
            trial.try_over("", True, {""}, set())
        assert (trial.late, [it for it in told if it]) == (late, judged), (trial.late, told)


def a_twin_of_which_nothing_is_said_is_left_open():
    for function, twin in (("tables::row_before", "laws::none"), ("tables::none", "tables::last")):
        assert twin_verdict_on(OF_ROW_BEFORE, function, twin, "ensures")[0] is None, function


def a_lemma_that_names_what_is_no_more_refuses_no_twin():
    """The lemma then says nothing of the definition."""
    named = OF_ROW_BEFORE.replace("as printed, the two types first differ", "`row_at` is not in scope, and the two types differ")
    assert refused.goals_left_out("zones", OF_ROW_BEFORE) == {"zones::tables::last": {"returns"}}
    assert refused.goals_left_out("zones", named) == {}
    found, told = twin_verdict_on(named, "tables::row_before", "tables::last", "ensures")
    assert found is False and "name what is no more" in told, told


def a_lemma_that_a_check_does_not_name_is_refused_with_the_others():
    """Of many that stand on one, a check names three; unless another lemma names what is no more, which they may stand on."""
    many = OF_ROW_BEFORE.replace("was not checked: last_row_by", "were not checked: a, b, c (via a) and 2 more")
    many = many.replace("1 declaration that depends on `last_row`", "5 declarations that depend on `last_row`")
    assert refused.goals_left_out("zones", many) == {"zones::tables::last": {"returns"}}
    other = "./proofs/RuleLemmas.antt:1:1: error: `other`: `gone` is not in scope\n"
    assert refused.goals_left_out("zones", other + many) == {}
    assert refused.goals_left_out("zones", other + OF_ROW_BEFORE) == {"zones::tables::last": {"returns"}}


def room_of_one():
    """A crate, and its bodies, by which checks are tried that print what was recorded."""
    bodies = [Wrong(f"wrong/{name}.edits", name, "", function, clause) for name, function, clause in TRIED]
    return type("Crate", (), {"name": "line_devices", "folder": ""}), bodies


# The bodies of a round: each with its name, its function and its clause.
TRIED = (("last", "devices::DeviceSink::write_some", "last"), ("open", "sending::send", "waits"))


@contextlib.contextmanager
def prints(*texts):
    """Has each check of `refused` print the next of these texts, and the last one from then on."""
    left, real = list(texts), (refused.check_copy, refused.a_round)
    refused.check_copy = lambda *_: left.pop(0) if len(left) > 1 else left[0]
    refused.a_round = lambda _, bodies: (list(bodies), {})
    try:
        yield
    finally:
        refused.check_copy, refused.a_round = real


def other_functions_that_fail_are_told():
    """Those that were not made wrong and fail by themselves, and no function that waits or is proved."""
    crate, bodies = room_of_one()
    with prints(WITH_WRONG_BODIES):
        told, others = refused.try_round(crate, bodies, {}, "", [])
    names = {name.removeprefix("line_devices::") for name in others}
    assert {"devices::Device::has_written", "places::place_of", "table::Table::items", "sending::flush"} <= names, names
    assert not names & {"devices::write_whole", "places::count_before", "sending::send", "devices::DeviceSink::write_some"}, names
    assert others["line_devices::sending::flush"] == {"returns-in_err-sent-clause-kept"}, others
    assert [told[wrong.place][0] for wrong in bodies] == [True, None], told


def a_check_that_ends_early_is_tried_by_halves():
    """Where it prints no last line of a check, each half is tried, and one body that ends a check so is not refused."""
    crate, bodies = room_of_one()
    with prints(WITH_NO_NAME, WITH_WRONG_BODIES, WITH_NO_NAME):
        told, _ = refused.try_round(crate, bodies, {}, "", [])
    (first, _), (last, said) = (told[wrong.place] for wrong in bodies)
    assert first is True and last is False and said.startswith("did not come to the prover"), told


def stub_check(found):
    """A check that says this of the functions of a row, by their names."""
    return lambda copy, crate, functions: ({name: found[name] for name in functions}, f"{crate} in {copy}")


def judged_without(found, **row):
    """The case of a row without its promise, and its problem, where a check says this of its functions."""
    promise = promises.Promise("a sum is known", (), "sums", **row)
    real = promises.check
    promises.check = stub_check(found)
    try:
        case, problem, printed = promises.try_without("a copy", promise)
    finally:
        promises.check = real
    assert "without the promise that a sum is known" in case and printed == "sums in a copy", (case, printed)
    return case, problem


@contextlib.contextmanager
def stub_crates(**rounds):
    """A repository with these crates, each with the rounds of its bodies: of each round the names of its bodies, and `!` after a name
    says that the body is not refused. Checks are left out, and nothing is proved."""
    real = {name: getattr(refused, name) for name in ("REPOSITORY", "try_round", "a_round", "prepare", "modules_that_see")}
    variables = {name: os.environ.pop(name) for name in (SHARED_FOLDER, verdicts.BASE) if name in os.environ}
    left = {crate: [names.split() for names in names.split(";")] for crate, names in rounds.items()}

    def a_round(folder, bodies):
        names = [name.rstrip("!") for name in left[os.path.basename(folder)][0]]
        taken = [wrong for wrong in bodies if wrong.name in names]
        assert taken, f"{[wrong.name for wrong in bodies]} are tried"
        return taken, {}

    def try_round(crate, taken, *_):
        names = left[crate.name].pop(0) if len(left[crate.name]) > 1 else left[crate.name][0]
        return {wrong.place: (f"{wrong.name}!" not in names, "judged") for wrong in taken}, {}

    with tempfile.TemporaryDirectory(prefix="gate-tests-") as root:
        write_text(os.path.join(root, "crates.txt"), "".join(f"{crate}:\n" for crate in rounds))
        for crate, names in rounds.items():
            text = "".join(
                f"# {name.rstrip('!')}\nfunction: f\nclause: ensures\nold: {{\nnew: {{ \n\n"
                for name in names.replace(";", " ").split()
            )
            write_text(os.path.join(root, "crates", crate, "src", "lib.rt"), "pub fn f() {\n}\n")
            write_text(os.path.join(root, "crates", crate, "wrong", "lib.edits"), f"file: src/lib.rt\n\n{text}")
        stubs = (root, try_round, a_round, lambda name: None, lambda folder, bodies: [])
        for name, stub in zip(real, stubs):
            setattr(refused, name, stub)
        try:
            yield root, left
        finally:
            for name, own in real.items():
                setattr(refused, name, own)
            os.environ.update(variables)


def run_refused(root, *names, is_all=False, share=verdicts.SHARE):
    """What a run of `refused` over these crates prints, with a sample of that share, and its count."""
    printed, real = io.StringIO(), refused.SHARE
    with contextlib.redirect_stdout(printed):
        refused.SHARE = share
        run = refused.Run(refused.choose(list(names), [], is_all))
        refused.SHARE = real
        run.try_all()
    return printed.getvalue().splitlines(), (run.tally.passed, run.tally.failed)


def verdicts_are_printed_as_each_check_ends():
    """First those of the first check, then how many are left, and then those of the next one."""
    with stub_crates(sums="one two; three!") as (root, _):
        lines, counts = run_refused(root, "sums")
    wanted = [
        "3 wrong bodies: 0 have their verdicts, 3 are new or changed, 0 of a sample",
        "sums, one: judged",
        "sums, two: judged",
        "1 wrong bodies are left: sums 1",
        "sums, three: judged: FAILED: it must be refused",
        "0 wrong bodies are left",
        "sums: no other function fails by itself",
    ]
    assert [line for line in lines if "there is no such file" not in line] == wanted and counts == (3, 1), lines


def bodies_that_have_verdicts_are_not_tried():
    """They have passed, with their crate; one that is changed is tried, and its verdict kept."""
    with stub_crates(sums="one two three", more="four") as (root, left):
        path = os.path.join(root, "crates", "sums", "wrong", "VERDICTS")
        _, counts = run_refused(root, "more", "sums")
        before = read_text(path)
        assert counts == (6, 0) and before.count("wrong/lib.edits#") == 3, before
        edits = os.path.join(root, "crates", "sums", "wrong", "lib.edits")
        write_text(edits, read_text(edits).replace("new: { \n", "new: {  \n", 1))
        left["sums"] = [["one"]]
        lines, counts = run_refused(root, "more", "sums", share=0)
        assert counts == (6, 0) and lines[0].startswith("4 wrong bodies: 3 have their verdicts, 1 are new or changed, 0"), lines
        assert [line for line in lines if "judged" in line] == ["sums, one: judged"] and read_text(path) != before, lines
        left["sums"] = [["one!"]]
        write_text(edits, read_text(edits).replace("new: {  \n", "new: {\n", 1))
        assert run_refused(root, "sums", share=0)[1] == (3, 1) and "#one" not in read_text(path), read_text(path)


def a_sample_that_is_not_refused_has_its_crate_tried():
    with stub_crates(sums="one two three", more="four") as (root, left):
        run_refused(root, "more", "sums")
        left["sums"], left["more"] = [["one!", "two!", "three!"], ["one", "two", "three"]], [["four!"]]
        lines, counts = run_refused(root, "sums", share=0.1)
        assert any("one of the sample is not refused, so all others are tried: 2" in line for line in lines), lines
        assert counts == (3, 1) and sum("judged" in line for line in lines) == 3, lines
        assert read_text(os.path.join(root, "crates", "sums", "wrong", "VERDICTS")).count("#") == 4


def twins_are_tried_one_by_one():
    """After the other bodies, each in a check of its own; one that changes no definition is none."""
    with stub_crates(sums="one two") as (root, left):
        edits, real = os.path.join(root, "crates", "sums", "wrong", "lib.edits"), (refused.check_copy, refused.twin_verdict)
        write_text(os.path.join(root, "crates", "sums", "specs", "Sums.antt"), "one = 1\n")
        twin = "# {}\nfunction: f\ntwin: g\nclause: ensures\nold: {{\nnew: {{ \n"
        definition = "file: specs/Sums.antt\nold: 1\nnew: 2\n"
        alone = twin.format("alone")
        write_text(edits, read_text(edits) + alone + twin.format("both") + definition + twin.format("bad") + definition)
        tried = []
        refused.check_copy = lambda crate, texts, kept, only: tried.append((sorted(texts), only)) or "only=2 proved=1"
        refused.twin_verdict = lambda wrong, *_: (wrong.name != "bad", "judged")
        try:
            lines, counts = run_refused(root, "sums")
        finally:
            refused.check_copy, refused.twin_verdict = real
    words = ["--only", "sums::f", "--only", "sums::g"]
    assert tried == [(["specs/Sums.antt", "src/lib.rt"], words)] * 2, tried
    assert counts == (4, 2) and [line for line in lines if "bad" in line or "alone" in line] == [
        "sums, alone: a twin changes a body and its definition, and this one changes no file of specs/: FAILED: it must be refused",
        "sums, bad: judged: FAILED: it must be refused",
    ], lines


def the_place_of_a_body_decides():
    """Bodies of one name in two files are two, and one of them is tried where its key is new; two in one file are no bodies."""
    with stub_crates(sums="one two") as (root, left):
        text = read_text(os.path.join(root, "crates", "sums", "wrong", "lib.edits"))
        write_text(os.path.join(root, "crates", "sums", "wrong", "more.edits"), text)
        assert run_refused(root, "sums")[1] == (5, 0)
        write_text(os.path.join(root, "crates", "sums", "wrong", "more.edits"), text.replace("new: { \n", "new: {  \n", 1))
        lines, counts = run_refused(root, "sums", share=0)
        assert (
            counts == (5, 0) and "3 have their verdicts, 1 are new" in lines[0] and lines.count("sums, one: judged") == 1
        ), lines
        write_text(os.path.join(root, "crates", "sums", "wrong", "more.edits"), text + text.partition("\n\n")[2])
        lines, counts = run_refused(root, "sums", share=0)
        assert counts[1] == 4 and "another body of its file has its name" in "\n".join(lines), lines


def verdicts_of_bodies_that_are_no_more_go():
    """Also where nothing is tried, and where a crate has no body any more."""
    with stub_crates(sums="one two", more="three") as (root, left):
        run_refused(root, "more", "sums")
        edits, path = (os.path.join(root, "crates", "sums", "wrong", name) for name in ("lib.edits", "VERDICTS"))
        write_text(edits, read_text(edits).partition("# two")[0])
        os.remove(os.path.join(root, "crates", "more", "wrong", "lib.edits"))
        lines, counts = run_refused(root, "more", "sums", share=0)
        assert (
            counts == (3, 0) and sum("1 of its lines are of wrong bodies that are no more" in line for line in lines) == 2
        ), lines
        assert "#two" not in read_text(path) and not os.path.exists(path.replace("sums", "more")), read_text(path)


def new_verdicts_stay_where_others_go():
    """Of a crate with a body that is no more and a new one, the file has the new verdict after a run."""
    with stub_crates(sums="one two") as (root, left):
        run_refused(root, "sums")
        edits, path = (os.path.join(root, "crates", "sums", "wrong", name) for name in ("lib.edits", "VERDICTS"))
        write_text(edits, read_text(edits).replace("# two", "# three"))
        left["sums"] = [["three"]]
        assert run_refused(root, "sums", share=0)[1] == (3, 0)
        assert "#three" in read_text(path) and "#two" not in read_text(path), read_text(path)


PROVED, FAILED, CALLEE = promises.Verdict.PROVED, promises.Verdict.FAILED, promises.Verdict.CALLEE
UNREAD, UNTOLD, NONE = promises.Verdict.UNREAD, promises.Verdict.UNTOLD, promises.Verdict.NONE


def a_check_without_a_promise_is_read():
    """Of the functions above a promise, one fails by itself and one for the sake of that one; all others are proved."""
    found = promises.verdicts("line_devices", WITHOUT_A_PROMISE)
    said = {name.removeprefix("line_devices::"): verdict for name, verdict in found.items()}
    assert said.pop("sending::flush") is FAILED and said.pop("sending::send") is CALLEE, found
    assert len(said) == 7 and set(said.values()) == {PROVED}, said


def answers_that_name_what_is_no_more_are_told_apart():
    found = promises.verdicts("line_devices", WITH_OTHER_NAMES)
    wanted = {"line_devices::places::count_before": UNREAD, "line_devices::places::place_of": CALLEE}
    assert found == wanted and not promises.verdicts("line_devices", WITH_NO_NAME), found


def a_verdict_is_that_of_its_words():
    """A prover that came to no end has said nothing of the promise, and nor has what is none of its words."""
    rows = (
        ("no proof: antt could not tell", False, UNTOLD),
        ("not proved; it calls `a::b`, which is not proved", True, CALLEE),
        ("not proved: it passes `a::b`, which is not proved", False, CALLEE),
        ("no proof: a call of `a::b`", False, CALLEE),
        ("not proved", True, UNREAD),
        ("not proved", False, FAILED),
        ("proved", True, PROVED),
        ("is not checked", False, NONE),
    )
    for words, is_unread, verdict in rows:
        assert promises.verdict_of(words, is_unread) is verdict, f"{words}, {is_unread}"


def a_row_passes_where_each_of_its_functions_fails():
    case, problem = judged_without({"a": FAILED, "b": FAILED}, must_fail=(["a"], ["b"]))
    assert problem is None and case.endswith("failed: a, b"), (case, problem)


def a_private_part_may_fail_in_place_of_its_function():
    assert judged_without({"a": PROVED, "a_part": FAILED}, must_fail=(["a", "a_part"],))[1] is None


def a_row_fails_where_a_function_that_must_fail_does_not():
    """Neither one that is proved, nor one that fails for another's sake, for its answers or for no end."""
    for said in (PROVED, CALLEE, UNREAD, UNTOLD, NONE):
        case, problem = judged_without({"a": FAILED, "b": said}, must_fail=(["a"], ["b"]))
        assert problem == f"b: {said.value}" and case.endswith("failed: a"), (case, problem)


def a_row_fails_where_a_function_that_must_pass_does_not():
    assert judged_without({"a": PROVED}, must_pass=("a",)) == ("without the promise that a sum is known: 1 functions pass", None)
    for said in (FAILED, CALLEE, UNREAD, UNTOLD, NONE):
        assert judged_without({"a": PROVED, "b": said}, must_pass=("a", "b"))[1] == f"b: {said.value}", said


def with_all_promises_each_function_must_pass():
    functions = [name for row in promises.PROMISES if row.crate == "stamp_times" for name in promises.named_by(row)]
    real = promises.check
    try:
        for last, wanted in ((PROVED, None), (FAILED, f"{functions[-1]}: failed by itself")):
            promises.check = stub_check({name: PROVED for name in functions} | {functions[-1]: last})
            _, problem, _ = promises.try_with_all("a copy", "stamp_times")
            assert problem == wanted, problem
    finally:
        promises.check = real


# A file with a promise, and its promise taken out.
PROMISING = """\
/// Adds.
pub fn add(
    one: u32,
) -> u32
    requires { one ≤ 1 }
    ensures value { result ≡
        one + 1 }
    ensures { result ≤ 2 }
{
    one + 1
}

/// Another.
pub fn other() -> u32
    ensures value { result ≡ 1 }
{
    1
}

pub trait Kept {
    fn kept(self) -> u32
        ensures { result ≡ 3 };
}
"""


def function(words, answers=None):
    return promises.Function("src/lib.rt", words, answers)


def a_promise_is_taken_out_alone():
    """Each clause says nothing, and keeps its name; what is required stays, and so does each other function."""
    text = promises.says_nothing(PROMISING, function("pub fn add("))
    wanted = PROMISING.replace("{ result ≡\n        one + 1 }", "{ result ≡ result }").replace(
        "{ result ≤ 2 }", "{ result ≡ result }"
    )
    assert text == wanted, text
    text = promises.says_nothing(PROMISING, function("    fn kept(self) -> u32"))
    assert text == PROMISING.replace("{ result ≡ 3 };", "{ result ≡ result };"), text


def a_promise_that_is_not_found_ends_the_step():
    """Where its words are not there or stand twice, where it has no clause, and where one is not read."""
    twice, none = PROMISING + "// pub fn add(\n", PROMISING.replace("    ensures value { result ≡ 1 }\n", "")
    unread = PROMISING.replace("{ result ≤ 2 }", "( result ≤ 2 )")
    for text, words in ((PROMISING, "pub fn sub("), (twice, "pub fn add("), (none, "pub fn other("), (unread, "pub fn add(")):
        try:
            promises.says_nothing(text, function(words))
        except SystemExit as error:
            assert words in str(error), error
        else:
            raise AssertionError(f"{words!r} is taken for a promise of {text!r}")


def a_promise_comes_back():
    """It is out, with its answers, for as long as the row is tried, and both come back, also where the check fails."""
    with tempfile.TemporaryDirectory() as folder:
        copy = os.path.join(folder, "copy")
        source, answers = os.path.join(copy, "src", "lib.rt"), os.path.join(copy, "proofs", "add", "Answers.antt")
        write_text(source, PROMISING)
        write_text(answers, "answers")
        row = promises.Promise("it adds", (function("pub fn add(", "proofs/add"), function("pub fn other(")), "sums")
        for error in (None, KeyboardInterrupt):
            with contextlib.suppress(KeyboardInterrupt), promises.without(copy, row):
                taken = read_text(source)
                assert taken.count("{ result ≡ result }") == 3 and "one + 1 }" not in taken, taken
                assert not os.path.exists(answers)
                if error:
                    raise error
            assert read_text(source) == PROMISING and read_text(answers) == "answers", read_text(source)


def row_keys(**more):
    """The keys of the rows by their places, in a repository with these files."""
    files = {
        "crates.txt": "".join(f"{crate}: utc_times\n" for crate in sorted({row.crate for row in promises.PROMISES}))
        + "utc_times:\n"
    }
    files |= {"crates/utc_times/src/lib.rt": "", "crates/uses/src/lib.rt": "", "crates/uses/proofs/Lib.antt": "", **more}
    return promises.keys_of(Files(files), "a kit")


def a_row_has_a_key_of_all_that_decides_it():
    """The row, and all sources and proofs of its crate and of those below, and no other crate."""
    before, uses = row_keys(), {row.name for row in promises.PROMISES if row.crate == "uses"} | {"all promises of uses"}
    assert len(before) == len(set(before.values())) == len(promises.PROMISES) + 4, before
    first, real = promises.PROMISES[0], promises.PROMISES
    promises.PROMISES = (replace(first, must_fail=(["another"],)), *real[1:])
    after, promises.PROMISES = row_keys(), real
    moved = {place for place in before if before[place] != after[place]}
    assert moved == {first.name, f"all promises of {first.crate}"}, moved
    for path, moved in (
        ("crates/utc_times/src/lib.rt", set(before)),
        ("crates/uses/src/lib.rt", uses),
        ("crates/uses/proofs/Lib.antt", uses),
        ("crates/uses/wrong/lib.edits", set()),
    ):
        after = row_keys(**{path: "changed"})
        assert {place for place in before if before[place] != after[place]} == moved, path


def growth_keys(**more):
    """The keys of the growths of the tests and of the program, in a repository with these files."""
    files = {"crates.txt": "utc_times:\nstamp_times: utc_times\ntimes_bench: utc_times stamp_times\nuses: utc_times\n"}
    for path in ("utc_times/src", "stamp_times/src", "stamp_times/tests", "times_bench/src", "uses/src"):
        files[f"crates/{path}/lib.rt"] = ""
    found = refused_memory.keys_of(Files(files | more), 2)
    return found["growth 2 of the tests"], found["no growth of times_bench"]


def a_growth_has_a_key_of_what_runs():
    """The sources of its crate and of those below, and the tests that run."""
    before = growth_keys()
    for path, changed in (
        ("utc_times/src", (True, True)),
        ("stamp_times/src", (True, True)),
        ("stamp_times/tests", (True, False)),
        ("times_bench/src", (False, True)),
        ("uses/src", (False, False)),
    ):
        after = growth_keys(**{f"crates/{path}/lib.rt": "changed"})
        assert tuple(one != other for one, other in zip(before, after)) == changed, path


def a_growth_that_has_its_verdict_counts_in_its_half():
    """So a run whose sample has no growth of the tests has a count of both halves."""
    keys = {"growth 1 of the tests": "1" * 24, "growth 1 of times_bench": "2" * 24, "no growth of times_bench": "3" * 24}
    found = verdicts.Verdicts("refused_memory", "a kit", "VERDICTS", keys, verdicts.Kept())
    found.kept.keys, found.new, found.sampled = dict(keys), set(), {"no growth of times_bench"}
    tests, program = Tally(), Tally()
    refused_memory.count_kept(found, tests, program)
    assert (tests.passed, program.passed) == (1, 1), (tests.passed, program.passed)


def rows_that_have_verdicts_are_not_tried():
    """They have passed; one of the sample that fails has all others tried, and one that failed is tried again."""
    real, variables = promises.check, {name: os.environ.pop(name) for name in (SHARED_FOLDER,) if name in os.environ}
    keys = {place: "1" * 24 for place in list(promises.tasks())[:3]}
    (new, same, sampled), tasks = keys, promises.tasks
    judged, bad = [], {sampled}
    promises.tasks = lambda: {
        it: (lambda copy, at: judged.append(at) or (at, "bad" if at in bad else None, ""), it, "uses") for it in keys
    }
    try:
        with tempfile.TemporaryDirectory() as root:
            promises.REPOSITORY = root
            for is_bad, counts, tried, stand in ((False, (3, 0), {new, sampled}, 3), (True, (2, 1), set(keys), 2)):
                tally, found = Tally(), verdicts.Verdicts("promises", "a kit", "VERDICTS", keys, verdicts.Kept())
                found.kept.keys, found.new, found.sampled = {same: keys[same], sampled: keys[sampled]}, {new}, {sampled}
                bad, judged[:] = {sampled} if is_bad else set(), []
                with contextlib.redirect_stdout(io.StringIO()):
                    verdicts.report([found], "rows", tally)
                    promises.try_all(tally, ["a copy"], found)
                assert ((tally.passed, tally.failed), set(judged)) == (counts, tried), (tally.passed, tally.failed, judged)
                assert len(read_text(os.path.join(root, "VERDICTS")).splitlines()) == 2 + stand
    finally:
        promises.check, promises.tasks, promises.REPOSITORY = real, tasks, REPOSITORY
        os.environ.update(variables)


# A crate of callers: functions with an attribute and without, one of a file that names another library, and one of a file with sets of
# its own.
LINE = "#![tactic(auto, using(low::specs::Callers::callers))]\n"
OF_CALLERS = {
    "lib.rt": f"""{LINE}
/// One.
pub fn one() {{
}}

/// Two.
#[tactic(auto, using(
    low::specs::Days::days,
    low::specs::Weeks::weeks,
))]
#[inline]
pub fn two() {{
}}

impl Day {{
    #[tactic(auto, unfolding(low::specs::Days::first))]
    pub fn three(self) {{
    }}
}}
""",
    "days.rt": f"""{LINE.replace("low", "high")}
pub fn four() {{
}}
""",
    "values.rt": """#![tactic(auto, unfolding(low::specs::Days::first))]

pub fn five() {
}

#[tactic(auto)]
pub fn six() {
}
""",
}


def callers_of(texts):
    """The functions of a crate of callers with these files."""
    with tempfile.TemporaryDirectory() as root:
        for name, text in texts.items():
            write_text(os.path.join(root, "crates", "mine", "src", name), text)
        return root_line.callers(root, "mine")


def functions_without_an_attribute_are_counted():
    """Those under the line of a library, and no others; the texts of the others are without their attributes, and else as they were."""
    found = callers_of(OF_CALLERS)
    assert sorted(found.plain) == ["mine::days::four", "mine::one"], found.plain
    assert found.own == ["mine::two", "mine::Day::three"], found.own
    assert list(found.texts) == ["src/lib.rt"], list(found.texts)
    kept_lines = [line for line in OF_CALLERS["lib.rt"].split("\n") if not re.match(r" *(#\[tactic|low::|\)\)\])", line)]
    assert found.texts["src/lib.rt"] == "\n".join(kept_lines), found.texts["src/lib.rt"]


def an_attribute_taken_out_is_judged_by_its_function():
    """A function is proved, or open by itself; one that waits for another, or of which nothing is said, is neither."""
    printed = "note: src/lib.rt:9:1: it is not proved that `returns` (`returns`)\nfn mine::two: no proof: `search` did not prove `returns`\n"
    printed += "fn mine::Day::three: proved\nfn mine::four: not proved: it calls mine::two\nonly=3 proved=1\n"
    found = root_line.outcomes("mine", printed, ["mine::two", "mine::Day::three", "mine::four", "mine::five"])
    assert found == {"mine::two": False, "mine::Day::three": True, "mine::four": None, "mine::five": None}, found


def what_the_line_at_the_root_proves_is_counted():
    """A function that is proved without its attribute counts, one that stays open does not and is kept, and one of which nothing is said
    fails. What is kept is not tried."""
    results = {"mine::two": False, "mine::Day::three": True, "mine::four": None}
    it = root_line.Callers([], [*results, "mine::kept"], {})
    keys, seen, real = dict.fromkeys(it.own, "1" * 24), [], (root_line.try_crate, root_line.REPOSITORY)
    root_line.try_crate = lambda crate, _, wanted: seen.append((crate, wanted)) or (
        {path: results.get(path) for path in wanted},
        "",
    )
    tally, found = Tally(), verdicts.Verdicts("root_line", "a kit", "VERDICTS", keys, verdicts.Kept())
    found.kept.keys, found.new = {"mine::kept": keys["mine::kept"]}, set(results)
    shared = {name: os.environ.pop(name) for name in (SHARED_FOLDER,) if name in os.environ}
    try:
        with tempfile.TemporaryDirectory() as root, contextlib.redirect_stdout(io.StringIO()) as said:
            root_line.REPOSITORY = root
            root_line.try_all(tally, {"mine": it, "other": root_line.Callers(["other::one"], [], {})}, found)
            lines = read_text(os.path.join(root, "VERDICTS")).splitlines()[2:]
    finally:
        root_line.try_crate, root_line.REPOSITORY = real
        os.environ.update(shared)
    assert seen == [("mine", list(results))], seen
    assert (tally.passed, tally.failed) == (1, 1), (tally.passed, tally.failed)
    assert "mine::Day::three: the line at the root proves it: take its attribute out\n" in said.getvalue(), said.getvalue()
    assert [line.split(" ", 2)[2] for line in lines] == ["mine::kept", "mine::two"], lines


def root_line_keys(**more):
    """The keys of the functions of a crate of callers, in a repository with these files."""
    files = {"crates.txt": "low:\nmine: low\nother: low\n"}
    files |= {f"crates/{path}": "" for path in ("low/src/lib.rt", "low/specs/Lib.antt", "mine/src/lib.rt", "other/src/lib.rt")}
    every = {"mine": root_line.Callers([], ["mine::two", "mine::three"], {}), "other": root_line.Callers(["other::one"], [], {})}
    return root_line.keys_of(Files(files | more), "a kit", every)


def a_function_with_an_attribute_has_a_key_of_all_that_decides_it():
    """The sources and definitions of its crate and of those below, and no proofs of them."""
    before = root_line_keys()
    assert len(before) == len(set(before.values())) == 2, before
    for path, is_changed in (
        ("low/src/lib.rt", True),
        ("low/specs/Lib.antt", True),
        ("mine/src/lib.rt", True),
        ("low/proofs/Lib.antt", False),
        ("other/src/lib.rt", False),
    ):
        after = root_line_keys(**{f"crates/{path}": "changed"})
        assert [before[it] != after[it] for it in before] == [is_changed] * 2, path

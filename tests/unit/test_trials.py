"""How a trial settles what a check leaves open: goals whose stored answers do not fit are left to two tactics, and edits name goals."""
import os
import re
from types import SimpleNamespace

import pytest
from mutation import goals
from mutation.answers import TACTICS
from mutation.edits import Edit
from mutation.goals import name_goals
from mutation.trials import ROUNDS, Trial

BODY = "pub fn kept(value: u64) -> u64\n    ensures { result ≡ value }\n{\n    value\n}\n"
ANSWERS = "pub returns : goal.returns\nreturns c = refl\n\npub bound : goal.bound\nbound c = refl\n"
ENDED = "only=1\n"
PROOF = "./proofs/kept_twin_%d/Answers.antt:2:3: error: `%s`: %s\n"
MISFIT = "the two types differ only where one has `a` (expected) and the other has `b` (found)"
UNPROVED = "`search`: no proof of `R.a` was found"
GONE_GOAL = "`goal.loop-preserved`: module `R.Goals` has no `loop-preserved` that can be named from here"
GONE = "record `R.Lts.After-x`\n  has no field `y`"


class Checks:
    """Stands for the prover: a list of what each check prints, by the first twin's number, and what it found in the answers."""

    def __init__(self, *said):
        self.said, self.answers = list(said), []

    def __call__(self, room, only):
        number = int(only[0].rpartition("_")[2])
        with open(f"{room}/proofs/kept_twin_{number}/Answers.antt", encoding="utf-8") as it:
            self.answers.append(it.read())
        return self.said.pop(0)(number) + ENDED, 1


def refused(*errors):
    """Returns what a check prints that refuses the twin for errors in its proof file, each a goal and a message."""

    def said(number):
        return "".join(PROOF % (number, *it) for it in errors) + f"fn low::kept_twin_{number}: not proved; it stands on answers\n"

    return said


def proved(number):
    return f"fn low::kept_twin_{number}: proved\n"


def open_goal(number):
    note = "note: src/lib.rt:%d:1: it is not proved that what the function ensures holds (`returns`)\n"
    return note % 7 + f"fn low::kept_twin_{number}: not proved\n"


@pytest.fixture
def trial(tmp_path):
    for path, text in {"src/lib.rt": BODY, "proofs/kept/Answers.antt": ANSWERS, "mutants/more.edit": "file: src/lib.rt\nold:     value\nnew:     value + 1\n"}.items():
        os.makedirs(os.path.dirname(tmp_path / path), exist_ok=True)
        (tmp_path / path).write_text(text, encoding="utf-8")
    crate = SimpleNamespace(folder=str(tmp_path), name="low")
    rtlib = SimpleNamespace(PARTS=("src", "specs", "proofs"), stop=pytest.fail)
    return Trial(rtlib, crate, str(tmp_path / "kept"))


def verdict_of(trial, *said):
    """Returns the verdict on the mutant where checks print this one after another, and the checks."""
    edit = Edit(trial.crate.folder, f"{trial.crate.folder}/mutants/more.edit")
    trial.check = Checks(*said)
    trial.judge([edit])
    assert not trial.check.said, "fewer checks than foreseen"
    return edit, trial.check


def test_a_goal_that_holds_without_its_answer_does_not_refuse(trial):
    edit, checks = verdict_of(trial, refused(("returns", MISFIT)), proved)
    assert edit.verdict.text.startswith("NOT REFUSED")
    assert f"returns c = {TACTICS}\n" in checks.answers[1] and "bound c = refl\n" in checks.answers[1]


def test_a_goal_that_the_tactics_leave_open_refuses(trial):
    edit, _ = verdict_of(trial, refused(("returns", MISFIT)), refused(("returns", UNPROVED)))
    assert edit.verdict.is_refused


def test_a_goal_that_stays_open_without_its_answer_refuses(trial):
    edit, _ = verdict_of(trial, refused(("returns", MISFIT)), open_goal)
    assert edit.verdict.is_refused


def test_what_a_tactic_says_of_a_goal_not_left_to_it_does_not_refuse(trial):
    edit, _ = verdict_of(trial, refused(("returns", UNPROVED)), proved)
    assert edit.verdict.text.startswith("NOT REFUSED")


def test_an_error_that_is_no_tactic_s_does_not_refuse(trial):
    edit, _ = verdict_of(trial, refused(("returns", MISFIT)), refused(("returns", MISFIT)))
    assert edit.verdict.text.startswith("BAD EDIT")


def test_one_goal_after_another_is_left_to_the_tactics(trial):
    edit, checks = verdict_of(trial, refused(("returns", MISFIT), ("bound", MISFIT)), refused(("bound", MISFIT)), proved)
    assert edit.verdict.text.startswith("NOT REFUSED")
    assert f"bound c = {TACTICS}\n" not in checks.answers[1] and f"bound c = {TACTICS}\n" in checks.answers[2]


def test_an_answer_that_names_what_is_gone_is_not_left_out(trial):
    edit, _ = verdict_of(trial, refused(("returns", GONE)))
    assert edit.verdict.text.startswith("BAD EDIT") and "names what the mutant removed" in edit.verdict.text


def test_what_is_gone_counts_once_the_rest_holds(trial):
    edit, _ = verdict_of(trial, refused(("returns", MISFIT), ("bound", GONE)), refused(("bound", GONE)))
    assert edit.verdict.text.startswith("BAD EDIT") and "names what the mutant removed" in edit.verdict.text


def test_an_error_that_stays_without_the_answer_is_no_refusal(trial):
    edit, _ = verdict_of(trial, refused(("absent", MISFIT)), refused(("absent", MISFIT)))
    assert not edit.verdict.is_refused and not edit.verdict.misfits


def test_trials_end(trial):
    said = [refused((f"goal-{at}", MISFIT)) for at in range(ROUNDS + 1)]
    edit, _ = verdict_of(trial, *said)
    assert not edit.verdict.is_refused


def name_goal(trial, line):
    with open(f"{trial.crate.folder}/mutants/more.edit", "a", encoding="utf-8") as it:
        it.write(f"goal: {line}\n")


def open_alone(goal):
    """Returns what a check prints of a twin that leaves a goal open, beside others that nothing was tried at."""
    return lambda number: open_goal(number) + refused((goal, UNPROVED))(number)


def with_control(said, control):
    """Returns what a check prints of a twin, and of the twin after it, which has the function's own body."""
    return lambda number: said(number) + control(number + 1)


def test_a_goal_named_by_the_edit_is_tried_alone(trial):
    name_goal(trial, "returns")
    edit, checks = verdict_of(trial, open_alone("returns"))
    assert edit.verdict.is_refused and edit.verdict.text.startswith("refused at kept: `returns`")
    assert checks.answers[0].endswith(f"pub returns : goal.returns\nreturns c = {TACTICS}\n") and "bound" not in checks.answers[0]


def test_only_a_goal_that_is_named_refuses_alone(trial):
    name_goal(trial, "returns")
    edit, checks = verdict_of(trial, open_goal, proved)
    assert edit.verdict.text.startswith("NOT REFUSED") and "bound c = refl" in checks.answers[1]


def test_an_error_of_another_kind_at_the_goal_does_not_refuse_alone(trial):
    name_goal(trial, "returns")
    edit, _ = verdict_of(trial, refused(("returns", GONE)), proved)
    assert edit.verdict.text.startswith("NOT REFUSED")


def test_the_prover_tries_nothing_of_itself_at_what_is_tried_alone(trial):
    name_goal(trial, "returns")
    edit = Edit(trial.crate.folder, f"{trial.crate.folder}/mutants/more.edit")
    texts = []

    def check(room, only):
        with open(f"{room}/src/lib.rt", encoding="utf-8") as it:
            texts.append(it.read())
        return open_alone("returns")(int(only[0].rpartition("_")[2])) + ENDED, 1

    trial.check = check
    trial.judge([edit])
    assert re.search(r"\n#\[tactic\(none\)\]\npub fn kept_twin_\d+\(", texts[0]) and texts[0].count("tactic") == 1


def test_a_goal_without_an_answer_needs_a_control(trial):
    name_goal(trial, "loop-preserved g c")
    edit, checks = verdict_of(trial, with_control(open_alone("loop-preserved"), proved))
    assert edit.verdict.is_refused
    assert f"pub loop-preserved : goal.loop-preserved\nloop-preserved g c = {TACTICS}\n" in checks.answers[0]


def test_the_tactics_must_prove_such_a_goal_of_the_function_s_own_body(trial):
    name_goal(trial, "loop-preserved g c")
    unproved = open_alone("loop-preserved")
    whole = with_control(refused(("loop-preserved", UNPROVED)), refused(("loop-preserved", UNPROVED)))
    edit, _ = verdict_of(trial, with_control(unproved, unproved), whole)
    assert edit.verdict.text.startswith("BAD EDIT: the tactics do not prove loop-preserved of the function's own body")


def two_edits(trial, line):
    """Writes a second mutant of the function, and the goal into both; returns the edits."""
    folder = f"{trial.crate.folder}/mutants"
    with open(f"{folder}/other.edit", "w", encoding="utf-8") as it:
        it.write("file: src/lib.rt\nold:     value\nnew:     value + 2\n")
    for name in ("more", "other"):
        with open(f"{folder}/{name}.edit", "a", encoding="utf-8") as it:
            it.write(f"goal: {line}\n")
    return [Edit(trial.crate.folder, f"{folder}/{name}.edit") for name in ("more", "other")]


def test_mutants_of_one_function_share_a_control(trial):
    unproved = open_alone("loop-preserved")
    edits = two_edits(trial, "loop-preserved g c")
    trial.check = Checks(lambda number: unproved(number) + unproved(number + 1) + proved(number + 2))
    trial.judge(edits)
    assert [it.verdict.is_refused for it in edits] == [True, True]


def test_a_function_proved_by_hand_is_not_tried_alone(trial):
    (path := f"{trial.crate.folder}/proofs/kept/Proof.antt")
    with open(path, "w", encoding="utf-8") as it:
        it.write("pub kept_spec : statement\n")
    name_goal(trial, "returns")
    edit, checks = verdict_of(trial, refused(("returns", UNPROVED)))
    assert edit.verdict.is_refused and "bound c = refl" in checks.answers[0]


OFFER = """help: add these lines to ./proofs/kept_twin_%d/Answers.antt, leaving out each name that its `use` lines bring already
    use R.Goals as goal

    -- src/lib.rt:2:1
    pub loop-preserved : goal.loop-preserved
    loop-preserved g c = ?
    second : goal.second
    second c = (
      ?,
    )
"""


def offering(number):
    return open_goal(number) + OFFER % number


def named(trial, *said):
    """Returns the mutant and its file's text once a goal is named, where checks print this one after another."""
    edit, _ = verdict_of(trial, said[0])
    trial.check, edits, file = Checks(*said[1:]), [edit], f"{trial.crate.folder}/mutants/more.edit"
    name_goals(trial, edits, [file])
    assert not trial.check.said, "fewer checks than foreseen"
    with open(file, encoding="utf-8") as it:
        return edits[0], it.read()


def test_a_goal_that_refuses_alone_is_named(trial):
    edit, text = named(trial, offering, with_control(open_alone("loop-preserved"), proved))
    assert edit.verdict.is_refused and text.endswith("new:     value + 1\ngoal: loop-preserved g c\n")


def test_the_next_goal_is_named_where_the_first_does_not_refuse_alone(trial, monkeypatch):
    monkeypatch.setattr(goals, "CANDIDATES", 2)
    holds, lacks = with_control(open_goal, proved), with_control(open_alone("second"), proved)
    edit, text = named(trial, offering, holds, lacks)
    assert edit.verdict.is_refused and text.endswith("new:     value + 1\ngoal: second\n")


def test_a_goal_that_the_tactics_do_not_prove_of_the_own_body_is_not_named(trial):
    both = with_control(open_alone("loop-preserved"), open_alone("loop-preserved"))
    edit, text = named(trial, offering, both)
    assert edit.verdict.is_refused and text.endswith("new:     value + 1\n")


def test_a_goal_whose_stored_answer_does_not_fit_is_named(trial):
    edit, _ = verdict_of(trial, refused(("returns", MISFIT)), refused(("returns", UNPROVED)))
    file = f"{trial.crate.folder}/mutants/more.edit"
    edits, trial.check = [edit], Checks(open_alone("returns"))
    name_goals(trial, edits, [file])
    with open(file, encoding="utf-8") as it:
        assert edits[0].verdict.is_refused and it.read().endswith("goal: returns\n")


def test_a_goal_that_only_the_wrong_body_has_is_named(trial):
    gone = with_control(open_alone("loop-preserved"), refused(("loop-preserved", GONE_GOAL)))
    edit, text = named(trial, offering, gone)
    assert edit.verdict.is_refused and text.endswith("new:     value + 1\ngoal: loop-preserved g c\n")


def test_a_goal_that_only_the_wrong_body_has_refuses_alone(trial):
    name_goal(trial, "loop-preserved g c")
    edit, _ = verdict_of(trial, with_control(open_alone("loop-preserved"), refused(("loop-preserved", GONE_GOAL))))
    assert edit.verdict.is_refused


def test_such_a_goal_does_not_refuse_if_the_tactics_prove_it(trial):
    name_goal(trial, "loop-preserved g c")
    holds = with_control(open_goal, refused(("loop-preserved", GONE_GOAL)))
    edit, _ = verdict_of(trial, holds, with_control(proved, proved))
    assert not edit.verdict.is_refused

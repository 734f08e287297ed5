"""Verdicts on what checks print. The texts are shortened from what the kit's prover prints for mutants of this repository."""
import pytest
from mutation.answers import with_tactics, without
from mutation.verdicts import answer_errors, judged, lines_of

# A long error that is broken before `has no field`.
BROKEN = """\
./proofs/bounded/BoundedStoreFlowStore/add/Answers.antt:22:202: error: `invariant_of-self-in-Some`: record `Rattle.fx_store.proofs.bounded.BoundedStoreFlowStore.add.Lts.Past-After-known_told2`
  has no field `add`
  the fields that can be named here are `before`, `in_ok-put-in-Some`, `branch-put`
fn fx_store::bounded::BoundedStoreFlowStore::add: not proved; it stands on `Rattle.fx_store.proofs.bounded.BoundedStoreFlowStore.add.Answers.invariant_of-self-in-Some`, which antt refuses
"""

# `has no` before a name in backquotes, and what depends on it.
UNNAMED = """\
./proofs/list/ListStoreFlowStore/add/Answers.antt:7:63: error: module `Rattle.fx_store.proofs.list.ListStoreFlowStore.add.Goals` has no `in-Some` that can be named from here. Further on in this line, not found: `in-None+in_ok-add_new-in-None`
./proofs/list/ListStoreFlowStore/add/Answers.antt:23:5: error: 1 declaration that depends on `in-Some`, which was not admitted, was not checked: returns-clause-ok
fn fx_store::list::ListStoreFlowStore::add: not proved; it stands on `Rattle.fx_store.proofs.list.ListStoreFlowStore.add.Answers.in-Some`, which antt refuses
"""

# A stored answer that no longer fits.
MISFIT = """\
./proofs/list/ListStoreFlowStore/len/Answers.antt:12:28: error: `returns`: computed as far as they go, the two types differ only where one has `c.saturating_add` (expected) and the other has `c.len` (found)
  expected type `Path a b`
fn fx_store::list::ListStoreFlowStore::len: not proved; it stands on `Rattle.fx_store.proofs.list.ListStoreFlowStore.len.Answers.returns`, which antt refuses
"""

OPEN = """\
note: src/list.rt:71:56: it is not proved that what the function ensures holds when it returns (`returns-in-Some-clause-err`)
fn fx_store::list::ListStoreFlowStore::add: not proved; it calls `fx_store::list::ListStore::add_new`, which is not proved
"""

WAITING = "fn fx_store::list::ListStoreFlowStore::add: not proved; it calls `fx_store::list::ListStore::add_new`, which is not proved\n"


def verdict(said):
    return judged(said, lines_of(said)[0])


@pytest.mark.parametrize("said", [BROKEN, UNNAMED], ids=["broken before `has no field`", "`has no` and a name in backquotes"])
def test_an_error_that_names_what_the_mutant_removed_refuses_nothing(said):
    found = verdict(said)
    assert not found.is_refused and not found.misfits
    assert "names what the mutant removed" in found.text


def test_an_answer_that_no_longer_fits_is_tried_anew_before_it_counts():
    found = verdict(MISFIT)
    assert not found.is_refused
    assert [(it.folder, it.file, it.goal) for it in found.misfits] == [(["list", "ListStoreFlowStore", "len"], "Answers", "returns")]


def test_an_open_goal_refuses():
    assert verdict(OPEN).is_refused
    assert verdict(MISFIT.replace("fn ", OPEN.split("\n", maxsplit=1)[0] + "\nfn ")).is_refused


def test_an_open_goal_of_other_lines_does_not_refuse():
    found = lines_of(OPEN)[0]
    assert not judged(OPEN, found, path="src/list.rt", lines=(10, 20)).is_refused
    assert judged(OPEN, found, path="src/list.rt", lines=(70, 80)).is_refused


def test_a_function_that_waits_for_another_one_is_not_refused():
    found = verdict(WAITING)
    assert not found.is_refused and found.waits


@pytest.mark.parametrize("text", ["proved", "no holes", "depends on a hole in `x`"])
def test_a_proved_function_is_not_refused(text):
    assert verdict(f"fn a::b: {text}\n").text.startswith("NOT REFUSED")


def test_a_name_in_backquotes_says_nothing_of_the_error():
    said = MISFIT.replace("`c.len`", "`has no field`")
    assert not answer_errors(said)[0].is_gone


ANSWERS = """\
use Rattle.a.proofs.b.Goals as goal

pub returns-in-Ok : goal.returns-in-Ok
unfolding f g
returns-in-Ok c =
    let x = c.y in
    exit x

-- a remark
pub returns : goal.returns
returns c = refl

helper : ℕ → ℕ
helper n = n
"""


def test_an_answer_is_removed_whole():
    text, found = without(ANSWERS, "returns-in-Ok")
    assert found and "returns-in-Ok" not in text and "exit x" not in text and "unfolding" not in text
    assert text.startswith("use Rattle") and "-- a remark\npub returns : goal.returns\nreturns c = refl" in text


def test_an_answer_of_one_case_gives_way_to_the_tactics():
    text = with_tactics(ANSWERS, "returns-in-Ok")
    assert "pub returns-in-Ok : goal.returns-in-Ok\nunfolding f g\nreturns-in-Ok c = first_of (" in text
    assert "exit x" not in text and "returns c = refl" in text
    assert "use Rattle.std.proofs.Common.{arith, rules}\n" in text


def test_what_a_file_names_of_the_lemmas_is_not_named_again():
    text = with_tactics("use Rattle.std.proofs.Common.{rules, ◌≡◌}\n" + ANSWERS, "returns")
    assert "use Rattle.std.proofs.Common.{arith}\n" in text


def test_an_answer_of_two_cases_does_not():
    assert with_tactics("pub found : goal.found\nfound c (inl x) = x\nfound c (inr y) = y\n", "found") is None
    assert with_tactics("pub found : goal.found\nfound c None = x\nfound c (Some y) = y\n", "found") is None


def test_only_the_named_answer_is_removed():
    assert without(ANSWERS, "returns")[0] == ANSWERS.replace("pub returns : goal.returns\nreturns c = refl\n\n", "")
    assert without(ANSWERS, "absent") == (ANSWERS, False)

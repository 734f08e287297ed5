"""The reader of the object that `once --format json` prints, against what it prints as text, and what is no such object."""
from __future__ import annotations

import json
from pathlib import Path
from typing import Iterator

import pytest
from conftest import TOP
from once_tools.json_answer import OPTION, Answer, NoAnswer, Reason, Spot, Total, Totals, answer_in, answer_of, ask_once, unexpected
from once_tools.model import Failed, Place
from once_tools.once_program import Run, run_once
from once_tools.report import line_of

EXAMPLES = TOP / "examples"
REASON = {"wrong": "it is not there", "usually": "a typing error", "whatToDo": "correct it", "see": "FORMATS"}
REFUSED = {"format": "once-answer/1", "command": "lint", "answer": "refused", "status": 2, "number": 107, "output": "refused 107 /devices/0\n",
           "place": {"kind": "pointer", "pointer": "/devices/0"}, "files": {"network": "n.json", "traffic": "file: t.json"}, "facts": [],
           "explanation": ["file: n.json", "there are: file: t.json"], "notes": [], "reason": REASON}


def totals(*rows: tuple[dict[str, object], int, int], unassigned: int = 0) -> dict[str, object]:
    return {"keys": [{"key": key, "packets": packets, "octets": octets} for key, packets, octets in rows], "unassigned": unassigned}


def test_a_refusal() -> None:
    found = answer_in(json.dumps(REFUSED))
    assert found == Answer("lint", "refused", 2, "refused 107 /devices/0\n", 107, Spot("pointer", text="/devices/0"),
                           {"network": "n.json", "traffic": "file: t.json"}, ("file: n.json", "there are: file: t.json"), (),
                           Reason("it is not there", "a typing error", "correct it", "FORMATS"))
    assert found.first_line == "refused 107 /devices/0" and found.file == "n.json" and found.details == ("there are: file: t.json",)
    assert line_of(unexpected(found, Place("part 1")).finding) == "wrong part 1: `once lint` answered: refused 107 /devices/0; file: n.json; " \
                                                                   "there are: file: t.json; see `once explain 107`"


def test_a_name_of_two_lines() -> None:
    found = answer_in(json.dumps({**REFUSED, "files": {"network": "n", "traffic": "n\n t"}, "explanation": ["file: n", " t", "it is no text"]}))
    assert found.file == "n\n t" and found.details == ("it is no text",)


@pytest.mark.parametrize("place, wanted", [
    (None, Spot()), ({"kind": "line", "line": 3}, Spot("line", 3)), ({"kind": "octet", "octet": 0}, Spot("octet")),
    ({"kind": "pointer", "pointer": ""}, Spot("pointer")), ({"kind": "text", "text": "3.1 4.1"}, Spot("text", text="3.1 4.1"))])
def test_places(place: object, wanted: Spot) -> None:
    assert answer_in(json.dumps({**REFUSED, "place": place})).place == wanted


def test_totals_have_their_keys_in_the_order_of_the_axes() -> None:
    key = {"destinationIPv6Prefix": "2001:db8:0:0:0:0:0:0/32", "destinationTransportPort": 443, "protocolIdentifier": 6, "sourceIPv4Prefix": "10.0.0.0/24"}
    found = answer_in(json.dumps({**REFUSED, "answer": "refuted", "totals": totals((key, 2, 2 ** 64 - 1), unassigned=3), "plain": totals(({}, 1, 60))}))
    assert found.totals == Totals((Total("10.0.0.0/24 6 443 2001:db8:0:0:0:0:0:0/32", 2, 2 ** 64 - 1),), 3)
    assert found.plain == Totals((Total("all", 1, 60),))


def test_without_memory_the_object_has_no_output() -> None:
    run = Run(4, '{"answer":"memory","format":"once-answer/1","number":900,"status":4}\n')
    assert answer_of("audit", run) == Answer("audit", "memory", 4, "memory 900\n", 900)


def questions(folder: Path) -> Iterator[tuple[str, list[Path]]]:
    """Yields what is asked about the documents of an example: a command and its files."""
    documents = [folder / "network.json", folder / "traffic.json"]
    yield from ((command, documents) for command in ("lint", "audit", "draw"))
    yield from (("check", [*documents, one]) for one in folder.glob("certificate*.txt"))
    yield from (("confirm", [*documents, one]) for one in (folder / "refutation.txt", folder / "run.txt"))


@pytest.mark.parametrize("name", sorted(it.parent.name for it in EXAMPLES.glob("*/network.json")))
def test_what_it_prints_as_text(name: str, once: str) -> None:
    for command, files in questions(EXAMPLES / name):
        plain, explained = run_once(once, command, *files), run_once(once, command, "--explain", *files)
        found = ask_once(once, command, *files)
        assert (found.command, found.output, found.status) == (command, plain.output, plain.status)
        sentences = [*found.explanation, *found.notes]
        sentences += [f"{label}: {text}" for label, text in zip(("wrong", "usually", "what to do", "see"), vars(found.reason).values()) if text]
        assert sorted(sentences) == sorted(explained.output.removeprefix(plain.output).splitlines())


@pytest.mark.parametrize("run, says", [
    (Run(0, ""), "`once audit` answered: nothing, with status 0; name the program"),
    (Run(-9, "", "killed"), "`once audit` answered: killed; name the program"),
    (Run(0, "yes\n"), "`once audit` answered: yes; name the program"),
    (Run(1, "[" * 100_000), f"`once audit` answered: {'[' * 200}; name the program"),
    (Run(0, '{"status": 0}'), "`once audit` answered in another form: the object has no member 'format'"),
    (Run(0, "[]"), "`once audit` answered in another form: the object is no object"),
    (Run(0, json.dumps({**REFUSED, "format": "once-answer/2"})), "the object has the format 'once-answer/2', and 'once-answer/1' is read; use once 1.0.0 or later"),
    (Run(2, json.dumps({**REFUSED, "status": "2"})), "the object /status is no whole number"),
    (Run(2, json.dumps({**REFUSED, "place": {"kind": "line", "octet": 1}})), "the object /place has no member 'line'"),
    (Run(2, json.dumps({**REFUSED, "answer": "totals"})), "the object has no member 'totals'"),
    (Run(2, json.dumps({**REFUSED, "answer": "refuted", "totals": totals(), "plain": {"keys": [1], "unassigned": 0}})), "the object /plain/keys/0 is no object"),
    (Run(139, json.dumps(REFUSED)), "`once audit` ended with status 139, and its answer has 2"),
])
def test_what_is_no_answer(run: Run, says: str) -> None:
    with pytest.raises(NoAnswer) as error:
        answer_of("audit", run, Place("part 1"))
    assert line_of(error.value.finding).startswith("wrong part 1: ") and says in line_of(error.value.finding)
    assert error.value.status == run.status and error.value.finding.is_failure


def test_a_program_without_the_option(once: str) -> None:
    """An older program refuses the option as this one refuses an option that it does not have."""
    older = run_once(once, "audit", "--farmat", "json", "network.json", "traffic.json")
    with pytest.raises(Failed) as error:
        answer_of("audit", Run(older.status, older.output.replace("--farmat", OPTION[0]), older.errors.replace("--farmat", OPTION[0])))
    assert line_of(error.value.finding) == "wrong: `once` does not have the option --format json; use once 1.0.0 or later, as it is installed beside this program"

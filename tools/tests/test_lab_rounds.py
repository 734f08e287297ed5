"""Rounds of the lab: which scenarios are run again, how they are sent then, and where the lab cannot run."""
from __future__ import annotations

import argparse
import os
import socket
import subprocess
import sys
from concurrent.futures import Future
from dataclasses import replace
from pathlib import Path
from typing import Any

import pytest

from lab import buffers, main, namespaces, rounds
from lab.agents import send
from lab.analysis import Result
from lab.page import BEGIN, END
from lab.programs import LabError, Outcome
from lab.results import Results, entry_of
from lab.rounds import Report, slowed
from lab.scenario import Scenario
from lab.scenarios import all_scenarios
from lab.totals import Totals
from lab.verdicts import CERTIFICATE, REFUTATION, Expected, Loss, Measured, Verdict, judge

DUE: Totals = {"10.1.0.11": (2, 300)}
PART: Totals = {"10.1.0.11": (1, 150)}
DROPPED = Loss("sw", "packet socket at p-core rose by 119")
FULL = Loss("socket of collector billing", "1953 datagrams found the buffer full")
AGREES = Scenario("x1-test", "a test", Expected(CERTIFICATE))
OVERFLOWS = Scenario("x2-test", "a test", Expected(CERTIFICATE, (Verdict.NOT_MEASURED,), "messages come",
                                                   losses=("found the buffer full",)))


def result(scenario: Scenario, found: Totals, *losses: Loss, audit: str = CERTIFICATE, **others: Totals) -> Result:
    measured = Measured(audit, DUE, DUE, DUE, {"nfacctd": found}, losses=list(losses), others=others)
    return Result(scenario, measured, judge(measured, scenario.expected, ()))


@pytest.mark.parametrize("one, may_repeat", [
    (result(AGREES, PART, DROPPED), True),
    (result(AGREES, DUE, DROPPED), True),
    (result(AGREES, PART), False),  # differs, and no loss was seen
    (result(AGREES, DUE), False),
    (result(AGREES, PART, DROPPED, audit=REFUTATION), False),  # no loss explains another answer of the audit
    (result(AGREES, PART, DROPPED, nfacctd={"10.7.7.7": (1, 40)}), False),  # nor a key that nobody has
    (result(OVERFLOWS, PART, FULL), False),  # the loss belongs to the scenario
    (result(OVERFLOWS, PART, FULL, DROPPED), False),  # another one too, but the scenario came to what it expects
])
def test_what_may_be_repeated(one: Result, may_repeat: bool) -> None:
    assert one.judged.may_repeat is may_repeat


def test_an_accident_where_losses_are_expected_is_repeated_if_it_makes_a_fault() -> None:
    expected = replace(OVERFLOWS.expected, check=lambda _: ["once collect against once run"])
    assert result(replace(OVERFLOWS, expected=expected), PART, FULL, DROPPED).judged.may_repeat
    assert not result(replace(OVERFLOWS, expected=expected), PART, FULL).judged.may_repeat


def rounds_of(monkeypatch: pytest.MonkeyPatch, *answers: list[Result]) -> tuple[Report, list[list[Scenario]]]:
    """Returns the report of rounds with these results, and the scenarios that were run in each."""
    left, ran = list(answers), []

    def run_round(chosen: list[Scenario], out: Path, once: str, report: Report) -> None:
        ran.append(chosen)
        for one in left.pop(0):
            report.add(one)
    monkeypatch.setattr(rounds, "run_round", run_round)
    return rounds.run([AGREES, OVERFLOWS], Path("none"), "once"), ran


def test_a_lossy_scenario_is_repeated_alone_and_sent_slower(monkeypatch: pytest.MonkeyPatch) -> None:
    report, ran = rounds_of(monkeypatch, [result(AGREES, PART, DROPPED), result(OVERFLOWS, PART, FULL)],
                            [result(AGREES, PART, DROPPED)], [result(AGREES, DUE)])
    assert [[one.name for one in each] for each in ran] == [["x1-test", "x2-test"], ["x1-test"], ["x1-test"]]
    assert [each[0].sent.gap for each in ran] == [0.001, 0.002, 0.004]
    assert [one.scenario.name for one in report.results] == ["x1-test", "x2-test"]  # in order, whenever they came
    assert report.faults == [] and report.results[0].judged.verdict is Verdict.AGREED
    assert report.results[0].lost_before == [str(DROPPED)] * 2
    assert entry_of(report.results[0])["lost before"] == [str(DROPPED)] * 2 and entry_of(report.results[1])["lost before"] == []


def test_the_third_attempt_is_the_last(monkeypatch: pytest.MonkeyPatch) -> None:
    lossy = [result(AGREES, PART, DROPPED)]
    report, ran = rounds_of(monkeypatch, lossy, lossy, lossy)
    assert len(ran) == 3 and report.results[0].judged.verdict is Verdict.NOT_MEASURED
    assert len(report.faults) == 1 and "not measured" in report.faults[0]


def test_a_difference_without_a_loss_is_never_repeated(monkeypatch: pytest.MonkeyPatch) -> None:
    report, ran = rounds_of(monkeypatch, [result(AGREES, PART), result(OVERFLOWS, PART, FULL)])
    assert len(ran) == 1 and report.faults and "differed" in report.faults[0]


def test_a_difference_after_a_repetition_stays_a_fault(monkeypatch: pytest.MonkeyPatch) -> None:
    report, ran = rounds_of(monkeypatch, [result(AGREES, PART, DROPPED)], [result(AGREES, PART)])
    assert len(ran) == 2 and report.results[0].judged.verdict is Verdict.DIFFERED and report.faults


def test_a_scenario_that_failed_is_not_repeated(capsys: pytest.CaptureFixture[str]) -> None:
    report = Report()
    future: Future[Result] = Future()
    future.set_exception(LabError("nfacctd ended"))
    report.came(AGREES, future)
    assert report.faults == ["x1-test: nfacctd ended"] and report.repeat == []
    assert "FAILED nfacctd ended" in capsys.readouterr().out


def test_slower_scenarios_keep_the_rest() -> None:
    for one in all_scenarios():
        assert slowed(one, 1) == one
        twice = slowed(one, 2)
        assert twice.sent == replace(one.sent, gap=one.sent.gap * 2) and twice.starts_late == one.starts_late * 2
        assert replace(twice, sent=one.sent, starts_late=one.starts_late) == one


def test_losses_that_scenarios_expect_are_those_of_their_checks() -> None:
    names = [one.name for one in all_scenarios() if one.expected.losses]
    assert names == [one.name for one in all_scenarios() if Verdict.NOT_MEASURED in one.expected.verdicts]
    assert names == ["n2-late", "n7-kill", "n10-burst"]


def test_a_sender_does_not_catch_up(monkeypatch: pytest.MonkeyPatch, tmp_path: Path) -> None:
    slept: list[float] = []

    class Out:
        def sendto(self, *_: Any) -> None:
            pass
    packet = {"host": "c1", "source": "10.1.0.11", "destination": "10.9.0.11", "source_port": 1, "destination_port": 2, "payload": 9,
              "tos": 0, "ttl": 64, "may_fragment": False}
    plan = tmp_path / "plan.json"
    plan.write_text(str([packet] * 3).replace("'", '"').replace("False", "false"), encoding="utf-8")
    monkeypatch.setattr(send, "raw", lambda _: Out())
    monkeypatch.setattr("time.sleep", slept.append)
    send.main(plan, "c1", 0.25)
    assert slept == [0.25] * 3


def test_buffers_of_another_process() -> None:
    """A process with a packet socket prints the size of its buffer before and after it was made larger."""
    code = ("import socket, sys\none = socket.socket(socket.AF_PACKET, socket.SOCK_RAW, 0)\n"
            "print(one.getsockopt(1, 8), flush=True)\nsys.stdin.readline()\nprint(one.getsockopt(1, 8), flush=True)\n")
    if os.geteuid():
        pytest.skip("packet sockets need root")
    with subprocess.Popen([sys.executable, "-c", code], stdin=subprocess.PIPE, stdout=subprocess.PIPE, text=True) as process:
        assert process.stdin and process.stdout
        first = process.stdout.readline()
        if first == "":
            pytest.skip("packet sockets are not allowed here")
        number = buffers.enlarge(process.pid, 1 << 20)
        process.stdin.write("\n")
        process.stdin.flush()
        second = int(process.stdout.readline())
    if number == 0:
        pytest.skip("this kernel does not hand over sockets")
    assert (number, second) == (1, 2 << 20)  # the kernel doubles what is asked for (socket(7))


def test_sockets_that_are_no_packet_sockets_stay() -> None:
    with socket.socket(socket.AF_INET, socket.SOCK_DGRAM) as one:
        before = one.getsockopt(socket.SOL_SOCKET, socket.SO_RCVBUF)
        assert buffers.enlarge(os.getpid()) == 0 and one.getsockopt(socket.SOL_SOCKET, socket.SO_RCVBUF) == before
    assert buffers.enlarge(0) == 0  # no process has this number


def status(monkeypatch: pytest.MonkeyPatch, ci: str) -> int:
    monkeypatch.setattr("sys.argv", ["lab", "--once", "/bin/true"])
    monkeypatch.setenv("CI", ci)
    monkeypatch.setattr(main.signal, "signal", lambda *_: None)
    return main.main()


@pytest.mark.parametrize("ci, wanted", [("", 0), ("false", 0), ("true", 1)])
def test_where_no_namespace_can_be_made(ci: str, wanted: int, monkeypatch: pytest.MonkeyPatch, capsys: pytest.CaptureFixture[str]) -> None:
    monkeypatch.setattr("os.geteuid", lambda: 0)
    monkeypatch.setattr(main, "path_of", lambda name: name)
    monkeypatch.setattr(namespaces, "there", lambda: [])
    why = "mount --make-shared /run/netns failed: Operation not permitted\n"
    monkeypatch.setattr(namespaces, "run", lambda *_, **__: Outcome(1, "", why))
    assert status(monkeypatch, ci) == wanted
    assert capsys.readouterr().out == f"not run: lab: no network namespace can be made: {why}"


@pytest.mark.parametrize("ci, wanted", [("", 0), ("true", 1)])
def test_where_nobody_is_root(ci: str, wanted: int, monkeypatch: pytest.MonkeyPatch, capsys: pytest.CaptureFixture[str]) -> None:
    monkeypatch.setattr("os.geteuid", lambda: 1000)
    assert status(monkeypatch, ci) == wanted
    assert capsys.readouterr().out == "not run: lab: this is not root\n"


@pytest.mark.parametrize("ci", ["", "true"])
def test_where_namespaces_are_allowed_the_core_runs(ci: str, monkeypatch: pytest.MonkeyPatch, tmp_path: Path,
                                                   capsys: pytest.CaptureFixture[str]) -> None:
    ran: list[str] = []

    def run_lab(_: Any, chosen: list[Scenario]) -> Results:
        ran.extend(one.name for one in chosen)
        return Results("2026-11-30", {}, 1.0, 1.0)
    monkeypatch.setattr(main, "why_not", lambda _: "")
    monkeypatch.setattr(main, "run_lab", run_lab)
    monkeypatch.setattr(main, "write", lambda *_: None)
    assert status(monkeypatch, ci) == 0
    assert len(ran) == 8 and "not run" not in capsys.readouterr().out


def finished(folder: Path, results: Results, *, agree: bool) -> int:
    """Returns the exit status of a run with these results, whose table goes into a page."""
    page = folder / "LAB.md"
    page.write_text(f"{BEGIN}\n{END}\n", encoding="utf-8")
    earlier = folder / "earlier.json" if agree else None
    return main.finish(argparse.Namespace(out=folder, agree=earlier, table=page), results)


def test_a_run_that_an_earlier_one_agrees_with(tmp_path: Path, capsys: pytest.CaptureFixture[str]) -> None:
    """Totals are tuples in a run, and lists in the file of an earlier one."""
    results = Results("2026-11-30", {}, 1.0, 1.0, [entry_of(result(AGREES, DUE))])
    assert finished(tmp_path, results, agree=False) == 0
    (tmp_path / "results.json").rename(tmp_path / "earlier.json")
    assert finished(tmp_path, results, agree=True) == 0
    assert "1 scenarios measured, 0 after a repetition: 1 agreed" in capsys.readouterr().out
    assert "x1-test" in (tmp_path / "LAB.md").read_text(encoding="utf-8")


def test_a_run_that_an_earlier_one_contradicts(tmp_path: Path, capsys: pytest.CaptureFixture[str]) -> None:
    assert finished(tmp_path, Results("2026-11-30", {}, 1.0, 1.0, [entry_of(result(AGREES, DUE))]), agree=False) == 0
    (tmp_path / "results.json").rename(tmp_path / "earlier.json")
    assert finished(tmp_path, Results("2026-11-30", {}, 1.0, 1.0, [entry_of(result(OVERFLOWS, PART, FULL))]), agree=True) == 1
    said = capsys.readouterr().out
    assert "fault: x1-test was measured in one of the runs alone" in said and "LAB.md is not written" in said
    assert "x2-test" not in (tmp_path / "LAB.md").read_text(encoding="utf-8")

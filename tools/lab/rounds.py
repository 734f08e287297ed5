"""Runs scenarios in rounds. One in which something was lost by accident is run again in the next round: in a lab that is brought
up anew, and with more time between packets. One that differs, though nothing was seen to be lost, is never run again."""
from __future__ import annotations

import shutil
import sys
import tempfile
import time
import traceback
from concurrent.futures import Future, ThreadPoolExecutor
from dataclasses import dataclass, field, replace
from pathlib import Path

from lab import analysis, namespaces, routing, running, state
from lab.analysis import Result
from lab.programs import PREFIX, LabError
from lab.results import counts
from lab.running import Lab, Session
from lab.scenario import Scenario
from lab.switch import Switch

ATTEMPTS = 3
# Each attempt leaves this many times as much time between two packets as the one before.
SLOWER = 2


class Ended(LabError):
    """The run was ended by a signal."""


@dataclass
class Ran:
    """A scenario that has run, with its project."""

    session: Session
    project: Path
    seconds: float


def bring_up(folder: Path, out: Path, once: str) -> Lab:
    """Brings the lab up, and saves its state."""
    namespaces.up()
    routing.start(folder / "frr")
    switch = Switch(folder / "ovs")
    switch.start()
    lab = Lab(switch, state.save(folder / "state"), out, once)
    running.acquaint(lab)
    return lab


def take_down(switch: Switch) -> None:
    """Takes the lab down; what cannot be ended by its own means ends with its namespace."""
    for step in (switch.stop, routing.stop, namespaces.down):
        try:
            step()
        except (LabError, OSError) as error:
            print(f"lab: {error}", file=sys.stderr)


def run_scenario(lab: Lab, scenario: Scenario) -> Ran:
    """Runs a scenario, and saves the state of the network for the analysis."""
    began = time.monotonic()
    with scenario.network(lab.switch):
        session = running.begin(lab, scenario)
        session.run()
        project = analysis.prepare(session)
    return Ran(session, project, time.monotonic() - began)


def measure(ran: Ran) -> Result:
    """Returns the outcome of a scenario that has run."""
    began = time.monotonic()
    try:
        result = analysis.measure(ran.session, ran.project)
    finally:
        ran.session.group.kill_rest()
    result.seconds = ran.seconds + time.monotonic() - began
    return result


def line_of(result: Result) -> str:
    """Returns a scenario's result in a line."""
    measured, judged = result.measured, result.judged
    programs = ", ".join(f"{name} {counts(table)}" for name, table in measured.found.items())
    return (f"{result.scenario.name:<16} {judged.verdict.value:<12} {measured.audit}, due {counts(measured.due)}, predicted "
            f"{counts(measured.predicted)}; {programs}; {result.seconds:.1f} s")


@dataclass
class Report:
    """Prints the results of scenarios, and keeps them with their faults. `lost` has what was lost in earlier attempts at a
    scenario, and `repeat` the names of those that the next round runs again."""

    results: list[Result] = field(default_factory=list)
    faults: list[str] = field(default_factory=list)
    lost: dict[str, list[str]] = field(default_factory=dict)
    repeat: list[str] = field(default_factory=list)
    up: float = 0.0

    def failed(self, scenario: Scenario, error: Exception) -> None:
        """Notes a scenario that could not be run or measured."""
        why = str(error) if isinstance(error, LabError) else "".join(traceback.format_exception(error))
        self.faults.append(f"{scenario.name}: {why}")
        print(f"{scenario.name:<16} FAILED {why}", flush=True)

    def came(self, scenario: Scenario, future: "Future[Result]") -> None:
        """Notes the result of a scenario."""
        error = future.exception()
        if error is not None:
            self.failed(scenario, error if isinstance(error, Exception) else LabError(str(error)))
            return
        self.add(future.result())

    def add(self, result: Result) -> None:
        """Notes a result, or that its scenario is to be run again since something was lost."""
        print(line_of(result), flush=True)
        before = self.lost.setdefault(result.scenario.name, [])
        if result.judged.may_repeat and len(before) + 1 < ATTEMPTS:
            before.append("; ".join(map(str, result.measured.losses)))
            self.repeat.append(result.scenario.name)
            print(f"    attempt {len(before)} of {ATTEMPTS}, to be repeated: {before[-1]}", flush=True)
            return
        result.lost_before = before
        self.results.append(result)
        for text in [*result.judged.reasons, *(f"FAULT {one}" for one in result.judged.faults)]:
            print(f"    {text}", flush=True)
        self.faults += [f"{result.scenario.name}: {one}" for one in result.judged.faults]


def run_all(lab: Lab, chosen: list[Scenario], report: Report) -> None:
    """Runs scenarios one after another. What one recorded is analysed while the next one runs."""
    with ThreadPoolExecutor(1) as worker:
        waiting: list[tuple[Scenario, Future[Result]]] = []
        for scenario in chosen:
            try:
                waiting.append((scenario, worker.submit(measure, run_scenario(lab, scenario))))
            except Ended:
                raise
            except Exception as error:  # one scenario that fails must not hide what the others find
                report.failed(scenario, error)
            while waiting and (waiting[0][1].done() or len(waiting) > 1):
                report.came(*waiting.pop(0))
        for scenario, future in waiting:
            report.came(scenario, future)


def run_round(chosen: list[Scenario], out: Path, once: str, report: Report) -> None:
    """Runs scenarios in a lab that is brought up for them and taken down, whatever happens."""
    began = time.monotonic()
    folder = Path(tempfile.mkdtemp(prefix=PREFIX))
    folder.chmod(0o755)
    try:
        lab = bring_up(folder, out, once)
        up = time.monotonic() - began
        report.up = report.up or up
        print(f"the lab is up after {up:.1f} s", flush=True)
        run_all(lab, chosen, report)
    finally:
        take_down(Switch(folder / "ovs"))
        shutil.rmtree(folder, ignore_errors=True)


def slowed(scenario: Scenario, attempt: int) -> Scenario:
    """Returns a scenario for an attempt, the first being 1: with more time between packets than in the one before."""
    factor = SLOWER ** (attempt - 1)
    return replace(scenario, sent=replace(scenario.sent, gap=scenario.sent.gap * factor), starts_late=scenario.starts_late * factor)


def run(chosen: list[Scenario], out: Path, once: str) -> Report:
    """Runs scenarios, and again those in which something was lost by accident, each at most `ATTEMPTS` times."""
    report = Report()
    left = chosen
    for attempt in range(1, ATTEMPTS + 1):
        report.repeat = []
        run_round([slowed(one, attempt) for one in left], out, once, report)
        left = [one for one in chosen if one.name in report.repeat]
        if not left:
            break
    report.results.sort(key=lambda one: [each.name for each in chosen].index(one.scenario.name))
    return report

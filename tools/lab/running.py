"""Runs one scenario: starts what it names, sends its packets, ends all, and hands what was recorded to the analysis."""
from __future__ import annotations

import os
import shutil
import time
from dataclasses import dataclass, field
from pathlib import Path
from typing import Iterable

from lab import acquaintance, captures, collectors, losses, plan, receivers, state
from lab.exporters import Started, export_capture, start_meter
from lab.namespaces import MANAGEMENT, SERVER_ADDRESSES
from lab.programs import Group, LabError, Running, agent, still_busy
from lab.receivers import Place, Receiver
from lab.scenario import Scenario, Sent, folder_of
from lab.state import State
from lab.switch import Switch
from lab.verdicts import Loss

PORTS = (4739, 4740, 4741)
# Open vSwitch's cache is exported within its timeout of 2 seconds.
SWITCH_FLUSH = 0.5
# The last messages reach the collectors, and dumpcap passes on what it holds each quarter of a second.
SETTLED = 0.6
# How long packets and the answers to them may take on a busy machine.
ARRIVAL = 10.0


@dataclass
class Lab:
    """The lab that is up: its switch, the state of the routers when it came up, and the folder of results."""

    switch: Switch
    base: State
    out: Path
    once: str


@dataclass
class Session:
    """A scenario while it runs, and what it leaves for the analysis."""

    lab: Lab
    scenario: Scenario
    group: Group
    packets: list[plan.Packet]
    state: State
    captures: dict[Path, Running] = field(default_factory=dict)
    watched: dict[Path, Running] = field(default_factory=dict)
    wires: dict[str, Running] = field(default_factory=dict)
    collectors: dict[str, Running] = field(default_factory=dict)
    receivers: list[Receiver] = field(default_factory=list)
    meters: list[Started] = field(default_factory=list)
    losses: list[Loss] = field(default_factory=list)
    database: str = ""
    notes: list[str] = field(default_factory=list)

    @property
    def folder(self) -> Path:
        """The folder of what the scenario leaves."""
        return self.group.folder

    def run(self) -> None:
        """Runs the scenario. At its end the collectors alone still run, and have been asked to end; if it fails, nothing does."""
        try:
            before = losses.all_counters()
            self._start()
            self._send()
            self._end()
            self.losses += losses.risen(before, losses.all_counters())
        except BaseException:
            self.group.kill_rest()
            raise
        finally:
            self.lab.switch.stop_metering()

    def end_collectors(self) -> None:
        """Returns when the collectors have written what they hold and have ended, which takes nfacctd two seconds. Their ports are
        free before."""
        for name, running in self.collectors.items():
            running.end(2)
            self.losses += losses.pmacct_losses(f"nfacctd {name}", running.text())

    def _start(self) -> None:
        scenario = self.scenario
        ports = sorted({*PORTS, *(one.port for one in scenario.collectors)})
        self.captures = captures.start_senders(self.group, scenario.sent.interfaces)
        self.watched = captures.start_watched(self.group, scenario.watched)
        self.wires = captures.start_wire(self.group, ports)
        if not scenario.starts_late:
            self._start_collectors()
        if scenario.sent.is_received:
            self._start_receivers()
        self.group.wait_until_ready()
        self.meters = [start_meter(self.group, meter) for meter in scenario.meters]
        if scenario.switch is not None:
            collector = scenario.collector(scenario.billed)
            self.lab.switch.meter(scenario.switch, f"{collector.address}:{collector.port}")
        self.database = self.lab.switch.database()
        (self.folder / "sw.ovsdb.json").write_text(self.database, encoding="utf-8")
        self.group.wait_until_ready()
        time.sleep(0.3)

    def _start_collectors(self) -> None:
        for one in self.scenario.collectors:
            self.collectors[one.name] = collectors.start(self.group, one)

    def _start_receivers(self) -> None:
        sent = self.scenario.sent
        first, last = sent.customers_receive_at
        places = [*(Place(host, 5000, 5009, sent.answer_every) for host in SERVER_ADDRESSES),
                  *(Place(host, first, last) for host in sent.customers)]
        self.receivers = receivers.start(self.group, places, self.packets, self.state.owners())

    def _send(self) -> None:
        path = self.folder / "plan.json"
        plan.write(self.packets, path)
        senders = {host: self.group.start(host, agent("send", str(path), host, str(self.scenario.sent.gap)), f"send-{host}.log")
                   for host in self.scenario.sent.customers}
        if self.scenario.starts_late:
            time.sleep(self.scenario.starts_late)
            self._start_collectors()
        if self.scenario.during:
            self.scenario.during(self)
        for host, sender in senders.items():
            if sender.process.wait(120):
                raise LabError(f"the sender of {host} failed: {sender.text().strip()[-300:]}")
        if not self.scenario.ends_early:
            receivers.wait(self.receivers, ARRIVAL)
        time.sleep(self.scenario.settle)
        if not self.scenario.ends_early:
            self._wait_until_read([one.running for one in self.meters])

    def _wait_until_read(self, running: Iterable[Running]) -> None:
        """Returns when programs have read what came to them; one that has not, on a busy machine, would lose it unseen."""
        self.losses += [Loss(one.log.stem, "has not read all packets before its end") for one in still_busy(running)]

    def _end(self) -> None:
        self._end_meters()
        self._end_captures({path.stem: one for path, one in (self.captures | self.watched).items()})
        if self.scenario.after_meters:
            self.scenario.after_meters(self)
        time.sleep(SETTLED)
        for one in self.receivers:
            one.running.end()
        self.losses += receivers.lost(self.receivers)
        self._look_at_sockets()
        self._end_captures({f"wire-{name}": one for name, one in self.wires.items()})
        self._wait_until_read(self.collectors.values())
        for running in self.collectors.values():
            running.send_signal(2)

    def _end_meters(self) -> None:
        for one in self.meters:
            if self.scenario.kills_meters:
                one.kill()
                self.losses.append(Loss(f"{one.meter.program} of {one.meter.device}", "killed, with what its cache held"))
            else:
                one.interrupt()
        for one in self.meters:
            one.running.end(2)
            if one.meter.program == "softflowd":
                self.losses += losses.capture_losses(f"at {one.meter.interfaces[0]}", one.running.text())
                export_capture(self.group, one)
            else:
                self.losses += losses.pmacct_losses(f"pmacctd of {one.meter.device}", one.running.text())
        if self.scenario.switch is not None:
            time.sleep(SWITCH_FLUSH)
            statistics = self.lab.switch.statistics()
            (self.folder / "sw.statistics.txt").write_text(statistics, encoding="utf-8")
            self.losses += losses.switch_losses(statistics)
            self.lab.switch.stop_metering()

    def _end_captures(self, running: dict[str, Running]) -> None:
        self._wait_until_read(running.values())
        for one in running.values():
            one.send_signal(2)
        for name, one in running.items():
            one.end(2)
            self.losses += losses.capture_losses(name, one.text())

    def _look_at_sockets(self) -> None:
        for one in self.scenario.collectors:
            if self.collectors[one.name].process.poll() is None:
                self.losses += losses.collector_losses(one.host, one.name, one.port)


def begin(lab: Lab, scenario: Scenario) -> Session:
    """Returns a session with an empty folder, and the state that the scenario's network has. In a changed network hosts talk once
    more, since addresses and neighbours are others."""
    folder = folder_of(lab.out, scenario)
    shutil.rmtree(folder, ignore_errors=True)
    folder.mkdir(parents=True)
    folder.chmod(0o777)
    os.environ["LC_ALL"] = "C.UTF-8"
    declared = scenario.declared
    is_usual = not scenario.changes_network and declared.versions == (4,)
    found = lab.base if is_usual else state.save(folder / "state", declared.versions, declared.cables)
    packets = scenario.sent.plan(scenario.sent.packets)
    if not is_usual:
        acquaintance.acquaint(folder / "acquaintance", packets, found.owners())
    return Session(lab, scenario, Group(folder), packets, found)


def acquaint(lab: Lab) -> None:
    """Has customers talk with servers, and exporters with collectors, so that neighbours and the switch's table are known."""
    usual = plan.usual(Sent().packets)
    owners = lab.base.owners() | {address: host for host, address in MANAGEMENT.items()}
    acquaintance.acquaint(lab.out / "acquaintance", [*usual, *plan.exporting()], owners)

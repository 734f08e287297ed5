"""The documents of a scenario: a project for once-import, which names the files that the programs were started with and what
is in the routers, and what once-import and `once` make of it."""
from __future__ import annotations

import ipaddress
import json
import shutil
import sys
from dataclasses import dataclass, field
from pathlib import Path
from typing import Sequence

from lab import routing
from lab.collectors import Collector
from lab.exporters import Started
from lab.namespaces import ROUTERS, SERVERS, peer_of
from lab.programs import TOOLS, LabError, run
from lab.scenario import Declared, Scenario
from lab.state import State

NAMES = {"c1": "customer 1", "c2": "customer 2", "c3": "customer 3", "s1": "server 1", "s2": "server 2"}
KEYS = {(4,): '"sourceIPv4Address"', (4, 6): '"source"'}


@dataclass
class Pair:
    """A network and a traffic document of a version of IP."""

    version: int
    network: Path
    traffic: Path


@dataclass
class Documents:
    """What once-import made: pairs of documents, and the lines of its report of what is not carried over."""

    pairs: list[Pair]
    not_carried_over: list[str] = field(default_factory=list)


def written(value: str | bool | int | Sequence[str]) -> str:
    """Returns a value as TOML spells it."""
    return json.dumps(value if isinstance(value, (str, bool, int)) else list(value))


def table(name: str, members: dict[str, str | bool | int | Sequence[str]]) -> list[str]:
    """Returns an entry of a list of tables; members without a value are left out."""
    return [f"[[{name}]]", *(f"{key} = {written(value)}" for key, value in members.items() if value not in ("", False, [], ())), ""]


def region_of(addresses: Sequence[str]) -> str:
    """Returns the addresses of a host as one address or a range."""
    ordered = sorted(ipaddress.ip_address(one) for one in addresses)
    return str(ordered[0]) if len(ordered) == 1 else f"{ordered[0]}-{ordered[-1]}"


def device_lines(scenario: Scenario, started: Sequence[Started], state: State) -> list[str]:
    """Returns the devices of the project: hosts and routers with their tables, meters with their configurations."""
    meters = {one.meter.device: one for one in started}
    found: list[str] = []
    for host in (*scenario.sent.customers, *ROUTERS, *SERVERS):
        one = meters.get(host)
        entry: dict[str, str | bool | int | Sequence[str]] = {
            "name": host, "kind": "frr" if host in ROUTERS else "linux", "addresses": state.files(host, "addr"),
            "routes": state.files(host, "route")}
        if one:
            entry |= {"meter": one.meter.program, "config": [path.name for path in one.files]}
        found += table("devices", entry)
        if one and one.meter.interfaces == ("any",):
            names = ", ".join(state.interfaces(host))
            found[-1:] = [f"options = {{ interfaces = {written(names)} }}", ""]
    found += table("devices", {"name": "sw", "config": ["sw.ovsdb.json"]})
    if scenario.declared.switch_options:
        found[-1:] = [f"options = {scenario.declared.switch_options}", ""]
    return found


def collector_lines(collectors: Sequence[Collector], folder: Path) -> list[str]:
    """Returns the collectors of the project, with the configurations that they were started with."""
    found: list[str] = []
    for one in collectors:
        found += table("collectors", {"name": one.name, "kind": "nfacctd", "config": [path.name for path in one.files(folder)],
                                      "addresses": [one.address] if one.listens_at_all else [],
                                      "forwards": one.forwards, "aggregates": one.aggregates})
    return found


def traffic_lines(declared: Declared, state: State, customers: tuple[str, ...]) -> list[str]:
    """Returns the traffic between customers and servers, whose paths follow the routing tables."""
    found: list[str] = []
    for version in declared.versions:
        for froms, tos in ((customers, SERVERS), (SERVERS, customers)):
            for source in froms:
                for destination in tos:
                    over = " over IPv6" if version == 6 else ""
                    found += table("traffic", {
                        "name": f"{NAMES[source]} to {NAMES[destination]}{over}",
                        "source": region_of(state.addresses[source, version]),
                        "destination": region_of(state.addresses[destination, version]),
                        "protocol": declared.protocol or "", "ingress": [f"{source}:lo"],
                        "exempt": declared.exempts_servers and source in SERVERS})
    return found


def routing_lines() -> list[str]:
    """Returns the routers' own packets of OSPF as exempt traffic: FRR says at which interfaces they are sent."""
    found: list[str] = []
    for host in ROUTERS:
        for one in routing.speaking(host):
            other, interface = peer_of(host, one["interface"])
            path = f'[["{host}:{one["interface"]}:egress", "{other}:{interface}:ingress"]]'
            found += table("traffic", {"name": f"routing of {host} at {one['interface']}", "source": one["address"],
                                       "protocol": 89, "exempt": True})
            found[-1:] = [f"paths = {path}", ""]
    return found


def project_lines(scenario: Scenario, started: Sequence[Started], state: State, folder: Path, paths: Sequence[str]) -> list[str]:
    """Returns the project. `paths` are lines of traffic that is declared with its paths, instead of the usual traffic."""
    declared = scenario.declared
    lines = ["[report]", f"collector = {written(scenario.billed)}", f"key = {KEYS[declared.versions]}", ""]
    lines += device_lines(scenario, started, state) + collector_lines(scenario.collectors, folder)
    lines += ["[links]", 'table = "cables.csv"', "subnets = false", ""]
    lines += ["[addresses]", *declared.aliases, ""] if declared.aliases else []
    lines += list(paths) or traffic_lines(declared, state, scenario.sent.customers)
    lines += routing_lines() if declared.routing else []
    lines += ["[accept]", *(f'{topic} = ["*"]' for topic in declared.accept), ""] if declared.accept else []
    return lines + list(declared.project)


def write_project(scenario: Scenario, started: Sequence[Started], state: State, folder: Path, paths: Sequence[str] = ()) -> Path:
    """Writes the project into a scenario's folder, beside the files that it names."""
    for path in state.folder.iterdir():
        shutil.copy(path, folder / path.name)
    project = folder / "project.toml"
    project.write_text("\n".join(project_lines(scenario, started, state, folder, paths)) + "\n", encoding="utf-8")
    return project


def import_project(project: Path, out: Path, declared: Declared, *options: str) -> Documents:
    """Has once-import write the documents of a project."""
    words = [sys.executable, "-B", str(TOOLS / "once-import"), str(project), "--out", str(out), *declared.options, *options]
    said = run(words, check=False)
    if said.status not in (0, 1):
        wrong = [line for line in (said.output + said.errors).splitlines() if line.startswith("wrong")]
        raise LabError(f"once-import makes no documents of {project}: {'; '.join(wrong)[:600] or said.errors.strip()[-300:]}")
    lost = [line for line in said.output.splitlines() if line.startswith("not carried over")]
    pairs = []
    for version in declared.versions:
        inner = out / f"ipv{version}" if len(declared.versions) > 1 else out
        pairs.append(Pair(version, inner / "network.json", inner / "traffic.json"))
    return Documents(pairs, lost if said.status else [])

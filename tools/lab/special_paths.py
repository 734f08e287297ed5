"""Paths that no routing table shows: those of a bridge that floods, and of policy routing. They are made from what the switch
and the routers' kernels answer."""
from __future__ import annotations

import json
from typing import Any

from lab import documents, state
from lab.documents import region_of, table, written
from lab.programs import LabError
from lab.running import Session

Crossing = dict[str, str]


def _paths_member(paths: list[list[str]]) -> str:
    return "paths = [" + ", ".join(written(path) for path in paths) + "]"


def _spelled(crossing: Crossing) -> str:
    return f"{crossing['device']}:{crossing['interface']}:{crossing['direction']}"


def flooded(path: list[Crossing], ports: list[str]) -> list[Crossing]:
    """Returns a path on which each packet that comes into the switch leaves by all of its other ports."""
    found: list[Crossing] = []
    for before, one in zip([None, *path], path):
        if one["device"] == "sw" and one["direction"] == "egress" and before:
            found += [{**one, "interface": port} for port in ports if port != before["interface"]]
        else:
            found.append(one)
    return found


def bridge_ports(database: str) -> list[str]:
    """Returns the ports of the bridge br0, its own included, from the database."""
    for one in map(json.loads, database.splitlines()):
        if one["caption"] == "Port table":
            return sorted(row[one["headings"].index("name")] for row in one["data"])
    raise LabError("the database of the switch has no table Port")


def flooded_paths(session: Session) -> list[str]:
    """Returns the usual traffic over a bridge that floods: the paths that once-import finds by the routing tables, with each
    port by which the switch sends the packet. That it floods is read from its OpenFlow rules."""
    rules = session.lab.switch.openflow("dump-flows")
    if "actions=FLOOD" not in rules:
        raise LabError(f"the bridge does not flood: {rules}")
    folder = session.folder / "unflooded"
    folder.mkdir()
    for path in session.folder.iterdir():
        if path.is_file() and path.suffix in (".json", ".conf", ".receivers"):
            (folder / path.name).write_bytes(path.read_bytes())
    project = documents.write_project(session.scenario, session.meters, session.state, folder)
    made = documents.import_project(project, folder / "documents", session.scenario.declared, "--full")
    ports = bridge_ports(session.database)
    return [line for one in json.loads(made.pairs[0].traffic.read_text(encoding="utf-8"))["classes"]
            for line in _class_lines(one, [flooded(path, ports) for path in one["paths"]])]


def _class_lines(one: dict[str, Any], paths: list[list[Crossing]]) -> list[str]:
    region = one["region"]
    lines = table("traffic", {"name": one["name"], "source": region["sourceIPv4Address"],
                              "destination": region["destinationIPv4Address"]})
    hosts = ("c1", "c2", "s1", "s2")
    return [*lines[:-1], _paths_member([[_spelled(each) for each in path if each["device"] not in hosts] for path in paths]), ""]


def hairpin_paths(session: Session) -> list[str]:
    """Returns the traffic from customer 1 to customer 2, on the path that the routers' kernels answer hop by hop."""
    found = session.state
    sources, destinations = found.addresses["c1", 4], found.addresses["c2", 4]
    paths = {tuple(state.kernel_path(source, destination, ("edge", "cust1"), found))
             for source in sources for destination in destinations}
    lines = table("traffic", {"name": "customer 1 to customer 2", "source": region_of(sources),
                              "destination": region_of(destinations)})
    return [*lines[:-1], _paths_member([list(path) for path in sorted(paths)]), ""]

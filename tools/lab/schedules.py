"""Schedules for `once run`, where documents leave open which path a packet takes: the captures say which it took."""
from __future__ import annotations

import ipaddress
import json
from pathlib import Path
from typing import Any, Callable

from lab import captures
from lab.programs import LabError
from lab.running import Session

Row = dict[str, str]
FIELDS = ("ip.src", "ip.dst", "udp.srcport", "udp.dstport", "ip.ttl")
FLOW = FIELDS[:4]
# Returns whether a packet took a path, of crossings as a traffic document has them.
Took = Callable[[Row, list[dict[str, str]]], bool]


def is_in(address: str, region: str) -> bool:
    """Returns whether an address is in a region: an address, a range or a prefix."""
    wanted = ipaddress.ip_address(address)
    first, dash, last = region.partition("-")
    if dash:
        return int(ipaddress.ip_address(first)) <= int(wanted) <= int(ipaddress.ip_address(last))
    return wanted in ipaddress.ip_network(region)


def class_of(row: Row, classes: list[dict[str, Any]]) -> int:
    """Returns the number of the class that holds a packet, from 1."""
    for number, one in enumerate(classes, 1):
        region = one["region"]
        ends = (("ip.src", "sourceIPv4Address"), ("ip.dst", "destinationIPv4Address"))
        if all(is_in(row[field], region[axis]) for field, axis in ends if axis in region):
            return number
    raise LabError(f"no class holds the packet from {row['ip.src']} to {row['ip.dst']}")


def schedule_of(traffic: Path, sent: Path, took: Took) -> str:
    """Returns a schedule that reads each packet with the one path that it took."""
    classes = json.loads(traffic.read_text(encoding="utf-8"))["classes"]
    lines = []
    for values in captures.field_rows(sent, *FIELDS):
        row = dict(zip(FIELDS, values))
        number = class_of(row, classes)
        paths = [place for place, path in enumerate(classes[number - 1]["paths"], 1) if took(row, path)]
        if len(paths) != 1:
            raise LabError(f"the packet from {row['ip.src']} to {row['ip.dst']} took {len(paths)} paths of its class")
        lines.append(f"next {number} {paths[0]}")
    return "".join(f"{line}\n" for line in lines)


def by_uplink(session: Session, traffic: Path, sent: Path) -> str:
    """Returns a schedule by which each packet takes the uplink at which it was seen. All packets of a flow take the same."""
    flows = {name: {tuple(row) for row in captures.field_rows(captures.watched(session.folder, "edge", name), *FLOW)}
             for name in ("up0", "up1")}

    def took(row: Row, path: list[dict[str, str]]) -> bool:
        flow = tuple(row[field] for field in FLOW)
        seen = {name for name, found in flows.items() if flow in found}
        crossed = {one["interface"] for one in path if one["device"] == "edge" and one["interface"] in flows}
        metered = {one["interface"] for paths in all_paths for one in paths if one["device"] == "edge"}
        return len(seen) == 1 and crossed == seen & metered

    all_paths = [path for one in json.loads(traffic.read_text(encoding="utf-8"))["classes"] for path in one["paths"]]
    return schedule_of(traffic, sent, took)


def by_ttl(_: Session, traffic: Path, sent: Path) -> str:
    """Returns a schedule by which packets with a TTL of 1 or 2 die in the routers, before the meter at core."""
    return schedule_of(traffic, sent, lambda row, path: bool(path) == (int(row["ip.ttl"]) > 2))

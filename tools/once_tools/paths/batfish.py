"""Paths from Batfish's answers to traceroute questions, as JSON."""
from __future__ import annotations

import json
from typing import Any, Iterator, Mapping

from once_tools.model import Direction, Finding, Grade, Place, Topic, Unusable
from once_tools.paths.topology import Node, Topology
from once_tools.paths.ways import Path, crossing
from once_tools.source import Source

ENDS = ("ACCEPTED", "DELIVERED_TO_SUBNET", "EXITS_NETWORK", "INSUFFICIENT_INFO", "NEIGHBOR_UNREACHABLE", "DENIED_IN",
        "DENIED_OUT", "NO_ROUTE", "NULL_ROUTED")


def batfish_paths(source: Source, topology: Topology) -> list[Path]:
    """Returns the paths of all traces in a file."""
    place = Place(source.name)
    try:
        traces = list(_traces(json.loads(source.text)))
        found = dict.fromkeys(_path(trace, topology, place) for trace in traces)
    except (ValueError, KeyError, TypeError, AttributeError, RecursionError) as error:
        raise Unusable(place, "has not the form of Batfish's traceroute answers",
                       "write the answer's rows as JSON, with the column Traces") from error
    if not traces:
        raise Unusable(place, "has no traces", "ask traceroute() for the packet, and save the answer's rows")
    return list(found)


def _traces(value: Any) -> Iterator[Mapping[str, Any]]:
    """Yields the traces in rows, in an answer or alone."""
    if isinstance(value, list):
        for one in value:
            yield from _traces(one)
    elif isinstance(value, dict):
        if "hops" in value and "disposition" in value:
            yield value
        else:
            for one in value.values():
                yield from _traces(one)


def _path(trace: Mapping[str, Any], topology: Topology, place: Place) -> Path:
    disposition = str(trace["disposition"])
    if disposition == "LOOP":
        raise Unusable(place, "has a trace that goes in a circle", "correct the routes, and ask again")
    if disposition not in ENDS:
        topology.findings.append(Finding(Grade.NOT_CARRIED_OVER, place, f"a trace ends by '{disposition}', which is not known: "
                                         "its path is taken as it is", "look at this trace"))
    path: Path = ()
    for hop in trace["hops"]:
        node = hop["node"]
        name = str(node["name"] if isinstance(node, dict) else node)
        device = topology.device(name, place)
        if device is None:
            raise Unusable(place, f"names the device '{name}', which the project does not have",
                           "add it under [[devices]], or give a device this name as an alias")
        path += tuple(_crossings(hop.get("steps", []), device, topology, place))
    return path


def _crossings(steps: list[Mapping[str, Any]], device: str, topology: Topology, place: Place) -> Iterator[Any]:
    for step in steps:
        detail = step.get("detail") or {}
        if "ransformation" in str(step.get("type", "")) + str(detail.get("type", "")) or "flowDiffs" in detail:
            _translation(device, topology, place)
        for key, direction in (("inputInterface", Direction.INGRESS), ("outputInterface", Direction.EGRESS)):
            text = detail.get(key)
            if text:
                name = topology.interface(device, str(text["interface"] if isinstance(text, dict) else text), place)
                node: Node = (device, name or str(text))
                yield crossing(node, direction)


def _translation(device: str, topology: Topology, place: Place) -> None:
    finding = Finding(Grade.NOT_CARRIED_OVER, place, f"{device} translates addresses (NAT) on this path: whether a packet is "
                      "counted on both sides the audit cannot see", "declare a class for each side", Topic.NAT, None, device)
    if finding not in topology.findings:
        topology.findings.append(finding)

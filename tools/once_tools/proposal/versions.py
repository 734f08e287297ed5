"""The versions of IP that packets of a proposed traffic can have."""
from __future__ import annotations

from dataclasses import replace

from once_tools.model import Crossing, Direction
from once_tools.proposal.areas import Edge, Surroundings
from once_tools.proposal.flows import Flow

Ends = tuple[list[Edge], list[Edge]]


def versions_at(edge: Edge, around: Surroundings) -> set[int]:
    """Returns the versions of IP at an interface: those of its addresses, or those that its device meters if the device shows
    none."""
    one, device = edge.interface, edge.node[0]
    shown = shown_at(edge)
    return shown if shown or around.has_addresses(device) else around.versions.get(device, set()) - set(one.lacks) or {4}


def shown_at(edge: Edge) -> set[int]:
    """Returns the versions of IP that an interface is configured for."""
    return {6 if ":" in text else 4 for text in edge.interface.addresses} | set(edge.interface.has)


def ends_of(flow: Flow, version: int, around: Surroundings) -> Ends:
    """Returns the interfaces between which packets of a version can pass: they have it, and are in one part of the network."""
    starts, ends = ([edge for edge in edges if version in versions_at(edge, around)] for edges in (flow.start, flow.end))
    if flow.paths:
        return starts, ends
    found: Ends = ([], [])
    for area in around.areas:
        nodes = {edge.node for edge in area.edges}
        first, last = ([edge for edge in edges if edge.node in nodes] for edges in (starts, ends))
        if any(one.node != other.node for one in first[:2] for other in last[:2]):
            found[0].extend(first)
            found[1].extend(last)
    return found


def must_name(flow: Flow, version: int, ends: Ends, around: Surroundings) -> bool:
    """Returns whether the interfaces of a version must be named, since packets of it would otherwise be declared at interfaces
    that do not have it and be metered nowhere. `once-import` declares none at those whose configuration lacks the version."""
    able = [{edge.node for edge in edges} for edges in ends]
    more = [edge for edge in flow.start if edge.node not in able[0] and version not in edge.interface.lacks]
    beyond = [edge for edge in flow.end if edge.node not in able[1]]
    unmetered = any(Crossing(*node, Direction.INGRESS) not in around.for_report for node in able[0])
    return bool(more) or bool(beyond) and unmetered


def with_versions(flow: Flow, around: Surroundings) -> list[Flow]:
    """Returns a traffic for each version of IP that must be named, since the addresses of its ends say something else."""
    can = {version: ends for version in (4, 6) for ends in [ends_of(flow, version, around)] if all(ends)}
    shown = {version for edge in [*flow.start, *flow.end] for version in shown_at(edge)}
    named = {version for version, ends in can.items() if shown and not flow.paths and must_name(flow, version, ends, around)}
    if not can or set(can) == (shown or {4}) and not named and not (shown and flow.paths):
        return [flow]
    found = []
    for version, (start, end) in can.items():
        again = len(can) > 1 and version == 6
        same = "The same over IPv6" + (", between the interfaces that have it." if version in named else ".")
        says = [same] if again else list(flow.says)
        if shown - set(can):
            says.append(f"IPv{10 - version} is left out: no packet of it can come in at one of these interfaces and leave by "
                        "another that has an address of it.")
        one = replace(flow, name=flow.name + (" over IPv6" if again else ""), says=says, version=version)
        found.append(replace(one, start=start, end=end, roles=("", "")) if version in named else one)
    return found

"""Links between devices of a folder that descriptions of interfaces name."""
from __future__ import annotations

import re
from dataclasses import dataclass

from once_tools.model import Interface
from once_tools.paths.topology import Node, Topology
from once_tools.report import where

WORD = re.compile(r"[^\s,;()\[\]=]+")


@dataclass(frozen=True)
class Claim:
    """What a description says that its interface leads to: a device, and perhaps an interface of it."""

    node: Node
    device: str
    interface: str


@dataclass(frozen=True)
class Described:
    """A link, and the description that names it."""

    a: Node
    b: Node
    reason: str


def claims_of(node: Node, one: Interface, topology: Topology) -> list[Claim]:
    """Returns what the description of an interface says that it leads to."""
    found = []
    for device in topology.interfaces:
        named = re.search(rf"(?<![\w-]){re.escape(device)}(?![\w-])", one.description, re.I) if device != node[0] else None
        if named:
            words = WORD.findall(one.description[named.end():].replace(":", " "))
            ends = [names[0] for word in words for names in [topology.same_names(device, word)] if len(names) == 1]
            found.append(Claim(node, device, ends[0] if ends else ""))
    return found


def agreed(claim: Claim, claims: dict[Node, list[Claim]]) -> Node | None:
    """Returns the other end of the link that a description names. No description may name another end of it; if this one
    names a device alone, exactly one interface of that device must name this device."""
    node, device = claim.node, claim.device
    if claim.interface:
        other = (device, claim.interface)
        named = {end: {one.node for each in claims.values() for one in each if (one.device, one.interface) == end}
                 for end in (node, other)}
        fits = all(one.device == node[0] and one.interface in ("", node[1]) for one in claims.get(other, []))
        return other if fits and named[node] <= {other} and named[other] <= {node} else None
    mine = [end for end, each in claims.items() if end[0] == node[0] and any(one.device == device for one in each)]
    ends = [end for end, each in claims.items() if end[0] == device
            and any(one.device == node[0] and one.interface in ("", node[1]) for one in each)]
    return ends[0] if len(ends) == 1 and len(mine) == 1 else None


def described_links(topology: Topology) -> tuple[list[Described], list[Node]]:
    """Returns the links that descriptions name and that are not known otherwise, and the interfaces whose descriptions name a
    device, but no link that is sure."""
    open_nodes = {(device, name): one for device, interfaces in topology.interfaces.items() for name, one in interfaces.items()
                  if not one.is_shut and not topology.peers.get((device, name))}
    claims = {node: found for node, one in open_nodes.items() if one.description
              for found in [claims_of(node, one, topology)] if len(found) == 1}
    links: list[Described] = []
    used: set[Node] = set()
    for claim in sorted((one for each in claims.values() for one in each), key=lambda one: not one.interface):
        other = agreed(claim, claims)
        if other in open_nodes and other not in used and claim.node not in used:
            one = open_nodes[claim.node]
            links.append(Described(claim.node, other, f"description \"{one.description}\" ({where(one.place)})"))
            used |= {claim.node, other}
    return links, [node for node in claims if node not in used]

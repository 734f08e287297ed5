"""The traffic of a proposed project: all packets that may pass from one interface to another."""
from __future__ import annotations

from dataclasses import dataclass, field, replace

from once_tools.model import Crossing, Direction, Place, Unusable
from once_tools.paths.ways import Search, simple_paths
from once_tools.proposal.areas import Area, Edge, Surroundings
from once_tools.proposal.flows import Flow
from once_tools.proposal.versions import versions_at, with_versions

# A traffic between two lists of interfaces is written for representatives if it has more pairs than this.
MOST_PAIRS = 40_000
EXEMPT = "exempt = true"
# Numbers of devices that a path may lead over, the usual one first.
HOPS = (8, 6, 5, 4, 3, 2)


@dataclass
class Proposed:
    """The traffic of a project, and what is to be said of traffic that is not proposed."""

    flows: list[Flow] = field(default_factory=list)
    unsaid: list[str] = field(default_factory=list)


def pairs_of(area: Area, start: str, end: str) -> bool:
    """Returns whether packets can pass from an interface of a role to another interface of a role."""
    starts, ends = ([edge.node for edge in area.edges if edge.role == role] for role in (start, end))
    return any(one != other for one in starts[:2] for other in ends[:2])


def edges_of(areas: list[Area], role: str) -> list[Edge]:
    """Returns the interfaces of a role."""
    return [edge for area in areas for edge in area.edges if edge.role == role]


def between(areas: list[Area], name: str, says: list[str], start: str, end: str) -> list[Flow]:
    """Returns the traffic from a role to a role, if there is a way."""
    is_there = any(pairs_of(area, start, end) for area in areas)
    return [Flow(name, says, edges_of(areas, start), edges_of(areas, end), (start, end))] if is_there else []


def may_count_transit(area: Area, around: Surroundings) -> bool:
    """Returns whether packets between core interfaces may be counted: something is metered elsewhere than where customers are,
    or which interfaces are core is a guess, or there are no customers."""
    customers = {edge.node for edge in area.edges if edge.role == "customers"}
    elsewhere = {(one.device, one.interface) for one in around.metered if one.device in area.names} - customers
    return bool(elsewhere) or not customers or any(not edge.is_sure for edge in area.edges if edge.role == "core")


def between_core(areas: list[Area], around: Surroundings, proposed: Proposed) -> list[Flow]:
    """Returns the traffic between interfaces of the core, where its packets may be counted."""
    there = [area for area in areas if pairs_of(area, "core", "core")]
    wanted = [area for area in there if may_count_transit(area, around)]
    for area in there:
        if area not in wanted:
            proposed.unsaid.append(f"Packets between the core interfaces of {', '.join(area.names)} are metered nowhere, and no "
                                   "traffic is proposed for them.")
    found = between(areas if wanted == there else wanted, "between core", ["Packets from one core interface to another."], "core",
                    "core")
    return found if wanted == there else [replace(one, roles=("", "")) for one in found]


def between_roles(around: Surroundings, proposed: Proposed) -> list[Flow]:
    """Returns the traffic between customers, the core and interfaces of no role."""
    areas = [area for area in around.areas if any(edge.role for edge in area.edges)]
    for edge in (edge for area in areas for edge in area.edges if not edge.role):
        edge.role = "others"
    found = between(areas, "up", ["What customers send."], "customers", "core")
    found += between(areas, "down", ["What the core sends to customers."], "core", "customers")
    found += between(areas, "between customers", ["Packets from one customer to another."], "customers", "customers")
    found += between_core(areas, around, proposed)
    for role, what, verb in (("customers", "customers", "send"), ("core", "the core", "sends")):
        found += between(areas, f"others to {role}", [f"What comes in at `others` and leaves to {what}."], "others", role)
        found += between(areas, f"{role} to others", [f"What {what} {verb} to `others`."], role, "others")
    return found + between(areas, "between others", ["Packets from one of `others` to another."], "others", "others")


def through(area: Area) -> Flow:
    """Returns all traffic through devices of which nothing says what their interfaces lead to."""
    names = " and ".join(area.names)
    if area.is_host:
        says = [f"All packets that pass between the interfaces that {names} meters. If it has others, add traffic between them "
                "and these."]
    else:
        what = "ports" if area.is_switch else "interfaces"
        says = [f"No file says what the {what} of {names} lead to: these are all packets that come in at one and leave by "
                "another."]
    return Flow(f"through {names}", says, area.edges, area.edges)


def at_host(area: Area) -> list[Flow]:
    """Returns the traffic at the interfaces that a host's meter names: between them, or what comes in and what leaves at the
    only one."""
    if len(area.edges) > 1:
        return [through(area)]
    edge = area.edges[0]
    device, name = edge.node
    says = f"The other interfaces of {device} are not known: these are all packets that come in at {name}."
    out = f"All packets that leave at {name}."
    return [Flow(f"in at {device} {name}", [says], [edge], [edge], paths=[f"{edge.text}:ingress"]),
            Flow(f"out at {device} {name}", [out], [edge], [edge], paths=[f"{edge.text}:egress"])]


def likeness(edge: Edge, around: Surroundings) -> tuple[object, ...]:
    """Returns what of an interface bears on how its packets are counted: the meters there, at its main interface and at its
    members, and the versions of IP."""
    device, name = edge.node
    names = {name: "", edge.interface.parent: "main", **{one: "member" for one in edge.interface.members}}
    points = around.devices[device].points if device in around.devices else []
    seen = {(names[each], point.direction.value, one.cache, *sorted(one.match.items())) for point in points
            for each in names.keys() & set(point.interfaces) for one in point.selections}
    return device, edge.interface.vrf, frozenset(seen), frozenset(versions_at(edge, around))


def representatives(edges: list[Edge], around: Surroundings) -> list[Edge]:
    """Returns two of the interfaces that are metered alike, for all of them."""
    found: dict[tuple[object, ...], list[Edge]] = {}
    for edge in edges:
        group = found.setdefault(likeness(edge, around), [])
        if len(group) < 2:
            group.append(edge)
    return [edge for group in found.values() for edge in group]


def reduced(flow: Flow, around: Surroundings) -> Flow:
    """Returns a traffic with few enough paths to audit: of too many interfaces, two of those that are metered alike."""
    if len(flow.start) * len(flow.end) <= MOST_PAIRS:
        return flow
    start, end = representatives(flow.start, around), representatives(flow.end, around)
    says = [*flow.says, f"Of {len(flow.start)} and {len(flow.end)} interfaces, those that are metered alike are represented by "
            "two of them: packets of the others are counted as packets of these are."]
    return replace(flow, says=says, start=start, end=end, roles=("", ""))


def with_hops(flow: Flow, around: Surroundings) -> Flow:
    """Returns a traffic whose paths can be listed: over fewer devices than usual, if they are too many."""
    linked = {name for area in around.areas for name in area.names if len(area.names) > 1}
    if not any(edge.node[0] in linked for edge in flow.start):
        return flow
    starts, ends = ([edge.node for edge in edges] for edges in (flow.start, flow.end))
    for hops in HOPS:
        try:
            simple_paths(around.topology, Search(starts, ends, hops, False, Place("")), set())
        except Unusable:
            continue
        says = [*flow.says, f"Paths over more than {hops} devices are too many to list: give routing tables for them."]
        return flow if hops == HOPS[0] else replace(flow, hops=hops, says=says)
    return flow


def is_metered(flow: Flow, around: Surroundings) -> bool:
    """Returns whether anything on the interfaces of a traffic meters it for the report; devices between them may, too."""
    crossings = [Crossing(*edge.node, Direction.INGRESS) for edge in flow.start]
    crossings += [Crossing(*edge.node, Direction.EGRESS) for edge in flow.end]
    return any(one in around.for_report for one in crossings)


def with_advice(flow: Flow, around: Surroundings) -> Flow:
    """Returns a traffic with what the user has to decide if nothing meters it where it comes in or leaves, and no other device
    is on its way."""
    linked = {name for area in around.areas for name in area.names if len(area.names) > 1}
    if not any(edge.node[0] in linked for edge in flow.start) and not is_metered(flow, around):
        flow.says.append(f"No meter for the report is at these interfaces in this direction: write {EXEMPT} if these packets "
                         "must not be counted.")
    return flow


def traffic_of(around: Surroundings) -> Proposed:
    """Returns the traffic that is proposed for a network."""
    proposed = Proposed()
    flows = between_roles(around, proposed)
    for area in around.areas:
        if area.is_host:
            flows += at_host(area)
        elif not any(edge.role for edge in area.edges):
            flows.append(through(area))
    hosts = [area.names[0] for area in around.areas if area.is_host]
    if len(hosts) > 1:
        proposed.unsaid.append(f"If two of {', '.join(hosts[:8])} meter interfaces of one host, add traffic for the packets that "
                               "pass from one of these interfaces to the other, so that the audit sees that both meter them: "
                               f"paths = [[\"{hosts[0]}:INTERFACE:ingress\", \"{hosts[1]}:INTERFACE:egress\"]].")
    taken: set[str] = set()
    for flow in flows:
        for one in with_versions(with_hops(reduced(flow, around), around), around):
            while one.name in taken:
                one.name += f" of {one.start[0].node[0]}" if one.start[0].node[0] not in one.name else " too"
            taken.add(one.name)
            proposed.flows.append(with_advice(one, around))
    return proposed

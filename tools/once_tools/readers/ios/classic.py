"""Classic NetFlow: `ip flow-export`, `ip flow-cache` and the aggregation caches of the router."""
from __future__ import annotations

from dataclasses import dataclass, field

from once_tools.model import Aggregation, Destination, Exporter, Place
from once_tools.readers.ios.exporters import port_of
from once_tools.readers.notes import Notes
from once_tools.readers.trees import Node

PORTS: list[tuple[str, int | None]] = [("sourceTransportPort", None), ("destinationTransportPort", None)]
PROTOCOL: list[tuple[str, int | None]] = [("protocolIdentifier", None)]
TOS: list[tuple[str, int | None]] = [("ipClassOfService", None)]

# For each aggregation: which prefixes it keeps, and which other axes.
KINDS: dict[str, tuple[bool, bool, list[tuple[str, int | None]]]] = {
    "as": (False, False, []),
    "as-tos": (False, False, TOS),
    "bgp-nexthop-tos": (False, False, TOS),
    "destination-prefix": (False, True, []),
    "destination-prefix-tos": (False, True, TOS),
    "prefix": (True, True, []),
    "prefix-port": (True, True, PROTOCOL + PORTS + TOS),
    "prefix-tos": (True, True, TOS),
    "protocol-port": (False, False, PROTOCOL + PORTS),
    "protocol-port-tos": (False, False, PROTOCOL + PORTS + TOS),
    "source-prefix": (True, False, []),
    "source-prefix-tos": (True, False, TOS),
}
HARMLESS_EXPORT = {"source", "template", "interface-names", "options"}
CACHE = "NetFlow"
EXPORT = "ip flow-export"


@dataclass
class Classic:
    """What a configuration says about classic NetFlow."""

    exporters: list[Exporter] = field(default_factory=list)
    aggregations: list[Aggregation] = field(default_factory=list)
    settings: dict[str, int] = field(default_factory=dict)
    version: int = 1
    version_place: Place | None = None
    source: str = ""
    notes: Notes = field(default_factory=Notes)


def destination_of(words: tuple[str, ...], place: Place, transport: str) -> Destination | None:
    """Returns the destination of words `ADDRESS PORT ..`."""
    port = port_of(words[1]) if len(words) > 1 else None
    if port is None:
        return None
    rest = list(words[2:])
    vrf = rest[rest.index("vrf") + 1] if "vrf" in rest[:-1] else ""
    chosen = next((word for word in rest if word in ("udp", "sctp")), transport)
    return Destination(f"{words[0]} port {port}", words[0], port, place, chosen, vrf, 9)


def read_reliability(classic: Classic, line: Node) -> None:
    """Reads what is below `ip flow-export destination` beside backups."""
    words = line.words
    if words == ("backup", "mode", "fail-over"):
        classic.notes.note(line.place, "the backup receives records while the first destination is not reachable, and then "
                                       "alone")
    elif words == ("backup", "mode", "redundant"):
        classic.notes.premise(line.place, "the backup is taken to receive records while the first destination is not reachable "
                                          "alone, which was not confirmed for this mode", "write 'backup mode fail-over'")
    elif words[0] == "reliability" and words[1:2] in (("none",), ("partial",)):
        classic.notes.premise(line.place, "records that are lost on the way are not sent again: a certificate speaks of records "
                                          "that arrive", "write 'reliability full'")
    elif words != ("reliability", "full") and not (len(words) == 3 and words[2].isdigit() and words[:2] in (
            ("backup", "fail-over"), ("backup", "restore-time"))):
        classic.notes.unknown(line.place, "ip flow-export")


def read_destination(classic: Classic, node: Node) -> None:
    """Reads `ip flow-export destination A P [sctp]`, with a backup below it."""
    first = destination_of(node.words[3:], node.place, "udp")
    if first is None:
        classic.notes.unknown(node.place, "ip flow-export")
        return
    destinations = [first]
    for line in node.children:
        backup = destination_of(line.words[2:], line.place, first.transport) if line.starts("backup", "destination") else None
        if backup:
            destinations.append(backup)
        else:
            read_reliability(classic, line)
    if len(destinations) > 1:
        classic.exporters.append(Exporter("", destinations, node.place, "fallback"))
    elif classic.exporters and classic.exporters[-1].mode == "parallel":
        classic.exporters[-1].destinations += destinations
    else:
        classic.exporters.append(Exporter("", destinations, node.place))


def read_export(classic: Classic, node: Node) -> None:
    """Reads a line `ip flow-export ..`."""
    words = node.words[2:]
    if words[:1] == ("destination",):
        read_destination(classic, node)
    elif words[:1] == ("version",) and len(words) > 1 and words[1] in ("1", "5", "9", "10"):
        classic.version, classic.version_place = int(words[1]), node.place
    elif words[:1] == ("source",) and len(words) > 1:
        classic.source = "".join(words[1:])
    elif not words or words[0] not in HARMLESS_EXPORT:
        classic.notes.unknown(node.place, "ip flow-export")


def read_cache(classic: Classic, node: Node) -> None:
    """Reads a line `ip flow-cache ..`; the active timeout is in minutes."""
    words = node.words[2:]
    value = int(words[-1]) if words and words[-1].isdigit() and len(words[-1]) < 8 else None
    if value is not None and words[:2] == ("timeout", "active"):
        classic.settings["activeTimeout"] = 60 * value
    elif value is not None and words[:2] == ("timeout", "inactive"):
        classic.settings["idleTimeout"] = value
    elif value is not None and words[:1] == ("entries",):
        classic.settings["maxFlows"] = value
    else:
        classic.notes.unknown(node.place, "ip flow-cache")


def masks_of(classic: Classic, node: Node) -> dict[str, tuple[int, Place]]:
    """Returns the least lengths of prefixes that an aggregation says, by `source` and `destination`."""
    found = {}
    for line in node.children:
        words = line.words
        if words[0] == "mask" and len(words) == 4 and words[2] == "minimum" and words[3].isdigit() and 0 < int(words[3]) < 33:
            found[words[1]] = (int(words[3]), line.place)
            classic.notes.premise(
                line.place, f"prefixes have the lengths of the routing table, {words[3]} at least; the document has "
                            f"{words[3]} for all")
    return found


def read_aggregation(classic: Classic, name: str, node: Node) -> None:
    """Reads a section `ip flow-aggregation cache KIND`."""
    if name not in KINDS:
        classic.notes.unknown(node.place, "classic NetFlow")
        return
    lines = [line.words for line in node.children]
    if ("enabled",) not in lines:
        classic.notes.note(node.place, "the aggregation is not 'enabled' and left out")
        return
    destinations = []
    for line in node.children:
        one = destination_of(line.words[2:], line.place, "udp") if line.starts("export", "destination") else None
        if one:
            destinations.append(one)
        elif line.words[0] not in ("enabled", "mask", "cache", "export") or line.starts("export", "destination"):
            classic.notes.unknown(line.place, "an aggregation")
    if not destinations:
        classic.notes.note(node.place, "the aggregation has no destination and sends nothing; it is left out")
        return
    keeps_source, keeps_destination, key = KINDS[name]
    masks, key = masks_of(classic, node), list(key)
    for side, element, is_kept in (("destination", "destinationIPv4Prefix", keeps_destination),
                                   ("source", "sourceIPv4Prefix", keeps_source)):
        if is_kept and side in masks:
            key.insert(0, (element, masks[side][0]))
        elif is_kept:
            classic.notes.premise(node.place, f"{side} prefixes have the lengths of the routing table; with no 'mask {side} "
                                              "minimum' the document leaves them out of the key",
                                  f"write 'mask {side} minimum N'")
    classic.aggregations.append(Aggregation(name, key, [name], node.place))
    classic.exporters.append(Exporter(name, destinations, node.place))


def name_exports(classic: Classic) -> None:
    """Names the exporters of the main cache, which were read without a name."""
    unnamed = [one for one in classic.exporters if not one.name]
    for number, one in enumerate(unnamed, 1):
        one.name = EXPORT if number == 1 else f"{EXPORT} {number}"


def read_classic(nodes: list[Node]) -> Classic:
    """Returns what the sections say about classic NetFlow."""
    classic = Classic()
    for node in nodes:
        words = node.words
        if words[:2] == ("ip", "flow-export"):
            read_export(classic, node)
        elif words[:2] == ("ip", "flow-cache"):
            read_cache(classic, node)
        elif words[:3] == ("ip", "flow-aggregation", "cache"):
            read_aggregation(classic, " ".join(words[3:]), node)
    name_exports(classic)
    return classic

"""Flow exporters: where records are sent."""
from __future__ import annotations

from dataclasses import dataclass, field

from once_tools.model import Destination, Exporter, Place
from once_tools.readers.notes import Notes
from once_tools.readers.trees import Node

HARMLESS = {"description", "dscp", "ttl", "template", "option", "output-features", "mtu"}
VERSIONS = {"netflow-v5": 5, "netflow-v9": 9, "ipfix": 10}
DEFAULT_PORT = 9995


@dataclass
class FlowExporter:
    """A section `flow exporter NAME`, read line by line."""

    name: str
    place: Place
    address: str = ""
    address_place: Place = Place("")
    vrf: str = ""
    port: int = DEFAULT_PORT
    version: int = 9
    version_place: Place | None = None
    port_place: Place | None = None
    source: str = ""
    notes: Notes = field(default_factory=Notes)

    def exporter(self) -> Exporter:
        """Returns the exporter with its destination, if it has one; `source` is still an interface's name."""
        destinations = []
        if self.address:
            destinations.append(Destination(f"{self.address} port {self.port}", self.address, self.port,
                                            self.address_place, "udp", self.vrf, self.version))
        return Exporter(self.name, destinations, self.place, "parallel", self.source)


def port_of(text: str) -> int | None:
    """Returns the number of a port, or None."""
    return int(text) if text.isdigit() and len(text) < 6 and 0 < int(text) < 65536 else None


def read_line(found: FlowExporter, line: Node) -> None:
    """Reads a line of the section."""
    words = line.words
    if words[0] == "destination" and len(words) in (2, 4):
        if found.address:
            found.notes.lost(line.place, "the exporter has a destination already; the document has the last one")
        found.address, found.address_place = words[1], line.place
        found.vrf = words[3] if words[2:3] == ("vrf",) else ""
    elif words[:2] == ("transport", "udp") and len(words) == 3 and port_of(words[2]):
        found.port, found.port_place = port_of(words[2]) or DEFAULT_PORT, line.place
    elif words[0] == "export-protocol" and len(words) == 2 and words[1] in VERSIONS:
        found.version, found.version_place = VERSIONS[words[1]], line.place
    elif words[0] == "source" and len(words) >= 2:
        found.source = "".join(words[1:])
    elif words[0] not in HARMLESS:
        found.notes.unknown(line.place, "a flow exporter")


def read_exporter(name: str, node: Node) -> FlowExporter:
    """Returns the exporter of a section `flow exporter NAME`."""
    found = FlowExporter(name, node.place)
    for line in node.children:
        read_line(found, line)
    place = found.version_place or found.port_place or found.address_place
    if not found.address:
        found.notes.note(node.place, "the exporter has no destination and sends nothing")
    elif found.version != 10:
        says = f"NetFlow version {found.version}"
        says = says if found.version_place else f"with no 'export-protocol' this is {says}"
        limits = ", which carries IPv4 alone" if found.version == 5 else ""
        found.notes.note(place, f"{says}{limits}: the audit is the same, and `once collect` refuses its messages (611)")
    if found.address and not found.port_place:
        found.notes.note(found.address_place, f"with no 'transport udp' the port is {DEFAULT_PORT}")
    return found

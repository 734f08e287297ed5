"""The bridges of Open vSwitch that packets pass between, and their ports."""
from __future__ import annotations

from once_tools.readers.ovsdb import Row, read_database
from once_tools.source import Source

Group = tuple[list[str], set[str]]  # bridges, and interfaces at which packets come in or leave


def bridges_of(sources: list[Source]) -> list[Group]:
    """Returns the bridges, those that patch ports join together, each group with the interfaces that are no patch ports."""
    database = read_database(sources)
    rows: dict[str, list[Row]] = {}
    for each in sorted(database.rows("Bridge"), key=lambda row: row.text("name")):
        ports = [port for port in (database.row("Port", one) for one in each.texts("ports")) if port]
        rows[each.text("name")] = [row for port in ports for one in port.texts("interfaces")
                                   if (row := database.row("Interface", one))]
    home = {row.text("name"): bridge for bridge, interfaces in rows.items() for row in interfaces}
    group = {bridge: bridge for bridge in rows}
    for bridge, interfaces in rows.items():
        for row in interfaces:
            peer = home.get(row.mapping("options").get("peer", "")) if row.text("type") == "patch" else None
            if peer:
                old, new = group[peer], group[bridge]
                group = {name: new if one == old else one for name, one in group.items()}
    found: dict[str, Group] = {}
    for bridge, interfaces in rows.items():
        bridges, names = found.setdefault(group[bridge], ([], set()))
        bridges.append(bridge)
        names |= {row.text("name") for row in interfaces if row.text("type") != "patch"}
    return list(found.values())

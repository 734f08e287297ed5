"""A traffic of a proposed project, and its table."""
from __future__ import annotations

from dataclasses import dataclass, field

from once_tools.proposal.areas import Edge
from once_tools.proposal.toml import comment, listed, quoted


@dataclass
class Flow:
    """A traffic from some interfaces to others, written as roles or interfaces; or along paths of single crossings."""

    name: str
    says: list[str]
    start: list[Edge] = field(default_factory=list)
    end: list[Edge] = field(default_factory=list)
    roles: tuple[str, str] = ("", "")
    paths: list[str] = field(default_factory=list)
    version: int | None = None
    hops: int | None = None


def lines_of(flow: Flow) -> list[str]:
    """Returns the table of a traffic."""
    lines = [line for text in flow.says for line in comment(text)] + ["[[traffic]]", f"name = {quoted(flow.name)}"]
    if flow.paths:
        lines.append(f"paths = [{', '.join(listed([one]) for one in flow.paths)}]")
    else:
        for key, role, edges in (("from", flow.roles[0], flow.start), ("to", flow.roles[1], flow.end)):
            lines.append(f"{key} = {listed([role] if role else [edge.text for edge in edges])}")
    lines += [f"hops = {flow.hops}"] if flow.hops else []
    return [*lines, *([f"version = {flow.version}"] if flow.version else []), ""]

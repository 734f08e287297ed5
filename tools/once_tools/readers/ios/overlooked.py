"""Statements about flows where no part of the reader looks."""
from __future__ import annotations

from typing import Iterator

from once_tools.readers.ios.flow_lines import is_about_flows
from once_tools.readers.notes import Notes
from once_tools.readers.trees import Node, Words

# Sections about flows that are read, or that do not bear on what is metered.
READ: list[Words] = [("ip", "flow-export"), ("ip", "flow-cache"), ("ip", "flow-aggregation"), ("flow", "record"),
                     ("flow", "exporter"), ("flow", "monitor"), ("sampler",), ("flow-sampler-map",)]
HARMLESS: list[Words] = [("ip", "flow-top-talkers"), ("ip", "flow-capture"), ("ip", "flow-egress")]
# Sections that meter only where an interface names them; the line of the interface is reported.
NAMED_BY_INTERFACES: list[Words] = [("performance",), ("policy-map",), ("class-map",), ("et-analytics",)]
EVENTS: list[Words] = [("ip", "nat", "log", "translations", "flow-export"), ("log", "flow-export")]


def begins(node: Node, patterns: list[Words]) -> bool:
    """Returns whether a line begins with the words of one of the patterns."""
    return any(node.starts(*one) for one in patterns)


def below(node: Node, levels: int) -> Iterator[Node]:
    """Yields the lines at this depth or more below a section."""
    for child in node.children:
        yield from child.walk() if levels <= 1 else below(child, levels - 1)


def sourced(nodes: list[Node]) -> set[str]:
    """Returns the names of the templates that interfaces take their lines from."""
    return {line.words[2] for node in nodes for line in node.children
            if line.starts("source", "template") and len(line.words) > 2}


def overlooked(nodes: list[Node]) -> Iterator[Node]:
    """Yields the lines that no part of the reader looks at."""
    templates = sourced(nodes)
    for node in nodes:
        if begins(node, [*HARMLESS, *NAMED_BY_INTERFACES]):
            continue
        is_read = begins(node, [*READ, ("interface",), ("vlan", "configuration")]) and len(node.words) > 1
        if is_read or node.starts("template") and node.words[1:2] and node.words[1] in templates:
            yield from below(node, 2)
        else:
            yield from node.walk()


def report_overlooked(nodes: list[Node], notes: Notes) -> None:
    """Reports lines about flows that no part of the reader looks at."""
    for node in overlooked(nodes):
        if begins(node, EVENTS):
            notes.note(node.place, "records of events are exported here; they have no counters, and nothing is metered")
        elif is_about_flows(node):
            notes.unknown(node.place, "the configuration of flows")

"""Flow monitors and samplers."""
from __future__ import annotations

import re
from dataclasses import dataclass, field

from once_tools.model import Place
from once_tools.readers.ios.records import Record, predefined
from once_tools.readers.notes import Notes
from once_tools.readers.trees import Node
from once_tools.toml_table import nearest

HARMLESS = {"description", "statistics", "history"}
KINDS = {"normal": "timeout", "immediate": "immediate", "permanent": "permanent"}
TIMEOUTS = {"active": "activeTimeout", "inactive": "idleTimeout", "update": "exportInterval"}


@dataclass
class Monitor:
    """A section `flow monitor NAME`."""

    name: str
    place: Place
    record: Record | None = None
    exporters: list[tuple[str, Place]] = field(default_factory=list)
    kind: str = "timeout"
    settings: dict[str, int] = field(default_factory=dict)
    notes: Notes = field(default_factory=Notes)


def is_number(text: str) -> bool:
    """Returns whether a text is a number of at most 32 bits."""
    return text.isdigit() and len(text) < 11 and int(text) < 1 << 32


def read_cache(monitor: Monitor, line: Node) -> None:
    """Reads a line `cache ..`."""
    words = line.words[1:]
    if len(words) == 2 and words[0] == "type" and words[1] in KINDS:
        monitor.kind = KINDS[words[1]]
        if words[1] == "permanent":
            monitor.notes.premise(line.place, "it is not established whether the counters of a permanent cache begin anew "
                                              "with each export; the document takes it that they do",
                                  "compare two exports of one flow")
    elif len(words) == 2 and words[0] == "type" and words[1] == "synchronized":
        monitor.kind = "timeout"
    elif words[:1] == ("entries",) and len(words) == 2 and is_number(words[1]):
        monitor.settings["maxFlows"] = int(words[1])
    elif words[:1] == ("timeout",) and len(words) == 3 and words[1] in TIMEOUTS and is_number(words[2]):
        monitor.settings[TIMEOUTS[words[1]]] = int(words[2])
    elif words[:2] not in (("timeout", "event"), ("timeout", "synchronized"), ("timeout", "rate-limit")):
        monitor.notes.unknown(line.place, "a flow monitor")


def read_record_line(monitor: Monitor, line: Node, records: dict[str, Record]) -> None:
    """Reads a line `record ..`: the name of a record, or a predefined one."""
    words = line.words[1:]
    name = " ".join(words)
    monitor.record = records.get(name) or predefined(words, line.place)
    if monitor.record is None:
        monitor.notes.wrong(line.place, f"there is no flow record {name}", nearest(name, records) if records else
                            f"add the section 'flow record {name}'")
    elif name not in records:
        monitor.notes.findings += monitor.record.notes.findings


def read_monitor(name: str, node: Node, records: dict[str, Record]) -> Monitor:
    """Returns the monitor of a section `flow monitor NAME`."""
    monitor = Monitor(name, node.place)
    for line in node.children:
        if line.starts("exporter") and len(line.words) == 2:
            monitor.exporters.append((line.words[1], line.place))
        elif line.starts("record") and len(line.words) > 1:
            read_record_line(monitor, line, records)
        elif line.starts("cache"):
            read_cache(monitor, line)
        elif line.words[0] not in HARMLESS:
            monitor.notes.unknown(line.place, "a flow monitor")
    if monitor.record is None and not monitor.notes.findings:
        monitor.notes.wrong(node.place, "the monitor has no record", "add 'record NAME'")
    return monitor


@dataclass
class Sampler:
    """A section `sampler NAME`: one packet in `rate`; 0 if that is not known."""

    name: str
    place: Place
    rate: int = 0
    is_random: bool = True
    notes: Notes = field(default_factory=Notes)


MODE = re.compile(r"^mode (random|deterministic) (?:1|one)[ -]out-of (\d{1,9})$")


def read_sampler(name: str, node: Node) -> Sampler:
    """Returns the sampler of a section `sampler NAME` or `flow-sampler-map NAME`."""
    sampler = Sampler(name, node.place)
    for line in node.children:
        match = MODE.match(line.text)
        if match and int(match[2]):
            sampler.rate, sampler.is_random, sampler.place = int(match[2]), match[1] == "random", line.place
        elif not line.starts("description") and not line.starts("granularity"):
            sampler.notes.unknown(line.place, "a sampler")
    return sampler

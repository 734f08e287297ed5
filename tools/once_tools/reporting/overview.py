"""An overview of a network with many devices, as a drawing for Graphviz: devices that are alike are one box, and if more than twenty
boxes are left, devices of one site are."""
from __future__ import annotations

import json
import re
from collections import Counter
from dataclasses import dataclass
from typing import Collection, Iterable, Sequence

from once_tools.network_view import MODULE, DeviceView, Json, entries, table
from once_tools.origin import AGGREGATION
from once_tools.report import counted, printable
from once_tools.reporting.names import are_numbered, span

# A network of more devices than this has an overview, which folds devices by site if it has more boxes than this.
FEW_DEVICES, MOST_BOXES = 8, 20
# How many names a box lists before it counts the others.
NAMES_SHOWN = 3
# What may differ between devices that are alike.
OWN_MEMBERS = ("observationDomainId", "ifName", "ifIndex")


@dataclass(frozen=True)
class Box:
    """Devices that are drawn as one."""

    devices: tuple[str, ...]
    roles: tuple[str, ...]


@dataclass(frozen=True)
class Overview:
    """A drawing in Graphviz's language, and what it shows in words."""

    drawing: str
    words: str


def without_own(value: object) -> object:
    """Returns a part of a configuration without what is a device's own."""
    if isinstance(value, dict):
        return {name: without_own(one) for name, one in value.items() if name not in OWN_MEMBERS}
    return [without_own(one) for one in value] if isinstance(value, list) else value


def shape_of(device: Json, links: Sequence[Json]) -> str:
    """Returns what is the same of devices that are alike: their configuration, and where their links lead."""
    leads = sorted(json.dumps({**one, "device": ""}, sort_keys=True) for one in links if one.get("device") == device.get("name"))
    return json.dumps([without_own(table(table(device.get("config")).get(MODULE))), leads], sort_keys=True)


def site_of(name: str) -> str:
    """Returns the site in a device's name: what comes before its first `-`, `.` or `_`, or before the number that ends it."""
    return re.split(r"[-._]", name, maxsplit=1)[0].rstrip("0123456789") or name


def roles_of(device: Json, reports: Json) -> list[str]:
    """Returns what a device does."""
    view = DeviceView(device)
    processes = view.list("collectingProcess")
    roles = ["meters"] if view.list("observationPoint") else []
    if any(one.get(AGGREGATION) for one in processes):
        roles.append("aggregates")
    if view.name == reports.get("device"):
        return [*roles, "holds the report"]
    return [*roles, "collects"] if processes and "aggregates" not in roles else roles


def grouped(devices: Sequence[Json], keys: Iterable[str]) -> list[list[Json]]:
    """Returns the devices with the same key together, in the order of the first of each."""
    found: dict[str, list[Json]] = {}
    for key, device in zip(keys, devices):
        found.setdefault(key, []).append(device)
    return list(found.values())


def boxes_of(network: Json, apart: Collection[str]) -> list[Box]:
    """Returns the boxes of a network's overview. Each device in `apart` is a box of its own."""
    devices, links, reports = (entries(network.get("devices")), entries(network.get("links")), table(network.get("report")))
    alone = {*apart, str(reports.get("device", ""))}
    name_of = [str(one.get("name", "")) for one in devices]
    groups = grouped(devices, (f"= {name}" if name in alone else shape_of(one, links) for name, one in zip(name_of, devices)))
    if len(groups) > MOST_BOXES:
        groups = grouped(devices, (f"= {name}" if name in alone else site_of(name) for name in name_of))
    return [Box(tuple(str(one.get("name", "")) for one in group), tuple(dict.fromkeys(role for one in group for role in roles_of(one, reports))))
            for group in groups]


def names_in(box: Box) -> str:
    """Returns the names of a box's devices, the first few of many."""
    names = box.devices
    if len(names) > 2 and are_numbered(names):
        return span(names)
    if len(names) <= NAMES_SHOWN:
        return ", ".join(names)
    return f"{', '.join(names[:NAMES_SHOWN - 1])} and {len(names) - NAMES_SHOWN + 1} more"


def quoted(text: str) -> str:
    """Returns a text as a part of a label in quotation marks."""
    return printable(text).replace("\\", "\\\\").replace('"', '\\"')


def label_of(lines: Iterable[str]) -> str:
    return "\\n".join(quoted(line) for line in lines)


def destinations_lost(network: Json) -> Counter[str]:
    """Returns how many destinations of each device no link leads from."""
    linked = {(one.get("device"), one.get("exportingProcess"), one.get("destination")) for one in entries(network.get("links"))}
    found: Counter[str] = Counter()
    for device in entries(network.get("devices")):
        view = DeviceView(device)
        for process in view.list("exportingProcess"):
            ends = [(view.name, process.get("name"), one.get("name")) for one in entries(process.get("destination"))]
            found[view.name] += sum(end not in linked for end in ends)
    return found


def box_lines(box: Box) -> list[str]:
    """Returns the lines of a box."""
    many = [counted(len(box.devices), "device", "devices")] if len(box.devices) > 1 else []
    return [names_in(box), *many, *([", ".join(box.roles)] if box.roles else [])]


def arrows_of(network: Json, at: dict[str, int]) -> list[str]:
    """Returns the arrows between boxes, one for all links between two, and those to destinations without a link."""
    ends = [(at.get(str(one.get("device"))), at.get(str(one.get("toDevice")))) for one in entries(network.get("links"))]
    made = []
    for (start, end), links in Counter(one for one in ends if None not in one).items():
        label = f' [label="{links} links"]' if links > 1 else ""
        made.append(f"  box{start} -> box{end}{label};")
    lost: Counter[int] = Counter()
    for name, many in destinations_lost(network).items():
        lost[at[name]] += many
    for start, many in sorted((start, many) for start, many in lost.items() if many):
        made.append(f'  lost{start} [label="{counted(many, "destination", "destinations")}\\nwithout a link", shape=plaintext, fontcolor=red];')
        made.append(f"  box{start} -> lost{start} [color=red, style=dashed];")
    return made


def overview_of(network: Json, crossed: Collection[str], apart: Collection[str] = ()) -> Overview:
    """Returns the overview of a network. A box is blue if a path crosses a device in it, and green if it has the report."""
    boxes = boxes_of(network, apart)
    at = {name: number for number, box in enumerate(boxes) for name in box.devices}
    rows = ["digraph overview {", "  rankdir=LR;", "  node [shape=box];"]
    for number, box in enumerate(boxes):
        color = "darkgreen" if "holds the report" in box.roles else "blue" if {*box.devices} & {*crossed} else "black"
        rows.append(f'  box{number} [label="{label_of(box_lines(box))}", color={color}];')
    rows += [*arrows_of(network, at), "}"]
    return Overview("\n".join(rows) + "\n", words_of(boxes))


def words_of(boxes: Sequence[Box]) -> str:
    """Returns what an overview shows, as a sentence."""
    devices = sum(len(box.devices) for box in boxes)
    return f"{counted(devices, 'device', 'devices')} in {counted(len(boxes), 'box', 'boxes')}: {'; '.join(', '.join(box_lines(box)) for box in boxes)}."

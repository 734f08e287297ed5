"""What in a template bears on the count, and what a network document says for it."""
from __future__ import annotations

import json
from typing import Iterator

from once_tools.streams.elements import REVERSE, name_of, numbers_of
from once_tools.streams.messages import VARIABLE
from once_tools.streams.survey import Use

AXES = {8: 4, 12: 4, 4: 1, 7: 2, 11: 2, 5: 1, 60: 1, 27: 16, 28: 16}
PREFIXES = {44: 9, 45: 13, 170: 29, 169: 30}
COUNTERS = {1: 85, 2: 86}
SAMPLING = (34, 35, 48, 49, 50, 302, 304, 305, 306, 307, 308, 309, 310, 311)
RATES = (34, 50, 306, 310)
NEAR_AXES = {195: "ipClassOfService", 180: "sourceTransportPort", 182: "sourceTransportPort", 181: "destinationTransportPort",
             183: "destinationTransportPort"}
NAMES = {element: name for element, name in (
    (1, "octetDeltaCount"), (2, "packetDeltaCount"), (85, "octetTotalCount"), (86, "packetTotalCount"))}


def bearing(use: Use) -> Iterator[str]:
    """Yields a sentence for each thing in a template that bears on the count."""
    fields = numbers_of(use.template.fields)
    if use.version == 9:
        yield "NetFlow 9: the audit is the same as for IPFIX; `once collect` does not read it (611)"
    yield from _sampling(use, fields)
    if use.template.is_options:
        return
    yield from _counters(use, fields)
    yield from _directions(use, fields)
    yield from _keys(fields)
    if any(one.enterprise == REVERSE for one in use.template.fields):
        yield "records hold both directions of a flow (RFC 5103): `once` reads the forward counters alone"
    if any(element in fields for element in (225, 226, 227, 228)):
        yield "the exporter translates addresses (NAT): the keys are the addresses before translation"
    if any(element in fields for element in (291, 292, 293)):
        yield "records hold lists (RFC 6313): `once` does not read what is in them"


def _counters(use: Use, fields: dict[int, int]) -> Iterator[str]:
    for delta, total in COUNTERS.items():
        name = NAMES[delta]
        if delta in fields and fields[delta] == VARIABLE:
            yield f"{name} has a variable length: `once collect` refuses the template (618)"
        elif delta in fields and not 1 <= fields[delta] <= 8:
            yield f"{name} has {fields[delta]} octets, which no counter has: `once collect` refuses the template (618)"
        elif delta in fields and fields[delta] < 8:
            most = f"{(1 << 8 * fields[delta]):,}"
            yield (f"{name} has {fields[delta]} octets: the document says 8, and speaks of records below {most}; `once collect` "
                   "refuses the template (618). Have the exporter send 8 octets")
        elif delta not in fields and total in fields:
            yield (f"{NAMES[total]} counts since the flow began, and there is no {name}: records of one flow cannot be added up "
                   "(111)")
        elif delta not in fields:
            instead = {1: ((352, "layer2OctetDeltaCount counts frames, not IP packets"), (231, "initiatorOctets")),
                       2: ((298, "initiatorPackets"),)}[delta]
            others = [text for element, text in instead if element in fields]
            yield f"there is no {name} (114){': ' + ', '.join(others) + ' cannot replace it' if others else ''}"
        if delta in fields and total in fields:
            yield f"{NAMES[total]} is there beside {name}, and is not read"
    if 3 in fields:
        yield "deltaFlowCount: records are aggregates of several flows"


def _sampling(use: Use, fields: dict[int, int]) -> Iterator[str]:
    found = [element for element in SAMPLING if element in fields]
    if not found:
        return
    names = ", ".join(name_of(one) for one in use.template.fields if one.enterprise == 0 and one.element in found)
    values = {element: sorted(use.values[element]) for element in RATES if use.values.get(element)}
    if not values:
        yield f"{names}: the exporter may sample. No values are in the capture: look at its configuration (108)"
    elif all(one in (0, 1) for each in values.values() for one in each) and not use.values.get(306, set()) - {0}:
        yield f"{names}: all values are 0 or 1, so every packet is metered"
    else:
        texts = "; ".join(f"{name} {', '.join(map(str, each))}" for name, each in _named(use, values))
        yield f"the exporter samples ({texts}): a total over a sample is not exact (108)"


def _named(use: Use, values: dict[int, list[int]]) -> Iterator[tuple[str, list[int]]]:
    for one in use.template.fields:
        if one.enterprise == 0 and one.element in values:
            yield name_of(one), values[one.element]


def _directions(use: Use, fields: dict[int, int]) -> Iterator[str]:
    if 61 not in fields:
        return
    words = {0: "ingress", 1: "egress"}
    seen = sorted(use.values.get(61, set()))
    if not seen:
        yield "flowDirection: no record is in the capture, so it is not known which directions are metered"
    elif len(seen) > 1:
        yield "flowDirection is ingress and egress: a packet that crosses two metered interfaces counts twice"
    else:
        yield f"flowDirection is always {words.get(seen[0], str(seen[0]))}"


def _keys(fields: dict[int, int]) -> Iterator[str]:
    for prefix, length in PREFIXES.items():
        if prefix in fields:
            name = {44: "sourceIPv4Prefix", 45: "destinationIPv4Prefix", 170: "sourceIPv6Prefix", 169: "destinationIPv6Prefix"}
            lengths = "its length is in the records" if length in fields else "its length is not in the records"
            yield f"{name[prefix]} ({lengths}): a report by whole addresses cannot be read from these records"
    for element, axis in NEAR_AXES.items():
        if element in fields and not any(number in fields for number, name in (
                (5, "ipClassOfService"), (7, "sourceTransportPort"), (11, "destinationTransportPort")) if name == axis):
            yield f"element {element} is not {axis}: a report by {axis} cannot be read from these records"


def document(use: Use) -> list[str]:
    """Returns the members of a network document for a template: the cache's fields, and the version that it takes."""
    fields = numbers_of(use.template.fields)
    axes = [one for one in use.template.fields if one.enterprise == 0 and one.element in AXES]
    names = dict.fromkeys(name_of(one) for one in axes)
    entries: list[dict[str, object]] = [{"name": name, "ieName": name, "isFlowKey": [None]} for name in names]
    entries += [{"name": name, "ieName": name} for name in ("octetDeltaCount", "packetDeltaCount")]
    found = ['"cacheField": [', *(" " + json.dumps(one) + ("," if one is not entries[-1] else "") for one in entries), "]"]
    versions = [version for version, elements in (("4", (8, 12)), ("6", (27, 28))) if any(one in fields for one in elements)]
    if len(versions) == 1:
        found.append('"selector": [' + json.dumps(
            {"name": "ipVersion", "filterMatch": {"ieName": "ipVersion", "value": versions[0]}}) + "]")
    return found

"""Changes of a network that `once` refuses because a device counts otherwise: it samples, or its counters are short."""
from __future__ import annotations

import re
from typing import Iterator

from once_tools.answers import Refusal
from once_tools.elements import COUNTERS
from once_tools.mending.changes import FIELD_LENGTH, POINT, Change, quoted
from once_tools.mending.patches import Document, remove, replace
from once_tools.network_view import NetworkView, entries, table

# The refusals of a selector other than selectAll and filterMatch, and of a counter that has not 8 octets.
UNSUPPORTED_SELECTOR, COUNTER_LENGTH = 108, 110
SELECTOR = re.compile(r"/devices/(\d+)/config/[^/]+/selectionProcess/(\d+)/selector/(\d+)")


def without_sampling(network: Document, refusal: Refusal) -> Iterator[Change]:
    """Yields the change that takes a selector which `once` refuses out of its selection process."""
    found = SELECTOR.match(refusal.pointer)
    if refusal.number != UNSUPPORTED_SELECTOR or not found:
        return
    device = NetworkView(network).devices[int(found[1])]
    process = device.list("selectionProcess")[int(found[2])]
    selectors = entries(process.get("selector"))
    says = f"Take selector {quoted(selectors[int(found[3])].get('name'))} out of selection process {quoted(process.get('name'))} of {device.name}: " \
           "totals of samples are no plain sums."
    everything = {"name": "everything", "selectAll": [None]}
    operation = remove(found[0]) if len(selectors) > 1 else replace(found[0], everything)
    yield Change(says, POINT, (operation,), place=device.place(f"/selectionProcess/{found[2]}/selector/{found[3]}"))


def longer_counter(network: Document, refusal: Refusal) -> Iterator[Change]:
    """Yields the change that gives the counters of a device 8 octets."""
    found = re.match(r"(/devices/(\d+)/config/[^/]+)/cache/(\d+)/", refusal.pointer)
    if refusal.number != COUNTER_LENGTH or not found or not refusal.pointer.endswith("/ieLength"):
        return
    device = NetworkView(network).devices[int(found[2])]
    operations = []
    for at, cache in enumerate(device.list("cache")):
        for kind, value in cache.items():
            for field, one in enumerate(entries(table(table(value).get("cacheLayout")).get("cacheField"))):
                if one.get("ieName") in COUNTERS and "ieLength" in one:
                    operations.append(replace(f"{found[1]}/cache/{at}/{kind}/cacheLayout/cacheField/{field}/ieLength", 8))
    if refusal.pointer in [it.path for it in operations]:
        yield Change(f"Have {device.name} export counters of 8 octets: shorter ones wrap.", FIELD_LENGTH, tuple(operations),
                     place=device.place(f"/cache/{found[3]}"))

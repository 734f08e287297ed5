"""Changes of what records are kept by, and of what is declared."""
from __future__ import annotations

from typing import Iterator

from once_tools.documents import key_entry
from once_tools.elements import ADDRESSES, axis_of
from once_tools.keys import KeyField, missing, spelled
from once_tools.mending.changes import EXEMPT, KEY_FIELD, REPORT_KEY, Case, Change, quoted
from once_tools.mending.delivery import Ways
from once_tools.mending.patches import Document, Operation, add, remove, replace
from once_tools.network_view import DeviceView, entries, key_fields, record_fields, table
from once_tools.origin import AGGREGATION


def more_keys(case: Case) -> Iterator[Change]:
    """Yields the changes that give records the fields of the report's key that they lack, if the packet can have them."""
    key = case.report_key()
    can_have = all(ADDRESSES.get(axis_of(element), version(case)) == version(case) for element, _ in key)
    for one in case.sightings if can_have else []:
        cache = one.device.list("cache")[one.cache] if one.cache is not None else {}
        lacks = missing(key, record_fields(cache))
        if lacks:
            yield Change(f"Add {spelled(lacks)} to the flow key of cache {quoted(cache.get('name'))} of {one.device.name}.", KEY_FIELD,
                         tuple(cache_fields(case, one.device, one.cache or 0, lacks)), place=one.device.place(f"/cache/{one.cache}"))
    for device, number, _ in Ways(case).reached if can_have else []:
        yield from aggregation_keys(case, device, number, key)
    yield from shorter_report(case)


def version(case: Case) -> int:
    return 6 if case.packet.get("ipVersion") == "6" else 4


def cache_fields(case: Case, device: DeviceView, number: int, lacks: list[KeyField]) -> Iterator[Operation]:
    cache = device.list("cache")[number]
    kind = next((it for it in cache if "cacheLayout" in table(cache[it])), "timeoutCache")
    for element in dict.fromkeys(axis_of(element) for element, _ in lacks):
        field: Document = {"name": element, "ieName": element, **({} if kind == "immediateCache" else {"isFlowKey": [None]})}
        yield add(case.pointer(device, f"/cache/{number}/{kind}/cacheLayout/cacheField/0"), field)


def aggregation_keys(case: Case, device: DeviceView, process: int, key: list[KeyField]) -> Iterator[Change]:
    """Yields the changes that add to an aggregation's key the fields that it lacks."""
    for number, one in enumerate(entries(device.list("collectingProcess")[process].get(AGGREGATION))):
        lacks = missing(key, key_fields(one.get("key")))
        inside = f"/collectingProcess/{process}/{AGGREGATION}/{number}"
        if lacks:
            there = [axis_of(element) for element, _ in key_fields(one.get("key"))]
            words = "Set" if all(axis_of(element) in there for element, _ in lacks) else "Add"
            yield Change(f"{words} {spelled(lacks)} {'in' if words == 'Set' else 'to'} the key of aggregation {quoted(one.get('name'))} of {device.name}.",
                         KEY_FIELD, tuple(key_changes(f"{case.pointer(device, inside)}/key", there, lacks)), place=device.place(inside))


def key_changes(pointer: str, there: list[str], lacks: list[KeyField]) -> Iterator[Operation]:
    """Yields the operations that add fields to a key with these axes, or that put them there instead of those on the same axis."""
    for (element, _), entry in zip(lacks, key_entry(lacks)):
        axis = axis_of(element)
        yield replace(f"{pointer}/{there.index(axis)}", entry) if axis in there else add(f"{pointer}/-", entry)


def shorter_report(case: Case) -> Iterator[Change]:
    """Yields the changes that ask for totals without a field of the key, if others are left."""
    for number, (element, length) in enumerate(case.report_key()):
        if len(case.report_key()) > 1:
            yield Change(f"Ask for a report without {spelled([(element, length)])}.", REPORT_KEY, (remove(f"/report/key/{number}"),))


def declaration(case: Case) -> Iterator[Change]:
    """Yields the change of what is declared: that the class must not be counted, or that it must."""
    at = f"{case.class_pointer}/exempt"
    if case.is_exempt:
        yield Change(f"Declare class {quoted(case.name)} as one that is to be counted.", EXEMPT, traffic=(remove(at),))
    elif not case.counted:
        yield Change(f"Declare class {quoted(case.name)} as exempt: its packets must never be counted.", EXEMPT, traffic=(add(at, [None]),))

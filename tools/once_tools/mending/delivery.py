"""Changes of where records go: links, destinations, export modes, and collecting processes that forward."""
from __future__ import annotations

from dataclasses import dataclass
from typing import Iterator

from once_tools.keys import KeyField, missing
from once_tools.mending.changes import DESTINATION, FORWARD, LINK, MODE, Case, Change, appended, free_name, quoted
from once_tools.mending.patches import Document, Operation, add, remove, replace
from once_tools.network_view import DeviceView, Json, entries, key_fields, record_fields, texts
from once_tools.origin import AGGREGATION


@dataclass(frozen=True)
class Sent:
    """A destination that a packet's record may go to: of the exporting process of this number, and the number of its link."""

    device: DeviceView
    exporter: int
    destination: int
    link: int | None
    key: tuple[KeyField, ...]

    @property
    def process(self) -> Json:
        return self.device.list("exportingProcess")[self.exporter]

    @property
    def target(self) -> Json:
        return entries(self.process.get("destination"))[self.destination]

    @property
    def pointer(self) -> str:
        return f"/exportingProcess/{self.exporter}/destination/{self.destination}"

    @property
    def words(self) -> str:
        return f"destination {quoted(self.target.get('name'))} of exporting process {quoted(self.process.get('name'))} of {self.device.name}"


class Ways:
    """All destinations that the records of a packet may go to, whatever is chosen, and the collecting processes that they reach."""

    def __init__(self, case: Case) -> None:
        self.case, self.sent, self.seen = case, [], set()
        self.reached: list[tuple[DeviceView, int, Sent]] = []
        for one in case.sightings:
            if one.cache is not None:
                cache = one.device.list("cache")[one.cache]
                self.follow(one.device, texts(cache.get("exportingProcess")), tuple(record_fields(cache)))

    sent: list[Sent]
    seen: set[tuple[int, int, tuple[KeyField, ...]]]

    def follow(self, device: DeviceView, names: list[str], key: tuple[KeyField, ...]) -> None:
        """Follows records with this key from exporting processes of a device."""
        for name in names:
            found = device.find("exportingProcess", name)
            at = (self.case.number_of(device), found[0], key) if found else None
            if found is None or at is None or at in self.seen:
                continue
            self.seen.add(at)
            for number, target in enumerate(entries(found[1].get("destination"))):
                self.send(Sent(device, found[0], number, self.link_of(device, name, target), key))

    def link_of(self, device: DeviceView, name: str, target: Json) -> int | None:
        return next((number for number, one in enumerate(self.case.view.links) if one.get("device") == device.name
                     and one.get("exportingProcess") == name and one.get("destination") == target.get("name")), None)

    def send(self, sent: Sent) -> None:
        self.sent.append(sent)
        link = self.case.view.links[sent.link] if sent.link is not None else {}
        device = self.case.device(link.get("toDevice"))
        process = device.find("collectingProcess", link.get("toProcess")) if device else None
        if device is None or process is None:
            return
        self.reached.append((device, process[0], sent))
        self.follow(device, texts(process[1].get("exportingProcess")), sent.key)
        for one in entries(process[1].get(AGGREGATION)):
            if not missing(key_fields(one.get("key")), list(sent.key)):
                self.follow(device, texts(one.get("exportingProcess")), tuple(key_fields(one.get("key"))))


def is_report(case: Case, device: DeviceView, process: Json) -> bool:
    return (device.name, process.get("name")) == (case.view.report.get("device"), case.view.report.get("collectingProcess"))


def leading(case: Case) -> list[tuple[str, str]]:
    """Returns the collecting processes from which records can reach the report, the report's first, by device and name."""
    found = [(str(case.view.report.get("device")), str(case.view.report.get("collectingProcess")))]
    grew = True
    while grew:
        grew = False
        for device in case.view.devices:
            for process in device.list("collectingProcess"):
                at = (device.name, str(process.get("name")))
                if at not in found and leads(case, device, process, found):
                    found.append(at)
                    grew = True
    return found


def leads(case: Case, device: DeviceView, process: Json, found: list[tuple[str, str]]) -> bool:
    names = texts(process.get("exportingProcess"))
    names += [name for one in entries(process.get(AGGREGATION)) for name in texts(one.get("exportingProcess"))]
    return any(one.get("device") == device.name and one.get("exportingProcess") in names
               and (str(one.get("toDevice")), str(one.get("toProcess"))) in found for one in case.view.links)


def link_to(sent_by: DeviceView, exporter: object, destination: object, to: tuple[str, str]) -> Document:
    return {"device": sent_by.name, "exportingProcess": exporter, "destination": destination, "toDevice": to[0], "toProcess": to[1]}


def more_delivery(case: Case) -> Iterator[Change]:
    """Yields the changes that have records of the packet reach the report which do not now."""
    ways, ends = Ways(case), leading(case)
    for sent in ways.sent:
        if sent.link is None:
            yield from linked(case, sent, ends)
    for device, number, sent in ways.reached:
        process = device.list("collectingProcess")[number]
        if (device.name, str(process.get("name"))) not in ends:
            yield from elsewhere(case, sent, device, process, ends)
            yield from forwarded(case, device, number, ends[0])
    for one in case.sightings:
        if one.cache is not None and not texts(one.device.list("cache")[one.cache].get("exportingProcess")):
            yield from exported(case, one.device, one.cache)


def linked(case: Case, sent: Sent, ends: list[tuple[str, str]]) -> Iterator[Change]:
    """Yields the links from a destination that has none to the report, or to what leads there."""
    for number, to in enumerate(ends):
        if to[0] != sent.device.name:
            yield Change(f"Link {sent.words} to collecting process {quoted(to[1])} of {to[0]}.", LINK + min(number, 6),
                         (*addressed(case, sent, to), add("/links/-", link_to(sent.device, sent.process.get("name"), sent.target.get("name"), to))),
                         place=sent.device.place(sent.pointer))


def address_of(case: Case, to: tuple[str, str]) -> Json | None:
    """Returns the address by which another destination is linked to a collecting process, with its transport, if one is known."""
    for link in case.view.links:
        device = case.device(link.get("device")) if (link.get("toDevice"), link.get("toProcess")) == to else None
        exporter = device.find("exportingProcess", link.get("exportingProcess")) if device else None
        for target in entries(exporter[1].get("destination")) if exporter else []:
            if target.get("name") == link.get("destination"):
                return {key: value for key, value in target.items() if key != "name" and value}
    return None


def addressed(case: Case, sent: Sent, to: tuple[str, str]) -> tuple[Operation, ...]:
    """Returns the operations that give a destination the address of a collecting process, if both have one."""
    there, known = case.pointer(sent.device, sent.pointer), address_of(case, to)
    old = [key for key, value in sent.target.items() if key != "name" and value]
    if not known or not old:
        return ()
    return (*(remove(f"{there}/{key}") for key in old), *(add(f"{there}/{key}", value) for key, value in known.items()))


def elsewhere(case: Case, sent: Sent, device: DeviceView, process: Json, ends: list[tuple[str, str]]) -> Iterator[Change]:
    """Yields the links of a destination to the report, or to what leads there, instead of a process from which nothing does."""
    for number, to in enumerate(ends):
        if to[0] != sent.device.name:
            near = 0 if to[0] == device.name else 5
            yield Change(f"Link {sent.words} to collecting process {quoted(to[1])} of {to[0]}, and not to {quoted(process.get('name'))} of "
                         f"{device.name}.", LINK + near + min(number, 6),
                         (*addressed(case, sent, to), replace(f"/links/{sent.link}/toDevice", to[0]), replace(f"/links/{sent.link}/toProcess", to[1])),
                         place=sent.device.place(sent.pointer))


def forwarded(case: Case, device: DeviceView, number: int, to: tuple[str, str]) -> Iterator[Change]:
    """Yields the change that has a collecting process forward to the report what it collects."""
    process, there = device.list("collectingProcess")[number], case.pointer(device, f"/collectingProcess/{number}")
    if device.name == to[0]:
        return
    name = free_name(device.list("exportingProcess"), f"to {to[0]}")
    exporter: Document = {"name": name, "destination": [{"name": to[1], "udpExporter": {}}]}
    named = add(f"{there}/exportingProcess/-", name) if "exportingProcess" in process else add(f"{there}/exportingProcess", [name])
    yield Change(f"Have collecting process {quoted(process.get('name'))} of {device.name} forward its records to {quoted(to[1])} of {to[0]}.", FORWARD,
                 (appended(case, device, "exportingProcess", exporter), named, add("/links/-", link_to(device, name, to[1], to))),
                 place=device.place(f"/collectingProcess/{number}"))


def exported(case: Case, device: DeviceView, cache: int) -> Iterator[Change]:
    """Yields the changes that have a cache without an exporting process use one of the device."""
    there = case.pointer(device, f"/cache/{cache}/exportingProcess")
    for one in device.list("exportingProcess"):
        name = str(one.get("name"))
        yield Change(f"Have cache {quoted(device.list('cache')[cache].get('name'))} of {device.name} export by {quoted(name)}.", LINK,
                     (add(there, [name]),), place=device.place(f"/cache/{cache}"))


def choices(case: Case) -> Iterator[Change]:
    """Yields the changes that take a destination out, or change how an exporting process chooses among several."""
    seen = set()
    for sent in Ways(case).sent:
        targets, at = entries(sent.process.get("destination")), (case.number_of(sent.device), sent.exporter)
        if len(targets) < 2:
            continue
        there = case.pointer(sent.device, f"/exportingProcess/{sent.exporter}")
        taken = (remove(f"{there}/destination/{sent.destination}"), *((remove(f"/links/{sent.link}"),) if sent.link is not None else ()))
        yield Change(f"Remove {sent.words}.", DESTINATION + (0 if sent.link is None or sent.destination else 1), taken, place=sent.device.place(sent.pointer))
        if at not in seen:
            seen.add(at)
            is_parallel = sent.process.get("exportMode", "parallel") == "parallel"
            mode, words = ("fallback", "one of its destinations") if is_parallel else ("parallel", "all of its destinations")
            yield Change(f"Have exporting process {quoted(sent.process.get('name'))} of {sent.device.name} send each record to {words} "
                         f"(exportMode {mode}).", MODE, (add(f"{there}/exportMode", mode),), place=sent.device.place(f"/exportingProcess/{sent.exporter}"))


def fewer_ways(case: Case) -> Iterator[Change]:
    """Yields the changes that take one of several ways to the report out: an aggregation of a collecting process, or an exporting process
    of a cache."""
    for device, number, _ in Ways(case).reached:
        process = device.list("collectingProcess")[number]
        sums = entries(process.get(AGGREGATION))
        there = f"/collectingProcess/{number}/{AGGREGATION}"
        for at, one in enumerate(sums) if len(sums) > 1 or process.get("exportingProcess") else ():
            pointer = case.pointer(device, f"{there}/{at}" if len(sums) > 1 else there)
            yield Change(f"Remove aggregation {quoted(one.get('name'))} of {device.name}.", DESTINATION - (1 if at else 0), (remove(pointer),),
                         place=device.place(f"{there}/{at}"))
    for seen in case.counted:
        cache = seen.device.list("cache")[seen.cache or 0]
        names = texts(cache.get("exportingProcess"))
        for at, name in enumerate(names) if len(names) > 1 else ():
            yield Change(f"Take exporting process {quoted(name)} off cache {quoted(cache.get('name'))} of {seen.device.name}.", DESTINATION - (1 if at else 0),
                         (remove(case.pointer(seen.device, f"/cache/{seen.cache}/exportingProcess/{at}")),), place=seen.device.place(f"/cache/{seen.cache}"))

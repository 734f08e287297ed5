"""A device made of the parts of a running configuration."""
from __future__ import annotations

from once_tools.elements import COUNTERS
from once_tools.model import Cache, Destination, Device, Exporter, Finding, Listener, Place
from once_tools.readers.ios.classic import CACHE, read_classic
from once_tools.readers.ios.exporters import read_exporter
from once_tools.readers.ios.interfaces import Attachment, read_interfaces
from once_tools.readers.ios.monitors import Monitor, read_monitor, read_sampler
from once_tools.readers.ios.points import points_of, report_sampler
from once_tools.readers.ios.records import PREDEFINED, V4, V6, Record, read_record
from once_tools.readers.ios.overlooked import report_overlooked
from once_tools.readers.ios.text import merged, sections
from once_tools.readers.notes import Notes
from once_tools.source import Source
from once_tools.toml_table import nearest

WITHIN = "within"


class Running:
    """A running configuration, read section by section."""

    def __init__(self, name: str, sources: list[Source]) -> None:
        self.nodes = sections(sources)
        self.device = Device(name, "cisco-ios", [one.name for one in sources])
        self.records = {key: read_record(key, node) for key, node in merged(self.nodes, "flow", "record").items()}
        self.flow_exporters = {key: read_exporter(key, node)
                               for key, node in merged(self.nodes, "flow", "exporter").items()}
        self.monitors = {key: read_monitor(key, node, self.records)
                         for key, node in merged(self.nodes, "flow", "monitor").items()}
        self.samplers = {key: read_sampler(key, node) for words in (("sampler",), ("flow-sampler-map",))
                         for key, node in merged(self.nodes, *words).items()}
        self.classic = read_classic(self.nodes)
        self.ports = read_interfaces(self.nodes)
        self.notes = Notes()

    def used(self) -> list[Attachment]:
        """Returns the attachments that are in force; shut interfaces and unknown monitors are reported."""
        found = []
        for port in self.ports.ports.values():
            for one in port.attached:
                if port.interface.is_shut:
                    self.notes.note(one.place, f"{one.interface} is shut: nothing is metered there, and it is left out")
                elif one.monitor and one.monitor not in self.monitors:
                    self.notes.wrong(one.place, f"there is no flow monitor {one.monitor}",
                                     nearest(one.monitor, self.monitors) if self.monitors else "add its section")
                else:
                    found.append(one)
        return found

    def exporters_of(self, monitor: str) -> tuple[str, ...]:
        """Returns the names of the exporters of a monitor; those of classic NetFlow for ""."""
        if not monitor:
            return tuple(one.name for one in self.classic.exporters)
        return tuple(name for name, _ in self.monitors[monitor].exporters if name in self.flow_exporters)

    def add(self, findings: list[Finding]) -> None:
        self.device.findings += findings

    def read(self) -> Device:
        """Returns the device."""
        attached = self.used()
        in_use = {use.monitor for use in attached}
        monitors = [one for one in self.monitors if one in in_use]
        caches = {(use.monitor, use.family): use.monitor for use in attached if use.monitor}
        for name in monitors:
            self.add_monitor(self.monitors[name])
        self.add_exporters(monitors)
        for family in (4, 6):
            uses = [use for use in attached if not use.monitor and use.family == family]
            if uses:
                caches[("", family)] = self.add_classic_cache(family)
        if any(not use.monitor for use in attached):
            self.add_classic()
        self.device.points = points_of(attached, self.samplers, caches)
        for use in attached:
            if use.sampler:
                notes = Notes()
                report_sampler(use, self.samplers, notes)
                self.add(notes.bearing_on(self.exporters_of(use.monitor)))
        self.report_unused(monitors)
        self.report_families(attached)
        report_overlooked(self.nodes, self.notes)
        self.add(self.notes.findings + self.ports.notes.findings)
        self.add_interfaces()
        return self.device

    def add_monitor(self, monitor: Monitor) -> None:
        """Adds the cache of a monitor, with what is reported of it and of its record."""
        bearing = self.exporters_of(monitor.name)
        record = monitor.record or Record("", monitor.place)
        names = list(dict.fromkeys(bearing))
        self.device.caches.append(Cache(monitor.name, monitor.kind, list(record.fields), names, monitor.place,
                                        dict(monitor.settings), list(record.other_keys)))
        for name, place in monitor.exporters:
            if name not in self.flow_exporters:
                monitor.notes.wrong(place, f"there is no flow exporter {name}", nearest(name, self.flow_exporters)
                                    if self.flow_exporters else "add its section")
        if not monitor.exporters:
            monitor.notes.note(monitor.place, "the monitor has no exporter: what it meters is sent nowhere")
        self.add(monitor.notes.bearing_on(bearing))

    def add_exporters(self, monitors: list[str]) -> None:
        """Adds the exporters of monitors in use, and what is reported of the records in use."""
        for name, record in self.records.items():
            users = [one for one in monitors if self.monitors[one].record is record]
            bearing = tuple(dict.fromkeys(each for one in users for each in self.exporters_of(one)))
            if users:
                self.add(record.notes.bearing_on(bearing))
        wanted = {each for one in monitors for each in self.exporters_of(one)}
        for name, exporter in self.flow_exporters.items():
            if name in wanted:
                made = exporter.exporter()
                made.source = self.address_of(made.source)
                if made.destinations:
                    self.device.exporters.append(made)
                self.add(exporter.notes.bearing_on((name,)))
        known = {one.name for one in self.device.exporters}
        for cache in self.device.caches:
            cache.exporters = [one for one in cache.exporters if one in known]

    def address_of(self, interface: str) -> str:
        """Returns the first address of an interface without its length, or ""."""
        port = self.ports.ports.get(interface)
        return port.interface.addresses[0].split("/")[0] if port and port.interface.addresses else ""

    def add_classic_cache(self, family: int) -> str:
        """Adds the cache of classic NetFlow for a family and returns its name."""
        name = CACHE if family == 4 else f"{CACHE} IPv6"
        place = next((node.place for node in self.nodes if node.starts("ip", "flow-export")), Place(self.device.files[0]))
        record = Record(name, place)
        for element in [*(V4 if family == 4 else V6), *PREDEFINED["original-input"]]:
            record.add(element, True, place)
        for element in COUNTERS:
            record.add(element, False, place, 4)
        record.sort()
        exporters = [one.name for one in self.classic.exporters if not self.is_aggregation(one)]
        if self.classic.aggregations and family == 4:
            exporters.append(WITHIN)
        self.device.caches.append(Cache(name, "timeout", record.fields, exporters, place, dict(self.classic.settings),
                                        ["ingressInterface"]))
        return name

    def is_aggregation(self, exporter: Exporter) -> bool:
        return any(exporter.name in one.exporters for one in self.classic.aggregations)

    def add_classic(self) -> None:
        """Adds the exporters and aggregations of classic NetFlow."""
        classic, place = self.classic, Place(self.device.files[0])
        for one in classic.exporters:
            one.source = self.address_of(classic.source)
            for to in one.destinations:
                to.version = 8 if self.is_aggregation(one) else classic.version
        if classic.aggregations:
            inner = Destination("aggregation", "", 0, classic.aggregations[0].place, "tcp")
            self.device.exporters.append(Exporter(WITHIN, [inner], inner.place))
            self.device.listeners.append(Listener("aggregation", [], inner.place, aggregations=classic.aggregations,
                                                  local_exporters=[WITHIN]))
        self.device.exporters += classic.exporters
        where = classic.version_place or (classic.exporters[0].place if classic.exporters else place)
        classic.notes.premise(where, "records of classic NetFlow have counters of 4 octets, which once refuses (110); the "
                                     "document has 8, so it speaks of records whose sums stay below 4,294,967,296", "", 110)
        versions = sorted({str(to.version) for one in classic.exporters for to in one.destinations})
        if versions:
            classic.notes.note(where, f"NetFlow version {' and '.join(versions)}: the audit is the same, and `once collect` "
                                      "refuses its messages (611)")
        if not classic.exporters:
            classic.notes.note(where, "there is no 'ip flow-export destination': what is metered is sent nowhere")
        self.add(classic.notes.bearing_on(self.exporters_of("")))

    def report_unused(self, monitors: list[str]) -> None:
        """Reports monitors that are on no interface."""
        for name, monitor in self.monitors.items():
            if name not in monitors:
                self.notes.note(monitor.place, "the monitor is on no interface that is up, and is left out")

    def report_families(self, attached: list[Attachment]) -> None:
        """Reports interfaces that meter packets of one version of IP alone."""
        by_interface: dict[str, list[Attachment]] = {}
        for use in attached:
            if use.monitor:
                by_interface.setdefault(use.interface, []).append(use)
        for port in self.ports.ports.values():
            uses = by_interface.get(port.interface.name, [])
            families = {use.family for use in uses}
            if len(families) != 1:
                continue
            family = families.pop()
            has, lacks = ("ip", "ipv6") if family == 4 else ("ipv6", "ip")
            address = port.has_ipv6 if family == 4 else port.has_ipv4
            other = 6 if family == 4 else 4
            notes = Notes()
            if address:
                notes.warning(
                    address, f"the interface has IPv{other} and '{has} flow monitor' alone ({uses[0].place.file}:"
                             f"{uses[0].place.line}): packets of IPv{other} are metered nowhere",
                    f"add '{lacks} flow monitor' with a record of IPv{other}")
            else:
                notes.note(port.interface.place, f"the interface has '{has} flow monitor' and no '{lacks} flow monitor': "
                                                 f"packets of IPv{other} there are metered nowhere (the interface has no "
                                                 f"address of IPv{other})")
            self.add(notes.bearing_on(tuple(each for use in uses for each in self.exporters_of(use.monitor))))

    def add_interfaces(self) -> None:
        for port in self.ports.ports.values():
            self.device.interfaces.append(port.interface)
        for node in self.nodes:
            if node.starts("hostname") and len(node.words) == 2:
                self.device.hostname = node.words[1]


def read_running(name: str, sources: list[Source]) -> Device:
    """Returns the device that running configurations describe."""
    return Running(name, sources).read()

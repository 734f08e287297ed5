"""Joins the devices and collectors of a project into a network."""
from __future__ import annotations

from once_tools.choosing import choose
from once_tools.endpoints import endpoint_of
from once_tools.keys import key_of
from once_tools.leads import lowered, prune
from once_tools.links import Addresses, Linker, spread
from once_tools.model import Aggregation, Destination, Device, Exporter, Finding, Grade, Place
from once_tools.names import make_unique
from once_tools.network import Network, leading_exporters
from once_tools.old_versions import check_versions
from once_tools.project import CollectorEntry, Project, Report
from once_tools.toml_table import nearest

MOST_LINKS, MOST_PROCESSES, MOST_ENTRIES = 1024, 256, 256


def is_same_host(hostname: str, device: Device, aliases: tuple[str, ...]) -> bool:
    """Returns whether a host name is the device's, with or without a domain."""
    names = {one.lower() for one in (device.name, *aliases)}
    return hostname.lower() in names or hostname.lower().split(".")[0] in {one.split(".")[0] for one in names}


def check_names(project: Project, devices: list[Device]) -> list[Finding]:
    """Reports host names that are not the names of the project, and those that two devices have."""
    findings: list[Finding] = []
    seen: dict[str, str] = {}
    aliases = {one.name: one.aliases for one in project.devices}
    for device in devices:
        place = Place(device.files[0]) if device.files else Place(project.file)
        host = device.hostname
        if host and host in seen:
            findings.append(Finding(Grade.WRONG, place, f"'{host}' is the host name of {seen[host]} too",
                                    "give each device its own configuration", device=device.name))
        elif host and not is_same_host(host, device, aliases.get(device.name, ())):
            findings.append(Finding(Grade.NOTE, place, f"the host name is '{host}', and the project calls the device "
                                    f"'{device.name}'", device=device.name))
        if host:
            seen.setdefault(host, device.name)
    return findings


def first_end(device: Device) -> tuple[str, int, str]:
    """Returns where a collector listens first."""
    for listener in device.listeners:
        for end in listener.listens:
            return end
    return ("", 0, "")


def forward(entry: CollectorEntry, collectors: dict[str, Device], network: Network) -> None:
    """Adds to a collector what the project says that it forwards, as it is or summed up by a key."""
    device = collectors[entry.name]
    names = []
    for target in entry.forwards:
        end = endpoint_of(target)
        if target in collectors:
            address, port, transport = first_end(collectors[target])
        elif end and end.port:
            address, port, transport = end.address, end.port, end.transport
        else:
            network.findings.append(Finding(Grade.WRONG, entry.place, f"there is no collector '{target}'",
                                            nearest(target, collectors), device=entry.name))
            continue
        names.append(f"to {target}")
        to = Destination(f"{address} port {port}", address, port, entry.place, transport or "udp")
        device.exporters.append(Exporter(names[-1], [to], entry.place))
    for listener in [one for one in device.listeners if not one.local_exporters] if names else []:
        key = key_of(entry.aggregates, None, entry.place, network.findings) if entry.aggregates else []
        if entry.aggregates:
            listener.aggregations.append(Aggregation("aggregates", list(key), names, entry.place))
        else:
            listener.forwards += names


def no_collector(report: Report, names: list[str]) -> Finding:
    """Returns the finding that the project has no collector of the report's name; `?` is the name that nobody has filled in."""
    place = report.collector_place if report.collector_place.line else report.place
    added = 'add [[collectors]] with a name and listen = ["ADDRESS:PORT"], and write its name here'
    if report.collector == "?":
        return Finding(Grade.WRONG, place, "the collector whose totals are asked for is not named",
                       f"write one of {', '.join(names)}" if names else added)
    return Finding(Grade.WRONG, place, f"there is no collector '{report.collector}'",
                   nearest(report.collector, names) if names else added)


def report_listener(project: Project, network: Network, collectors: dict[str, Device]) -> None:
    """Sets whose totals are asked for."""
    report = project.report
    device = collectors.get(report.collector) or network.device(report.collector)
    if device is None:
        if report.collector:
            network.findings.append(no_collector(report, list(collectors)))
        return
    names = [one.name for one in device.listeners]
    if report.process and report.process not in names or not names:
        says = f"'{device.name}' has no collecting process '{report.process}'" if names else \
            f"collector '{device.name}' listens nowhere"
        network.findings.append(Finding(Grade.WRONG, report.place, says, nearest(report.process, names) if names else
                                        "add listen = [\"ADDRESS:PORT\"]"))
        return
    process = report.process or process_of(report.plugin, device)
    if not process:
        network.findings.append(Finding(Grade.WRONG, report.place, f"'{device.name}' has several collecting processes: "
                                        + ", ".join(names), "write process = \"..\"" + (
                                            ", or plugin = \"..\"" if device.proposed_keys else "")))
        return
    network.report = (device.name, process)


def process_of(plugin: str, device: Device) -> str:
    """Returns the collecting process of what a plugin stores, or the device's only one; "" if there are several."""
    names = [one.name for one in device.listeners]
    stores = [name for name, _, _ in device.proposed_keys]
    chosen = plugin or (stores[0] if len(stores) == 1 else "")
    if chosen in names:
        return chosen
    outer = [one.name for one in device.listeners if not one.local_exporters] if chosen else names
    return outer[0] if len(outer) == 1 else ""


def check_limits(network: Network, place: Place) -> None:
    """Reports what is more than a document of `once` may hold."""
    counts = [("links", len(network.links), MOST_LINKS),
              ("collecting processes", sum(len(one.listeners) for one in network.devices), MOST_PROCESSES)]
    for device in network.devices:
        selections = {one.name for point in device.points for one in point.selections}
        counts += [(f"observation points of {device.name}", len(device.points), MOST_ENTRIES),
                   (f"selection processes of {device.name}", len(selections), MOST_ENTRIES)]
    for what, count, most in counts:
        if count > most:
            network.findings.append(Finding(Grade.WRONG, place, f"{count} {what}, and a document holds {most}",
                                            "take devices or monitors out of the project that do not bear on the report"))


def merge(project: Project, devices: list[Device], collectors: list[Device]) -> Network:
    """Returns the network of a project; findings that do not bear on its report are notes."""
    by_name = {one.name: one for one in collectors}
    network = Network([*devices, *collectors])
    network.findings += check_names(project, devices)
    addresses = Addresses(project.addresses, network.findings)
    for entry in project.collectors:
        if entry.name in by_name:
            forward(entry, by_name, network)
    for device in network.devices:
        network.findings += check_versions(device)
        spread(device, addresses)
        make_unique(device)
    report_listener(project, network, by_name)
    Linker(network, addresses).link_all()
    for entry in project.collectors:
        if entry.directions or entry.interfaces:
            choose(network, entry)
    check_limits(network, Place(project.file))
    leading = leading_exporters(network)
    for device in network.devices:
        device.findings = lowered(device.findings, leading)
    network.findings = lowered(network.findings, leading)
    prune(network)
    return network


def all_findings(network: Network) -> list[Finding]:
    """Returns the findings of the devices and of the network."""
    return [one for device in network.devices for one in device.findings] + network.findings



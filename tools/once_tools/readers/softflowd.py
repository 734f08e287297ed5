"""softflowd (1.1.0): its command line, as typed, in a unit of systemd, or in Debian's /etc/softflowd/NAME.conf."""
from __future__ import annotations

import getopt
import re
from typing import Mapping

from once_tools.boxes import TooManyBoxes
from once_tools.model import (Cache, Destination, Device, Direction, Exporter, Interface, Point, Selection, Topic,
                              Unusable)
from once_tools.readers import filters
from once_tools.readers.command_line import Command, commands_of, variables_of
from once_tools.readers.log import Log, sampling
from once_tools.readers.pcap_filter import UnreadFilter, region_of
from once_tools.readers.records import ADDRESSES, PORTS, destination_name, fields
from once_tools.source import Source

OPTIONS = "i:r:p:c:m:n:v:L:T:t:6dDP:A:s:B:baC:lR:S:Nx:h"
KEYS = (*ADDRESSES, "protocolIdentifier", *PORTS)
# The flow keys of each track level, and what it tracks besides that is not an axis.
LEVELS = {"ip": (ADDRESSES, ""), "proto": (KEYS[:3], ""), "port": (KEYS, ""), "full": (KEYS, ""),
          "vlan": (KEYS, "the VLAN"),
          "ether": (KEYS, "the VLAN and the Ethernet addresses")}
TIMEOUTS = ("tcp", "tcp.rst", "tcp.fin", "udp", "icmp", "general", "maxlife", "expint")
UNITS = {"": 1, "s": 1, "m": 60, "h": 3600, "d": 86400, "w": 604800}
NAME = "softflowd"


class _Reading:
    """Reads one command line."""

    def __init__(self, name: str, sources: list[Source], command: Command, options: Mapping[str, str]) -> None:
        self.place, self.project = command.place, options
        self.log = Log(name)
        self.device = Device(name, NAME, [one.name for one in sources], findings=self.log.findings)
        try:
            given, rest = getopt.gnu_getopt(command.words, OPTIONS)
        except getopt.GetoptError as error:
            raise Unusable(self.place, f"{error.msg}", "`softflowd -h` lists its options") from None
        self.given, self.options, self.filter = given, dict(given), " ".join(rest)

    def refuse(self, says: str, todo: str) -> Unusable:
        return Unusable(self.place, says, todo)

    def choice(self, option: str, usual: str, choices: tuple[str, ...], what: str) -> str:
        found = self.options.get(option, usual)
        if found not in choices:
            raise self.refuse(f"{option}: there is no {what} {found}", f"write one of {', '.join(choices)}")
        return found

    def read(self) -> Device:
        if "-n" not in self.options:
            raise self.refuse("without -n softflowd sends no records", "name the destination with -n HOST:PORT")
        if "-R" in self.options:
            raise self.refuse("-R: softflowd receives PSAMP then, and sees no interface", "name an interface with -i")
        names = self.interfaces()
        self.device.exporters = [self.exporter()]
        selections = [one for version in self.versions() for one in self.family(version)]
        rate = self.options.get("-s", "1")
        many = int(rate) if re.fullmatch("[0-9]{1,9}", rate) else 1
        self.device.interfaces = [Interface(name, self.place) for name in names]
        self.device.points = [Point(" ".join(names), names, Direction.BOTH, selections, self.place,
                                    [self.place] * len(names),
                                    sampling(many) if many > 1 else None)]
        self.report_rest()
        return self.device

    def interfaces(self) -> list[str]:
        if "-i" not in self.options:
            if "-r" not in self.options:
                raise self.refuse("neither -i nor -r is given", "name the interface with -i")
            self.log.note(self.place, "-r: packets come from a file; the document calls their interface `capture`")
            return ["capture"]
        name = re.sub(r"^[0-9]+:", "", self.options["-i"])
        named = [one for one in re.split(r"[,\s]+", self.project.get("interfaces", "")) if one]
        if name != "any":
            return [name]
        if not named:
            self.log.lost(self.place, "which interfaces `any` stands for is not in this file; the document has one "
                          "named `any`, "
                          "which no path crosses", "name them as `interfaces` of the device in the project")
        return named or ["any"]

    def versions(self) -> tuple[int, ...]:
        version = self.options.get("-v", "5")
        if version == "psamp":
            raise self.refuse("-v psamp: softflowd sends packets then, not flow records", "write -v 10")
        self.choice("-v", "5", ("1", "5", "9", "10"), "version")
        if version != "10":
            self.log.note(self.place, f"NetFlow {version}{'' if '-v' in self.options else ' (the default)'} is not "
                          f"IPFIX: the audit "
                          "is the same, but `once collect` refuses its messages", "write -v 10", 611, (NAME,))
        if version in ("1", "5"):
            self.log.note(self.place, f"NetFlow {version} has no IPv6: packets of IPv6 are metered nowhere",
                          "write -v 10",
                          exporters=(NAME,))
        return (4, 6) if version in ("9", "10") else (4,)

    def exporter(self) -> Exporter:
        transport = self.choice("-P", "udp", ("udp", "tcp", "sctp"), "transport")
        version = self.options.get("-v", "5")
        found: list[Destination] = []
        for text in self.options["-n"].split(","):
            words = re.fullmatch(r"\[([^\]\s]+)\]:([0-9]{1,5})|([^:\[\]\s]+):([0-9]{1,5})", text.strip())
            if not words or not 0 < int(words[2] or words[4]) < 65536:
                raise self.refuse(f"-n: {text} is not a destination",
                                  "write HOST:PORT, or [ADDRESS]:PORT for IPv6, with the port's number")
            address, port = words[1] or words[3], int(words[2] or words[4])
            one = Destination(destination_name(address, port), address, port, self.place, transport, "",
                              int(version) if version.isdigit() else 10)
            if one in found:
                raise self.refuse(f"-n: {text} is named twice", "name it once")
            found.append(one)
        return Exporter(NAME, found, self.place, "loadBalancing" if "-l" in self.options else "parallel")

    def family(self, version: int) -> list[Selection]:
        """Adds the cache of one version of IP, and returns its selection processes."""
        cache = f"{NAME} IPv{version}"
        whole = [filters.whole_family(cache, version, cache, self.place)]
        found = self.filtered(version, cache) if self.filter else whole
        if found:
            keys = LEVELS[self.level()][0]
            record = fields(["ipVersion", *keys], version, self.place, octets=4)
            self.device.caches.append(Cache(cache, "timeout", record, [NAME], self.place, self.cache_settings()))
        else:
            self.log.note(self.place, f"no IPv{version} packet passes the filter", exporters=(NAME,))
        return found

    def level(self) -> str:
        return self.choice("-T", "full", tuple(LEVELS), "track level")

    def filtered(self, version: int, cache: str) -> list[Selection]:
        try:
            return filters.selections(cache, region_of(self.filter, version), cache, self.place)
        except UnreadFilter as error:
            self.log.lost(self.place, f"the filter `{error.part}` {error.why}; the document meters all packets instead "
                          f"of those that "
                          "pass the filter", "filter by protocols, addresses, networks and ports", Topic.FILTER, None,
                          (NAME,))
        except TooManyBoxes as error:
            says, todo = filters.too_many(error)
            self.log.lost(self.place, f"for IPv{version} {says}", todo, Topic.FILTER, None, (NAME,))
        return [filters.whole_family(cache, version, cache, self.place)]

    def cache_settings(self) -> dict[str, int]:
        found: dict[str, int] = {}
        flows = self.options.get("-m")
        if flows is not None:
            if not re.fullmatch("[0-9]{1,9}", flows) or int(flows) == 0:
                raise self.refuse(f"-m: {flows} is not a number of flows", "write a number from 1")
            found["maxFlows"] = int(flows)
        for text in [value for option, value in self.given if option == "-t"]:
            name, _, time = text.partition("=")
            if name not in TIMEOUTS:
                raise self.refuse(f"-t: there is not a timeout {name}",
                                  f"write NAME=TIME with one of {', '.join(TIMEOUTS)}")
            seconds = self.seconds(time)
            member = {"maxlife": "activeTimeout", "general": "idleTimeout"}.get(name)
            if member:
                found[member] = seconds
        return found

    def seconds(self, text: str) -> int:
        """Returns the seconds of a time such as 90, 1m30s, 2h."""
        if not re.fullmatch(r"(?i)([0-9]{1,9}[smhdw]?)+", text):
            raise self.refuse(f"-t: {text} is not a time", "write seconds, or a time such as 1h30m")
        found = sum(int(count) * UNITS[unit.lower()] for count, unit in re.findall(r"([0-9]+)([a-zA-Z]?)", text))
        return min(found, 2**32 - 1)

    def report_rest(self) -> None:
        """Reports the options that have no form in the document."""
        log, bears_on = self.log, (NAME,)
        log.premise(self.place, "softflowd has counters of 4 octets: the document has 8, so it speaks of records whose "
                    "sums stay below "
                    "4,294,967,296", "", Topic.COUNTERS, 110, bears_on)
        log.lost(self.place, "softflowd counts padding: on Ethernet a packet of less than 46 octets counts as 46, but "
                 "the document counts "
                 "its octets", "accept this if packets alone are billed", Topic.COUNTERS, None, bears_on)
        if self.options.get("-s", "1") not in ("0", "1"):
            log.sampler(self.place, self.options["-s"], bears_on)
        if "-b" in self.options:
            log.lost(self.place, "-b: a record has both directions of a flow, the second in reverse elements (RFC "
                     "5103), which `once` "
                     "does not add up; the document has a record for each direction", "leave -b out", Topic.COUNTERS,
                     None, bears_on)
        if "-C" in self.options:
            log.lost(self.place, "-C: packets are captured in part: where headers are cut, ports are not seen",
                     "leave -C out", Topic.OTHER,
                     None, bears_on)
        if "-N" not in self.options and "-i" in self.options:
            log.premise(self.place, "without -N the interface is promiscuous: it also sees packets on the wire that are "
                        "not for this host, and the document has none of those", "add -N if they must not count",
                        exporters=bears_on)
        finer = LEVELS[self.level()][1]
        if finer:
            log.note(self.place, f"-T {self.level()}: {finer} is not an axis and is left out of the flow keys: records are "
                     f"finer, their sums the "
                     "same", exporters=bears_on)
        if "sourceTransportPort" in LEVELS[self.level()][0]:
            log.note(self.place, "records of ICMP have icmpTypeCode instead of ports, so a report by ports cannot read "
                     "them", exporters=bears_on)


class Softflowd:
    kind = "softflowd"
    title = "softflowd (1.1.0)"
    how_to_get = "systemctl cat softflowd, or ps -o args= -C softflowd; with Debian also /etc/softflowd/NAME.conf"
    certainty = "certain"

    def detect(self, text: str) -> int:
        if re.search(r"(?m)^(ExecStart=)?\S*\bsoftflowd\s+-", text):
            return 95
        return 40 if re.search(r"(?m)^interface=", text) and re.search(r"(?m)^options=", text) else 0

    def read(self, name: str, sources: list[Source], options: Mapping[str, str]) -> Device:
        commands = commands_of(sources, "softflowd")
        values = variables_of(sources)
        if not commands and "options" in values and not values.get("interface"):
            raise Unusable(sources[0].place(0), "sets no interface", "write interface=\"NAME\"")
        if not commands and "options" in values:
            words = ["-i", values.get("interface", "")] + values["options"].split()
            line = next((number for number, text in enumerate(sources[0].lines(), 1) if text.startswith("options=")), 0)
            commands = [Command(words, sources[0].place(line))]
        if not commands:
            raise Unusable(sources[0].place(0), "has no command line of softflowd",
                           "give its unit, or the line that starts it")
        if len(commands) > 1:
            raise Unusable(commands[1].place, f"is a second softflowd beside line {commands[0].place.line}",
                           "make each a device of its own in the project")
        return _Reading(name, sources, commands[0], options).read()


READER = Softflowd()

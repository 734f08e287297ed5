"""pmacctd (pmacct 1.7.7) as a probe: of its plugins those that export flow records, `nfprobe`."""
from __future__ import annotations

import re
from typing import Mapping

from once_tools import boxes
from once_tools.boxes import Box, TooManyBoxes
from once_tools.model import Cache, Destination, Device, Exporter, Interface, Place, Point, Selection, Topic, Unusable
from once_tools.readers import filters
from once_tools.readers.capture import Capture, captures_of
from once_tools.readers.log import Log, sampling
from once_tools.readers.pcap_filter import UnreadFilter, region_of
from once_tools.readers.pmacct_keys import PRIMITIVES, USUAL, WITHOUT_AXIS
from once_tools.readers.pmacct_losses import Losses
from once_tools.readers.pmacct_settings import (NETWORKS_FILTER, Plugin, is_networks_filter, plugins_of, report_others,
                                                report_repeated, report_unknown, settings_of)
from once_tools.readers.records import destination_name, fields
from once_tools.readers.trees import Setting
from once_tools.source import Source

WANTED = re.compile(r"pcap_\w+|interface|nfprobe_\w+|plugins|aggregate|aggregate_filter")
SAMPLING = ("sampling_rate", "pmacctd_ext_sampling_rate", "sampling_map")
TAGS = ("pre_tag_map", "pre_tag_filter", "pre_tag2_filter", "pre_tag_label_filter")
KNOWN = {"aggregate", "plugins", "pcap_interface", "pcap_savefile", "pcap_filter", "aggregate_filter", "pcap_direction",
         "pcap_interfaces_map", "pcap_interface_wait", "pcap_ifindex", "pcap_savefile_wait", "pcap_savefile_delay",
         "pcap_savefile_replay", "nfprobe_receiver", "nfprobe_version", "nfprobe_maxflows", "nfprobe_timeouts",
         "nfprobe_engine", "nfprobe_dont_cache", "nfprobe_source_ip", "nfprobe_hoplimit", "nfprobe_ipprec",
         "nfprobe_direction", "nfprobe_ifindex", "nfprobe_ifindex_override", "nfprobe_tstamp_usec", "nfprobe_dtls",
         "nfprobe_dtls_verify_cert", "nfprobe_peer_as", "dtls_path", "snaplen", "promisc", "networks_file",
         "networks_mask",
         "networks_file_filter", "networks_file_no_lpm", "networks_no_mask_if_zero", "networks_cache_entries",
         "pmacctd_as",
         "pmacctd_net", "pmacctd_nonroot", "pmacctd_time_new", "pmacctd_force_frag_handling",
         "pmacctd_frag_buffer_size",
         "pmacctd_flow_buffer_size", "pmacctd_flow_buffer_buckets", "pmacctd_renormalize", *SAMPLING, *TAGS}
FILES = ("pcap_interfaces_map", "pre_tag_map", "sampling_map", "networks_file")
USUAL_SNAPLEN = 128


class _Reading:
    """Reads one probe."""

    def __init__(self, name: str, sources: list[Source], options: Mapping[str, str]) -> None:
        self.sources, self.options = sources, options
        self.settings = settings_of(sources[0], WANTED, "pmacctd")
        self.log = Log(name)
        self.device = Device(name, "pmacctd", [one.name for one in sources], findings=self.log.findings)
        self.plugins = plugins_of(self.settings)
        self.probes = [one for one in self.plugins if one.kind == "nfprobe"]
        self.everywhere = tuple(one.name for one in self.probes)
        self.whole = Place(sources[0].name)

    def place(self, key: str, plugin: str | None = None) -> Place:
        found = self.settings.last(key, plugin)
        return found.place if found else self.whole

    def read(self) -> Device:
        self.check_plugins()
        captures = captures_of(self.settings, self.sources, self.options, self.log)
        selections = [one for plugin in self.probes for one in self.probe(plugin)]
        self.device.interfaces = [Interface(name, place) for capture in captures for name, place in capture.interfaces]
        self.device.points = [self.point(capture, selections, len(captures) > 1) for capture in captures]
        self.report_overlaps(selections)
        self.report_rest()
        Losses(self.settings, self.log, lambda plugin: (plugin.name,) if plugin else self.everywhere).report(
            self.probes, self.place("plugins"))
        report_others(self.sources, self.settings.lines_in_force(FILES, [one.name for one in self.plugins]), self.log)
        report_repeated(self.settings, self.log)
        report_unknown(self.settings, self.plugins, KNOWN, self.log)
        return self.device

    def check_plugins(self) -> None:
        for one in self.plugins:
            if one.kind == "sfprobe":
                self.log.lost(self.place("plugins"), "sfprobe sends sFlow: samples of packets, and no flow records",
                              "meter with nfprobe", Topic.SAMPLER)
            elif one.kind != "nfprobe":
                self.log.note(self.place("plugins"), f"{one.kind} exports no flow records and is left out")
        if not self.probes:
            raise Unusable(self.place("plugins"), "no plugin is nfprobe, the only one that exports flow records",
                           "write plugins: nfprobe")

    def point(self, capture: Capture, selections: list[Selection], several: bool) -> Point:
        names = [name for name, _ in capture.interfaces]
        name = " ".join(names) + (f" {capture.direction.value}" if several else "")
        if len(name.encode()) > 255:
            name = f"{len(names)} interfaces {capture.direction.value}"
        rate = self.settings.last("sampling_rate")
        population = int(rate.value) if rate and rate.value.isdigit() else 1
        return Point(name, names, capture.direction, selections, capture.interfaces[0][1],
                     [at for _, at in capture.interfaces],
                     sampling(population) if population > 1 else None, self.domain())

    def domain(self) -> int:
        text = self.settings.value("nfprobe_engine", "0", self.probes[0].name)
        return int(text) if re.fullmatch("[0-9]{1,10}", text) and int(text) < 1 << 32 else 0

    def probe(self, plugin: Plugin) -> list[Selection]:
        """Adds the exporter and the caches of a plugin, and returns its selection processes."""
        name = plugin.name
        version = self.settings.value("nfprobe_version", "10", name)
        if version not in ("5", "9", "10"):
            raise Unusable(self.place("nfprobe_version", name), f"there is no version {version}", "write 10 for IPFIX")
        if version != "10":
            self.log.note(self.place("nfprobe_version", name),
                          f"NetFlow {version} is not IPFIX: the audit is the same, but "
                          "`once collect` refuses its messages", "write 10 for IPFIX", 611, (name,))
        self.device.exporters.append(self.exporter(name, int(version)))
        keys = self.keys(name)
        return [one for family in ((4,) if version == "5" else (4, 6)) for one in self.family(name, family, keys)]

    def exporter(self, name: str, version: int) -> Exporter:
        receiver = self.settings.last("nfprobe_receiver", name)
        text, place = (receiver.value, receiver.place) if receiver else ("127.0.0.1:2100", self.place("plugins"))
        words = re.fullmatch(r"\[([^\]\s]+)\]:([0-9]{1,5})|([^:\[\]\s]+):([0-9]{1,5})", text)
        if not words or not 0 < int(words[2] or words[4]) < 65536:
            raise Unusable(place, f"{text!r} is not a receiver", "write ADDRESS:PORT, or [ADDRESS]:PORT for IPv6")
        if receiver is None:
            self.log.note(place, f"no nfprobe_receiver for {name}: pmacctd sends to 127.0.0.1:2100", exporters=(name,))
        address, port = words[1] or words[3], int(words[2] or words[4])
        source = self.settings.value("nfprobe_source_ip", "", name)
        where = Destination(destination_name(address, port), address, port, place, "udp", "", version)
        return Exporter(name, [where], place, "parallel", source)

    def keys(self, name: str) -> list[str]:
        """Returns the axes of a plugin's flow keys; `ipVersion` is in each record."""
        found, place = ["ipVersion"], self.place("aggregate", name)
        for word in re.split(r"[,\s]+", self.settings.value("aggregate", USUAL, name)):
            if word in PRIMITIVES:
                found.append(PRIMITIVES[word])
            elif word in WITHOUT_AXIS:
                self.log.note(place, f"{word} is not an axis and is left out of the flow keys: records are finer, "
                              f"their sums "
                              "the same", exporters=(name,))
            elif word:
                self.log.unknown(place, word, [*PRIMITIVES, *WITHOUT_AXIS], (name,))
        return found

    def family(self, name: str, version: int, keys: list[str]) -> list[Selection]:
        """Adds the cache of a plugin for one version of IP, and returns its selection processes."""
        cache = f"{name} IPv{version}"
        line = self.own_filter(name) or self.settings.last("pcap_filter")
        if line is None:
            found = [filters.whole_family(cache, version, cache, self.place("plugins"))]
        else:
            found = self.filtered(name, version, cache, line.place)
        if found:
            kind = "immediate" if self.settings.is_true("nfprobe_dont_cache", False, name) else "timeout"
            self.device.caches.append(Cache(cache, kind, fields(keys, version, self.place("aggregate", name)), [name],
                                            self.place("plugins"), self.cache_settings(name)))
        return found

    def own_filter(self, name: str) -> Setting | None:
        """Returns the filter of a plugin; pmacctd does not apply one without a plugin."""
        return self.settings.own("aggregate_filter", name)

    def filtered(self, name: str, version: int, cache: str, place: Place) -> list[Selection]:
        """Returns the selection processes of the filters before a plugin."""
        region = self.region(self.settings.last("pcap_filter"), version, self.everywhere)
        region = boxes.common(region, self.region(self.own_filter(name), version, (name,)))
        try:
            found = filters.selections(cache, region, cache, place)
        except TooManyBoxes as error:
            says, todo = filters.too_many(error)
            self.log.lost(place, f"for IPv{version} {says}", todo, Topic.FILTER, None, (name,))
            return [filters.whole_family(cache, version, cache, place)]
        bears_on = (name,) if self.own_filter(name) else self.everywhere
        if not found:
            self.log.note(place, f"no IPv{version} packet passes the filter", exporters=bears_on)
        elif len(found) > 1:
            self.log.note(place, f"the filter becomes {len(found)} selection processes of IPv{version} that do not "
                          f"overlap",
                          exporters=bears_on)
        return found

    def region(self, line: Setting | None, version: int, exporters: tuple[str, ...]) -> list[Box]:
        """Returns the packets of one version of IP that pass a filter, all of them if it has no region."""
        if line is None:
            return [boxes.family(version)]
        try:
            return region_of(line.value, version)
        except UnreadFilter as error:
            self.log.lost(line.place, f"`{error.part}` {error.why}; the document meters all packets instead of those "
                          f"that pass "
                          "the filter", "filter by protocols, addresses, networks and ports", Topic.FILTER, None,
                          exporters)
        except TooManyBoxes as error:
            says, todo = filters.too_many(error)
            self.log.lost(line.place, f"for IPv{version} {says}", todo, Topic.FILTER, None, exporters)
        return [boxes.family(version)]

    def cache_settings(self, name: str) -> dict[str, int]:
        found: dict[str, int] = {}
        flows = self.settings.number("nfprobe_maxflows", 1, 2**32 - 1, name)
        if flows is not None:
            found["maxFlows"] = flows
        for text in filter(None, self.settings.value("nfprobe_timeouts", "", name).split(":")):
            kind, _, value = text.partition("=")
            if kind not in ("tcp", "tcp.rst", "tcp.fin", "udp", "icmp", "general", "maxlife", "expint") \
                    or not re.fullmatch("[0-9]{1,9}", value):
                raise Unusable(self.place("nfprobe_timeouts", name), f"{text!r} is not a timeout", "write NAME=SECONDS")
            member = {"maxlife": "activeTimeout", "general": "idleTimeout"}.get(kind)
            if member:
                found[member] = int(value)
        return found

    def report_overlaps(self, selections: list[Selection]) -> None:
        """Warns about plugins that send the same packets to one receiver."""
        for place, one in enumerate(self.device.exporters):
            for other in self.device.exporters[place + 1:]:
                if one.destinations[0].name == other.destinations[0].name:
                    self.report_overlap(one.name, other.name, selections)

    def report_overlap(self, one: str, other: str, selections: list[Selection]) -> None:
        regions = [[self.box_of(selection) for selection in selections if selection.cache.rpartition(" ")[0] == name]
                   for name in (one, other)]
        both = boxes.joined(boxes.common(regions[0], regions[1]))
        if not both:
            return
        what = boxes.spell_region(both[0])
        what.pop("ipVersion", None)
        which = ", ".join(f"{axis} {text}" for axis, text in what.items()) or "all packets"
        first, second = self.own_filter(one), self.own_filter(other)
        place = first.place if first else self.place("plugins")
        with_filter = f" (line {second.place.line})" if second else ""
        todo = "write filters that exclude each other"
        if first and second:
            todo = f"add `and not ({second.value})` to the first filter"
        receiver = next(exporter for exporter in self.device.exporters if exporter.name == one).destinations[0].name
        self.log.warning(place, f"{one} and {other}{with_filter} take the same packets ({which}), and both plugins "
                         f"send to "
                         f"{receiver}: each of these packets counts twice", todo, (one, other))

    def box_of(self, selection: Selection) -> Box:
        return boxes.read_region({key.replace("Prefix", "Address"): value for key, value in selection.match.items()})

    def report_rest(self) -> None:
        """Reports the settings that have no form in the document."""
        for one in self.settings.lines:
            exporters = (one.plugin,) if one.plugin else self.everywhere
            if one.key in SAMPLING and one.value not in ("0", "1"):
                self.log.sampler(one.place, one.value if one.value.isdigit() else "N", exporters)
            elif is_networks_filter(one):
                self.log.lost(one.place, NETWORKS_FILTER, "remove it", Topic.MASK, None, exporters)
            elif one.key == "pcap_savefile" and (self.settings.last("pcap_interface") or self.settings.last("pcap_interfaces_map")):
                self.log.lost(one.place, "packets come from this file, and not from the interface that the document has",
                              "take one of them out", Topic.OTHER, None, exporters)
            elif one.key in TAGS:
                self.log.lost(one.place, "whether it leaves packets out is not read; the document meters all packets",
                              "filter with aggregate_filter", Topic.FILTER, None, exporters)
            elif one.key == "aggregate_filter" and not one.plugin:
                self.log.note(one.place, "pmacctd does not apply an aggregate_filter without a plugin, so it filters "
                              "nothing",
                              "write aggregate_filter[PLUGIN]", exporters=exporters)
            elif one.key == "aggregate_filter" and self.settings.last("pcap_savefile"):
                self.log.lost(one.place, "pmacctd 1.7.7 does not apply an aggregate_filter to the packets of a file, "
                              "but the document "
                              "does", "filter with pcap_filter", Topic.FILTER, None, exporters)
            elif one.key == "snaplen" and not (one.value.isdigit() and int(one.value) >= USUAL_SNAPLEN):
                self.log.lost(one.place, "packets are captured in part: where headers are cut, ports are not seen",
                              f"write {USUAL_SNAPLEN} or more", Topic.OTHER, None, exporters)
            elif one.key == "pmacctd_renormalize" and one.value.lower() == "true":
                self.log.note(one.place, "counters are multiplied by a sampling rate, if there is one",
                              exporters=exporters)
        if self.settings.is_true("promisc", True) and not self.settings.last("pcap_savefile"):
            self.log.premise(self.whole, "without `promisc: false` the interface is promiscuous: it also sees packets on "
                             "the wire that are not for this host, and the document has none of those",
                             "write `promisc: false` if they must not count", exporters=self.everywhere)


class Pmacctd:
    kind = "pmacctd"
    title = "pmacctd with nfprobe (pmacct 1.7.7)"
    how_to_get = "the file after -f, usually /etc/pmacct/pmacctd.conf, and the files it names (pcap_interfaces_map)"
    certainty = "certain"

    def detect(self, text: str) -> int:
        if re.search(r"(?m)^\s*nfacctd_\w+\s*:", text):
            return 10
        if re.search(r"(?m)^\s*plugins\s*:.*\bnfprobe\b", text):
            return 95
        return 60 if re.search(r"(?m)^\s*(pcap_interface|pcap_interfaces_map|pcap_filter)\s*:", text) else 0

    def read(self, name: str, sources: list[Source], options: Mapping[str, str]) -> Device:
        return _Reading(name, sources, options).read()


READER = Pmacctd()

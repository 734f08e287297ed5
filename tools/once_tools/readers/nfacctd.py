"""nfacctd (pmacct 1.7.7): a collector that stores what it receives, and a replicator with the plugin `tee`."""
from __future__ import annotations

import ipaddress
import re
from typing import Mapping

from once_tools.model import Destination, Device, Exporter, Listener, Place, Topic, Unusable
from once_tools.readers.log import Log
from once_tools.readers.nfacctd_filters import Key, aggregations_of
from once_tools.readers.pcap_filter import UnreadFilter
from once_tools.readers.pmacct_keys import PRIMITIVES, USUAL, WITHOUT_AXIS
from once_tools.readers.pmacct_losses import Losses
from once_tools.readers.pmacct_settings import (NETWORKS_FILTER, Plugin, Settings, is_networks_filter, other_source,
                                                plugins_of, report_others, report_repeated, report_unknown, settings_of)
from once_tools.readers.records import destination_name
from once_tools.readers.trees import numbered
from once_tools.source import Source

WANTED = re.compile(r"nfacctd_\w+|tee_\w+|plugins")
STORING = ("print", "memory", "mysql", "pgsql", "sqlite3", "kafka", "amqp", "mongodb")
KEYS = {"src_host": "source", "dst_host": "destination"}
NETWORKS = {"src_net": "sourceIPv4Prefix", "dst_net": "destinationIPv4Prefix"}
# Settings without which records come in otherwise than over the network.
QUEUES = ("nfacctd_kafka_broker_host", "nfacctd_kafka_topic", "nfacctd_zmq_address", "pcap_savefile")
LEAVING_OUT = ("aggregate_filter", "pre_tag_map", "pre_tag_filter", "pre_tag2_filter", "pre_tag_label_filter")
SCALING = ("nfacctd_ext_sampling_rate", "sampling_map")
FILES = ("nfacctd_allow_file", "tee_receivers", "pre_tag_map", "sampling_map", "networks_file")
KNOWN = {"plugins", "aggregate", "nfacctd_ip", "nfacctd_port", "nfacctd_allow_file", "nfacctd_renormalize",
         "nfacctd_time_new",
         "nfacctd_time_secs", "nfacctd_pro_rating", "nfacctd_templates_file", "nfacctd_templates_receiver",
         "nfacctd_templates_port",
         "nfacctd_dtls_port", "nfacctd_stitching", "nfacctd_account_options", "nfacctd_as", "nfacctd_net",
         "nfacctd_mcast_groups",
         "nfacctd_disable_checks", "nfacctd_disable_opt_scope_check", "nfacctd_ipv6_only", "nfacctd_peer_as",
         "tee_receivers",
         "tee_transparent", "tee_source_ip", "tee_pipe_size", "tee_ipprec", "tee_max_receivers",
         "tee_max_receiver_pools",
         "networks_file", "networks_mask", "networks_file_filter", "networks_file_no_lpm", "networks_no_mask_if_zero",
         "networks_cache_entries", "sql_preprocess", "print_preprocess", "kafka_preprocess", "amqp_preprocess", *QUEUES, *LEAVING_OUT, *SCALING}


class _Reading:
    """Reads one collector."""

    def __init__(self, name: str, sources: list[Source]) -> None:
        self.sources = sources
        self.settings: Settings = settings_of(sources[0], WANTED, "nfacctd")
        self.log = Log(name)
        self.device = Device(name, "nfacctd", [one.name for one in sources], findings=self.log.findings)
        self.plugins = plugins_of(self.settings)

    def place(self, key: str, plugin: str | None = None) -> Place:
        found = self.settings.last(key, plugin)
        return found.place if found else Place(self.sources[0].name)

    def read(self) -> Device:
        port = self.settings.number("nfacctd_port", 1, 65535)
        port = 2100 if port is None else port
        address = self.settings.value("nfacctd_ip", "*")
        listener = Listener(f"udp {port}", [(address, port, "udp")], self.place("nfacctd_port"), self.accepts())
        for plugin in self.plugins:
            if plugin.kind == "tee":
                self.device.exporters.append(self.tee(plugin))
                listener.forwards.append(plugin.name)
            elif plugin.kind in STORING:
                self.store(plugin, self.propose(plugin), listener)
            else:
                self.log.unknown(self.place("plugins"), plugin.kind, [*STORING, "tee"])
        self.device.listeners.insert(0, listener)
        self.report_rest()
        Losses(self.settings, self.log, self.bears).report(self.plugins, self.place("plugins"))
        report_others(self.sources, self.settings.lines_in_force(FILES, [one.name for one in self.plugins]), self.log)
        report_repeated(self.settings, self.log)
        report_unknown(self.settings, self.plugins, KNOWN, self.log)
        return self.device

    def bears(self, plugin: Plugin | None) -> tuple[str, ...]:
        """Returns the exporters that a plugin's losses bear on; those of a plugin that stores bear on the collector."""
        return (plugin.name,) if plugin and plugin.name in [one.name for one in self.device.exporters] else ()

    def accepts(self) -> list[str] | None:
        """Returns the senders of the allow file, None if any may send."""
        line = self.settings.last("nfacctd_allow_file")
        if line is None:
            return None
        source = other_source(self.sources, line.value)
        if source is None:
            self.log.premise(line.place, "this file was not given: all exporters are taken to be named in it",
                             "add the file to `config` of the collector in the project")
            return None
        found = []
        for number, text in numbered(source):
            text = text.strip()
            if not text or text[0] in "!#":
                continue
            sender = text.removeprefix("ip=")
            try:
                found.append(str(ipaddress.ip_network(sender)).removesuffix("/32").removesuffix("/128"))
            except ValueError:
                self.log.lost(Place(source.name, number, text), "this is not an address or prefix of a sender",
                              "write ip=ADDRESS")
        return found

    def tee(self, plugin: Plugin) -> Exporter:
        """Returns the exporting process of a replicator."""
        line = self.settings.last("tee_receivers", plugin.name)
        if line is None:
            raise Unusable(self.place("plugins"), f"{plugin.name} has no tee_receivers",
                           "name the file with its receivers")
        source = other_source(self.sources, line.value)
        if source is None:
            raise Unusable(line.place, "this file with the receivers was not given",
                           f"add {line.value} to `config` of the collector in the project")
        found = Exporter(plugin.name, [], line.place)
        pools = 0
        for number, text in numbered(source):
            if text.strip() and text.strip()[0] not in "!#":
                pools += 1
                self.pool(found, Place(source.name, number, text.strip()))
        if found.mode != "parallel" and pools > 1:
            self.log.lost(found.place, "one pool of several balances, and an exporting process has one mode; the "
                          "document balances over "
                          "all receivers", "give each pool a plugin of its own", Topic.OTHER, None, (plugin.name,))
        if not found.destinations:
            raise Unusable(source.place(0), "names no receiver", "write id=N ip=ADDRESS:PORT")
        names = ", ".join(f"{one.address}:{one.port}" for one in found.destinations)
        self.log.note(self.place("plugins"), f"tee forwards each record as it is, to {names} "
                      f"({found.destinations[0].place.file}:"
                      f"{found.destinations[0].place.line})", exporters=(plugin.name,))
        if not self.settings.is_true("tee_transparent", False, plugin.name):
            self.log.note(self.place("plugins"), "without tee_transparent the receivers see this host as the sender",
                          exporters=(plugin.name,))
        found.source = self.settings.value("tee_source_ip", "", plugin.name)
        return found

    def pool(self, exporter: Exporter, place: Place) -> None:
        """Adds the receivers of a line: id=N ip=ADDRESS:PORT[,ADDRESS:PORT] [balance-alg=WORD]."""
        for word in place.text.split():
            key, _, value = word.partition("=")
            if key == "ip":
                for text in value.split(","):
                    exporter.destinations.append(self.receiver(text, place))
            elif key == "balance-alg":
                exporter.mode = "loadBalancing"
                self.log.note(place, "one of the receivers gets each message", exporters=(exporter.name,))
            elif key == "tag":
                self.log.lost(place, "only records with this tag are sent here, but the document sends all of them",
                              "forward all records", Topic.FILTER, None, (exporter.name,))
            elif key not in ("id", "src_port"):
                self.log.unknown(place, key, ("id", "ip", "tag", "balance-alg", "src_port"), (exporter.name,))

    def receiver(self, text: str, place: Place) -> Destination:
        words = re.fullmatch(r"\[([^\]\s]+)\]:([0-9]{1,5})|([^:\[\]\s]+):([0-9]{1,5})", text)
        if not words or not 0 < int(words[2] or words[4]) < 65536:
            raise Unusable(place, f"{text!r} is not a receiver", "write ADDRESS:PORT, or [ADDRESS]:PORT for IPv6")
        address, port = words[1] or words[3], int(words[2] or words[4])
        return Destination(destination_name(address, port), address, port, place)

    def store(self, plugin: Plugin, key: Key, listener: Listener) -> None:
        """Adds what a plugin with a filter stores: a collecting process of its own, which an aggregation feeds."""
        line = self.settings.own("aggregate_filter", plugin.name)
        if line is None:
            return
        try:
            found = aggregations_of(plugin.name, line, key)
        except UnreadFilter as error:
            self.lost_filter(line.place, f"`{error.part}` {error}; ")
            return
        if not found:
            self.log.warning(line.place, f"no packet passes the filter: {plugin.name} stores nothing", "mend the filter",
                             (plugin.name,))
        listener.aggregations += found
        inner = Destination(f"stored by {plugin.name}", "", 0, line.place, "tcp")
        self.device.exporters.append(Exporter(plugin.name, [inner], line.place))
        self.device.listeners.append(Listener(plugin.name, [], line.place, local_exporters=[plugin.name]))
        axes = ", ".join(dict.fromkeys(name for one in found for name in [*one.match, *(element for element, _ in one.key)]))
        self.log.note(line.place, f"{plugin.name} is a collecting process of its own, which gets what passes the filter: "
                      f"records whose flow keys have {axes or 'nothing'}", exporters=(plugin.name,))

    def lost_filter(self, place: Place, why: str = "") -> None:
        self.log.lost(place, f"{why}the collector may store only a part of what it receives, but the document counts all "
                      "of it", "store all records, and filter in the report", Topic.FILTER)

    def propose(self, plugin: Plugin) -> Key:
        """Proposes the key that a plugin stores by as the report's key, and returns it."""
        place = self.place("aggregate", plugin.name)
        key: Key = []
        mask = self.settings.number("networks_mask", 1, 32, plugin.name)
        for word in re.split(r"[,\s]+", self.settings.value("aggregate", USUAL, plugin.name)):
            if word in PRIMITIVES:
                key.append((KEYS.get(word, PRIMITIVES[word]), None))
            elif word in NETWORKS and mask is not None:
                key.append((NETWORKS[word], mask))
            elif word in WITHOUT_AXIS:
                self.log.note(place, f"{plugin.name} also stores by {word}, which is not an axis: its totals are finer "
                              f"than a report")
            elif word:
                self.log.unknown(place, word, [*PRIMITIVES, *WITHOUT_AXIS])
        names = ", ".join(name if length is None else f"{name}/{length}" for name, length in key)
        self.log.note(place, f"{plugin.name} stores by {names or 'nothing'}: proposed as the report's key")
        self.device.proposed_keys.append((plugin.name, key, place))
        return key

    def report_rest(self) -> None:
        """Reports the settings that have no form in the document."""
        storing = {name for one in self.plugins if one.kind in STORING for name in (one.name, f"default_{one.name}")}
        for one in self.settings.lines:
            if one.key == "aggregate_filter" and not one.plugin:
                self.log.note(one.place, "nfacctd does not apply an aggregate_filter without a plugin, so it filters nothing",
                              "write aggregate_filter[PLUGIN]")
            elif one.key == "aggregate_filter" and one.plugin in storing:
                continue
            elif one.key in LEAVING_OUT:
                self.lost_filter(one.place)
            elif is_networks_filter(one):
                self.log.lost(one.place, NETWORKS_FILTER, "remove it", Topic.MASK)
            elif one.key.endswith("_preprocess"):
                self.log.lost(one.place, "the plugin may leave out totals before it stores them, but the document counts "
                              "all of them", "remove it", Topic.FILTER)
            elif one.key in QUEUES:
                self.log.lost(one.place, "records do not come in over the network, so no exporter is linked to this "
                              "collector",
                              "name the address and port that exporters send to as `listen` of the collector")
            elif one.key in SCALING and self.settings.is_true("nfacctd_renormalize", False):
                self.log.lost(one.place, "totals are multiplied by a rate that this sets, whether the exporter samples or not; "
                              "the document counts each packet once", "take out nfacctd_renormalize, or this line",
                              Topic.SAMPLER)
            elif one.key in SCALING:
                self.log.note(one.place, "sets the sampling rate of exporters; totals are scaled by it only with "
                              "nfacctd_renormalize: true")
            elif one.key == "nfacctd_renormalize" and one.value.lower() == "true":
                self.log.note(one.place, "counters of sampled exporters are multiplied by their sampling rate")
            elif one.key == "nfacctd_ipv6_only" and one.value.lower() == "true":
                self.log.lost(one.place, "records that are sent over IPv4 do not come in, but the document takes them",
                              "leave it out")
            elif one.key == "nfacctd_mcast_groups":
                self.log.lost(one.place, "records that are sent to a multicast group come in too, but the document has "
                              "no link for them",
                              "send to an address of the collector")


class Nfacctd:
    kind = "nfacctd"
    title = "nfacctd (pmacct 1.7.7), also with tee"
    how_to_get = ("the file after -f, usually /etc/pmacct/nfacctd.conf, and the files it names (tee_receivers, "
                  "nfacctd_allow_file)")
    certainty = "certain"

    def detect(self, text: str) -> int:
        if re.search(r"(?m)^\s*(nfacctd_\w+|tee_\w+)\s*:", text):
            return 95
        return 0

    def read(self, name: str, sources: list[Source], options: Mapping[str, str]) -> Device:
        return _Reading(name, sources).read()


READER = Nfacctd()

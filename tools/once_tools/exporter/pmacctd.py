"""The settings of pmacctd (pmacct 1.7.7) as a meter: of its plugins those that export flow records, nfprobe."""
from __future__ import annotations

import getopt
import re
from typing import Iterator, overload

from once_tools import elements
from once_tools.exporter.capture_filter import matches_of
from once_tools.exporter.meter import VERSIONS, End, Meter, Plugin, Unusable
from once_tools.model import Place
from once_tools.readers.pmacct_settings import NETWORKS_FILTER, Settings as InForce
from once_tools.readers.trees import Setting
from once_tools.tables.table import text_of

Found = tuple[str, str | None, str]

OPTIONS = "hVf:ac:DNzn:t:P:di:I:S:F:wZ:WY:RL:up:b:m:s:r:"
# Options that stand for settings.
SETTINGS = {"-c": "aggregate", "-P": "plugins", "-i": "pcap_interface", "-I": "pcap_savefile", "-L": "snaplen",
            "-n": "networks_file"}
PRIMITIVES = {"src_host": "sourceAddress", "dst_host": "destinationAddress", "src_port": "sourceTransportPort",
              "dst_port": "destinationTransportPort", "proto": "protocolIdentifier", "tos": "ipClassOfService"}
USUAL = "src_host,dst_host,src_port,dst_port,proto,tos"
# Settings that are carried over, and those that don't bear on which packets are counted in which record.
KNOWN = {"aggregate", "plugins", "pcap_interface", "pcap_savefile", "pcap_filter", "aggregate_filter",
         "pcap_direction", "nfprobe_receiver", "nfprobe_version", "nfprobe_maxflows", "nfprobe_timeouts",
         "nfprobe_engine", "nfprobe_dont_cache", "sampling_rate", "pmacctd_ext_sampling_rate", "sampling_map",
         "pcap_interfaces_map", "pre_tag_map", "pre_tag_filter", "snaplen", "promisc"}
HARMLESS = re.compile(r"daemonize|debug|pidfile|syslog|logfile|core_proc_name|proc_name|plugin_(pipe|buffer)_size|pmacctd_pipe_size|"
                      r"nfprobe_(source_ip|hoplimit|ipprec|direction|ifindex|tstamp_usec|dtls.*)|pcap_interface_wait|"
                      r"pcap_ifindex|pcap_sf_.*|(timestamps|files|print|imt|sql|kafka|amqp|networks)_.*")


def setting(text: str, place: str) -> Found:
    """The key, the plugin and the value of a setting: KEY: VALUE, or KEY[PLUGIN]: VALUE."""
    words = re.fullmatch(r"\s*([A-Za-z0-9_]+)(?:\[([^\]]*)\])?\s*[:=]\s*(.*?)\s*", text)
    if not words:
        raise Unusable("%s: %r is no setting; write KEY: VALUE, or KEY[PLUGIN]: VALUE" % (place, text.strip()))
    return words[1], words[2], words[3]


def settings_in(path: str) -> Iterator[Found]:
    """The settings of a file; a line that begins with ! or # is a comment."""
    for number, line in enumerate(text_of(path).splitlines(), 1):
        if line.strip() and line.strip()[0] not in "!#":
            yield setting(line, "%s:%d" % (path, number))


class Settings:
    """Settings as pmacctd has them in force: the last line of a key, also one for all plugins after one of a plugin."""

    def __init__(self, found: list[Found]) -> None:
        self.found = InForce([Setting(key, value, Place(""), plugin or "") for key, plugin, value in found], [])

    @overload
    def get(self, key: str, plugin: str | None, usual: str) -> str: ...

    @overload
    def get(self, key: str, plugin: str | None = None, usual: None = None) -> str | None: ...

    def get(self, key: str, plugin: str | None = None, usual: str | None = None) -> str | None:
        """The value in force for a plugin, or for all."""
        found = self.found.last(key, plugin)
        return found.value if found else usual

    def own(self, key: str, plugin: str) -> str | None:
        """The value that is set for a plugin alone."""
        found = self.found.own(key, plugin)
        return found.value if found else None

    def values(self, key: str) -> set[str]:
        """All values that a key is set to."""
        return {one.value for one in self.found.lines if one.key == key}

    def keys(self) -> list[str]:
        """The keys that are set."""
        return sorted({one.key for one in self.found.lines})


def settings_of(words: list[str]) -> Settings:
    """The settings of a command line: of its file, its options, and words as KEY=VALUE; the rest is a filter."""
    try:
        options, rest = getopt.gnu_getopt(words, OPTIONS)
    except getopt.GetoptError as error:
        raise Unusable("pmacctd: %s; `pmacctd -h` lists its options" % error) from None
    found: list[Found] = [one for option, value in options if option == "-f" for one in settings_in(value)]
    found += [(SETTINGS[option], None, value) for option, value in options if option in SETTINGS]
    found += [("promisc", None, "false") for option, _ in options if option == "-N"]
    assigned = [word for word in rest if re.match(r"[a-z_0-9]+(\[[^\]]*\])?[=:]", word)]
    found += [setting(word, "pmacctd") for word in assigned]
    expression = " ".join(word for word in rest if word not in assigned)
    if expression:
        found.append(("pcap_filter", None, expression))
    return Settings(found)


def plugins_of(settings: Settings, meter: Meter) -> list[str]:
    """The names of the plugins that export flow records."""
    names = []
    for text in settings.get("plugins", None, "").split(","):
        words = re.fullmatch(r"\s*(\w+)(?:\[([^\]]*)\])?\s*", text)
        if words and words[1] == "nfprobe":
            names.append(words[2] or "nfprobe")
        elif words and words[1] == "sfprobe":
            meter.lost.append("plugin sfprobe: it sends sFlow, samples of packets and no flow records")
        elif words:
            meter.told.append("plugin %s exports no flow records and is left out" % words[1])
    if not names:
        raise Unusable("no plugin nfprobe: pmacctd exports flow records by that one alone; set plugins: nfprobe")
    return names


def axes_of(settings: Settings, name: str, meter: Meter) -> list[str]:
    """The axes that a plugin's records have: pmacctd sends ipVersion in each."""
    found = ["ipVersion"]
    for primitive in settings.get("aggregate", name, USUAL).replace(" ", "").split(","):
        if primitive in PRIMITIVES:
            found.append(PRIMITIVES[primitive])
        elif primitive:
            meter.told.append("aggregate %s: that is no axis and left out of the keys" % primitive)
    return list(dict.fromkeys(found))


def number(settings: Settings, key: str, name: str | None, usual: str, least: int, most: int) -> int:
    """The number that a key is set to."""
    text = settings.get(key, name, usual)
    if not elements.is_number(text, least, most):
        raise Unusable("%s: %s is no number from %d to %d" % (key, text, least, most))
    return int(text)


def receiver(settings: Settings, name: str) -> End:
    """Where a plugin sends to: ADDRESS:PORT, an address of IPv6 in brackets."""
    text = settings.get("nfprobe_receiver", name, "127.0.0.1:2100")
    words = re.fullmatch(r"\[([^\]]+)\]:([^:]+)|([^:\[\]]+):([^:]+)", text)
    if not words:
        raise Unusable("nfprobe_receiver: %s is no destination; write ADDRESS:PORT" % text)
    return words[1] or words[3], words[2] or words[4], "udp"


def cache_settings(settings: Settings, name: str) -> dict[str, int]:
    """The settings of a plugin's cache. Times are without meaning for the audit."""
    found = {"maxFlows": number(settings, "nfprobe_maxflows", name, "8192", 1, 2**32 - 1)}
    for text in filter(None, settings.get("nfprobe_timeouts", name, "").split(":")):
        kind, _, value = text.partition("=")
        member = {"maxlife": "activeTimeout", "general": "idleTimeout"}.get(kind)
        if not elements.is_number(value, 0, 2**32 - 1):
            raise Unusable("nfprobe_timeouts: %s has no number of seconds; write NAME=SECONDS" % text)
        if member:
            found[member] = int(value)
    return found


def filter_of(settings: Settings, name: str, meter: Meter) -> str:
    """The filter of a plugin; pmacctd applies none that is set for all plugins, and none to a file's packets."""
    found = settings.own("aggregate_filter", name)
    if found is None:
        if settings.values("aggregate_filter"):
            meter.told.append("aggregate_filter: none is set for plugin %s, so it exports all packets; write "
                              "aggregate_filter[%s]" % (name, name))
        return ""
    if settings.get("pcap_savefile"):
        meter.lost.append("aggregate_filter: pmacctd doesn't apply it to the packets of a file, but the document does")
    return found


def plugin_of(settings: Settings, name: str, meter: Meter) -> Plugin:
    """A plugin that exports flow records."""
    version = settings.get("nfprobe_version", name, "10")
    if version not in ("5", "9", "10"):
        raise Unusable("nfprobe_version: there is no version %s; write 10 for IPFIX" % version)
    if version != "10":
        meter.lost.append("nfprobe_version %s: NetFlow of that version isn't IPFIX, and `once collect` refuses its "
                          "messages (611)" % version)
    at_once = settings.get("nfprobe_dont_cache", name, "false") == "true"
    return Plugin(
        name=name, axes=axes_of(settings, name, meter), versions=(4,) if version == "5" else VERSIONS,
        kind="immediate" if at_once else "timeout", settings=cache_settings(settings, name),
        matches=matches_of(filter_of(settings, name, meter), meter.lost),
        destinations=[receiver(settings, name)])


def interface_of(settings: Settings, meter: Meter) -> str:
    """The interface that is metered."""
    if settings.get("pcap_interfaces_map"):
        meter.lost.append("pcap_interfaces_map: its interfaces are in another file; name them in ifName")
        return "of the map"
    name = settings.get("pcap_interface")
    if name == "any":
        meter.lost.append("pcap_interface any: which interfaces these are; name them in ifName")
    if name:
        return name
    if not settings.get("pcap_savefile"):
        raise Unusable("no pcap_interface: the system chooses one; name it")
    meter.told.append("pcap_savefile: packets come from a file; the document calls their interface `capture`")
    return "capture"


def tell(settings: Settings, meter: Meter) -> None:
    """What a document cannot express, setting by setting."""
    for key in ("sampling_rate", "pmacctd_ext_sampling_rate", "sampling_map"):
        if settings.values(key) - {"0", "1"}:
            meter.lost.append("%s: sampling. A total over a sample isn't exact (108); the document meters all packets"
                              % key)
    for key in ("pre_tag_map", "pre_tag_filter"):
        if key in settings.keys():
            meter.lost.append("%s: whether it leaves packets out" % key)
    if settings.get("networks_file_filter") == "true":
        meter.lost.append("networks_file_filter: " + NETWORKS_FILTER)
    if "snaplen" in settings.keys():
        meter.lost.append("snaplen: packets are captured in part; where headers are cut, ports aren't seen")
    if settings.get("promisc", None, "true") == "true" and not settings.get("pcap_savefile"):
        meter.told.append("without promisc: false the interface is promiscuous: packets that pass it by on the wire "
                          "are seen too")
    for key in ("plugin_pipe_size", "plugin_buffer_size", "pmacctd_pipe_size"):
        if key in settings.keys():
            meter.told.append("%s: what comes while this buffer is full is lost" % key)
    for key in settings.keys():
        if key not in KNOWN and not HARMLESS.fullmatch(key):
            meter.lost.append("%s: it isn't known here whether it bears on what is metered" % key)


def read(words: list[str]) -> Meter:
    """The meter of a command line and the file that it names."""
    settings, meter = settings_of(words), Meter()
    names = plugins_of(settings, meter)
    meter.interface = interface_of(settings, meter)
    direction = settings.get("pcap_direction")
    directions = {None: "both", "in": "ingress", "out": "egress"}
    if direction not in directions:
        raise Unusable("pcap_direction: there is no direction %s; write in or out" % direction)
    meter.direction = directions[direction]
    if ":" not in settings.get("nfprobe_engine", names[0], "0"):
        meter.domain = number(settings, "nfprobe_engine", names[0], "0", 0, 2**32 - 1)
    meter.matches = matches_of(settings.get("pcap_filter", None, ""), meter.lost)
    meter.plugins = [plugin_of(settings, name, meter) for name in names]
    tell(settings, meter)
    return meter

"""The command line of softflowd (1.1.0) as a meter."""
from __future__ import annotations

import getopt
import re
from typing import Iterator

from once_tools import elements
from once_tools.exporter.capture_filter import matches_of
from once_tools.exporter.meter import VERSIONS, End, Meter, Plugin, Unusable

OPTIONS = "i:r:t:m:n:p:c:v:L:T:6dDP:A:s:B:baC:lR:S:Nx:h"
# The flow keys of each track level; what isn't an axis is reported.
ADDRESSES = ["sourceAddress", "destinationAddress"]
PORTS = ["sourceTransportPort", "destinationTransportPort"]
LEVELS: dict[str, tuple[list[str], str | None]] = {
    "ip": (ADDRESSES, None),
    "proto": (ADDRESSES + ["protocolIdentifier"], None),
    "port": (ADDRESSES + ["protocolIdentifier"] + PORTS, None),
    "full": (ADDRESSES + ["protocolIdentifier"] + PORTS, None),
    "vlan": (ADDRESSES + ["protocolIdentifier"] + PORTS, "the VLAN"),
    "ether": (ADDRESSES + ["protocolIdentifier"] + PORTS, "the VLAN and the Ethernet addresses"),
}
TIMEOUTS = {"tcp": 3600, "tcp.rst": 120, "tcp.fin": 300, "udp": 300, "icmp": 300, "general": 3600, "maxlife": 604800,
            "expint": 60}
UNITS = {"": 1, "s": 1, "m": 60, "h": 3600, "d": 86400, "w": 604800}


def seconds(text: str) -> int:
    """The seconds of a time as softflowd reads it: 90, 1m30s, 2h."""
    if not re.fullmatch(r"(?i)([0-9]+[smhdw]?)+", text):
        raise Unusable("-t: %s is no time; write seconds, or a time as 1h30m" % text)
    found = sum(int(count) * UNITS[unit.lower()] for count, unit in re.findall(r"([0-9]+)([a-zA-Z]?)", text))
    return min(found, 2**32 - 1)


def timeouts(texts: list[str]) -> dict[str, int]:
    """The timeouts that are set, and those of softflowd where they are not."""
    found = dict(TIMEOUTS)
    for text in texts:
        name, _, time = text.partition("=")
        if name not in TIMEOUTS:
            raise Unusable("-t: there is no timeout %s; write NAME=TIME with one of: %s" % (name, ", ".join(TIMEOUTS)))
        found[name] = seconds(time)
    return found


def destinations(text: str, transport: str) -> Iterator[End]:
    """Hosts with their ports: HOST:PORT, an address of IPv6 in brackets."""
    for one in text.split(","):
        words = re.fullmatch(r"\[([^\]]+)\]:([^:]+)|([^:\[\]]+):([^:]+)", one.strip())
        if not words:
            raise Unusable("-n: %s is no destination; write HOST:PORT, or [ADDRESS]:PORT" % one)
        yield words[1] or words[3], words[2] or words[4], transport


def version_of(options: dict[str, str], lost: list[str]) -> tuple[int, ...]:
    """The versions of IP that are exported, and what the version of the messages means."""
    version = options.get("-v", "5")
    if version == "psamp":
        raise Unusable("-v psamp: softflowd sends packets then, not flow records; run it with -v 10")
    if version not in ("1", "5", "9", "10"):
        raise Unusable("-v: there is no version %s; write 10 for IPFIX" % version)
    if version != "10":
        lost.append("-v %s: NetFlow of that version isn't IPFIX, and `once collect` refuses its messages (611)"
                    % version)
    return VERSIONS if version in ("9", "10") else (4,)


def interface_of(options: dict[str, str], meter: Meter) -> str:
    """The interface that is metered."""
    if "-R" in options:
        raise Unusable("-R: softflowd receives PSAMP then, and sees no interface; name one with -i")
    if "-i" in options:
        name = re.sub(r"^[0-9]+:", "", options["-i"])
        if name == "any":
            meter.lost.append("-i any: which interfaces these are; name them in ifName")
        return name
    if "-r" not in options:
        raise Unusable("neither -i nor -r: name the interface with -i")
    meter.told.append("-r: packets come from a file; the document calls their interface `capture`")
    return "capture"


def tell(options: dict[str, str], meter: Meter) -> None:
    """What a document cannot express, option by option."""
    meter.lost.append("softflowd sends counters of 4 octets, which once refuses (110 in a document, 618 in a stream): "
                      "the document has them in 8, so it speaks of records whose sums stay below 4,294,967,296")
    meter.lost.append("softflowd counts what a frame has after its link header, padding included: on Ethernet a packet of "
                      "less than 46 octets counts as 46; the document counts the packet")
    if "-s" in options and options["-s"] not in ("0", "1"):
        meter.lost.append("-s %s: sampling. A total over a sample isn't exact (108); the document meters all packets"
                          % options["-s"])
    if "-b" in options:
        meter.lost.append("-b: records have both directions of a flow, the second in reverse elements (RFC 5103), "
                          "which once doesn't add up; the document has a record for each direction")
    if "-C" in options:
        meter.lost.append("-C %s: packets are captured in part; where headers are cut, ports aren't seen"
                          % options["-C"])
    if "-N" not in options and "-i" in options:
        meter.told.append("without -N the interface is promiscuous: packets that pass it by on the wire are seen too")
    if "-l" in options and "," in options.get("-n", ""):
        meter.lost.append("-l: which destinations your collector receives; the first has a link, and the audit counts "
                          "what goes to the others as lost")


def read(words: list[str]) -> Meter:
    """The meter of a command line."""
    try:
        given, rest = getopt.gnu_getopt(words, OPTIONS)
    except getopt.GetoptError as error:
        raise Unusable("softflowd: %s; `softflowd -h` lists its options" % error) from None
    options = dict(given)
    if "-n" not in options:
        raise Unusable("without -n softflowd sends no records; name the destination with -n HOST:PORT")
    level = options.get("-T", "full")
    if level not in LEVELS:
        raise Unusable("-T: there is no track level %s; write one of: %s" % (level, ", ".join(LEVELS)))
    flows = options.get("-m", "8192")
    if not elements.is_number(flows, 1, 2**32 - 1):
        raise Unusable("-m: %s is no number of flows" % flows)
    transport = options.get("-P", "udp")
    if transport not in ("udp", "tcp", "sctp"):
        raise Unusable("-P: there is no transport %s; write udp, tcp or sctp" % transport)
    times = timeouts([value for option, value in given if option == "-t"])
    meter = Meter()
    meter.interface = interface_of(options, meter)
    meter.matches = matches_of(" ".join(rest), meter.lost)
    axes, finer = LEVELS[level]
    if finer:
        meter.told.append("-T %s: %s is no axis and left out of the keys; records are finer, their sums the same" % (
            level, finer))
    meter.plugins.append(Plugin(
        name="softflowd", axes=["ipVersion"] + axes, versions=version_of(options, meter.lost),
        settings={"maxFlows": int(flows), "activeTimeout": times["maxlife"], "idleTimeout": times["general"]},
        mode="loadBalancing" if "-l" in options else "parallel",
        destinations=list(destinations(options["-n"], transport))))
    tell(options, meter)
    if set(PORTS) <= set(axes):
        meter.told.append("records of ICMP have icmpTypeCode instead of ports: a report by ports can't read them")
    return meter

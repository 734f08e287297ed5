"""Where losses are seen: sockets, captures, interfaces, the switch, and the logs of exporters and collectors."""
from __future__ import annotations

import re
from concurrent.futures import ThreadPoolExecutor
from dataclasses import dataclass
from pathlib import Path
from typing import Iterable

from lab.namespaces import HOSTS, links_of
from lab.programs import run
from lab.verdicts import Loss

SWITCHING = ("sw", "edge", "c3")
# Counters of /proc/net/snmp and snmp6 that rise when something is lost because a buffer is full. Packets that die are not among them.
COUNTERS = {"Udp": ("RcvbufErrors", "SndbufErrors"), "Ip": ("InDiscards", "OutDiscards")}
# Discarded packets of IPv6 are left out: reports of multicast listeners are discarded when IPv6 is switched off at an interface.
COUNTERS_OF_IPV6 = ("Udp6RcvbufErrors", "Udp6SndbufErrors")
# Packets that waited for a neighbour's address and were dropped, in the kernel's counters for all namespaces.
NEIGHBOURS = {"arp_cache": "IPv4", "ndisc_cache": "IPv6"}
WAITED = ("unresolved_discards", "table_fulls")
# Lines of pmacct's daemons that say that records or messages were lost.
PMACCT_WORDS = ("Missing data detected", "Failed during write", "Unable to allocate more memory", "Maximum number of writer",
                "discarded", "Unable to write")
DROPPED = re.compile(r"dropped_packets=(\d+)")
SOCKET = re.compile(r"\*:(\S+)\s.*skmem:\(.*,d(\d+)\)")
DUMPCAP = re.compile(r"Packets received/dropped on interface '([^']+)': (\d+)/(\d+)")


@dataclass(frozen=True)
class Counters:
    """Counters of a host that rise when something is lost, by their names."""

    values: dict[str, int]

    def risen(self, before: Counters, host: str) -> list[Loss]:
        """Returns what was lost since an earlier look."""
        return [Loss(host, f"{name} rose by {value - before.values.get(name, 0)}") for name, value in self.values.items()
                if value > before.values.get(name, 0)]


def protocol_counters(text: str) -> dict[str, int]:
    """Returns the counters of /proc/net/snmp and /proc/net/snmp6 for full buffers and discarded packets."""
    found: dict[str, int] = {}
    lines = [line.split() for line in text.splitlines()]
    for head, row in zip(lines, lines[1:]):
        names = COUNTERS.get(head[0].rstrip(":"), ()) if head[:1] == row[:1] and head else ()
        found |= {f"{head[0].rstrip(':')} {name}": int(row[head.index(name)]) for name in names if name in head}
    return found | {row[0]: int(row[1]) for row in lines if len(row) == 2 and row[0] in COUNTERS_OF_IPV6}


def neighbour_counters(text: str) -> dict[str, int]:
    """Returns how many packets a table of /proc/net/stat dropped since the address of their neighbour was not known."""
    rows = [line.split() for line in text.splitlines()]
    return {name: sum(int(row[rows[0].index(name)], 16) for row in rows[1:]) for name in WAITED if rows and name in rows[0]}


def counters_of_neighbours() -> Counters:
    """Returns the counters of the kernel's tables of neighbours, which are those of all namespaces. A kernel may show none."""
    found: dict[str, int] = {}
    for table, version in NEIGHBOURS.items():
        path = Path("/proc/net/stat") / table
        text = path.read_text(encoding="ascii") if path.exists() else ""
        found |= {f"{version} {name}": value for name, value in neighbour_counters(text).items()}
    return Counters(found)


def packet_drops(text: str) -> dict[str, int]:
    """Returns what the packet sockets of Open vSwitch had no room for, by their interfaces, of lines of `ss -0 -m`. Those of
    captures come and go, and say themselves what they dropped."""
    found: dict[str, int] = {}
    for line in text.splitlines():
        match = SOCKET.search(line)
        if match and "ovs-vswitchd" in line:
            name = f"packet socket at {match[1]}"
            found[name] = found.get(name, 0) + int(match[2])
    return found


def counters_of(host: str) -> Counters:
    """Returns the counters of a host."""
    values = protocol_counters(run(["cat", "/proc/net/snmp", "/proc/net/snmp6"], host, check=False).output)
    if host in SWITCHING:
        values |= packet_drops(run(["ss", "-0", "-m", "-a", "-n", "-p"], host).output)
    for link in links_of(host):
        for way, statistics in link.get("stats64", link.get("stats", {})).items():
            for what in ("dropped", "errors", "over_errors"):
                if statistics.get(what):
                    values[f"{link['ifname']} {way} {what}"] = int(statistics[what])
    return Counters(values)


def all_counters() -> dict[str, Counters]:
    """Returns the counters of all hosts, and of the kernel's neighbours."""
    with ThreadPoolExecutor(4) as workers:
        found = dict(zip(HOSTS, workers.map(counters_of, HOSTS)))
    return found | {"neighbours": counters_of_neighbours()}


def risen(before: dict[str, Counters], after: dict[str, Counters]) -> list[Loss]:
    """Returns what was lost at all hosts between two looks."""
    return [loss for host in after for loss in after[host].risen(before[host], host)]


def socket_drops(text: str, port: int) -> int | None:
    """Returns how many datagrams found the buffer full in the sockets of a port, in /proc/net/udp; None if there is no such socket."""
    found = [int(words[-1]) for words in (line.split() for line in text.splitlines()[1:]) if words[1].endswith(f":{port:04X}")]
    return sum(found) if found else None


def collector_losses(host: str, name: str, port: int) -> list[Loss]:
    """Returns what a collector's socket had no room for. A collector without a socket has lost everything."""
    text = run(["cat", "/proc/net/udp", "/proc/net/udp6"], host, check=False).output
    dropped = socket_drops(text, port)
    if dropped is None:
        return [Loss(f"collector {name}", f"nothing listens at port {port}")]
    return [Loss(f"socket of collector {name}", f"{dropped} datagrams found the buffer full")] if dropped else []


def capture_losses(name: str, log: str) -> list[Loss]:
    """Returns what a capture dropped, by dumpcap's last line; a capture that has none says nothing, and counts as lost."""
    found = DUMPCAP.findall(log)
    if not found:
        return [Loss(f"capture {name}", "dumpcap does not say how many packets it dropped")]
    return [Loss(f"capture {name}", f"{dropped} packets dropped at {interface}") for interface, _, dropped in found if int(dropped)]


def pmacct_losses(name: str, log: str) -> list[Loss]:
    """Returns what the log of pmacctd or nfacctd says that it lost."""
    found = [Loss(name, line.strip()[:200]) for line in log.splitlines() if any(word in line for word in PMACCT_WORDS)]
    dropped = sum(int(one) for one in DROPPED.findall(log))
    return found[:3] + ([Loss(name, f"libpcap dropped {dropped} packets")] if dropped else [])


def nfcapd_losses(log: str) -> list[Loss]:
    """Returns what nfcapd says that it could not read."""
    return [Loss("nfcapd", f"{count} {what}") for what, count in re.findall(r"(Bad Packets): (\d+)", log) if int(count)]


def nfcapd_gaps(log: str) -> int:
    """Returns how many gaps in sequence numbers nfcapd found."""
    return sum(int(one) for one in re.findall(r"Sequence Errors: (\d+)", log))


def switch_losses(statistics: str) -> list[Loss]:
    """Returns what Open vSwitch lost: packets that its datapath could not hand up, and messages that it could not send."""
    found = [Loss("Open vSwitch", f"{count} packets lost between datapath and switch")
             for count in re.findall(r"\blost:(\d+)", statistics) if int(count)]
    return found + [Loss("Open vSwitch", f"{count} messages could not be sent")
                    for count in re.findall(r"\btx errs=(\d+)", statistics) if int(count)]


def log_text(path: Path) -> str:
    """Returns a log, which may be missing."""
    return path.read_text(encoding="utf-8", errors="replace") if path.exists() else ""


def stream_losses(report: Iterable[str]) -> list[Loss]:
    """Returns what once-import's report about the messages on the wire says that a collector has not received."""
    return [Loss("messages on the wire", line.split(": ", 1)[-1][:200]) for line in report
            if line.startswith("warning") and "ICMP error" in line]

"""Exporters of the lab: pmacctd and softflowd at interfaces of the routers, and the files that they are started with."""
from __future__ import annotations

import os
import signal
from dataclasses import dataclass
from pathlib import Path

from lab.namespaces import MANAGEMENT, interface_index
from lab.programs import Group, LabError, Running, children_of, path_of, run

BILLING = "172.31.0.1:4739"
CUSTOMER_1, CUSTOMER_2 = "src net 10.1.0.0/24", "src net 10.2.0.0/24"
# On a busy machine pmacct's own queue between its processes was seen to hand over its last packet twice. ZeroMQ's takes its place,
# except where a meter sees all interfaces: it goes over the loopback interface, and would be metered.
QUEUE = ("plugin_pipe_zmq: true", "plugin_pipe_zmq_profile: micro")
EVERYWHERE = "any"
USUAL_KEYS = "src_host, dst_host, src_port, dst_port, proto, tos"
SOFTFLOWD_LINE = "softflowd -d -v 10 -c none -n {receiver} -t udp=2 -t general=2 -t maxlife=4 -t expint=1"


@dataclass(frozen=True)
class Meter:
    """A meter at interfaces of a router. A direction is `in`, `out` or empty for both; each receiver gets all records."""

    device: str
    interfaces: tuple[str, ...]
    receivers: tuple[str, ...] = (BILLING,)
    filter: str = ""
    direction: str = ""
    settings: tuple[str, ...] = ()
    program: str = "pmacctd"
    domain: int = 1


@dataclass(frozen=True)
class Started:
    """A meter with its files: those that it was started with, and its log."""

    meter: Meter
    running: Running
    files: tuple[Path, ...]

    def interrupt(self) -> None:
        """Has the meter export what it holds, and end."""
        self.running.send_signal(signal.SIGINT)

    def kill(self) -> None:
        """Kills the meter with the processes of its plugins, which then export nothing."""
        process = self.running.process.pid
        for child in [process, *children_of(process)]:
            os.kill(child, signal.SIGKILL)
        self.running.process.wait()


def pmacctd_settings(meter: Meter, map_file: str) -> list[str]:
    """Returns the lines of a pmacctd's configuration."""
    lines = ["daemonize: false", "promisc: false", f"aggregate: {USUAL_KEYS}"]
    lines += [f"pcap_interfaces_map: {map_file}"] if map_file else [f"pcap_interface: {meter.interfaces[0]}"]
    names = [f"p{number}" for number in range(len(meter.receivers))]
    for number, (name, receiver) in enumerate(zip(names, meter.receivers)):
        lines += [f"nfprobe_version[{name}]: 10", f"nfprobe_receiver[{name}]: {receiver}",
                  f"nfprobe_source_ip[{name}]: {MANAGEMENT[meter.device]}",
                  f"nfprobe_engine[{name}]: {meter.domain * 10 + number}",
                  f"nfprobe_timeouts[{name}]: udp=2:general=2:icmp=2:maxlife=4:expint=1"]
    lines.append("plugins: " + ", ".join(f"nfprobe[{name}]" for name in names))
    if EVERYWHERE not in meter.interfaces:
        lines += QUEUE
    if meter.filter:
        lines.append(f"pcap_filter: {meter.filter}")
    if meter.direction:
        lines.append(f"pcap_direction: {meter.direction}")
    return [*lines, *meter.settings]


def start_pmacctd(group: Group, meter: Meter) -> Started:
    """Starts a pmacctd; where it meters several interfaces, with a map of them."""
    name = f"pmacctd-{meter.device}"
    path, map_path = group.folder / f"{name}.conf", group.folder / f"{name}.map"
    files = [path]
    if len(meter.interfaces) > 1:
        rows = [f"ifindex={interface_index(meter.device, one)} ifname={one}" for one in meter.interfaces]
        if meter.direction:
            rows = [f"{row} direction={meter.direction}" for row in rows]
        map_path.write_text("\n".join(rows) + "\n", encoding="utf-8")
        files.append(map_path)
    lines = pmacctd_settings(meter, map_path.name if len(files) > 1 else "")
    path.write_text("\n".join(lines) + "\n", encoding="utf-8")
    running = group.start(meter.device, [path_of("pmacctd"), "-f", str(path)], f"{name}.log", "link type is",
                          "Exporting flows to")
    return Started(meter, running, tuple(files))


def start_softflowd(group: Group, meter: Meter) -> Started:
    """Starts a capture at the interface that softflowd reads afterwards: live, it holds packets back until a block of its
    capture is full. Its command line is written into a file, as a unit would have it."""
    line = SOFTFLOWD_LINE.format(receiver=meter.receivers[0])
    path = group.folder / f"softflowd-{meter.device}.args"
    path.write_text(f"{line} -i {meter.interfaces[0]}\n", encoding="utf-8")
    capture = group.folder / f"softflowd-{meter.device}.pcap"
    running = group.start(meter.device, dumpcap(meter.interfaces[0], capture, "ip"), f"dumpcap-meter-{meter.device}.log", "File:")
    return Started(meter, running, (path,))


def export_capture(group: Group, started: Started) -> None:
    """Has softflowd read the capture that was made at its interface, and export it."""
    device = started.meter.device
    words = SOFTFLOWD_LINE.format(receiver=started.meter.receivers[0]).split()
    line = [path_of("softflowd"), *words[1:], "-r", str(group.folder / f"softflowd-{device}.pcap")]
    said = run(line, device, cwd=group.folder)
    (group.folder / f"softflowd-{device}.log").write_text(said.output + said.errors, encoding="utf-8")


def dumpcap(interface: str, path: Path, expression: str) -> list[str]:
    """Returns the command line of a capture in a pcap file, which is not promiscuous."""
    form = [] if path.suffix == ".pcapng" else ["-P"]
    return [path_of("dumpcap"), "-q", "-p", "-i", interface, *form, "-B", "16", "-f", expression, "-w", str(path)]


def start_meter(group: Group, meter: Meter) -> Started:
    """Starts a meter."""
    if meter.program == "softflowd":
        return start_softflowd(group, meter)
    if meter.program == "pmacctd":
        return start_pmacctd(group, meter)
    raise LabError(f"there is no exporter {meter.program}: write pmacctd or softflowd")

"""Collectors of the lab: nfacctd, also as a tee that forwards messages, and nfcapd, to which the messages are replayed."""
from __future__ import annotations

import json
import signal
from dataclasses import dataclass
from pathlib import Path
from typing import Sequence

from lab.exporters import QUEUE
from lab.namespaces import MANAGEMENT
from lab.programs import Group, LabError, Running, agent, path_of, run
from lab.totals import Totals, add

NFCAPD_PORT = 9995
SECONDS = 180.0


@dataclass(frozen=True)
class Collector:
    """A collector. With receivers it is a tee, which forwards each message to all of them, or to one if it balances.
    With `is_as_it_comes` each record goes to the plugin by itself, in pmacct's own queue. `forwards` and `aggregates` are what the
    project says of a mediator beyond its configuration."""

    name: str
    port: int = 4739
    host: str = "bill"
    receivers: tuple[str, ...] = ()
    balances: bool = False
    is_transparent: bool = False
    receive_buffer: int = 4_194_304
    is_as_it_comes: bool = False
    listens_at_all: bool = False
    forwards: tuple[str, ...] = ()
    aggregates: tuple[str, ...] = ()
    aggregate: tuple[str, ...] = ("aggregate: src_host",)

    @property
    def address(self) -> str:
        """The address of its host."""
        return MANAGEMENT[self.host]

    def settings(self, folder: Path) -> list[str]:
        """Returns the lines of nfacctd's configuration."""
        lines = ["daemonize: false", f"nfacctd_port: {self.port}", f"nfacctd_pipe_size: {self.receive_buffer}"]
        lines += [] if self.listens_at_all else [f"nfacctd_ip: {self.address}"]
        lines += [] if self.is_as_it_comes else QUEUE
        if self.receivers:
            return [*lines, "plugins: tee[t]", f"tee_receivers[t]: {self.receivers_file(folder)}",
                    f"tee_transparent[t]: {'true' if self.is_transparent else 'false'}"]
        return [*lines, "plugins: print", "print_output: json", f"print_output_file: {self.output(folder)}",
                "print_refresh_time: 300", *self.aggregate]

    def receivers_file(self, folder: Path) -> Path:
        """Returns the path of the list of receivers."""
        return folder / f"nfacctd-{self.name}.receivers"

    def configuration(self, folder: Path) -> Path:
        """Returns the path of the configuration."""
        return folder / f"nfacctd-{self.name}.conf"

    def output(self, folder: Path) -> Path:
        """Returns the path of the file that the plugin print writes."""
        return folder / f"nfacctd-{self.name}.json"

    def files(self, folder: Path) -> list[Path]:
        """Returns the files that it is started with."""
        return [self.configuration(folder), *([self.receivers_file(folder)] if self.receivers else [])]


def start(group: Group, collector: Collector) -> Running:
    """Writes a collector's files and starts it."""
    folder = group.folder
    if collector.receivers:
        way = " balance-alg=rr" if collector.balances else ""
        line = f"id=1 ip={','.join(collector.receivers)}{way}\n"
        collector.receivers_file(folder).write_text(line, encoding="utf-8")
    collector.configuration(folder).write_text("\n".join(collector.settings(folder)) + "\n", encoding="utf-8")
    ready = ["waiting for NetFlow/IPFIX data", *([] if collector.receivers else ["cache entries"])]
    return group.start(collector.host, [path_of("nfacctd"), "-f", str(collector.configuration(folder))],
                       f"nfacctd-{collector.name}.log", *ready)


def printed(path: Path) -> Totals:
    """Returns the totals by source that nfacctd's plugin print has written, which may be none."""
    found: Totals = {}
    if not path.exists():
        return found
    for line in path.read_text(encoding="utf-8").splitlines():
        if line.startswith("{"):
            row = json.loads(line)
            key = row["ip_src"] if "ip_src" in row else f"{row['net_src']}/{row['mask_src']}"
            add(found, key, row["packets"], row["bytes"])
    return found


def replay_to_nfcapd(group: Group, streams: Sequence[Path]) -> tuple[Totals, str]:
    """Has nfcapd read the messages of streams; returns its totals by source, and its log."""
    flows = group.folder / "nfcapd"
    flows.mkdir()
    words = [path_of("nfcapd"), "-b", MANAGEMENT["bill"], "-p", str(NFCAPD_PORT), "-w", str(flows), "-t", "86400", "-B", "4194304"]
    running = group.start("bill", words, "nfcapd.log", "Startup")
    running.wait_until_ready()
    run(agent("replay", MANAGEMENT["bill"], str(NFCAPD_PORT), *map(str, streams)), "bill", seconds=SECONDS)
    running.end(signal.SIGTERM)
    text = run([path_of("nfdump"), "-R", str(flows), "-q", "-N", "-6", "-o", "fmt:%sa %pkt %byt"], check=False)
    if text.status and streams:
        raise LabError(f"nfdump cannot read what nfcapd wrote: {text.errors.strip()[-200:]}")
    return dumped(text.output), running.text()


def dumped(text: str) -> Totals:
    """Returns the totals by source of lines of nfdump: an address, packets, octets."""
    found: Totals = {}
    for line in text.splitlines():
        words = line.split()
        if len(words) == 3 and words[1].isdigit() and words[2].isdigit():
            add(found, words[0], int(words[1]), int(words[2]))
    return found


"""Rows for `once collect` of streams that exporters send in the lab. What must be printed is tshark's: the plain sums over what
the hosts sent, and gaps and records of the messages on the wire."""
from __future__ import annotations

import ipaddress
import json
import re
from dataclasses import dataclass, replace
from pathlib import Path
from typing import Any

from lab import captures
from lab.analysis import Result
from lab.documents import Pair
from lab.exporters import Meter
from lab.programs import LabError, path_of, run
from lab.scenario import Scenario, Sent
from lab.scenarios import all_scenarios
from lab.totals import Totals, times
from lab.verdicts import Verdict

PACKETS = 60


@dataclass(frozen=True)
class Row:
    """A row: the scenario whose stream it has, and how often each packet is counted in it."""

    name: str
    scenario: str
    factor: int = 1


ROWS = (Row("stream-that-pmacctd-sends", "a2-udp"), Row("stream-of-open-vswitch", "d4-input"),
        Row("stream-of-open-vswitch-sampled-twice", "d1-ovs", 2), Row("stream-that-nfacctd-forwards", "e1-tee"))


def only_udp(meter: Meter) -> Meter:
    """Returns a meter that leaves out the routers' own packets, whose number is left to chance."""
    return replace(meter, filter="udp")


def scenarios() -> list[Scenario]:
    """Returns the scenarios of the rows, with few packets."""
    known = {one.name: one for one in all_scenarios()}
    return [replace(one, sent=Sent(packets=PACKETS), other_keys=(), declared=replace(one.declared, protocol=17),
                    meters=tuple(only_udp(meter) for meter in one.meters)) for one in (known[row.scenario] for row in ROWS)]


@dataclass(frozen=True)
class Seen:
    """What tshark sees in messages: how many have another sequence number than it expects, and how many flow records have no
    source address of IPv4."""

    gaps: int
    unassigned: int


def seen_in(text: str) -> Seen:
    """Returns what is seen in tshark's description of messages."""
    counted, sources = (len(re.findall(rf"^ +{name}: ", text, re.M)) for name in ("Octets", "SrcAddr"))
    return Seen(len(re.findall(r"FlowSequence: \d+ \(expected \d+\)", text)), counted - sources)


def read_messages(wire: Path, port: int) -> Seen:
    """Returns what tshark sees in the messages to a port."""
    words = [path_of("tshark"), "-n", "-r", str(wire), "-d", f"udp.port=={port},cflow", "-Y", f"udp.dstport=={port} and not icmp",
             "-V", "-O", "cflow"]
    return seen_in(run(words).output)


def printed(sums: Totals, seen: Seen) -> str:
    """Returns what `once collect` must print."""
    ordered = sorted(sums.items(), key=lambda one: ipaddress.ip_address(one[0]))
    lines = [f"keys {len(ordered)}", *(f"{key} packets {packets} octets {octets}" for key, (packets, octets) in ordered)]
    return "\n".join([*lines, f"unassigned {seen.unassigned}", f"gaps {seen.gaps}", "skipped 0"]) + "\n"


def without_origins(value: Any) -> Any:
    """Returns a value of JSON without what once-import says of where it read each part."""
    if isinstance(value, dict):
        return {key: without_origins(one) for key, one in value.items() if not key.startswith("once-import:")}
    return [without_origins(one) for one in value] if isinstance(value, list) else value


def write_row(row: Row, result: Result, pair: Pair, folder: Path) -> None:
    """Writes a row into the folder of rows."""
    if len(result.streams) != 1 or result.judged.verdict is not Verdict.AGREED:
        raise LabError(f"{row.scenario} gives no row: {len(result.streams)} streams, {result.judged.verdict.value}")
    stream = result.streams[0]
    sums = captures.plain_sums(stream.parent.parent / "sent.pcap")
    seen = read_messages(stream.parent.parent / "wire.pcap", 4739)
    network = json.dumps(without_origins(json.loads(pair.network.read_text(encoding="utf-8"))), indent=1) + "\n"
    contents = {"network.json": network.encode("utf-8"), "stream.ipfix": stream.read_bytes(), "status": b"0\n",
                "words": b"collect network.json stream.ipfix\n",
                "stdout": printed(times(sums, row.factor), seen).encode("ascii")}
    (folder / row.name).mkdir(parents=True, exist_ok=True)
    for name, octets in contents.items():
        (folder / row.name / name).write_bytes(octets)


def write_rows(results: list[Result], folder: Path) -> None:
    """Writes all rows."""
    found = {one.scenario.name: one for one in results}
    for row in ROWS:
        if row.scenario not in found:
            raise LabError(f"{row.scenario} was not measured: there is no row {row.name}")
        stream = found[row.scenario].streams[0]
        documents = stream.parent.parent / "documents"
        write_row(row, found[row.scenario], Pair(4, documents / "network.json", documents / "traffic.json"), folder)
        print(f"wrote {folder / row.name}")

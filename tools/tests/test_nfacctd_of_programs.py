"""What a running nfacctd stores of what exporters send it, compared with the documents of the same settings."""
from __future__ import annotations

import csv
import ipaddress
import json
import signal
import socket
import subprocess
import time
from pathlib import Path

from once_tools.importing import import_project
from once_tools.project import read_project
from test_meters import program, udp_packets, write_capture

FILTER = "src net 10.0.0.0/8"
PLUGINS = {"part": "src_host", "whole": "src_host", "flows": "src_host, dst_host, proto, dst_port"}
# The columns in the order in which `once` prints their axes, by version of IP.
COLUMNS = {4: ("SRC_IP", "DST_IP", "PROTOCOL", "DST_PORT"), 6: ("PROTOCOL", "DST_PORT", "SRC_IP", "DST_IP")}
EXPORTERS = {"pmacctd": "pcap_savefile: FOLDER/a.pcap\nplugins: nfprobe\nnfprobe_version: 10\ndaemonize: false\n"
                        "nfprobe_receiver: 127.0.0.1:PORT\naggregate: src_host, dst_host, src_port, dst_port, proto, tos\n",
             "softflowd": "softflowd -d -v 10 -r FOLDER/a.pcap -n 127.0.0.1:PORT -m 100000\n"}
# What is compared of each exporter: plugins and versions of IP.
CASES = {"pmacctd": [("part", 4), ("whole", 6), ("flows", 4), ("flows", 6)], "softflowd": [("part", 4), ("flows", 6)]}
Totals = dict[tuple[str, ...], tuple[int, int]]


def free_port() -> int:
    with socket.socket(socket.AF_INET, socket.SOCK_DGRAM) as one:
        one.bind(("127.0.0.1", 0))
        return int(one.getsockname()[1])


def start_collector(folder: Path, port: int) -> "subprocess.Popen[bytes]":
    """Starts nfacctd, and returns when it listens."""
    lines = [f"nfacctd_ip: 127.0.0.1\nnfacctd_port: {port}", "plugins: " + ", ".join(f"print[{one}]" for one in PLUGINS)]
    for name, key in PLUGINS.items():
        lines += [f"aggregate[{name}]: {key}", f"print_output_file[{name}]: {folder}/{name}.csv"]
    lines += [f"aggregate_filter[part]: {FILTER}", "aggregate_filter: src net 192.168.0.0/16", "print_refresh_time: 600",
              "print_output: csv", "print_num_protos: true", "daemonize: false", f"logfile: {folder}/log"]
    (folder / "nfacctd.conf").write_text("\n".join(lines) + "\n")
    process = subprocess.Popen([program("nfacctd"), "-f", str(folder / "nfacctd.conf")], stdout=subprocess.DEVNULL,
                               stderr=subprocess.DEVNULL, cwd=folder)
    deadline = time.monotonic() + 15
    while time.monotonic() < deadline and not ((folder / "log").exists() and "waiting for" in (folder / "log").read_text()):
        time.sleep(0.05)
    time.sleep(0.5)
    return process


def start_exporter(name: str, folder: Path, port: int) -> "subprocess.Popen[bytes]":
    text = EXPORTERS[name].replace("FOLDER", str(folder)).replace("PORT", str(port))
    (folder / "exporter.conf").write_text(text)
    words = ["-f", str(folder / "exporter.conf")] if name == "pmacctd" else text.split()[1:]
    return subprocess.Popen([program(name), *words], stdout=subprocess.DEVNULL, stderr=subprocess.DEVNULL, cwd=folder)


def plain(text: str) -> str:
    """Returns an address of IPv6 in its usual form, and other texts as they are."""
    return str(ipaddress.IPv6Address(text)) if ":" in text else text


def stored(path: Path, version: int) -> Totals:
    """Returns what a plugin wrote of one version of IP, by its key."""
    found: Totals = {}
    with path.open() as file:
        for row in csv.DictReader(file):
            key = tuple(plain(row[column]) for column in COLUMNS[version] if column in row)
            if (":" in row["SRC_IP"]) == (version == 6):
                before = found.get(key, (0, 0))
                found[key] = (before[0] + int(row["PACKETS"]), before[1] + int(row["BYTES"]))
    return found


def import_documents(folder: Path, name: str, plugin: str) -> None:
    """Writes the network documents of both versions of IP, and one of traffic that crosses the one interface."""
    (folder / "project.toml").write_text(
        f'[report]\ncollector = "billing"\nplugin = "{plugin}"\n[[devices]]\nname = "probe"\nkind = "{name}"\n'
        'config = "exporter.conf"\n[[collectors]]\nname = "billing"\nkind = "nfacctd"\nconfig = "nfacctd.conf"\n'
        '[[traffic]]\nname = "IPv4"\nsource = "0.0.0.0/0"\npaths = [["probe:capture:ingress"]]\n'
        '[[traffic]]\nname = "IPv6"\nsource = "::/0"\npaths = [["probe:capture:ingress"]]\n')
    texts = import_project(read_project(folder / "project.toml")).texts()
    for version in (4, 6):
        (folder / f"network{version}.json").write_text(texts[f"ipv{version}/network.json"])
    crossing = {"device": "probe", "interface": "capture", "direction": "ingress"}
    (folder / "all.json").write_text(json.dumps({"classes": [{"name": "all", "region": {}, "paths": [[crossing]]}]}))


def metered(folder: Path, once: str, version: int) -> Totals:
    """Returns the totals of the project's documents over the capture."""
    done = subprocess.run([once, "run", f"network{version}.json", "all.json", "a.pcap", "/dev/null"], cwd=folder, capture_output=True,
                          text=True, timeout=30)
    assert done.returncode == 0, done.stderr
    rows = [line.split() for line in done.stdout.splitlines() if " packets " in line]
    return {tuple(map(plain, row[:-4])): (int(row[-3]), int(row[-1])) for row in rows}


def send_all(folder: Path) -> None:
    """Runs a collector for each exporter, and ends it when it has received all and written its files."""
    ports = {name: free_port() for name in EXPORTERS}
    collectors: list["subprocess.Popen[bytes]"] = []
    try:
        for name in EXPORTERS:
            (folder / name).mkdir()
            write_capture(folder / name / "a.pcap", udp_packets(1))
            collectors.append(start_collector(folder / name, ports[name]))
        exporters = [start_exporter(name, folder / name, ports[name]) for name in EXPORTERS]
        for one in exporters:
            one.wait(timeout=30)
        time.sleep(1)
    finally:
        for one in collectors:
            one.send_signal(signal.SIGINT)
        for one in collectors:
            one.wait(timeout=30)


def test_nfacctd_stores_what_its_documents_total(tmp_path: Path, once: str) -> None:
    send_all(tmp_path)
    for name, cases in CASES.items():
        for plugin, version in cases:
            import_documents(tmp_path / name, name, plugin)
            wanted = stored(tmp_path / name / f"{plugin}.csv", version)
            assert wanted and metered(tmp_path / name, once, version) == wanted, (name, plugin, version)
        assert not stored(tmp_path / name / "part.csv", 6)

"""`once-import exporter pmacctd` applies settings as the running pmacctd does."""
from __future__ import annotations

import subprocess
from pathlib import Path

from expected import read_text, shape
from once_tools.exporter.pmacctd import read
from test_meters import program, udp_packets, write_capture

OWN, ALL = "aggregate[p]: src_host\n", "aggregate: dst_host, proto\n"
COLUMNS = {"SRC_IP": "sourceAddress", "DST_IP": "destinationAddress", "PROTOCOL": "protocolIdentifier"}


CASES: list[tuple[str, list[str]]] = [(OWN + ALL, []), (ALL + OWN, []), (OWN, ["-c", "dst_host"])]


def start(folder: Path, lines: str, words: list[str]) -> "subprocess.Popen[bytes]":
    """Starts pmacctd over a capture; the columns that its plugin `print` writes are the keys that it sums up by."""
    folder.mkdir()
    write_capture(folder / "a.pcap", udp_packets(1)[:5])
    (folder / "run.conf").write_text(f"pcap_savefile: {folder}/a.pcap\nplugins: print[p]\nprint_refresh_time: 60\ndaemonize: false\n"
                                     f"print_output: csv\nprint_output_file: {folder}/counted.csv\n{lines}")
    return subprocess.Popen([program("pmacctd"), "-f", str(folder / "run.conf"), *words], stdout=subprocess.DEVNULL,
                            stderr=subprocess.DEVNULL, cwd=folder)


def test_the_last_line_of_a_key_is_in_force(tmp_path: Path) -> None:
    running = [start(tmp_path / str(number), *case) for number, case in enumerate(CASES)]
    for number, (process, (lines, words)) in enumerate(zip(running, CASES)):
        process.wait(timeout=60)
        columns = (tmp_path / str(number) / "counted.csv").read_text().splitlines()[0].split(",")
        wanted = ["ipVersion", *(COLUMNS[one] for one in columns if one in COLUMNS)]
        (tmp_path / "read.conf").write_text(f"pcap_interface: eth0\nplugins: nfprobe[p]\n{lines}")
        assert read(["-f", str(tmp_path / "read.conf"), *words]).plugins[0].axes == wanted


def test_a_filter_for_all_plugins_filters_nothing_as_in_a_project() -> None:
    words = ["-i", "eth0", "-P", "nfprobe[p]"]
    meter = read([*words, "aggregate_filter=src net 10.0.0.0/8"])
    project = read_text("pmacctd", "pcap_interface: eth0\nplugins: nfprobe[p]\naggregate_filter: src net 10.0.0.0/8\n")
    assert meter.plugins[0].matches == [] and shape(project)["selections"]["p IPv4"] == ({"ipVersion": "4"}, "p IPv4")
    assert any("aggregate_filter[p]" in one for one in meter.told)
    own = read([*words, "aggregate_filter[p]=src net 10.0.0.0/8", "aggregate_filter=udp"])
    assert own.plugins[0].matches == [{"ieName": "sourceIPv4Prefix", "value": "10.0.0.0/8"}]


def test_a_filter_of_a_plugin_does_not_apply_to_a_file() -> None:
    meter = read(["-I", "a.pcap", "-P", "nfprobe[p]", "aggregate_filter[p]=udp"])
    assert any("packets of a file" in one for one in meter.lost)


def test_buffers_that_can_lose_packets_are_noted() -> None:
    meter = read(["-i", "eth0", "-P", "nfprobe", "plugin_pipe_size=1000000", "pmacctd_pipe_size=1000000"])
    assert [one.partition(":")[0] for one in meter.told if "is lost" in one] == ["plugin_pipe_size", "pmacctd_pipe_size"]
    assert not meter.lost


def test_addresses_that_are_counted_as_zero_are_not_carried_over() -> None:
    words = ["-i", "eth0", "-P", "nfprobe", "networks_file=/etc/networks.lst"]
    assert any("0.0.0.0" in one for one in read([*words, "networks_file_filter=true"]).lost) and not read(words).lost

"""Settings of pmacct that can lose records, graded by what CONFIG-KEYS of pmacct 1.7.7 says about them."""
from __future__ import annotations

import re
import subprocess
import time
from pathlib import Path

import pytest

from expected import lines, read_text
from once_tools.model import Finding, Grade
from test_meters import program, udp_packets, write_capture

STORES = "nfacctd_port: 4739\naggregate: src_host\nplugins: "
PROBE = "pcap_interface: eth0\nnfprobe_receiver: 192.0.2.10:4739\npromisc: false\nplugins: nfprobe[a], memory[m]\n"


def found(kind: str, text: str, line: str) -> list[Finding]:
    """Returns the findings about a line."""
    return [one for one in read_text(kind, text).findings if one.place.text == line]


# A plugin, a setting, and its grade: a premise if records are lost beyond a bound that the setting makes.
CASES = [
    ("memory[m]", "imt_mem_pools_number: 64", Grade.PREMISE), ("memory[m]", "imt_mem_pools_number[m]: 0", Grade.PREMISE),
    ("memory[m]", "imt_mem_pools_size: 65536", Grade.PREMISE), ("print[p]", "imt_mem_pools_number: 64", None),
    ("print[p]", "print_max_writers: 2", Grade.PREMISE), ("mysql[p]", "sql_max_writers: 2", Grade.PREMISE),
    ("pgsql[p]", "sql_max_writers: 2", Grade.PREMISE), ("sqlite3[p]", "sql_max_writers: 2", Grade.PREMISE),
    ("kafka[p]", "kafka_max_writers: 2", Grade.PREMISE), ("memory[p]", "print_max_writers: 2", None),
    ("print[p]", "plugin_pipe_size: 10240000", Grade.NOTE), ("print[p]", "plugin_pipe_size: 1000000", Grade.PREMISE),
    ("print[p]", "plugin_buffer_size: 10240", Grade.NOTE), ("print[p]", "plugin_buffer_size: 5000000", Grade.PREMISE),
    ("print[p]", "plugin_pipe_zmq_hwm: 1000", Grade.PREMISE), ("print[p]", "plugin_pipe_zmq_hwm: 0", None),
    ("print[p]", "nfacctd_pipe_size: 33554432", Grade.NOTE), ("print[p]", "nfacctd_pipe_size: x", Grade.NOT_CARRIED_OVER),
    ("memory[m]", "imt_mem_pools_number: many", Grade.NOT_CARRIED_OVER)]


@pytest.mark.parametrize("plugin, line, grade", CASES)
def test_a_setting_of_a_collector_that_can_lose_records(plugin: str, line: str, grade: Grade | None) -> None:
    told = found("nfacctd", f"{STORES}{plugin}\n{line}\n", line)
    assert [one.grade for one in told] == ([grade] if grade else [])


def test_the_table_of_memory_is_bounded_if_nothing_is_set() -> None:
    """CONFIG-KEYS: imt_mem_pools_number is 16 by default, and imt_mem_pools_size 8192."""
    device = read_text("nfacctd", STORES + "memory[m]\n")
    assert [one for one in lines(device, Grade.PREMISE)] == [
        "premise config:3: 'plugins: memory[m]': the table of m has at most 16 pools of 8192 octets (the default): "
        "records that do not fit are lost, and all are taken to fit; write a larger imt_mem_pools_number, and watch the log "
        "for `Unable to allocate more memory pools`"]


def test_the_last_line_of_a_setting_is_in_force() -> None:
    device = read_text("nfacctd", STORES + "memory[m]\nimt_mem_pools_number[m]: 0\nimt_mem_pools_number: 4\n")
    assert "at most 4 pools of 8192 octets" in "".join(lines(device, Grade.PREMISE))


def test_a_queue_with_its_buffer() -> None:
    text = STORES + "print[p]\nplugin_pipe_size[p]: 8000000\nplugin_buffer_size[p]: 9000000\n"
    (one,) = found("nfacctd", text, "plugin_pipe_size[p]: 8000000")
    assert one.grade is Grade.PREMISE and "smaller than its buffer of 9000000" in one.says


@pytest.mark.parametrize("line, grade", [
    ("plugin_pipe_size[a]: 1000000", Grade.PREMISE), ("plugin_pipe_size[a]: 8000000", Grade.NOTE),
    ("plugin_pipe_size[m]: 1000000", None), ("pmacctd_pipe_size: 1000000", Grade.NOTE)])
def test_a_setting_of_a_probe_that_can_lose_packets(line: str, grade: Grade | None) -> None:
    told = found("pmacctd", f"{PROBE}{line}\n", line)
    assert [(one.grade, one.exporters) for one in told] == ([(grade, ("a",))] if grade else [])


def test_a_replicator_bears_on_what_it_forwards() -> None:
    device = read_text("nfacctd", "plugins: tee[t]\ntee_receivers: r.lst\nplugin_pipe_size: 1000\ntee_pipe_size: 1000\n",
                       r_lst="id=1 ip=192.0.2.1:1\n")
    told = {one.place.text: (one.grade, one.exporters) for one in device.findings if "_size" in one.place.text}
    assert told == {"plugin_pipe_size: 1000": (Grade.PREMISE, ("t",)), "tee_pipe_size: 1000": (Grade.NOTE, ())}


def entries(folder: Path, number: int) -> tuple[int, str]:
    """Returns how many entries the table of a running pmacctd has after 200 flows, and its log."""
    folder.mkdir()
    write_capture(folder / "a.pcap", udp_packets(1)[:200])
    (folder / "run.conf").write_text(
        f"pcap_savefile: {folder}/a.pcap\npcap_savefile_wait: true\nplugins: memory[m]\nimt_path[m]: {folder}/pipe\n"
        f"daemonize: false\nimt_mem_pools_size: 1024\nimt_mem_pools_number: {number}\nimt_buckets: 7\n"
        "aggregate[m]: src_host, src_port, dst_host, dst_port\n")
    with (folder / "log").open("w") as log:
        running = subprocess.Popen([program("pmacctd"), "-f", str(folder / "run.conf")], stdout=log, stderr=log, cwd=folder)
    for _ in range(200):
        if "finished reading" in (folder / "log").read_text():
            break
        time.sleep(0.1)
    time.sleep(1)  # a question while packets come in changes what the table takes
    answer = subprocess.run([program("pmacct"), "-s", "-p", f"{folder}/pipe"], capture_output=True, text=True, timeout=60)
    running.terminate()
    running.wait(timeout=60)
    total = re.search(r"For a total of: ([0-9]+) entries", answer.stdout)
    return int(total[1]) if total else -1, (folder / "log").read_text()


def test_the_running_pmacctd_loses_what_does_not_fit(tmp_path: Path) -> None:
    """The 200 flows fit into 1,000 pools of 1,024 octets. With 0 the table is as small as with 16, the default."""
    (few, log), (none, other), (many, quiet) = (entries(tmp_path / str(number), number) for number in (16, 0, 1000))
    assert few == none < 200 <= many
    assert all("Unable to allocate more memory pools" in text for text in (log, other)) and "memory pools" not in quiet

"""Databases that a server of Open vSwitch prints, in each of the forms in which it prints them."""
from __future__ import annotations

import subprocess
import time
from pathlib import Path
from typing import Iterator

import pytest

from expected import SAMPLES, read, shape
from once_tools.readers import READERS
from once_tools.source import Source
from test_meters import program

SCHEMA = Path("/usr/share/openvswitch/vswitch.ovsschema")
PRINTED = {"Bridge": "_uuid,name,ports,ipfix,netflow,sflow,mirrors", "Port": "_uuid,name,interfaces,tag", "IPFIX": "",
           "Interface": "_uuid,name,type,options,ofport", "Flow_Sample_Collector_Set": ""}


@pytest.fixture(scope="module")
def socket(tmp_path_factory: pytest.TempPathFactory) -> Iterator[str]:
    """Runs a server with the database that the sample's script sets up, and yields its socket."""
    server, tool, control = program("ovsdb-server"), program("ovsdb-tool"), program("ovs-vsctl")
    folder = tmp_path_factory.mktemp("ovs")
    where = f"unix:{folder}/db.sock"
    subprocess.run([tool, "create", str(folder / "conf.db"), str(SCHEMA)], check=True, timeout=30)
    running = subprocess.Popen([server, str(folder / "conf.db"), f"--remote=p{where}", f"--unixctl={folder}/ctl"],
                               stdout=subprocess.DEVNULL, stderr=subprocess.DEVNULL)
    try:
        for _ in range(100):
            if (folder / "db.sock").exists():
                break
            time.sleep(0.05)
        script = (SAMPLES / "openvswitch/hv-1.sh").read_text().replace("ovs-vsctl", f"{control} --db={where} --no-wait")
        subprocess.run([control, f"--db={where}", "--no-wait", "init"], check=True, timeout=30)
        subprocess.run(["sh", "-e", "-c", script], check=True, timeout=30)
        yield where
    finally:
        running.terminate()
        running.wait(timeout=30)


def test_a_dump_of_a_running_server_is_read_as_the_sample(socket: str) -> None:
    done = subprocess.run([program("ovsdb-client"), "--format=json", "dump", socket, "Open_vSwitch"], check=True,
                          timeout=30,
                          capture_output=True, text=True)
    device = READERS["openvswitch"].read("hv-1", [Source("dump", done.stdout)], {})
    assert shape(device) == shape(read("openvswitch", SAMPLES / "openvswitch/hv-1.ovsdb.json"))


def test_lists_of_a_running_server_are_read_as_the_sample(socket: str) -> None:
    sources = []
    for table, columns in PRINTED.items():
        chosen = [f"--columns={columns}"] if columns else []
        done = subprocess.run([program("ovs-vsctl"), f"--db={socket}", "--format=json", *chosen, "list", table],
                              check=True, timeout=30,
                              capture_output=True, text=True)
        sources.append(Source(f"{table}.json", done.stdout))
    device = READERS["openvswitch"].read("hv-1", sources, {})
    assert shape(device) == shape(read("openvswitch", SAMPLES / "openvswitch/hv-1.ovsdb.json"))

"""What a running Open vSwitch exports, compared with the documents of its database."""
from __future__ import annotations

import os
import subprocess
import sys
from pathlib import Path

import pytest

from once_tools.importing import import_project
from once_tools.model import Direction
from once_tools.project import read_project
from once_tools.readers.openvswitch import MEASURED
from switch_in_namespace import SETTINGS
from test_meters import program

PROJECT = """[report]
collector = "billing"
key = "sourceIPv4Address"
[[devices]]
name = "switch"
config = "database.json"
[[collectors]]
name = "billing"
listen = ["127.0.0.1:4739"]
[[traffic]]
name = "all"
source = "10.0.0.0/8"
paths = [["switch:port-a:ingress", "switch:port-b:egress"]]
"""
DIRECTIONS = {"default": Direction.BOTH, "ingress": Direction.INGRESS, "egress": Direction.EGRESS, "false": Direction.BOTH}


@pytest.fixture
def recorded(tmp_path_factory: pytest.TempPathFactory) -> Path:
    """Runs the switch in a network namespace of its own, and returns the folder with what it exported."""
    for name in ("ovs-vswitchd", "ovsdb-server", "ovsdb-tool", "ovs-vsctl", "ovsdb-client", "ip", "unshare"):
        program(name)
    version = subprocess.run([program("ovs-vswitchd"), "--version"], capture_output=True, text=True, timeout=30).stdout
    if MEASURED not in version.split():
        message = f"the reader speaks of Open vSwitch {MEASURED}, and this is {version.splitlines()[0]}"
        pytest.fail(message) if os.environ.get("CI") == "true" else pytest.skip(message)
    if os.geteuid() != 0:
        pytest.skip("a network namespace needs root")
    probe = subprocess.run(["unshare", "-n", "ip", "link", "add", "name", "a", "type", "veth", "peer", "name", "b"],
                           capture_output=True, text=True, timeout=30)
    if probe.returncode or not Path("/dev/net/tun").exists():
        pytest.skip(f"there is no network namespace with veth and tun here: {probe.stderr.strip()}")
    folder = tmp_path_factory.mktemp("switch")
    places = {f"OVS_{one}DIR": str(folder) for one in ("RUN", "DB", "LOG", "SYSCONF")}
    script = Path(__file__).with_name("switch_in_namespace.py")
    done = subprocess.run(["unshare", "-n", sys.executable, str(script), str(folder)], env={**os.environ, **places},
                          capture_output=True, text=True, timeout=100)
    assert done.returncode == 0, done.stderr
    return folder


def totals(once: str, folder: Path, *words: str) -> list[str]:
    """Returns the lines of totals that `once` prints."""
    done = subprocess.run([once, *words], cwd=folder, capture_output=True, text=True, timeout=60)
    assert done.returncode == 0, done.stderr
    return [line for line in done.stdout.splitlines() if " packets " in line]


def check(recorded: Path, folder: Path, once: str, name: str) -> None:
    """Checks that the records of a setting sum up to what the documents of its database predict."""
    (folder / "database.json").write_text((recorded / f"{name}.json").read_text())
    (folder / "project.toml").write_text(PROJECT)
    found = import_project(read_project(folder / "project.toml"))
    if name == "neither":
        assert not found.devices[0].points and not (recorded / "neither.ipfix").read_bytes()
        return
    assert [one.direction for one in found.devices[0].points] == [DIRECTIONS[name]]
    for file, text in found.texts().items():
        (folder / file).write_text(text)
    collected = totals(once, folder, "collect", "network.json", str(recorded / f"{name}.ipfix"))
    predicted = totals(once, folder, "run", "network.json", "traffic.json", str(recorded / "sent.pcap"), "/dev/null")
    assert len(predicted) == 4 and collected == predicted, name
    packets = sum(int(line.split()[2]) for line in collected)
    assert packets == (40 if DIRECTIONS[name] is Direction.BOTH else 20)


def test_the_records_of_a_switch_sum_up_to_what_its_documents_predict(recorded: Path, tmp_path: Path, once: str) -> None:
    for name in SETTINGS:
        (tmp_path / name).mkdir()
        check(recorded, tmp_path / name, once, name)

"""Projects that are proposed for folders of configurations."""
from __future__ import annotations

import shutil
import tomllib
from pathlib import Path
from typing import Any

from conftest import TESTS
from once_tools.proposal import project_text

SAMPLES = TESTS / "samples"


def proposed(folder: Path, *files: str) -> dict[str, Any]:
    """Returns the project that is proposed for copies of samples' files."""
    for file in files:
        shutil.copy(SAMPLES / file, folder)
    return tomllib.loads(project_text(folder))


def test_kinds_roles_and_collectors(tmp_path: Path) -> None:
    found = proposed(tmp_path, "cisco-ios-xe/edge-1.cfg", "juniper-junos/mx-1.set")
    assert [(one["name"], one["kind"]) for one in found["devices"]] == [("edge-1", "cisco-ios"), ("mx-1", "junos")]
    assert found["roles"] == {
        "customers": ["edge-1:GigabitEthernet0/0/0", "edge-1:GigabitEthernet0/0/1", "mx-1:xe-0/0/0.0", "mx-1:xe-0/0/1.0"],
        "core": ["edge-1:TenGigabitEthernet0/1/0", "mx-1:xe-0/0/2.0"]}
    assert [one["listen"] for one in found["collectors"]] == [["192.0.2.10:4739"], ["192.0.2.20:2055"]]
    # IPv6 passes between two interfaces of edge-1 alone: mx-1 has it at one interface.
    assert [(one["name"], one["version"]) for one in found["traffic"]] == [
        ("up", 4), ("up over IPv6", 6), ("down", 4), ("down over IPv6", 6), ("between customers", 4)]
    assert [(one["from"], one["to"]) for one in found["traffic"] if one["version"] == 6] == [
        (["edge-1:GigabitEthernet0/0/0"], ["edge-1:TenGigabitEthernet0/1/0"]),
        (["edge-1:TenGigabitEthernet0/1/0"], ["edge-1:GigabitEthernet0/0/0"])]


def test_collectors_with_configurations_are_collectors(tmp_path: Path) -> None:
    found = proposed(tmp_path, "pmacct/pmacctd.conf", "pmacct/nfacctd.conf", "pmacct/tee_receivers.lst", "pmacct/nfcapd.args")
    assert [one["kind"] for one in found["devices"]] == ["pmacctd"]
    assert [(one["kind"], one["config"]) for one in found["collectors"]] == [
        ("nfacctd", ["nfacctd.conf", "tee_receivers.lst"]), ("nfcapd", "nfcapd.args")]
    assert found["report"] == {"collector": "nfacctd", "key": ["source"]}


def test_an_empty_folder(tmp_path: Path) -> None:
    found = proposed(tmp_path)
    assert "devices" not in found and found["report"]["collector"] == "?"


def test_other_files_are_named(tmp_path: Path) -> None:
    (tmp_path / "notes.txt").write_text("plugins are nice\n")
    (tmp_path / "picture.bin").write_bytes(bytes(range(256)))
    assert "# Files that are of no known kind: notes.txt, picture.bin" in project_text(tmp_path)


def test_a_bundle_is_in_a_role_and_its_members_are_not(tmp_path: Path) -> None:
    (tmp_path / "r.cfg").write_text("hostname r\nversion 17.9\ninterface Port-channel1\n description core\n ip address 172.31.0.1 "
                                    "255.255.255.254\ninterface TenGigabitEthernet0/0/0\n description core member\n no ip "
                                    "address\n channel-group 1 mode active\ninterface GigabitEthernet0/1\n ip address 10.1.0.1 "
                                    "255.255.0.0\n")
    assert proposed(tmp_path)["roles"] == {"core": ["r:Port-channel1"], "customers": ["r:GigabitEthernet0/1"]}

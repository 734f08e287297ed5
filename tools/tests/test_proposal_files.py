"""What files of a folder are taken for, and which collector the report is asked of."""
from __future__ import annotations

import json
from pathlib import Path

import pytest

from once_tools.model import Grade
from once_tools.project import read_project
from projects import RECORD
from test_commands import run
from test_proposal_roles import lan, proposed

ADDRESSES = json.dumps([{"ifindex": 2, "ifname": "eth0", "flags": ["UP"], "addr_info": [{"local": "10.1.0.1", "prefixlen": 16}]},
                        {"ifindex": 3, "ifname": "eth1", "flags": ["UP"], "addr_info": [{"local": "10.2.0.1", "prefixlen": 16}]}])
ROUTES = json.dumps([{"dst": "default", "gateway": "10.2.0.9", "dev": "eth1", "flags": []}])
PROBE = "plugins: nfprobe\npcap_interface: eth0\nnfprobe_receiver: 192.0.2.50:2100\naggregate: src_host, dst_host\n"
NFACCTD = "nfacctd_port: 2100\nplugins: print[a], print[b]\naggregate[a]: src_host\naggregate[b]: dst_host\n"


def test_outputs_in_a_folder_for_each_host(tmp_path: Path) -> None:
    found, _ = proposed(tmp_path, **{"gw-1__pmacctd_conf": PROBE, "gw-1__addr_json": ADDRESSES, "gw-1__route_json": ROUTES,
                                     "gw-2__pmacctd_conf": PROBE})
    assert found["devices"] == [
        {"name": "gw-1", "kind": "linux", "meter": "pmacctd", "config": "gw-1/pmacctd.conf", "addresses": "gw-1/addr.json",
         "routes": "gw-1/route.json"},
        {"name": "gw-2", "kind": "pmacctd", "config": "gw-2/pmacctd.conf"}]
    assert found["roles"] == {"customers": ["gw-1:eth0"], "core": ["gw-1:eth1"]}


def test_outputs_beside_a_configuration(tmp_path: Path) -> None:
    cef = "Prefix               Next Hop             Interface\n0.0.0.0/0            10.1.0.9             GigabitEthernet0/1\n"
    found, _ = proposed(tmp_path, **{"r_cfg": "hostname edge-1\n" + RECORD + lan(0) + lan(1), "edge-1-cef_txt": cef})
    assert found["devices"] == [{"name": "edge-1", "kind": "cisco-ios", "config": "r.cfg", "routes": "edge-1-cef.txt"}]
    assert found["roles"]["core"] == ["edge-1:GigabitEthernet0/1"]


def test_two_texts_of_one_router(tmp_path: Path) -> None:
    text = "hostname r\n" + RECORD + lan(0) + lan(1)
    found, said = proposed(tmp_path, a_cfg=text, b_cfg=text + "! saved later, and longer\n")
    assert [(one["name"], one["config"]) for one in found["devices"]] == [("r", "b.cfg")]
    assert "# a.cfg is not read: it is a second text of r." in said


def test_two_routers_of_one_file_name(tmp_path: Path) -> None:
    text = RECORD + lan(0) + lan(1)
    found, _ = proposed(tmp_path, west__router_cfg=text, east__router_cfg=text)
    assert sorted(one["name"] for one in found["devices"]) == ["router", "router-2"]


def test_a_collector_that_listens_at_all_addresses(once: str, tmp_path: Path) -> None:
    found, text = proposed(tmp_path, **{"gw-1_conf": PROBE, "nfacctd_conf": NFACCTD})
    assert found["collectors"] == [{"name": "nfacctd", "kind": "nfacctd", "config": "nfacctd.conf", "addresses": ["192.0.2.50"]}]
    assert found["report"] == {"collector": "nfacctd", "plugin": "a", "key": ["source"]}
    (tmp_path / "project.toml").write_text(text)
    assert run("audit", "project.toml", "--once", once, cwd=tmp_path).returncode == 0


def test_a_collector_that_cannot_be_read(tmp_path: Path) -> None:
    found, text = proposed(tmp_path, a_conf=PROBE, b_args="nfcapd -p 70000 -l /var/cache\n")
    assert [one["name"] for one in found["devices"]] == ["a"]
    assert [one["name"] for one in found["collectors"]] == ["b", "collector-1"]
    assert 'config = "b.args"  # -p: 70000 is not a port' in text


def test_an_exporter_without_a_readable_address(tmp_path: Path) -> None:
    found, _ = proposed(tmp_path, r_cfg=RECORD.replace("192.0.2.10", "192.0.2[10") + lan(0) + lan(1))
    assert "collectors" not in found and found["report"]["collector"] == "?"


def test_the_collector_of_most_devices(tmp_path: Path) -> None:
    other = PROBE.replace("192.0.2.50:2100", "192.0.2.51:2100")
    found, _ = proposed(tmp_path, a_conf=other, b_conf=PROBE, c_conf=PROBE)
    named = {one["name"]: one["listen"] for one in found["collectors"]}
    assert named[found["report"]["collector"]] == ["192.0.2.50:2100"]


def test_a_collector_whose_name_says_billing(tmp_path: Path) -> None:
    other = PROBE.replace("plugins: nfprobe", "plugins: nfprobe[billing]").replace("192.0.2.50:2100", "192.0.2.51:2100")
    found, _ = proposed(tmp_path, a_conf=PROBE, b_conf=PROBE, c_conf=other)
    named = {one["name"]: one["listen"] for one in found["collectors"]}
    assert named[found["report"]["collector"]] == ["192.0.2.51:2100"]


@pytest.mark.parametrize("files", [{}, {"notes_txt": "plugins are nice\n"}, {"picture_json": "{}"}, {"list_json": "[]"},
                                   {"r_cfg": "hostname r\n" + RECORD}, {"probe_conf": "plugins: nfprobe\n"}])
def test_any_folder_gives_a_project_that_is_read(tmp_path: Path, files: dict[str, str]) -> None:
    _, text = proposed(tmp_path, **files)
    (tmp_path / "project.toml").write_text(text)
    assert [one for one in read_project(tmp_path / "project.toml").findings if one.grade is Grade.WRONG] == []


def test_audit_names_the_line_of_a_collector_to_fill_in(tmp_path: Path) -> None:
    _, text = proposed(tmp_path, s_cfg="version 17\nhostname s\n" + lan(8) + lan(9))
    (tmp_path / "project.toml").write_text(text)
    line = text.splitlines().index('collector = "?"') + 1
    found = run("audit", "project.toml", "--once", "true", cwd=tmp_path)
    assert found.returncode == 2
    assert (f"wrong project.toml:{line}: 'collector = \"?\"': the collector whose totals are asked for is not named; add "
            "[[collectors]] with a name and listen = [\"ADDRESS:PORT\"], and write its name here\n") in found.stdout


def test_audit_names_the_line_of_a_kind_to_fill_in(tmp_path: Path) -> None:
    (tmp_path / "project.toml").write_text('[report]\ncollector = "c"\nkey = "source"\n\n[[devices]]\nname = "r"\nkind = "?"\n'
                                           'config = "r.txt"\n[[collectors]]\nname = "c"\nlisten = ["192.0.2.1:4739"]\n')
    (tmp_path / "r.txt").write_text("hostname r\n")
    found = run("audit", "project.toml", "--once", "true", cwd=tmp_path)
    assert found.returncode == 2
    assert "wrong project.toml:7: 'kind = \"?\"': the kind of r.txt is not clear from the text; write kind = " in found.stdout


def test_two_routers_of_one_host_name(tmp_path: Path) -> None:
    """Routers that nobody has named have the name that they are delivered with; their addresses differ."""
    found, _ = proposed(tmp_path, a_cfg="hostname Router\n" + lan(0) + lan(1) + RECORD.replace("198.51.100.1 ", "198.51.100.2 "),
                        b_cfg="hostname Router\n" + lan(2) + lan(3) + RECORD)
    assert [(one["name"], one["config"]) for one in found["devices"]] == [("Router", "a.cfg"), ("Router-2", "b.cfg")]


def test_a_copy_of_a_configuration(tmp_path: Path) -> None:
    text = "hostname r\n" + RECORD + lan(0)
    found, _ = proposed(tmp_path, **{"r_cfg": text + lan(1), "r_cfg_old": text + lan(1) + lan(2)})
    assert [(one["name"], one["config"]) for one in found["devices"]] == [("r", "r.cfg")]


def test_a_collector_behind_one_that_forwards(once: str, tmp_path: Path) -> None:
    """The totals are those of the collector that stores; the replicator before it stores nothing."""
    tee = "nfacctd_ip: 192.0.2.50\nnfacctd_port: 2100\nplugins: tee[t]\ntee_receivers[t]: /etc/pmacct/receivers.lst\n"
    found, text = proposed(tmp_path, probe_conf=PROBE.replace("pcap_interface: eth0", "pcap_interface: eth0\npcap_direction: in"),
                           a_conf=tee, receivers_lst="id=1 ip=192.0.2.51:2200\n",
                           b_conf="nfacctd_ip: 192.0.2.51\nnfacctd_port: 2200\nplugins: print[a]\naggregate[a]: src_host\n")
    assert found["report"]["collector"] == "b"
    (tmp_path / "project.toml").write_text(text.replace('name = "out at', 'exempt = true\nname = "out at'))
    assert run("audit", "project.toml", "--once", once, cwd=tmp_path).returncode == 0


def test_a_collector_that_no_file_describes_behind_one_that_forwards(tmp_path: Path) -> None:
    tee = "nfacctd_ip: 192.0.2.50\nnfacctd_port: 2100\nplugins: tee[t]\ntee_receivers[t]: /etc/pmacct/receivers.lst\n"
    found, _ = proposed(tmp_path, probe_conf=PROBE, a_conf=tee, receivers_lst="id=1 ip=192.0.2.51:2200\n")
    named = {one["name"]: one.get("listen") for one in found["collectors"]}
    assert named[found["report"]["collector"]] == ["192.0.2.51:2200"]

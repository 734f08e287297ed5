"""Roles and traffic that are proposed, worked out from the configurations."""
from __future__ import annotations

import tomllib
from pathlib import Path
from typing import Any

import pytest

from once_tools.proposal import project_text
from projects import RECORD
from test_commands import run

METERED = " ip flow monitor M input\n"


def interface(name: str, *lines: str, address: str = "", metered: bool = True) -> str:
    """Returns the statements of an interface of a Cisco router; the address is given with its mask."""
    statements = [*lines, *([f"ip address {address}"] if address else [])]
    return f"interface {name}\n" + "".join(f" {one}\n" for one in statements) + (METERED if metered else "")


def lan(number: int, *lines: str, metered: bool = True) -> str:
    """Returns an interface with a subnet of its own."""
    return interface(f"GigabitEthernet0/{number}", *lines, address=f"10.{number}.0.1 255.255.0.0", metered=metered)


def proposed(folder: Path, **files: str) -> tuple[dict[str, Any], str]:
    """Returns the project that is proposed for texts, as a value and as a text; `_` in a file's name stands for the dot, `__`
    for a folder."""
    for name, text in files.items():
        path = folder / name.replace("__", "/").replace("_", ".")
        path.parent.mkdir(exist_ok=True)
        path.write_text(text)
    text = project_text(folder)
    return tomllib.loads(text), text


def names(project: dict[str, Any]) -> list[str]:
    """Returns the names of the traffic."""
    return [one["name"] for one in project.get("traffic", [])]


STATIC_ROUTES = [
    ("r_cfg", RECORD + lan(0) + lan(1) + lan(2) + "ip route 0.0.0.0 0.0.0.0 10.2.0.9 250 name out\n"),
    ("r_cfg", RECORD + lan(0) + lan(1) + lan(2) + "ip route 0.0.0.0 0.0.0.0 GigabitEthernet0/2\n"),
    ("r_cfg", RECORD + lan(0) + lan(1) + lan(2) + "ip route 10.9.0.0 255.255.0.0 10.1.0.9\nip route 0.0.0.0 0.0.0.0 10.2.0.9\n"),
]


@pytest.mark.parametrize("file, text", STATIC_ROUTES)
def test_a_static_default_route_leads_to_the_core(tmp_path: Path, file: str, text: str) -> None:
    found, _ = proposed(tmp_path, **{file: text})
    assert found["roles"] == {"core": ["r:GigabitEthernet0/2"], "customers": ["r:GigabitEthernet0/0", "r:GigabitEthernet0/1"]}
    assert names(found) == ["up", "down", "between customers"]


def test_a_default_route_of_ios_xr(tmp_path: Path) -> None:
    found, _ = proposed(tmp_path, x_cfg="hostname x\nflow exporter-map E\n destination 192.0.2.10\n transport udp 4739\n!\n"
                        "flow monitor-map M\n record ipv4\n exporter E\n!\ninterface TenGigE0/0/0/0\n ipv4 address 10.0.0.1/24\n"
                        " flow ipv4 monitor M ingress\n!\ninterface TenGigE0/0/0/1\n ipv4 address 10.0.1.1/24\n"
                        " flow ipv4 monitor M ingress\n!\nrouter static\n address-family ipv4 unicast\n  0.0.0.0/0 10.0.1.9\n"
                        " !\n!\n")
    assert found["roles"] == {"core": ["x:TenGigE0/0/0/1"], "customers": ["x:TenGigE0/0/0/0"]}


def test_subnets_of_two_hosts_are_taken_for_the_core(tmp_path: Path) -> None:
    pair = interface("GigabitEthernet0/1", address="172.31.0.1 255.255.255.252")
    found, text = proposed(tmp_path, r_cfg=RECORD + lan(0) + pair)
    assert found["roles"] == {"customers": ["r:GigabitEthernet0/0"], "core": ["r:GigabitEthernet0/1"]}
    assert '"r:GigabitEthernet0/1",  # a guess: a subnet of two hosts' in text


def test_metered_interfaces_are_taken_for_those_of_customers(tmp_path: Path) -> None:
    found, _ = proposed(tmp_path, r_cfg=RECORD + lan(0) + lan(1, metered=False))
    assert found["roles"] == {"customers": ["r:GigabitEthernet0/0"], "core": ["r:GigabitEthernet0/1"]}


def test_all_pairs_of_interfaces_of_which_nothing_is_said(tmp_path: Path) -> None:
    found, _ = proposed(tmp_path, r_cfg=RECORD + lan(0) + lan(1) + lan(2, "shutdown") + lan(3))
    ends = ["r:GigabitEthernet0/0", "r:GigabitEthernet0/1", "r:GigabitEthernet0/3"]
    assert [(one["name"], one["from"], one["to"]) for one in found["traffic"]] == [("through r", ends, ends)]


def test_interfaces_of_no_role_beside_both_roles(tmp_path: Path) -> None:
    found, _ = proposed(tmp_path, r_cfg=RECORD + lan(0, "description customer") + lan(1, "description core") + lan(2))
    assert found["roles"]["others"] == ["r:GigabitEthernet0/2"]
    assert names(found) == ["up", "down", "others to customers", "customers to others", "others to core", "core to others"]


def test_core_interfaces_that_nothing_meters(tmp_path: Path) -> None:
    """Packets between two uplinks are no customer's: without a meter there, no traffic is proposed, and a comment says so."""
    found, text = proposed(tmp_path, r_cfg=RECORD + lan(0, "description customer") + lan(1, "description core", metered=False)
                           + lan(2, "description core", metered=False))
    assert names(found) == ["up", "down"]
    assert "# Packets between the core interfaces of r are metered nowhere" in text


def test_core_interfaces_of_which_one_is_metered(tmp_path: Path) -> None:
    found, _ = proposed(tmp_path, r_cfg=RECORD + lan(0, "description customer") + lan(1, "description core")
                        + lan(2, "description core", metered=False))
    assert names(found) == ["up", "down", "between core"]


def test_core_interfaces_of_two_routers_of_which_one_meters_there(tmp_path: Path) -> None:
    core = ["description core"]
    found, text = proposed(
        tmp_path, r_cfg="hostname r\n" + RECORD + lan(0, "description customer") + lan(1, *core) + lan(2, *core),
        s_cfg="hostname s\n" + RECORD + lan(3, "description customer") + lan(4, *core, metered=False)
        + lan(5, *core, metered=False))
    one = next(one for one in found["traffic"] if one["name"] == "between core")
    assert one["from"] == one["to"] == ["r:GigabitEthernet0/1", "r:GigabitEthernet0/2"]
    assert "# Packets between the core interfaces of s are metered nowhere" in text


def test_core_interfaces_with_a_metered_link_between_them(tmp_path: Path) -> None:
    """A packet from one uplink to the other is counted at the link, perhaps at both its ends."""
    link = interface("GigabitEthernet0/9", address="172.31.0.0 255.255.255.254")
    found, _ = proposed(
        tmp_path, r_cfg="hostname r\n" + RECORD + lan(0, "description customer") + lan(1, "description core", metered=False)
        + link,
        s_cfg="hostname s\n" + RECORD + lan(2, "description core", metered=False) + link.replace("172.31.0.0 ", "172.31.0.1 "))
    assert names(found) == ["up", "down", "between core"]


def test_management_interfaces_are_in_no_role(tmp_path: Path) -> None:
    found, text = proposed(tmp_path, r_cfg=RECORD + lan(0, "description customer") + lan(1, "description core")
                           + lan(2, "vrf forwarding Mgmt-intf", metered=False) + lan(3, "description OOB switch", metered=False))
    assert found["roles"] == {"customers": ["r:GigabitEthernet0/0"], "core": ["r:GigabitEthernet0/1"]}
    assert "# In no role (for management): r:GigabitEthernet0/2, r:GigabitEthernet0/3" in text


def test_a_router_that_meters_nothing_beside_one_that_does(tmp_path: Path) -> None:
    found, text = proposed(tmp_path, r_cfg=RECORD + lan(0) + lan(1), s_cfg="version 17\nhostname s\n" + lan(8, metered=False)
                           + lan(9, metered=False))
    assert names(found) == ["through r"]
    assert "s:GigabitEthernet0/8, s:GigabitEthernet0/9" in " ".join(line.lstrip("# ") for line in text.splitlines())


def test_a_router_that_meters_nothing_alone(once: str, tmp_path: Path) -> None:
    """What it lacks must come out: its packets are declared, and metered nowhere."""
    found, text = proposed(tmp_path, s_cfg="version 17\nhostname s\n" + lan(8, metered=False) + lan(9, metered=False))
    assert names(found) == ["through s"]
    named = text.replace('collector = "?"', 'collector = "c"') + '[[collectors]]\nname = "c"\nlisten = ["192.0.2.1:4739"]\n'
    (tmp_path / "project.toml").write_text(named)
    audit = run("audit", "project.toml", "--once", once, cwd=tmp_path)
    assert audit.returncode == 1
    assert ("is metered nowhere: s GigabitEthernet0/8 ingress has no monitor; s GigabitEthernet0/9 egress has no monitor"
            in audit.stdout)


def test_one_interface_alone(tmp_path: Path) -> None:
    found, _ = proposed(tmp_path, r_cfg=RECORD + lan(0))
    assert [(one["name"], one["paths"]) for one in found["traffic"]] == [
        ("in at r GigabitEthernet0/0", [["r:GigabitEthernet0/0:ingress"]]),
        ("out at r GigabitEthernet0/0", [["r:GigabitEthernet0/0:egress"]])]


def test_one_interface_alone_that_nothing_meters(tmp_path: Path) -> None:
    found, _ = proposed(tmp_path, r_cfg="version 17\nhostname r\n" + lan(0, metered=False))
    assert names(found) == ["in at r GigabitEthernet0/0", "out at r GigabitEthernet0/0"]


def test_a_host_that_meters_two_interfaces(tmp_path: Path) -> None:
    found, _ = proposed(tmp_path, p_conf="plugins: nfprobe\npcap_interfaces_map: /etc/p.map\nnfprobe_receiver: 192.0.2.1:4739\n",
                        p_map="ifname=eth0 direction=in\nifname=eth1 direction=in\n")
    ends = ["p:eth0", "p:eth1"]
    assert [(one["name"], one["from"], one["to"], one["version"]) for one in found["traffic"]] == [
        ("through p", ends, ends, 4), ("through p over IPv6", ends, ends, 6)]


def test_routers_that_a_small_subnet_joins(tmp_path: Path) -> None:
    """Traffic is declared between the interfaces at the edge of the network, not at the link."""
    found, text = proposed(
        tmp_path, r_cfg="hostname r\n" + RECORD + lan(0, "description customer")
        + interface("GigabitEthernet0/9", address="172.31.0.0 255.255.255.254"),
        t_cfg="version 17\nhostname t\n" + lan(1, "description internet", metered=False)
        + interface("GigabitEthernet0/9", address="172.31.0.1 255.255.255.254", metered=False))
    assert found["roles"] == {"customers": ["r:GigabitEthernet0/0"], "core": ["t:GigabitEthernet0/1"]}
    assert "# Links join these, so they are in no role: r:GigabitEthernet0/9, t:GigabitEthernet0/9" in text


def test_versions_that_no_packet_can_have(tmp_path: Path) -> None:
    found, _ = proposed(tmp_path, r_cfg=RECORD + lan(0, "description customer", "ipv6 address 2001:db8::1/64")
                        + lan(1, "description core"))
    assert [one["version"] for one in found["traffic"]] == [4, 4]


def test_too_many_pairs_are_represented_by_interfaces_that_are_metered_alike(once: str, tmp_path: Path) -> None:
    """300 customers make 89,700 pairs. The one at the end is not metered, and must be among the representatives."""
    many = "".join(interface(f"GigabitEthernet0/{number}", f"description customer {number}",
                             address=f"10.1.{number % 256}.{number // 256 * 128 + 1} 255.255.255.128", metered=number < 299)
                   for number in range(300))
    found, text = proposed(tmp_path, r_cfg=RECORD + many + interface("TenGigabitEthernet1/0", "description core",
                                                                    address="172.31.0.1 255.255.255.254"))
    between = next(one for one in found["traffic"] if one["name"] == "between customers")
    assert between["from"] == between["to"] == ["r:GigabitEthernet0/0", "r:GigabitEthernet0/1", "r:GigabitEthernet0/299"]
    (tmp_path / "project.toml").write_text(text)
    assert run("audit", "project.toml", "--once", once, cwd=tmp_path).returncode == 1


def test_a_mesh_with_too_many_paths(once: str, tmp_path: Path) -> None:
    """Eight routers with a link between any two have 109,592 paths over at most 8 devices between their 8 customers, and 28,952
    over at most 6. `once-import` lists 100,000."""
    files = {}
    for one in range(8):
        links = "".join(
            interface(f"GigabitEthernet1/{other}", metered=False,
                      address=f"172.31.{min(one, other)}.{2 * max(one, other) + (one > other)} 255.255.255.254")
            for other in range(8) if other != one)
        files[f"r{one}_cfg"] = f"hostname r{one}\n{RECORD}" + lan(one, f"description customer {one}") + links
    found, text = proposed(tmp_path, **files)
    assert [(one["name"], one["hops"]) for one in found["traffic"]] == [("between customers", 6)]
    (tmp_path / "project.toml").write_text(text)
    audit = run("audit", "project.toml", "--once", once, cwd=tmp_path)
    assert audit.returncode == 0 and "premise project.toml" in audit.stdout


def test_bridges_that_nothing_joins(tmp_path: Path) -> None:
    """Without their patch ports the two bridges of the sample pass no packets to each other."""
    sample = (Path(__file__).parent / "samples" / "openvswitch" / "hv-1.ovsdb.json").read_text()
    found, _ = proposed(tmp_path, h_json=sample.replace('["map",[["peer","patch-int"]]]', '["map",[]]')
                        .replace('["map",[["peer","patch-ex"]]]', '["map",[]]'))
    assert {one["name"]: sorted(one["from"]) for one in found["traffic"] if one["version"] == 4} == {
        "through br-ex": ["h:br-ex", "h:eth3"],
        "through br-int": ["h:br-int", "h:eth1", "h:eth2", "h:vnet0", "h:vnet1"]}


XR = "flow exporter-map E\n destination 192.0.2.10\n transport udp 4739\n!\nflow monitor-map M\n record ipv4\n exporter E\n!\n"


def xr(host: str, **descriptions: str) -> str:
    """Returns a router of IOS-XR whose interfaces have descriptions, `Te1` for TenGigE0/0/0/1."""
    return f"hostname {host}\n{XR}" + "".join(
        f"interface TenGigE0/0/0/{name[2:]}\n description {text}\n ipv4 address 10.{len(host)}.{name[2:]}.1/24\n"
        " flow ipv4 monitor M ingress\n!\n" for name, text in descriptions.items())


SIX = "flow monitor-map M6\n record ipv6\n exporter E\n!\n"


def test_versions_that_some_interfaces_have(once: str, tmp_path: Path) -> None:
    """IPv6 is configured at one of two customers and at the core: what it sends over IPv6 comes in there alone."""
    def port(number: int, text: str, six: bool) -> str:
        more = f" ipv6 address 2001:db8:{number}::1/64\n flow ipv6 monitor M6 ingress\n" if six else ""
        return (f"interface TenGigE0/0/0/{number}\n description {text}\n ipv4 address 10.0.{number}.1/24\n"
                f" flow ipv4 monitor M ingress\n{more}!\n")

    found, text = proposed(tmp_path, x_cfg=f"hostname x\n{XR}{SIX}" + port(1, "customer", True) + port(2, "customer", False)
                           + port(3, "core", True))
    assert [(one["name"], one["from"], one["to"], one.get("version")) for one in found["traffic"]] == [
        ("up", ["customers"], ["core"], 4), ("up over IPv6", ["x:TenGigE0/0/0/1"], ["x:TenGigE0/0/0/3"], 6),
        ("down", ["core"], ["customers"], None), ("between customers", ["customers"], ["customers"], 4)]
    (tmp_path / "project.toml").write_text(text)
    assert run("audit", "project.toml", "--once", once, cwd=tmp_path).returncode == 0


LINKED = [["pe-1:TenGigE0/0/0/2", "p-1:TenGigE0/0/0/1"]]


@pytest.mark.parametrize("here, there, wanted", [
    ("to p-1 Te0/0/0/1", "to pe-1 Te0/0/0/2", LINKED),
    ("P-1:te0/0/0/1 (100G)", "spare", LINKED),
    ("link to p-1", "link to pe-1", LINKED),
    ("to p-1 Te0/0/0/1", "to pe-9", LINKED),  # pe-9 is no device of the folder
    ("to p-1 Te0/0/0/1", "to pe-1 Te0/0/0/1", []),  # they disagree
    ("to p-1", "spare", []),  # by which interface of p-1 is not said
    ("to p-10 Te0/0/0/1", "spare", []),
])
def test_links_that_descriptions_name(tmp_path: Path, here: str, there: str, wanted: list[list[str]]) -> None:
    found, text = proposed(tmp_path, pe_cfg=xr("pe-1", Te1="customer", Te2=here), p_cfg=xr("p-1", Te1=there, Te2="peering"))
    pairs = [sorted(pair, reverse=True) for pair in found.get("links", {}).get("pairs", [])]
    assert pairs == [sorted(pair, reverse=True) for pair in wanted]
    assert ("# Descriptions of these name a device of this folder" in text) == (not wanted and "p-10" not in here)


def test_a_large_subnet_that_two_routers_share(tmp_path: Path) -> None:
    """Whether packets pass from one to the other is not known: a comment asks for the link."""
    shared = interface("GigabitEthernet0/5", address="192.168.7.1 255.255.255.0")
    _, text = proposed(tmp_path, r_cfg="hostname r\n" + RECORD + lan(0) + shared,
                       s_cfg="hostname s\n" + RECORD + lan(1) + shared.replace("7.1 ", "7.2 "))
    said = " ".join(line.lstrip("# ") for line in text.splitlines())
    assert "r GigabitEthernet0/5, s GigabitEthernet0/5 are in one subnet, 192.168.7.0/24, which is too large" in said


def test_meters_of_one_host_are_asked_about(tmp_path: Path) -> None:
    probe = "plugins: nfprobe\npcap_interface: eth0\nnfprobe_receiver: 192.0.2.50:2100\naggregate: src_host\n"
    _, text = proposed(tmp_path, inner_conf=probe, outer_conf=probe.replace("eth0", "eth1"))
    assert "# If two of inner, outer meter interfaces of one host" in text


def test_versions_of_a_role_whose_interfaces_have_no_way_to_each_other(tmp_path: Path) -> None:
    """Two core interfaces of r pass IPv4 to each other. The one of x has IPv6, and no other one to pass it to."""
    six = " ipv6 address 2001:db8::1/64\n"
    found, _ = proposed(
        tmp_path, r_cfg="hostname r\n" + RECORD + lan(0, "description customer") + lan(1, "description core")
        + lan(2, "description core"),
        x_cfg=f"hostname x\n{XR}" + "interface TenGigE0/0/0/1\n description customer\n ipv4 address 10.7.1.1/24\n"
        f" flow ipv4 monitor M ingress\n!\ninterface TenGigE0/0/0/2\n description core\n ipv4 address 10.7.2.1/24\n{six}"
        " flow ipv4 monitor M ingress\n!\n")
    assert {one["name"]: one.get("version") for one in found["traffic"]} == {"up": 4, "down": 4, "between core": 4}

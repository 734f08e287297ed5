"""The hosts of the lab: network namespaces, the cables between them, and their addresses.

    c1 eth0 --- cust1 \\                                                   / p-s1 --- eth0 s1
                       edge  up0 --- down0  core  srv0 --- p-core  sw
    c2 eth0 --- cust2 /|     up1 --- down1                                \\ p-s2 --- eth0 s2
    c3 eth0 --- cust3 /

Customer 3 sends in a VLAN, while a scenario gives it one.
Packets take the second link between edge and core only while a scenario makes it as cheap as the first.

A management network joins edge, core, sw and the collectors' hosts, so that exports cross no interface that is metered.
"""
from __future__ import annotations

import json
from dataclasses import dataclass
from pathlib import Path
from typing import Any

from lab.programs import LabError, namespace_of, run


@dataclass(frozen=True)
class Cable:
    """A pair of interfaces of two hosts."""

    a: str
    a_interface: str
    b: str
    b_interface: str


HOSTS = ("c1", "c2", "c3", "edge", "core", "sw", "s1", "s2", "bill", "med1", "med2")
CUSTOMERS, SERVERS, ROUTERS = ("c1", "c2"), ("s1", "s2"), ("edge", "core")
CABLES = (
    Cable("c1", "eth0", "edge", "cust1"),
    Cable("c2", "eth0", "edge", "cust2"),
    Cable("c3", "eth0", "edge", "cust3"),
    Cable("edge", "up0", "core", "down0"),
    Cable("edge", "up1", "core", "down1"),
    Cable("core", "srv0", "sw", "p-core"),
    Cable("sw", "p-s1", "s1", "eth0"),
    Cable("sw", "p-s2", "s2", "eth0"),
)
MANAGEMENT = {"bill": "172.31.0.1", "edge": "172.31.0.2", "core": "172.31.0.3", "sw": "172.31.0.4", "med1": "172.31.0.5",
              "med2": "172.31.0.6"}
COLLECTING = ("bill", "med1", "med2")
SERVER_ADDRESSES = {"s1": "10.9.0.11", "s2": "10.9.0.12"}
ADDRESSES = {
    ("c1", "eth0"): ["10.1.0.2/24", *(f"10.1.0.{last}/24" for last in range(11, 16))],
    ("c2", "eth0"): ["10.2.0.2/24", *(f"10.2.0.{last}/24" for last in range(11, 16))],
    ("edge", "cust1"): ["10.1.0.1/24"],
    ("edge", "cust2"): ["10.2.0.1/24"],
    ("edge", "up0"): ["10.0.12.1/30"],
    ("core", "down0"): ["10.0.12.2/30"],
    ("edge", "up1"): ["10.0.13.1/30"],
    ("core", "down1"): ["10.0.13.2/30"],
    ("core", "srv0"): ["10.9.0.1/24"],
    ("s1", "eth0"): ["10.9.0.11/24"],
    ("s2", "eth0"): ["10.9.0.12/24"],
}
GATEWAYS = {"c1": "10.1.0.1", "c2": "10.2.0.1", "s1": "10.9.0.1", "s2": "10.9.0.1"}
SETTINGS = {"net/ipv4/ip_forward": "1", "net/ipv4/conf/all/rp_filter": "0", "net/ipv4/conf/default/rp_filter": "0",
            "net/ipv4/conf/all/send_redirects": "0", "net/ipv4/fib_multipath_hash_policy": "1"}
# Addresses of IPv6 may be used at once. While an interface tests its link-local address for duplicates (RFC 4862, section 5.4),
# a router solicits no neighbours there, and drops the packets that wait for one.
NO_TESTS = {f"net/ipv6/conf/{which}/{name}": "0" for which in ("all", "default") for name in ("accept_dad", "dad_transmits")}


def may_use_namespaces() -> str:
    """Returns why network namespaces cannot be made here, or nothing."""
    probe = namespace_of("probe")
    try:
        made = run(["ip", "netns", "add", probe], check=False)
        if made.status:
            return f"no network namespace can be made: {made.errors.strip()}"
        tried = run(["ip", "-n", probe, "link", "add", "a0", "type", "veth", "peer", "name", "a1"], check=False)
        return f"no pair of interfaces can be made: {tried.errors.strip()}" if tried.status else ""
    except LabError as error:
        return str(error)
    finally:
        run(["ip", "netns", "del", probe], check=False)


def there() -> list[str]:
    """Returns the hosts of a lab that is up."""
    names = [line.split()[0] for line in run(["ip", "netns", "list"]).output.splitlines() if line.strip()]
    return [host for host in HOSTS if namespace_of(host) in names]


def down() -> None:
    """Takes the hosts down, with what still runs in them."""
    for host in there():
        for text in run(["ip", "netns", "pids", namespace_of(host)], check=False).output.split():
            run(["kill", "-9", text], check=False)
        run(["ip", "netns", "del", namespace_of(host)], check=False)


def in_host(host: str, lines: list[str]) -> None:
    """Runs commands of `ip` in a host's network namespace."""
    run(["ip", "-n", namespace_of(host), "-batch", "-"], text="\n".join(lines) + "\n")


def set_system(host: str, settings: dict[str, str]) -> None:
    """Sets values of the kernel for a host, by their paths below /proc/sys."""
    words = [f"{path.replace('/', '.')}={value}" for path, value in settings.items()]
    run(["sysctl", "-qw", *words], host)


def _without_offloads(host: str, interface: str) -> None:
    """Leaves no checksums or segments to the card: meters and captures read what is in the frame."""
    run(["ethtool", "-K", interface, "tx", "off", "rx", "off", "gso", "off", "gro", "off", "tso", "off"], host, check=False)


def _add_cable(cable: Cable) -> None:
    run(["ip", "link", "add", cable.a_interface, "netns", namespace_of(cable.a), "type", "veth", "peer", "name",
         cable.b_interface, "netns", namespace_of(cable.b)])
    for host, interface in ((cable.a, cable.a_interface), (cable.b, cable.b_interface)):
        _without_offloads(host, interface)
        in_host(host, [f"link set {interface} up"])


def _add_management() -> None:
    in_host("bill", ["link add name mgbr type bridge", f"addr add {MANAGEMENT['bill']}/24 dev mgbr", "link set mgbr up"])
    for host, address in MANAGEMENT.items():
        if host != "bill":
            _add_cable(Cable(host, "mgmt", "bill", f"m-{host}"))
            in_host("bill", [f"link set m-{host} master mgbr"])
            in_host(host, [f"addr add {address}/24 dev mgmt"])


def up() -> None:
    """Makes the hosts, their cables and addresses."""
    for host in HOSTS:
        run(["ip", "netns", "add", namespace_of(host)])
        off = {f"net/ipv6/conf/{which}/disable_ipv6": "1" for which in ("all", "default")}
        set_system(host, off | NO_TESTS | (SETTINGS if host in ROUTERS else {}))
        in_host(host, ["link set lo up"])
    for cable in CABLES:
        _add_cable(cable)
    _add_management()
    for (host, interface), addresses in ADDRESSES.items():
        in_host(host, [f"addr add {address} dev {interface}" for address in addresses])
    for host, gateway in GATEWAYS.items():
        in_host(host, [f"route add default via {gateway}"])


def write_cables(path: Path, more: tuple[Cable, ...] = ()) -> None:
    """Writes the cables as a table of links for once-import."""
    rows = ["a,a_interface,b,b_interface"]
    rows += [f"{one.a},{one.a_interface},{one.b},{one.b_interface}" for one in (*CABLES, *more)]
    path.write_text("\n".join(rows) + "\n", encoding="utf-8")


def peer_of(host: str, interface: str) -> tuple[str, str]:
    """Returns the host and interface at the other end of a cable."""
    for one in CABLES:
        if (one.a, one.a_interface) == (host, interface):
            return one.b, one.b_interface
        if (one.b, one.b_interface) == (host, interface):
            return one.a, one.a_interface
    raise LabError(f"no cable leads from {host} {interface}")


def links_of(host: str) -> list[dict[str, Any]]:
    """Returns the interfaces of a host with their addresses and counters."""
    found: list[dict[str, Any]] = json.loads(run(["ip", "-n", namespace_of(host), "-j", "-s", "addr"]).output)
    return found


def interface_index(host: str, interface: str) -> int:
    """Returns the index of an interface."""
    for link in links_of(host):
        if link["ifname"] == interface:
            return int(link["ifindex"])
    raise LabError(f"{host} has no interface {interface}")


def hardware_address(host: str, interface: str) -> str:
    """Returns the hardware address of an interface."""
    for link in links_of(host):
        if link["ifname"] == interface:
            return str(link["address"])
    raise LabError(f"{host} has no interface {interface}")


def addresses_of(host: str, version: int) -> list[str]:
    """Returns the addresses of a host's interfaces of one version of IP, apart from loopback and link-local ones."""
    family = "inet" if version == 4 else "inet6"
    return [one["local"] for link in links_of(host) if link["ifname"] != "lo" for one in link.get("addr_info", [])
            if one["family"] == family and one.get("scope") == "global"]

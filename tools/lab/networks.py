"""Changes of the lab's network for the time of a scenario. Each is undone at the end, whatever happened."""
from __future__ import annotations

from contextlib import contextmanager
from typing import Iterator

from lab import readiness, routing
from lab.checks import LINK_MTU
from lab.namespaces import CUSTOMERS, ROUTERS, SERVERS, hardware_address, in_host, set_system
from lab.plan import as_ipv6
from lab.switch import Switch

VLAN = 100
VIRTUAL = "172.31.0.100"


@contextmanager
def flooding(switch: Switch) -> Iterator[None]:
    """The bridge is a hub."""
    switch.flood(True)
    try:
        yield
    finally:
        switch.flood(False)


@contextmanager
def small_mtu(_: Switch) -> Iterator[None]:
    """Packets to the servers are cut to a small MTU by the router edge."""
    route = f"10.9.0.0/24 via 10.0.12.2 metric 5 mtu lock {LINK_MTU}"
    in_host("edge", [f"route add {route}"])
    try:
        yield
    finally:
        in_host("edge", ["route del 10.9.0.0/24 via 10.0.12.2 metric 5"])


@contextmanager
def policy_routing(_: Switch) -> Iterator[None]:
    """Packets from customer 1 to customer 2 go over core and back."""
    rule = "iif cust1 to 10.2.0.0/24 lookup 100"
    in_host("edge", [f"rule add {rule}", "route add default via 10.0.12.2 table 100"])
    try:
        yield
    finally:
        in_host("edge", [f"rule del {rule}", "route del default via 10.0.12.2 table 100"])


def _set_ipv6(host: str, interfaces: tuple[str, ...], is_off: bool) -> None:
    set_system(host, {f"net/ipv6/conf/{name}/disable_ipv6": str(int(is_off)) for name in interfaces})


@contextmanager
def link_local(_: Switch) -> Iterator[None]:
    """The routers have IPv6 on their link, with nothing but link-local addresses."""
    ends = (("edge", ("up0",)), ("core", ("down0",)))
    for host, interfaces in ends:
        _set_ipv6(host, interfaces, False)
    readiness.wait_for_addresses(ROUTERS)
    try:
        yield
    finally:
        for host, interfaces in ends:
            _set_ipv6(host, interfaces, True)


INTERFACES = {**{host: ("eth0",) for host in (*CUSTOMERS, *SERVERS)}, "edge": ("cust1", "cust2", "up0"), "core": ("down0", "srv0")}
ADDRESSES = {
    **{host: [("eth0", as_ipv6(f"10.{net}.0.{last}")) for last in range(11, 16)] for net, host in enumerate(CUSTOMERS, 1)},
    "s1": [("eth0", "2001:db8:9::11")], "s2": [("eth0", "2001:db8:9::12")],
    "edge": [("cust1", "2001:db8:1::1"), ("cust2", "2001:db8:2::1"), ("up0", "2001:db8:12::1")],
    "core": [("down0", "2001:db8:12::2"), ("srv0", "2001:db8:9::1")]}
ROUTES = {"c1": ["::/0 via 2001:db8:1::1"], "c2": ["::/0 via 2001:db8:2::1"],
          "s1": ["::/0 via 2001:db8:9::1"], "s2": ["::/0 via 2001:db8:9::1"],
          "edge": ["2001:db8:9::/64 via 2001:db8:12::2"],
          "core": ["2001:db8:1::/64 via 2001:db8:12::1", "2001:db8:2::/64 via 2001:db8:12::1"]}


@contextmanager
def ipv6_everywhere(_: Switch) -> Iterator[None]:
    """All hosts have IPv6 beside IPv4, and the routers routes of it."""
    routes_of_routers = {host: [route.split()[0] for route in ROUTES[host]] for host in ROUTERS}
    try:
        for host, interfaces in INTERFACES.items():
            _set_ipv6(host, interfaces, False)
            if host in ROUTERS:
                set_system(host, {"net/ipv6/conf/all/forwarding": "1"})
            in_host(host, [f"addr add {address}/64 dev {interface} nodad" for interface, address in ADDRESSES[host]])
        for host, routes in ROUTES.items():
            in_host(host, [f"route add {route}" for route in routes])
        readiness.wait_for_addresses(INTERFACES)
        readiness.wait_for_frr(routes_of_routers)
        yield
    finally:
        for host, interfaces in INTERFACES.items():
            if host in ROUTERS:
                set_system(host, {"net/ipv6/conf/all/forwarding": "0"})
            _set_ipv6(host, interfaces, True)
        readiness.wait_for_frr(routes_of_routers, are_there=False)


@contextmanager
def second_uplink(_: Switch) -> Iterator[None]:
    """The second link between the routers is as cheap as the first, so that OSPF uses both. (The link is not switched on and
    off: zebra 8.4.4 does not give its kernel the second next hop again after its interface was down, though its table has it.)"""
    try:
        routing.set_second_uplink(True)
        yield
    finally:
        routing.set_second_uplink(False)


@contextmanager
def vlan(switch: Switch) -> Iterator[None]:
    """Customer 3 and the router edge have interfaces of VLAN 100 on their link. They are those of Open vSwitch's user space
    datapath, one in each host, since a kernel may lack 802.1Q."""
    ends = {host: Switch(switch.folder.parent / f"ovs-{host}", host, f"br-{host}") for host in ("c3", "edge")}
    addresses = {"c3": [f"10.1.100.{last}/24" for last in range(11, 16)], "edge": ["10.1.100.1/24"]}
    ports = {"c3": "eth0", "edge": "cust3"}
    started: list[Switch] = []
    try:
        for host, one in ends.items():
            started.append(one)
            one.start((ports[host],))
            name = one.add_vlan(ports[host], VLAN)
            in_host(host, [*(f"addr add {address} dev {name}" for address in addresses[host]), f"link set {name} up"])
        in_host("c3", ["route add default via 10.1.100.1"])
        routing.wait_for_routes(1, (("core", "10.1.100.0/24"),))
        yield
    finally:
        for one in started:
            one.remove()


def lead_to(host: str) -> None:
    """Has the router edge send what goes to the virtual address to a host; the change is one step, so that no message is sent
    to neither."""
    in_host("edge", [f"neigh replace {VIRTUAL} lladdr {hardware_address(host, 'mgmt')} dev mgmt nud permanent"])


@contextmanager
def virtual_address(_: Switch) -> Iterator[None]:
    """Two collectors' hosts have one more address; what is sent there reaches the first of them."""
    hosts = ("med1", "med2")
    for host in hosts:
        in_host(host, [f"addr add {VIRTUAL}/32 dev mgmt"])
    lead_to("med1")
    try:
        yield
    finally:
        in_host("edge", [f"neigh del {VIRTUAL} dev mgmt"])
        for host in hosts:
            in_host(host, [f"addr del {VIRTUAL}/32 dev mgmt"])

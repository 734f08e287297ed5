"""Next hops by routing tables, compared with what the Linux kernel answers in a network namespace of its own."""
from __future__ import annotations

import ipaddress
import json
import random
import subprocess

import pytest

from once_tools.paths.routes import Tables, read_routes
from once_tools.paths.interfaces import read_interfaces
from once_tools.paths.topology import Topology
from once_tools.paths.ways import Walker
from once_tools.source import Source
from programs import need

INTERFACES = 4


def random_routes(draw: random.Random) -> list[str]:
    """Returns `ip route` commands: nested prefixes, several next hops, metrics, dropping routes."""
    found = ["default via 192.168.0.2"]
    for _ in range(60):
        length = draw.randint(8, 30)
        network = ipaddress.ip_network((0x0A000000 + draw.randrange(1 << 18), length), strict=False)
        kind = draw.random()
        hops = draw.sample(range(INTERFACES), 2)
        if kind < 0.3:
            found.append(f"{draw.choice(['blackhole', 'unreachable', 'prohibit'])} {network}")
        elif kind < 0.5:
            found.append(f"{network} nexthop via 192.168.{hops[0]}.2 nexthop via 192.168.{hops[1]}.3")
        elif kind < 0.7:
            found.append(f"{network} via 192.168.{hops[0]}.9 metric {draw.randint(1, 3)}")
        else:
            found.append(f"{network} via 192.168.{hops[0]}.{draw.randint(2, 250)}")
    return found


def script(routes: list[str], addresses: list[str]) -> str:
    lines = ["set -e", "ip link set lo up"]
    for number in range(INTERFACES):
        lines += [f"ip link add d{number} type veth peer name e{number}", f"ip addr add 192.168.{number}.1/24 dev d{number}",
                  f"ip link set e{number} up", f"ip link set d{number} up"]
    lines += [f"ip route add {route} 2>/dev/null || true" for route in routes]
    lines += ["ip -j addr", "echo ==", "ip -j route show table all", "echo =="]
    lines += [f"ip -j route get {address} 2>/dev/null || echo dropped" for address in addresses]
    return "\n".join(lines)


@pytest.mark.parametrize("seed", [1, 2])
def test_next_hops_are_those_of_the_kernel(seed: int) -> None:
    unshare, _ = need("unshare"), need("ip")
    draw = random.Random(seed)
    routes = random_routes(draw)
    addresses = [str(ipaddress.IPv4Address(0x0A000000 + draw.randrange(1 << 18))) for _ in range(80)]
    addresses += ["192.168.2.77", "203.0.113.1"]
    run = subprocess.run([unshare, "-rn", "sh", "-c", script(routes, addresses)], capture_output=True, text=True, timeout=60)
    if run.returncode:
        pytest.skip(f"no network namespace can be made here: {run.stderr.strip()[:200]}")
    interfaces, table, answers = run.stdout.split("==\n")
    topology, tables = Topology(), Tables()
    for interface in read_interfaces(Source("addr", interfaces)):
        topology.add_interface("a", interface)
    read_routes(Source("route", table), tables)
    walker = Walker(topology, {"a": [tables]})
    seen = set()
    for address, line in zip(addresses, answers.strip().split("\n"), strict=True):
        hops, drops = walker.hops("a", "", ipaddress.ip_address(address))
        seen.add((bool(hops), len(hops) > 1))
        if line == "dropped":
            assert drops and not hops, address
        else:
            one = json.loads(line)[0]
            assert not drops
            assert (one["dev"], one.get("gateway", "None")) in [(hop.interface, str(hop.gateway)) for hop, _ in hops], address
    assert seen == {(True, False), (True, True), (False, False)}

"""The state of the lab: addresses, routing tables and cables, saved as once-import reads them."""
from __future__ import annotations

import json
import re
from dataclasses import dataclass, field
from pathlib import Path
from typing import Any

from lab import routing
from lab.namespaces import CUSTOMERS, ROUTERS, SERVERS, Cable, addresses_of, peer_of, write_cables
from lab.programs import LabError, namespace_of, run

HOSTS = (*CUSTOMERS, "c3", *ROUTERS, *SERVERS)


@dataclass
class State:
    """The folder of a saved state, with the global addresses of customers and servers by version of IP."""

    folder: Path
    addresses: dict[tuple[str, int], list[str]] = field(default_factory=dict)

    def files(self, host: str, kind: str) -> list[str]:
        """Returns the names of the saved files of a host: of kind `addr` or `route`."""
        return sorted(path.name for path in self.folder.glob(f"{host}.{kind}*.json"))

    def interfaces(self, host: str) -> list[str]:
        """Returns the interfaces of a host."""
        return [link["ifname"] for link in self.json(f"{host}.addr.json")]

    def owners(self) -> dict[str, str]:
        """Returns the host of each global address of customers and servers."""
        return {address: host for (host, _), addresses in self.addresses.items() for address in addresses}

    def json(self, name: str) -> Any:
        """Returns the value of a saved file."""
        return json.loads((self.folder / name).read_text(encoding="utf-8"))


def save(folder: Path, versions: tuple[int, ...] = (4,), more_cables: tuple[Cable, ...] = ()) -> State:
    """Saves the state of all hosts: for routers FRR's tables, for others those of the kernel."""
    folder.mkdir(parents=True, exist_ok=True)
    found = State(folder)
    for host in HOSTS:
        namespace = namespace_of(host)
        _write(folder / f"{host}.addr.json", run(["ip", "-n", namespace, "-j", "addr"]).output)
        for version in versions:
            name = f"{host}.route{'' if version == 4 else '6'}.json"
            if host in ROUTERS:
                text = routing.show(host, f"show {'ip' if version == 4 else 'ipv6'} route json")
            else:
                text = run(["ip", f"-{version}", "-n", namespace, "-j", "route", "show", "table", "all"]).output
            _write(folder / name, text)
            if host not in ROUTERS:
                found.addresses[host, version] = addresses_of(host, version)
    write_cables(folder / "cables.csv", more_cables)
    return found


def _write(path: Path, text: str) -> None:
    path.write_text(text, encoding="utf-8")


def next_interface(text: str, what: str) -> str:
    """Returns the interface that `ip route get` answers."""
    match = re.search(r" dev (\S+)", text)
    if match is None:
        raise LabError(f"{what}: `ip route get` names no interface: {text.strip()}")
    return match[1]


def owners_of(state: State) -> dict[str, str]:
    """Returns the host of each address."""
    return {one["local"]: host for host in HOSTS for link in state.json(f"{host}.addr.json") if link["ifname"] != "lo"
            for one in link.get("addr_info", [])}


def kernel_path(source: str, destination: str, into: tuple[str, str], state: State) -> list[str]:
    """Returns the crossings of a packet that comes into a router, as the routers' kernels answer hop by hop. It follows
    policy routing too, which no routing table shows."""
    owner = owners_of(state).get(destination)
    found: list[str] = []
    for _ in range(16):
        router, interface = into
        words = ["ip", "-n", namespace_of(router), "route", "get", destination, "from", source, "iif", interface]
        out = next_interface(run(words).output, f"{router} for packets from {source} to {destination}")
        found += [f"{router}:{interface}:ingress", f"{router}:{out}:egress"]
        into = peer_of(router, out)
        if into[0] == owner or into[0] not in ROUTERS:
            return found
    raise LabError(f"packets from {source} to {destination} go in a circle")

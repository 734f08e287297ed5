"""Waits until addresses may be used, and until FRR knows routes that others have set."""
from __future__ import annotations

import json
import time
from typing import Any, Callable, Iterable, Mapping

from lab import routing
from lab.namespaces import links_of
from lab.programs import LabError

SECONDS = 30.0
# What `ip` says of addresses that are tested for duplicates, or are duplicates (RFC 4862, section 5.4).
UNUSABLE = ("tentative", "dadfailed")


def wait_until_none(missing: Callable[[], list[str]], what: str, seconds: float = SECONDS) -> None:
    """Returns when nothing is missing; raises `LabError` if something still is after some seconds."""
    deadline = time.monotonic() + seconds
    left = missing()
    while left:
        if time.monotonic() > deadline:
            raise LabError(f"{what} after {seconds:.0f} s: {', '.join(left)}")
        time.sleep(0.05)
        left = missing()


def unusable(host: str, links: Iterable[dict[str, Any]]) -> list[str]:
    """Returns the addresses of a host's interfaces that may not be used yet."""
    return [f"{host} {link['ifname']} {one['local']}" for link in links for one in link.get("addr_info", [])
            if any(one.get(flag) for flag in UNUSABLE)]


def wait_for_addresses(hosts: Iterable[str]) -> None:
    """Returns when the addresses of hosts may be used."""
    names = list(hosts)
    wait_until_none(lambda: [one for host in names for one in unusable(host, links_of(host))], "addresses may not be used")


def without_route(text: str, prefixes: Iterable[str]) -> list[str]:
    """Returns the prefixes for which a table of FRR's `show ipv6 route json` has no route that its kernel has."""
    table = json.loads(text or "{}")
    return [prefix for prefix in prefixes if not any(route.get("installed") for route in table.get(prefix, []))]


def wait_for_frr(wanted: Mapping[str, Iterable[str]], are_there: bool = True) -> None:
    """Returns when the routers' FRR has routes of IPv6 to prefixes that their kernels were given, or when it has none of them."""
    def otherwise() -> list[str]:
        found = []
        for host, prefixes in wanted.items():
            missing = without_route(routing.show(host, "show ipv6 route json"), prefixes)
            found += [f"{host} {prefix}" for prefix in prefixes if (prefix in missing) == are_there]
        return found
    wait_until_none(otherwise, f"FRR {'lacks' if are_there else 'still has'} routes")

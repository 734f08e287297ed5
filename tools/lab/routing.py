"""FRR in the routers: zebra and ospfd, started without a service manager, with what they leave removed at the end."""
from __future__ import annotations

import json
import os
import shutil
import signal
import time
from pathlib import Path
from typing import Any

from lab.namespaces import ROUTERS
from lab.programs import LabError, namespace_of, path_of, run

SECONDS = 60.0
UPLINKS = {"edge": ("up0", "up1"), "core": ("down0", "down1")}
PASSIVE = {"edge": ("cust1", "cust2", "cust3.100"), "core": ("srv0",)}
NETWORKS = {"edge": ("10.1.0.0/16", "10.2.0.0/16"), "core": ("10.9.0.0/24",)}
BETWEEN = ("10.0.12.0/30", "10.0.13.0/30")
IDENTIFIERS = {"edge": "1.1.1.1", "core": "2.2.2.2"}
DAEMONS = ("zebra", "ospfd")
COST, MORE = 10, 100
STATE = Path("/var/run/frr")


def configuration(host: str) -> str:
    """Returns ospfd's configuration of a router: hellos each second, and advertisements at once, since the lab waits for them."""
    lines = [f"hostname {host}"]
    for interface in PASSIVE[host]:
        lines += [f"interface {interface}", " ip ospf passive"]
    for interface in UPLINKS[host]:
        lines += [f"interface {interface}", " ip ospf network point-to-point", " ip ospf hello-interval 1",
                  " ip ospf dead-interval 4", f" ip ospf cost {COST if interface == UPLINKS[host][0] else MORE}"]
    lines += ["router ospf", f" ospf router-id {IDENTIFIERS[host]}", " timers throttle spf 10 50 200",
              " timers throttle lsa all 100", " timers lsa min-arrival 50", " maximum-paths 4"]
    lines += [f" network {network} area 0" for network in (*NETWORKS[host], *BETWEEN)]
    return "\n".join(lines) + "\n"


def _process_file(host: str, daemon: str) -> Path:
    return STATE / namespace_of(host) / f"{daemon}.pid"


def start(folder: Path) -> None:
    """Starts FRR in the routers, and returns when both have routes to the other's networks."""
    folder.mkdir(parents=True, exist_ok=True)
    folder.chmod(0o777)
    for host in ROUTERS:
        state = STATE / namespace_of(host)
        state.mkdir(parents=True, exist_ok=True)
        shutil.chown(state, "frr", "frr")
        for daemon in DAEMONS:
            path = folder / f"{host}-{daemon}.conf"
            path.write_text(configuration(host) if daemon == "ospfd" else "! zebra needs no settings\n", encoding="utf-8")
            path.chmod(0o644)
            run([path_of(daemon), "-d", "-N", namespace_of(host), "-f", str(path), "-i", str(_process_file(host, daemon)),
                 "--log", f"file:{folder}/{host}-{daemon}.log"], host)
    wait_for_routes(1)


def hops_in(text: str, prefix: str) -> int:
    """Returns how many next hops a table of `ip -j route` has for a prefix; those that are dead do not count."""
    for route in json.loads(text or "[]"):
        if route["dst"] == prefix:
            return sum("dead" not in one.get("flags", []) for one in route.get("nexthops") or [route])
    return 0


def hops(host: str, prefix: str) -> int:
    """Returns how many next hops a router's kernel has for a prefix."""
    return hops_in(run(["ip", "-n", namespace_of(host), "-j", "route"]).output, prefix)


TO_OTHERS = (("edge", "10.9.0.0/24"), ("core", "10.1.0.0/24"), ("core", "10.2.0.0/24"))


def wait_for_routes(number: int, wanted: tuple[tuple[str, str], ...] = TO_OTHERS) -> None:
    """Returns when each router has this number of next hops to a network."""
    deadline = time.monotonic() + SECONDS
    while any(hops(host, prefix) != number for host, prefix in wanted):
        if time.monotonic() > deadline:
            raise LabError(f"FRR has not found {number} next hops within {SECONDS:.0f} s: see its logs")
        time.sleep(0.1)


def show(host: str, command: str) -> str:
    """Returns what FRR's shell prints."""
    return run(["vtysh", "-N", namespace_of(host), "-c", command], host).output


def set_second_uplink(is_used: bool) -> None:
    """Makes the second uplink as cheap as the first, or more expensive, and returns when the routers' kernels have it so."""
    for host in ROUTERS:
        run(["vtysh", "-N", namespace_of(host), "-c", "configure terminal", "-c", f"interface {UPLINKS[host][1]}", "-c",
             f"ip ospf cost {COST if is_used else MORE}"], host)
    wait_for_routes(2 if is_used else 1)


def speaking(host: str) -> list[dict[str, Any]]:
    """Returns the interfaces at which a router sends packets of OSPF, with their addresses."""
    return speaking_in(show(host, "show ip ospf interface json"))


def speaking_in(text: str) -> list[dict[str, Any]]:
    """Returns the interfaces with their addresses of FRR's `show ip ospf interface json` that are up and not passive."""
    found = json.loads(text)
    entries: dict[str, dict[str, Any]] = found.get("interfaces", found)
    return [{"interface": name, "address": str(one["ipAddress"])} for name, one in entries.items()
            if one.get("ifUp") and not one.get("timerPassiveIface")]


def stop() -> None:
    """Ends FRR's processes in the routers, by the numbers that they wrote down."""
    processes = [_process_file(host, daemon) for host in ROUTERS for daemon in reversed(DAEMONS)]
    numbers = [int(path.read_text(encoding="ascii")) for path in processes if path.exists()]
    for number in numbers:
        _send(number, signal.SIGTERM)
    deadline = time.monotonic() + 3
    while any(_send(number, 0) for number in numbers) and time.monotonic() < deadline:
        time.sleep(0.05)
    for number in numbers:
        _send(number, signal.SIGKILL)
    for host in ROUTERS:
        shutil.rmtree(STATE / namespace_of(host), ignore_errors=True)
    (STATE / "ospfd-gr.json").unlink(missing_ok=True)


def _send(process: int, number: int) -> bool:
    try:
        os.kill(process, number)
    except ProcessLookupError:
        return False
    return True

"""Each mistake that operators make comes out in the audit of the project that `once-import new` proposes, with nothing edited:
the lines that make it are named."""
from __future__ import annotations

import re
import tomllib
from pathlib import Path

import pytest

from conftest import TESTS
from test_commands import Ran, run

# The exit status, and the lines of the fragments that make the mistake.
MISTAKES = [
    ("01-input-and-output", 1, {"edge-1.cfg:2", "edge-1.cfg:4"}),  # input, output
    ("02-both-ends-of-a-link", 1, {"edge-1.cfg:4", "core-1.cfg:4"}),  # where customers come in, and the other end of the link
    ("03-sampler-left-on", 7, {"edge-1.cfg:4"}),
    ("05-overlapping-filters", 1, {"pmacctd.conf:4"}),
    ("06-port-and-vlan", 1, {"sw-1.cfg:3", "sw-1.cfg:6"}),
    ("07-vrf-leak", 1, {"edge-1.cfg:3", "edge-1.cfg:8"}),
    ("09-fallback-that-nobody-bills", 1, {"cpe-7.cfg:3"}),  # the backup destination
    ("10-ipv6-not-metered", 1, {"edge-1.cfg:4"}),  # the address of IPv6
    ("11-egress-on-some-interfaces", 1, {"core-1.cfg:4"}),  # the upstream without a monitor
    ("12-mediator-without-the-key", 1, {"cpe-7.cfg:1"}),  # the aggregation
]


def joined(folder: Path, made: Path) -> None:
    """Writes each device's texts as one file, as a router prints its configuration."""
    for one in tomllib.loads((folder / "project.toml").read_text(encoding="utf-8"))["devices"]:
        names = [one["config"]] if isinstance(one["config"], str) else one["config"]
        (made / names[0]).write_text("".join((folder / name).read_text(encoding="utf-8") for name in names), encoding="utf-8")


def proposed(folder: Path) -> str:
    """Writes the project that is proposed for a folder."""
    text = run("new", ".", cwd=folder).stdout
    (folder / "project.toml").write_text(text, encoding="utf-8")
    return text


def audited(once: str, folder: Path) -> Ran:
    """Returns what the audit of a folder's project prints."""
    return run("audit", "project.toml", "--once", once, cwd=folder)


def named(lines: list[str]) -> set[str]:
    """Returns the places that warnings and lines that were not carried over name."""
    return {place for line in lines if line.startswith(("warning ", "not carried over ")) for place in
            re.findall(r"(\S+\.(?:cfg|conf):\d+)(?=: ')", line)}


@pytest.mark.parametrize("name, status, wanted", MISTAKES, ids=[name for name, _, _ in MISTAKES])
def test_mistake_comes_out(name: str, status: int, wanted: set[str], once: str, tmp_path: Path) -> None:
    joined(TESTS / "mistakes" / name, tmp_path)
    proposed(tmp_path)
    found = audited(once, tmp_path)
    assert found.returncode == status, found.stdout
    assert wanted <= named(found.stdout.splitlines())


def test_a_collector_that_was_taken_down_is_asked_about(once: str, tmp_path: Path) -> None:
    """No file says that nobody listens at the destination, so the proposal asks; told where the collector listens, the audit
    names the line of the destination."""
    joined(TESTS / "mistakes" / "04-decommissioned-collector", tmp_path)
    text = proposed(tmp_path)
    assert '# edge-1 (edge-1.cfg:2) sends here. Is this yours? If not, remove it.\n[[collectors]]\nname = "collector-1"\n' \
        'listen = ["192.0.2.99:9996"]\n' in text
    assert audited(once, tmp_path).returncode == 0
    (tmp_path / "project.toml").write_text(text.replace("192.0.2.99:9996", "192.0.2.10:4739"))
    found = audited(once, tmp_path)
    assert found.returncode == 1 and "edge-1.cfg:2" in named(found.stdout.splitlines())


def test_a_tunnel_inside_and_outside(once: str, tmp_path: Path) -> None:
    """The fragments leave out addresses, without which no packet enters the tunnel or leaves pe-1. With them, a packet that
    comes in at cpe-1 is counted there and, inside the tunnel or not, at pe-1."""
    joined(TESTS / "mistakes" / "08-tunnel-inside-and-outside", tmp_path)
    for name, interface, address in (("cpe-1.cfg", "interface Tunnel0", "172.16.0.1 255.255.255.252"),
                                     ("pe-1.cfg", "interface TenGigabitEthernet0/1/0", "172.31.0.1 255.255.255.254")):
        text = (tmp_path / name).read_text()
        assert f"{interface}\n" in text
        (tmp_path / name).write_text(text.replace(f"{interface}\n", f"{interface}\n ip address {address}\n"))
    proposed(tmp_path)
    found = audited(once, tmp_path)
    assert found.returncode == 1 and {"cpe-1.cfg:4", "pe-1.cfg:4"} <= named(found.stdout.splitlines())

"""Links that a project names itself, as pairs of interfaces."""
from __future__ import annotations

from pathlib import Path

import pytest

from once_tools.importing import Imported, Options
from projects import RECORD, made

ROUTER = "interface GigabitEthernet0/0\n ip flow monitor M input\ninterface GigabitEthernet0/1\n ip flow monitor M input\n"
PROJECT = ('[report]\ncollector = "billing"\nkey = "sourceIPv4Address"\n[[collectors]]\nname = "billing"\n'
           'listen = ["192.0.2.10:4739"]\n'
           '[[devices]]\nname = "a"\nconfig = "a.cfg"\n[[devices]]\nname = "b"\nconfig = "b.cfg"\n[links]\npairs = PAIRS\n'
           '[[traffic]]\nname = "up"\nsource = "10.0.0.0/8"\nfrom = ["a:Gi0/0"]\nto = ["b:Gi0/1"]\n')


def with_pairs(folder: Path, pairs: str) -> Imported:
    """Returns the outcome of importing two routers with links."""
    return made(folder, PROJECT.replace("PAIRS", pairs), Options(full=True), a_cfg=RECORD + ROUTER, b_cfg=RECORD + ROUTER)


def test_a_pair_is_a_link(tmp_path: Path) -> None:
    found = with_pairs(tmp_path, '[["a:Gi0/1", "b:GigabitEthernet0/0"]]')
    paths = [[(one.device, one.interface, one.direction.value) for one in path]
             for each in found.pairs[0].classes for path in each.paths]
    assert paths == [[("a", "GigabitEthernet0/0", "ingress"), ("a", "GigabitEthernet0/1", "egress"),
                      ("b", "GigabitEthernet0/0", "ingress"), ("b", "GigabitEthernet0/1", "egress")]]


@pytest.mark.parametrize("pairs, says", [
    ('["a:Gi0/1", "b:Gi0/0"]', "'pairs' must be a list of lists; write pairs = [[\"edge-1:eth1\", \"core-1:eth0\"]]"),
    ('[["a:Gi0/1"]]', "'a:Gi0/1' is no pair of interfaces; write [\"edge-1:eth1\", \"core-1:eth0\"]"),
    ('[["a", "b"]]', "'a, b' is no pair of interfaces; write [\"edge-1:eth1\", \"core-1:eth0\"]"),
    ('[["a:Gi0/1", "c:Gi0/0"]]', "no device 'c' has configurations or interfaces"),
])
def test_a_pair_that_is_none(tmp_path: Path, pairs: str, says: str) -> None:
    found = with_pairs(tmp_path, pairs)
    assert found.report.status == 2
    wrong = [line for line in found.report.lines() if line.startswith("wrong ")]
    assert any(line.startswith("wrong project.toml:1") and says in line for line in wrong), wrong

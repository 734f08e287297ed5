"""Project files: what is wrong is reported with its line and the nearest name, all at once."""
from __future__ import annotations

from pathlib import Path

import pytest

from once_tools.model import Grade, Unusable
from once_tools.project import Project, parse_project
from once_tools.report import Report
from once_tools.source import Source

GOOD = """[report]
collector = "billing-host"
key = "source"
[[devices]]
name = "edge-1"
config = "edge-1.cfg"
[[collectors]]
name = "billing-host"
listen = ["192.0.2.10:4739"]
"""


def parsed(text: str) -> Project:
    return parse_project(Source("project.toml", text), Path("."))


def lines(text: str) -> list[str]:
    return Report(parsed(text).findings).lines()


def test_a_good_project_has_no_findings() -> None:
    project = parsed(GOOD)
    assert project.findings == []
    assert project.devices[0].config == ("edge-1.cfg",)
    assert project.devices[0].place.line == 4


@pytest.mark.parametrize("member, wanted", [
    ('protocol = "tcp"', "'protocol' must be a number from 0 to 255, or a range"),
    ('protocol = "6-5"', "'protocol' must be a number from 0 to 255, or a range"),
    ("destination_port = 65536", "'destination_port' must be a number from 0 to 65535, or a range"),
    ('version = "4-6"', "'version' must be 4 or 6"), ("version = 5", "'version' must be 4 or 6"),
    ('ingress = ["a:b"]', "traffic 'up' has both 'from' and 'ingress'")])
def test_values_of_traffic_that_packets_cannot_have(member: str, wanted: str) -> None:
    found = lines(GOOD + f'[[traffic]]\nname = "up"\nfrom = ["a:b"]\nto = ["a:c"]\n{member}\n')
    assert len(found) == 1 and f"'{member}': {wanted}" in found[0]


@pytest.mark.parametrize("added, wanted", [
    ("[roless]\n", "wrong project.toml:10: '[roless]': no table 'roless'; write 'roles'"),
    ("[[devices]]\nname = \"b\"\nconfg = \"c\"\n",
     "wrong project.toml:12: 'confg = \"c\"': [devices] has no member 'confg'; write 'config'"),
    ("[accept]\nsampelr = [\"edge-1\"]\n",
     "wrong project.toml:11: 'sampelr = [\"edge-1\"]': [accept] has no topic 'sampelr'; write 'sampler'"),
    ("[[devices]]\nname = \"edge-1\"\n",
     "wrong project.toml:10: '[[devices]]': device 'edge-1' is in line 4 too; give one of them another name"),
    ("[[traffic]]\nname = \"up\"\nfrom = [\"edge-1:a\"]\n",
     "wrong project.toml:10: '[[traffic]]': traffic 'up' has only one of 'from' and 'to'; add the other one"),
    ("[[traffic]]\nname = 3\nfrom = [\"a:b\"]\nto = [\"a:c\"]\n",
     "wrong project.toml:11: 'name = 3': 'name' must be a text; write name = \"..\""),
    ("[[traffic]]\nname = \"up\"\nfrom = [\"a:b\"]\nto = [\"a:c\"]\nhops = 99\n",
     "wrong project.toml:14: 'hops = 99': 'hops' must be a whole number from 1 to 32; write hops = 8"),
    ("[[collectors]]\nname = \"c\"\n",
     "wrong project.toml:10: '[[collectors]]': collector 'c' listens nowhere; add listen = [\"ADDRESS:PORT\"], or kind and "
     "config"),
])
def test_what_is_wrong_is_reported_with_its_line(added: str, wanted: str) -> None:
    assert wanted in lines(GOOD + added)


def test_all_faults_are_reported_at_once() -> None:
    found = parsed("[report]\ncolector = \"x\"\n[rolls]\n").findings
    assert len([one for one in found if one.grade is Grade.WRONG]) == 3


def test_what_is_no_toml_names_its_line() -> None:
    with pytest.raises(Unusable) as error:
        parsed("[report]\nkey = \n")
    assert error.value.finding.place.line == 2


@pytest.mark.parametrize("text", ["devices = 3", "report = []", "[[report]]", "traffic = \"x\"", "[devices]\nname = \"a\"",
                                  "accept = 1", "[addresses]\nx = 3", "[[traffic]]\nname=\"a\"\npaths = [3]"])
def test_other_kinds_of_values_are_reported(text: str) -> None:
    assert any(one.grade is Grade.WRONG for one in parsed(text).findings)

"""Damaged routing tables, addresses, links and neighbours: nothing but findings comes of them."""
from __future__ import annotations

import random
import shutil
from pathlib import Path

import pytest

from once_tools.model import Grade, Unusable
from once_tools.paths import declare
from once_tools.paths.routes import Tables, read_routes
from once_tools.project import read_project
from once_tools.source import Source
from test_paths_cases import CEF, IOS, JUNOS
from test_paths_sample import TOPOLOGY, devices_of, load

FILES = ["edge-1.route.json", "border-1.frr.json", "edge-1.addr.json", "links.csv", "lldp.edge-1.json"]


def damaged(text: str, draw: random.Random) -> str:
    """Returns a text with a line or some octets dropped, doubled, swapped or misspelled, or cut."""
    lines = text.split("\n")
    kind, at = draw.randrange(6), draw.randrange(len(lines))
    if kind == 0:
        del lines[at]
    elif kind == 1:
        lines.insert(at, lines[at])
    elif kind == 2:
        other = draw.randrange(len(lines))
        lines[at], lines[other] = lines[other], lines[at]
    elif kind == 3:
        return text[:draw.randrange(len(text))]
    else:
        place = draw.randrange(len(text))
        return text[:place] + draw.choice("0 ./:\"[]{}-nx\0\u00e9") + text[place + draw.randrange(3):]
    return "\n".join(lines)


@pytest.mark.parametrize("name", FILES)
def test_damaged_files_of_the_sample(tmp_path: Path, name: str) -> None:
    folder = tmp_path / "topology"
    shutil.copytree(TOPOLOGY, folder)
    project_text = (folder / "project.toml").read_text()
    if name.startswith("lldp"):
        (folder / "project.toml").write_text(project_text.replace('table = "links.csv"', f'lldp = "{name}"'))
    project = read_project(folder / "project.toml")
    text, draw = (TOPOLOGY / name).read_text(), random.Random(name)
    for _ in range(60):
        (folder / name).write_text(damaged(text, draw))
        declaration = declare(devices_of(load("network.expected.json")), project)
        assert all(one.paths for one in declaration.classes)
        assert declaration.classes or any(one.grade is Grade.WRONG for one in declaration.findings)
        assert all(one.says and (one.grade is not Grade.WRONG or one.todo) for one in declaration.findings)


@pytest.mark.parametrize("text", [IOS, CEF, JUNOS])
def test_damaged_texts_of_routes(text: str) -> None:
    draw = random.Random(3)
    for _ in range(300):
        try:
            read_routes(Source("routes", damaged(damaged(text, draw), draw)), Tables())
        except Unusable as error:
            assert error.finding.todo


@pytest.mark.parametrize("text", ["x" * 1_000_000, "[" * 100_000, "Codes: \n" + "B 10.0.0.0/8 via " * 20_000, "\r\n".join(IOS.split("\n"))])
def test_hostile_texts_of_routes(text: str) -> None:
    try:
        read_routes(Source("routes", text), Tables())
    except Unusable as error:
        assert error.finding.todo

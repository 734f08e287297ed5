"""`once-import audit --since OLD`: which classes are newly right or wrong, or counted elsewhere.

What changes is done by hand to documents, and what must be said of it is written here.
"""
from __future__ import annotations

import json
import shutil
import subprocess
import sys
from pathlib import Path
from typing import Callable

import pytest
from conftest import TESTS, TOP
from once_tools.since import ClassState, Verdict, changes, places_in

IMPORT = TOP / "tools" / "once-import"
MISTAKE = TESTS / "mistakes" / "01-input-and-output"


def audit(project: Path, once: str, *more: str) -> subprocess.CompletedProcess[str]:
    return subprocess.run([sys.executable, IMPORT, "audit", project, "--once", once, *more], capture_output=True, text=True)


def since(text: str) -> list[str]:
    """Returns what a report says of an earlier audit."""
    return [line.partition("since the earlier audit")[2] for line in text.splitlines() if line.startswith("since the earlier audit")]


@pytest.fixture
def project(tmp_path: Path) -> Path:
    shutil.copytree(MISTAKE, tmp_path / "net")
    return tmp_path / "net" / "project.toml"


def mended(project: Path) -> None:
    """Meters each packet where it comes in alone."""
    for file in project.parent.glob("*.cfg"):
        lines = file.read_text(encoding="utf-8").splitlines(keepends=True)
        file.write_text("".join(line for line in lines if "output" not in line), encoding="utf-8")


def test_a_class_that_is_newly_right_and_newly_wrong(project: Path, once: str, tmp_path: Path) -> None:
    wrong, right = str(tmp_path / "wrong"), str(tmp_path / "right")
    assert audit(project, once, "--out", wrong).returncode == 1
    whole = {file: file.read_text(encoding="utf-8") for file in project.parent.glob("*.cfg")}
    mended(project)
    ran = audit(project, once, "--out", right, "--since", wrong)
    assert ran.returncode == 0, ran.stdout + ran.stderr
    assert since(ran.stdout) == [": class 'customers A up' is newly right: counted exactly once; it was not counted as declared"]
    for file, text in whole.items():
        file.write_text(text, encoding="utf-8")
    ran = audit(project, once, "--since", right)
    assert ran.returncode == 1
    assert since(ran.stdout) == [": class 'customers A up' is newly wrong: not counted as declared; it was counted exactly once"]


def test_the_folder_of_the_earlier_audit_may_be_written_anew(project: Path, once: str, tmp_path: Path) -> None:
    out = str(tmp_path / "out")
    audit(project, once, "--out", out)
    assert since(audit(project, once, "--out", out, "--since", out).stdout) == [": no class is counted otherwise"]
    mended(project)
    ran = audit(project, once, "--out", out, "--since", out, "--format", "json")
    assert any("newly right" in line for line in json.loads(ran.stdout)["meaning"])


@pytest.mark.parametrize("spoil, says", [
    (lambda folder: shutil.rmtree(folder), "network.json: it cannot be read"),
    (lambda folder: (folder / "network.json").write_text("{", encoding="utf-8"), "network.json: it is not JSON"),
])
def test_a_folder_that_no_audit_wrote(project: Path, once: str, tmp_path: Path, spoil: Callable[[Path], object], says: str) -> None:
    out = tmp_path / "out"
    audit(project, once, "--out", str(out))
    spoil(out)
    ran = audit(project, once, "--since", str(out))
    assert ran.returncode == 5 and says in ran.stdout + ran.stderr, ran


NETWORK = {"devices": [{"name": "r1", "config": {"ietf-ipfix-psamp:ipfix": {"observationPoint": [
    {"name": "in", "selectionProcess": ["web", "rest"]}, {"name": "out", "selectionProcess": ["all"]}]}}}]}
TRAFFIC = {"classes": [{"name": "a", "paths": [[{"device": "r1", "interface": "e0"}, {"device": "r1", "interface": "e1"}]]},
                       {"name": "b", "exempt": [None], "paths": [[{"device": "r1", "interface": "e0"}]]}]}


def test_the_places_of_a_certificate() -> None:
    certificate = "once-certificate 2\nclass 1 path 1\nS destinationTransportPort 80\nL 1 1 2\nL 2 2 1\nclass 2 path 1\nN\nend\n"
    assert places_in(certificate, NETWORK, TRAFFIC) == {
        1: {"r1: observation point 'in', selection process 'rest'", "r1: observation point 'out', selection process 'all'"}, 2: set()}


def test_what_is_said_of_two_audits() -> None:
    at, elsewhere = frozenset({"r1: observation point 'in', selection process 'all'"}), frozenset({"r2: observation point 'in', selection process 'all'"})
    old = {"moved": ClassState(Verdict.ONCE, at), "gone": ClassState(Verdict.WRONG), "freed": ClassState(Verdict.ONCE, at), "same": ClassState(Verdict.EXEMPT)}
    new = {"moved": ClassState(Verdict.ONCE, elsewhere), "freed": ClassState(Verdict.EXEMPT), "same": ClassState(Verdict.EXEMPT),
           "new": ClassState(Verdict.UNKNOWN)}
    assert changes(old, new) == [
        "class 'moved' is counted elsewhere: at r2: observation point 'in', selection process 'all'; "
        "it was counted at r1: observation point 'in', selection process 'all'",
        "class 'freed' is not counted, as it is exempt; it was counted exactly once",
        "class 'new' is new: not decided",
        "class 'gone' is gone: it was not counted as declared",
    ]

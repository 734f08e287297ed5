"""What `once-import new` proposes for the files of each sample, and what `once` answers, as worked out by hand.

The file `new.expected` of a folder has the cases: the files that are given, the roles and traffic that must be proposed, what
comments must say, the exit status, the beginnings of the answers, and the places that a refutation must name. Where the user has to edit the
proposal, `after` has the edit and the answer after it."""
from __future__ import annotations

import shutil
import tomllib
from dataclasses import dataclass
from pathlib import Path
from typing import Any

import pytest

from conftest import TESTS
from once_tools.model import Grade
from once_tools.project import read_project
from test_commands import Ran, run

FOLDERS = sorted(path.parent for kind in ("samples", "folders") for path in (TESTS / kind).glob("*/new.expected"))


@dataclass(frozen=True)
class Case:
    """A case of a folder's `new.expected`."""

    folder: Path
    number: int
    wanted: dict[str, Any]


def cases() -> list[Case]:
    """Returns the cases of all folders."""
    return [Case(folder, number, wanted) for folder in FOLDERS
            for number, wanted in enumerate(tomllib.loads((folder / "new.expected").read_text(encoding="utf-8"))["cases"], 1)]


def each(found: list[Case]) -> pytest.MarkDecorator:
    """Returns a mark by which a test runs for each of some cases."""
    return pytest.mark.parametrize("case", found, ids=lambda case: f"{case.folder.name}-{case.number}")


ALL = cases()


def proposed(case: Case, folder: Path) -> str:
    """Returns the project that is proposed for copies of a case's files, and writes it beside them."""
    for file in case.wanted["files"]:
        shutil.copy(case.folder / file, folder)
    found = run("new", ".", cwd=folder)
    assert (found.returncode, found.stderr) == (0, "")
    (folder / "project.toml").write_text(found.stdout, encoding="utf-8")
    return found.stdout


def audited(once: str, folder: Path) -> Ran:
    """Returns what `audit` prints for the project of a folder."""
    return run("audit", "project.toml", "--once", once, cwd=folder)


def check_answer(found: Ran, wanted: dict[str, Any]) -> None:
    """Checks the status, the last lines, and the places that warnings name."""
    assert (found.returncode, found.stderr) == (wanted["status"], ""), found.stdout
    lines = found.stdout.splitlines()
    last = lines[-len(wanted["answers"]):]
    assert all(line.startswith(answer) for line, answer in zip(last, wanted["answers"], strict=True)), last
    told = [line for line in lines if line.startswith(("certificate", "refutation", "no answer"))]
    assert told == last
    warnings = [line for line in lines if line.startswith("warning ")]
    for name in wanted.get("names", []):
        assert any(f"{name}: " in line for line in warnings), (name, warnings)


def collector_of(project: dict[str, Any]) -> object:
    """Returns the name of the report's collector if it has a configuration, otherwise where it listens."""
    name = project["report"]["collector"]
    found = next(one for one in project["collectors"] if one["name"] == name)
    return found.get("listen", name)


def edited(text: str, after: dict[str, Any]) -> str:
    """Returns a project with the edit of a user."""
    if "traffic" in after:
        text = text[:text.index("[[traffic]]")] + after["traffic"]
    for interface in after.get("out_of_roles", []):
        text = "".join(line for line in text.splitlines(True) if not line.startswith(f'    "{interface}",'))
    for name in after.get("exempt", []):
        assert text.count(f'name = "{name}"\n') == 1
        text = text.replace(f'name = "{name}"\n', f'name = "{name}"\nexempt = true\n')
    for name in after.get("without", []):
        start = text.index(f'[[traffic]]\nname = "{name}"\n')
        end = text.find("\n\n", start)
        text = text[:start] + (text[end:] if end >= 0 else "")
    return text


@each(ALL)
def test_proposal(case: Case, tmp_path: Path) -> None:
    text, wanted = proposed(case, tmp_path), case.wanted
    found = tomllib.loads(text)
    assert {one["name"]: one["kind"] for one in found["devices"]} == wanted["devices"]
    assert (collector_of(found), found["report"]["key"]) == (wanted["collector"], wanted["key"])
    assert found.get("roles", {}) == wanted["roles"]
    assert sorted(one["name"] for one in found["traffic"]) == sorted(wanted["traffic"])
    for name, ends in wanted.get("ends", {}).items():
        one = next(one for one in found["traffic"] if one["name"] == name)
        assert sorted(one["from"]) == sorted(one["to"]) == sorted(ends)
    comments = " ".join(line[line.index("#"):].lstrip("# ") for line in text.splitlines() if "#" in line)
    assert [says for says in wanted.get("says", []) if says not in comments] == []


@each(ALL)
def test_proposal_is_read_back(case: Case, tmp_path: Path) -> None:
    proposed(case, tmp_path)
    findings = read_project(tmp_path / "project.toml").findings
    assert [one for one in findings if one.grade is Grade.WRONG] == []


@each(ALL)
def test_answer(case: Case, once: str, tmp_path: Path) -> None:
    proposed(case, tmp_path)
    check_answer(audited(once, tmp_path), case.wanted)


@each([case for case in ALL if "after" in case.wanted])
def test_answer_after_the_edit(case: Case, once: str, tmp_path: Path) -> None:
    text, after = proposed(case, tmp_path), case.wanted["after"]
    (tmp_path / "project.toml").write_text(edited(text, after), encoding="utf-8")
    check_answer(audited(once, tmp_path), after)


def test_every_sample_has_a_case() -> None:
    assert {folder.name for folder in FOLDERS} >= {path.name for path in (TESTS / "samples").iterdir() if path.is_dir()}

"""The example for audits at night: its script writes the exposition format of Prometheus, and its workflow runs commands that there are."""
from __future__ import annotations

import os
import re
import shutil
import subprocess
from pathlib import Path

import pytest
from conftest import TESTS, TOP, needed
from once_tools.report_forms import FORMATS

NIGHTLY = TOP / "examples" / "nightly"
# A line of the text format of Prometheus, version 0.0.4.
LINE = re.compile(r'# (?:HELP [a-z_]+ .+|TYPE [a-z_]+ gauge)|[a-z_]+\{project="(?:[^"\\\n]|\\.)*"\} [0-9]+')
VALUE = re.compile(r'(\w+)\{project="network.toml"\} (\d+)')


def audited(folder: Path, once: str) -> tuple[int, dict[str, int]]:
    """Returns the status of the script in a folder with a project, and the metrics that it writes."""
    needed("jq")
    programs = folder / "bin"
    programs.mkdir()
    (programs / "once").symlink_to(once)
    (programs / "once-import").symlink_to(TOP / "tools" / "once-import")
    environment = {**os.environ, "PATH": f"{programs}:{os.environ['PATH']}", "PYTHONDONTWRITEBYTECODE": "1"}
    ran = subprocess.run([NIGHTLY / "audit.sh", "network.toml", "build", "once.prom"], cwd=folder, env=environment, capture_output=True, text=True)
    text = (folder / "once.prom").read_text(encoding="utf-8")
    assert text.endswith("\n") and all(LINE.fullmatch(line) for line in text.splitlines()), text
    return ran.returncode, {name: int(value) for name, value in VALUE.findall(text)}


def mistake(name: str, to: Path) -> Path:
    shutil.copytree(TESTS / "mistakes" / name, to)
    (to / "project.toml").rename(to / "network.toml")
    return to


@pytest.mark.parametrize("name, status, warnings, lost", [("01-input-and-output", 1, 1, 0), ("03-sampler-left-on", 7, 0, 2)])
def test_metrics(name: str, status: int, warnings: int, lost: int, once: str, tmp_path: Path) -> None:
    """The numbers are those of `findings.expected`."""
    ended, found = audited(mistake(name, tmp_path / "net"), once)
    assert ended == status == found["once_audit_status"]
    assert (found["once_audit_warnings"], found["once_audit_not_carried_over"]) == (warnings, lost)
    assert found["once_audit_time_seconds"] > 1_700_000_000


def test_the_workflow_names_formats_that_there_are() -> None:
    text = (NIGHTLY / "audit.yml").read_text(encoding="utf-8")
    formats = re.findall(r"--format (\w+)", text)
    assert formats and set(formats) <= set(FORMATS)
    assert set(re.findall(r"run: (once[\w-]*)", text)) == {"once-import", "once-mend"}

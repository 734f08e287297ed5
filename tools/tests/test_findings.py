"""The report on each sample and mistake has the findings that were written by hand from its configuration, and above notes
no others; the import and the audit end with the statuses that were."""
from __future__ import annotations

import json
from pathlib import Path

import pytest

from conftest import TESTS
from findings import differences, expectation, finding_of, wanted_of
from once_tools.import_main import main
from once_tools.model import Finding, Grade, Place

CASES = sorted(path.parent for folder in ("samples", "mistakes") for path in (TESTS / folder).glob("**/project.toml"))


@pytest.mark.parametrize("folder", CASES, ids=lambda folder: str(folder.relative_to(TESTS)))
def test_findings(folder: Path, once: str, capsys: pytest.CaptureFixture[str]) -> None:
    expected = expectation(folder)
    assert {"import", "audit"} <= set(expected.statuses)
    statuses, findings = {}, []
    for command in expected.statuses:
        name, *options = command.split(" ")
        with_once = ["--once", once] if name == "audit" else []
        statuses[command] = main([name, str(folder / "project.toml"), "--format", "json", *options, *with_once])
        printed = capsys.readouterr().out
        findings = json.loads(printed)["findings"] if command == "audit" else findings
    assert differences(expected.wanted, [finding_of(one) for one in findings]) == []
    assert statuses == expected.statuses


def test_differences_name_what_is_missing_and_what_nobody_expects() -> None:
    place = Place("edge-1.cfg", 2, "ip flow monitor M input")
    findings = [Finding(Grade.WARNING, place, "counts twice"), Finding(Grade.NOTE, place, "all packets")]
    assert differences([wanted_of("warning edge-1.cfg:1,2 Monitor M | twice")], findings) == []
    assert differences([], findings) == ["not expected: warning edge-1.cfg:2: 'ip flow monitor M input': counts twice"]
    for line in ("premise edge-1.cfg:2 twice", "warning edge-1.cfg:3 twice", "warning edge-1.cfg twice",
                 "warning edge-2.cfg:2 twice", "warning edge-1.cfg:2 twice | thrice"):
        assert differences([wanted_of(line)], findings)[0] == f"missing: {line}"

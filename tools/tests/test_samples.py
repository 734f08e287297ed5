"""Each sample gives the documents and the answer of `once` that it should; test_findings.py has the reports."""
from __future__ import annotations

from pathlib import Path

import pytest

from cases import audited, imported, plain, value_of
from conftest import TESTS, TOP, module

CASES = sorted(path.parent for path in (TESTS / "samples").glob("**/project.toml"))


@pytest.mark.parametrize("folder", CASES, ids=lambda folder: str(folder.relative_to(TESTS / "samples")))
def test_sample(folder: Path, once: str, tmp_path: Path) -> None:
    found = imported(folder, full=True)
    assert found.pairs, found.report.text()
    pair = found.pairs[0]
    assert plain(pair.network) == plain(value_of(folder / "network.expected.json"))
    assert pair.traffic == value_of(folder / "traffic.expected.json")
    answer = audited(once, pair, tmp_path)
    assert answer.splitlines()[0] == (folder / "answer.expected").read_text().splitlines()[0]


@pytest.mark.parametrize("folder", CASES, ids=lambda folder: str(folder.relative_to(TESTS / "samples")))
def test_documents_fit_their_schemas(folder: Path) -> None:
    jsonschema = module("jsonschema")
    for pair in imported(folder).pairs:
        for name, document in (("network", pair.network), ("traffic", pair.traffic)):
            schema = value_of(TOP / "docs" / "schemas" / f"{name}.schema.json")
            jsonschema.validate(document, schema)


@pytest.mark.parametrize("folder", CASES, ids=lambda folder: str(folder.relative_to(TESTS / "samples")))
def test_cut_documents_have_the_same_answer(folder: Path, once: str, tmp_path: Path) -> None:
    """Crossings that nothing meters do not change an answer."""
    answers = [audited(once, imported(folder, full=full).pairs[0], tmp_path).split(" ")[0] for full in (True, False)]
    assert answers[0] == answers[1]

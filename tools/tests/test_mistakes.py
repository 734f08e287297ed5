"""Each mistake that operators make gives the documents and the answer of `once` that it should; mended, `once` answers with
a certificate. test_findings.py has the reports."""
from __future__ import annotations

from pathlib import Path

import pytest

from cases import audited, imported, is_refused, plain, value_of
from conftest import TESTS
from once_tools.importing import Pair

CASES = sorted(path.parent for path in (TESTS / "mistakes").glob("*/project.toml"))


@pytest.mark.parametrize("folder", CASES, ids=lambda folder: folder.name)
def test_mistake(folder: Path, once: str, tmp_path: Path) -> None:
    wanted = (folder / "answer.expected").read_text()
    found = imported(folder, faithful=is_refused(wanted), full=True)
    assert found.pairs, found.report.text()
    pair = found.pairs[0]
    assert plain(pair.network) == plain(value_of(folder / "network.expected.json"))
    assert pair.traffic == value_of(folder / "traffic.expected.json")
    answer = audited(once, pair, tmp_path)
    assert answer.splitlines()[0] == wanted.splitlines()[0]


@pytest.mark.parametrize("folder", CASES, ids=lambda folder: folder.name)
def test_mended(folder: Path, once: str, tmp_path: Path) -> None:
    network, traffic = value_of(folder / "network.mended.json"), value_of(folder / "traffic.expected.json")
    assert isinstance(network, dict) and isinstance(traffic, dict)
    assert audited(once, Pair("", network, traffic), tmp_path).startswith("once-certificate")


def test_sampler_is_left_out(once: str, tmp_path: Path) -> None:
    """Without `--faithful` the sampler is left out of the document, and the report's status says so."""
    folder = TESTS / "mistakes" / "03-sampler-left-on"
    found = imported(folder, full=True)
    assert plain(found.pairs[0].network) == plain(value_of(folder / "network.mended.json"))
    assert found.report.status == 1

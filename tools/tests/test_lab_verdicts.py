"""Verdicts of the lab: agreed, differed, not measured."""
from __future__ import annotations

from dataclasses import replace
from pathlib import Path
from typing import Any

import pytest

from lab.page import BEGIN, END, write_table
from lab.programs import LabError
from lab.results import Results, compare, read, write
from lab.totals import Totals
from lab.verdicts import CERTIFICATE, REFUTATION, Expected, Loss, Measured, Verdict, judge, split_keys

DUE: Totals = {"10.1.0.11": (2, 300), "10.2.0.11": (1, 40)}
TWICE: Totals = {"10.1.0.11": (4, 600), "10.2.0.11": (2, 80)}
AGREES = Expected(CERTIFICATE)


def measured(audit: str, predicted: Totals | None, **found: Totals) -> Measured:
    return Measured(audit, DUE, DUE, predicted, dict(found))


def verdict(one: Measured, expected: Expected = AGREES) -> Verdict:
    return judge(one, expected, ()).verdict


def test_all_agree() -> None:
    judged = judge(measured(CERTIFICATE, DUE, nfacctd=DUE, collect=DUE), AGREES, ())
    assert (judged.verdict, judged.faults, judged.borne_out) == (Verdict.AGREED, [], True)


def test_a_predicted_double_count_agrees() -> None:
    judged = judge(measured(REFUTATION, TWICE, nfacctd=TWICE), Expected(REFUTATION), ())
    assert (judged.verdict, judged.faults, judged.borne_out) == (Verdict.AGREED, [], True)


def test_one_program_that_differs() -> None:
    judged = judge(measured(CERTIFICATE, DUE, nfacctd=DUE, nfcapd=TWICE), AGREES, ())
    assert judged.verdict is Verdict.DIFFERED and judged.faults
    assert judged.reasons[0].startswith("nfcapd against once run: 10.1.0.11 has 4 / 600")


def test_a_program_without_totals_differs() -> None:
    assert verdict(measured(CERTIFICATE, DUE, nfacctd={})) is Verdict.DIFFERED


def test_a_refused_stream_differs() -> None:
    one = measured(CERTIFICATE, DUE, nfacctd=DUE)
    one.refused["once collect"] = "refused 618 octet 0"
    assert verdict(one) is Verdict.DIFFERED


def test_a_loss_goes_before_totals_that_agree() -> None:
    one = measured(CERTIFICATE, DUE, nfacctd=DUE)
    one.losses.append(Loss("socket of collector billing", "3 datagrams found the buffer full"))
    judged = judge(one, AGREES, ())
    assert judged.verdict is Verdict.NOT_MEASURED
    assert judged.faults == ["the verdict is not measured, and agreed was expected: socket of collector billing: 3 datagrams "
                             "found the buffer full"]


def test_a_loss_goes_before_totals_that_differ() -> None:
    one = measured(CERTIFICATE, DUE, nfacctd={"10.1.0.11": (1, 150)})
    one.losses.append(Loss("capture", "1 packets dropped"))
    assert verdict(one) is Verdict.NOT_MEASURED


def test_a_certificate_that_is_not_borne_out() -> None:
    judged = judge(measured(CERTIFICATE, None, nfacctd=TWICE, nfcapd=TWICE), AGREES, ())
    assert judged.verdict is Verdict.DIFFERED and not judged.borne_out


def test_a_refutation_that_is_not_borne_out() -> None:
    judged = judge(measured(REFUTATION, DUE, nfacctd=DUE), Expected(REFUTATION), ())
    assert judged.verdict is Verdict.DIFFERED and judged.faults


def test_without_a_prediction_programs_must_agree_with_each_other() -> None:
    part: Totals = {"10.1.0.11": (1, 100)}
    assert verdict(measured(REFUTATION, None, nfacctd=part, nfcapd=part), Expected(REFUTATION)) is Verdict.AGREED
    assert verdict(measured(REFUTATION, None, nfacctd=part, nfcapd=DUE), Expected(REFUTATION)) is Verdict.DIFFERED


def test_another_answer_of_the_audit_is_a_fault() -> None:
    assert judge(measured(REFUTATION, TWICE, nfacctd=TWICE), AGREES, ()).faults[0].startswith("the audit answers refutation")


def test_an_expected_difference_is_no_fault_and_agreement_is_one() -> None:
    expected = Expected(CERTIFICATE, (Verdict.DIFFERED,), "no packet is fragmented")
    assert judge(measured(CERTIFICATE, DUE, nfacctd=TWICE), expected, ()).faults == []
    assert judge(measured(CERTIFICATE, DUE, nfacctd=DUE), expected, ()).faults


def test_a_check_is_demanded_too() -> None:
    expected = Expected(CERTIFICATE, check=lambda _: ["something is otherwise"])
    assert judge(measured(CERTIFICATE, DUE, nfacctd=DUE), expected, ()).faults == ["something is otherwise"]


def test_keys_that_nobody_declared() -> None:
    own, others = split_keys({"nfacctd": {**DUE, "10.0.12.1": (5, 500), "fe80:0:0:0:0:0:0:1": (1, 72)}}, set(DUE))
    one = replace(measured(CERTIFICATE, DUE), found=own, others=others)
    assert len(judge(one, AGREES, ()).faults) == 2
    assert judge(one, AGREES, ("10.0.12.1", "fe80:")).faults == []


def test_exempt_keys_that_are_counted_bear_a_refutation_out() -> None:
    one = replace(measured(REFUTATION, DUE, nfacctd=DUE), others={"nfacctd": {"10.0.12.1": (5, 500)}}, others_are_wrong=True)
    assert judge(one, Expected(REFUTATION), ("10.0.12.1",)).verdict is Verdict.AGREED


def entry(name: str, is_random: bool = False, **changes: Any) -> dict[str, Any]:
    found: dict[str, Any] = {"name": name, "title": "t", "is core": False, "is random": is_random, "audit": CERTIFICATE,
                             "verdict": "agreed", "borne out": True, "premise": "", "reasons": [], "faults": [], "due": DUE,
                             "predicted": DUE, "found": {"nfacctd": DUE, "once collect": DUE, "nfcapd": DUE}, "refused": {},
                             "losses": [], "lost before": []}
    return {**found, **changes}


def results(*entries: dict[str, Any]) -> Results:
    return Results("2026-11-30", {"Linux": "6"}, 100.0, 9.0, list(entries))


def test_two_runs_that_agree(tmp_path: Path) -> None:
    write(results(entry("a1-one")), tmp_path / "results.json")
    assert compare(read(tmp_path / "results.json"), read(tmp_path / "results.json")) == []


def test_two_runs_that_differ() -> None:
    one = results(entry("a1-one"), entry("b1-two"), entry("n4-sampling", True))
    other = results(entry("a1-one", found={"nfacctd": TWICE}), entry("n4-sampling", True, found={"nfacctd": TWICE}))
    assert compare(results(entry("a1-one")), results(entry("a1-one", **{"lost before": ["sw: lost"]}))) == []
    assert compare(one, other) == ["b1-two was measured in one of the runs alone", "a1-one: found differs"]


def test_a_file_without_results_is_refused(tmp_path: Path) -> None:
    (tmp_path / "results.json").write_text("{}", encoding="utf-8")
    with pytest.raises(LabError, match="has no results"):
        read(tmp_path / "results.json")


def test_the_table_of_a_page(tmp_path: Path) -> None:
    page = tmp_path / "LAB.md"
    page.write_text(f"before\n{BEGIN}\nold\n{END}\nafter\n", encoding="utf-8")
    lost = entry("n7-kill", verdict="not measured", premise="caches are exported", losses=["pmacctd: killed"])
    repeated = entry("d1-ovs", **{"lost before": ["edge: first", "sw: packet socket at p-core rose by 119"]})
    write_table(page, results(entry("a1-one"), lost, repeated))
    text = page.read_text(encoding="utf-8")
    assert "| a1-one | t | certificate | 3 / 340 | as due | as predicted | as predicted | as predicted | agreed |" in text
    assert "**not measured**. Premise that fails: caches are exported. Seen: pmacctd: killed |" in text
    assert "| agreed, at attempt 3. Lost before: sw: packet socket at p-core rose by 119 |" in text
    assert text.startswith("before\n") and text.endswith("after\n") and "old" not in text


def test_no_table_of_a_run_with_faults(tmp_path: Path) -> None:
    page = tmp_path / "LAB.md"
    page.write_text(f"{BEGIN}\n{END}\n", encoding="utf-8")
    with pytest.raises(LabError, match="1 faults"):
        write_table(page, replace(results(entry("a1-one")), faults=["a1-one: wrong"]))

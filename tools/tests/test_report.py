"""The form of a report: its lines, as tools/README.md describes them, and its forms for other programs."""
from __future__ import annotations

import json
from xml.etree import ElementTree

from once_tools.model import Finding, Grade, Place, Topic
from once_tools.project import Accept
from once_tools.report import Report
from once_tools.report_forms import github, junit, sarif

LINE = Place("edge-1.cfg", 2, "ip flow monitor M input")
OTHER = Place("edge-1.cfg", 7, "ip flow monitor M input")
NOTE = Finding(Grade.NOTE, Place("edge-1.cfg"), "nothing is metered")
WARNING = Finding(Grade.WARNING, LINE, "counts twice", "take it off")
LOST = Finding(Grade.NOT_CARRIED_OVER, LINE, "one packet in 100 is metered", "accept it", Topic.SAMPLER, 108, "edge-1")


def test_a_line_has_the_grade_the_place_the_words_what_it_means_and_what_to_do() -> None:
    assert Report([WARNING]).lines() == ["warning edge-1.cfg:2: 'ip flow monitor M input': counts twice; take it off"]


def test_a_finding_about_a_file_has_no_line_and_no_words() -> None:
    assert Report([NOTE]).lines() == ["note edge-1.cfg: nothing is metered"]


def test_the_worst_grade_comes_first_and_an_accepted_finding_says_so() -> None:
    accept = Accept(Topic.SAMPLER, "edge-1", Place("project.toml", 9))
    report = Report([NOTE, WARNING, LOST], [accept])
    assert [line.split(" edge-1.cfg")[0] for line in report.lines()] == ["accepted", "warning", "note"]
    assert (report.status, Report([NOTE, WARNING, LOST]).status, Report([NOTE, WARNING]).status) == (0, 1, 0)


def test_findings_that_differ_by_their_lines_alone_are_one_line() -> None:
    twice = Report([WARNING, Finding(Grade.WARNING, OTHER, "counts twice", "take it off")])
    assert twice.lines() == ["warning edge-1.cfg:2: 'ip flow monitor M input': counts twice; take it off (also line 7)"]


def test_an_annotation_names_file_and_line() -> None:
    assert github(Report([WARNING]), "configs") == ("::warning file=configs/edge-1.cfg,line=2::warning edge-1.cfg:2: "
                                                   "'ip flow monitor M input': counts twice; take it off\n")


def test_sarif_has_level_place_and_suppression() -> None:
    accept = Accept(Topic.SAMPLER, "edge-1", Place("project.toml", 9))
    found = json.loads(sarif(Report([NOTE, WARNING, LOST], [accept], ["a certificate"]), "configs"))
    assert (found["version"], len(found["runs"])) == ("2.1.0", 1)
    lost, warning, note = found["runs"][0]["results"]
    place = warning["locations"][0]["physicalLocation"]
    assert (place["artifactLocation"]["uri"], place["region"]) == ("configs/edge-1.cfg", {"startLine": 2})
    assert (lost["level"], warning["level"], note["level"]) == ("error", "warning", "note")
    assert "suppressions" in lost and "suppressions" not in warning
    assert "region" not in note["locations"][0]["physicalLocation"]
    rules = {one["id"] for one in found["runs"][0]["tool"]["driver"]["rules"]}
    assert {one["ruleId"] for one in (lost, warning, note)} <= rules
    assert found["runs"][0]["invocations"][0]["toolExecutionNotifications"][0]["message"]["text"] == "a certificate"


def test_sarif_has_the_members_that_the_standard_requires() -> None:
    """Section 3.13 (log), 3.14 (run), 3.18 (tool), 3.27 (result) of SARIF 2.1.0."""
    run = json.loads(sarif(Report([LOST]), "."))["runs"][0]
    assert run["tool"]["driver"]["name"] and all("text" in one["message"] for one in run["results"])
    assert isinstance(run["invocations"][0]["executionSuccessful"], bool)


def test_junit_has_a_case_for_each_device_and_fails_what_is_not_accepted() -> None:
    accept = Accept(Topic.SAMPLER, "edge-1", Place("project.toml", 9))
    accepted = ElementTree.fromstring(junit(Report([NOTE, LOST], [accept], ["a certificate"])))
    suite = accepted.find("testsuite")
    assert suite is not None and (suite.get("tests"), suite.get("failures")) == ("2", "0")
    assert [one.get("name") for one in suite.iter("testcase")] == ["edge-1", "project"]
    failed = ElementTree.fromstring(junit(Report([NOTE, WARNING, LOST]))).find("testsuite")
    assert failed is not None and failed.get("failures") == "2"
    assert [one.get("type") for one in failed.iter("failure")] == ["not carried over", "warning"]


def test_junit_escapes_what_configurations_have() -> None:
    odd = Finding(Grade.WARNING, Place("a<b>.cfg", 1, "description <&>"), "says & means", device="r<1>")
    case = ElementTree.fromstring(junit(Report([odd]))).find("testsuite/testcase")
    assert case is not None and case.get("name") == "r<1>" and "description <&>" in (case.findtext("failure") or "")

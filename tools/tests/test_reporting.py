"""once-report: what its pages say, against the documents, the examples' stored answers and hashlib."""
from __future__ import annotations

import hashlib
import json
import re
import sys
from collections import Counter
from pathlib import Path
from xml.etree import ElementTree

import pytest
from conftest import TESTS, module, needed
from once_tools.json_answer import Answer, Total, Totals
from once_tools.once_program import run_once
from once_tools.reporting import picture, premises
from once_tools.reporting.answer import Step, story_of
from once_tools.reporting.pointers import line_at
from report_pages import EXAMPLES, EXEMPT, NAMES, SHARED, TOP, TWICE, documents, made, page, report, value_of


@pytest.mark.parametrize("name", NAMES)
def test_the_verdict_is_that_of_the_example(name: str, demo: Path) -> None:
    said = page(demo, name).text()
    wanted, other = ("✓ Counted exactly once", "✗ Not counted") if (EXAMPLES / name / "certificate.txt").exists() else ("✗ Not counted exactly once", "✓ Counted")
    assert wanted in said and other not in said


def test_the_places_and_leaves_of_a_certificate(once: str, tmp_path: Path, demo: Path) -> None:
    split = tmp_path / "split.txt"
    split.write_text("once-certificate 1\nclass 1 path 1\nS source 176160768\nL 1 1 1\nL 1 1 1\nend\n", encoding="utf-8")
    for example, file in ((EXAMPLES / "one-meter-one-collector", split), *((it, it / "certificate.txt") for it in (SHARED, EXEMPT))):
        status, html = made(once, tmp_path, *documents(example), "--answer", file)
        assert status == 0
        wanted = places(example, file)
        rows = [row[-4:] for row in html.rows if len(row) in (4, 6) and row[-1].isdigit()]
        found = {(at.partition(" (")[0], point, process): int(leaves) for at, point, process, leaves in rows if "crossing " in at}
        assert wanted and found == wanted
        nowhere = sum(int(row[-1]) for row in rows if row[0] == "nowhere, as it should be")
        assert nowhere == file.read_text(encoding="utf-8").split("\n").count("N")


def places(example: Path, certificate: Path) -> Counter[tuple[str, str, str]]:
    """Returns where a certificate of an example counts packets, with how many leaves, by the documents alone."""
    network, traffic = value_of(example / "network.json"), value_of(example / "traffic.json")
    devices = {it["name"]: it["config"]["ietf-ipfix-psamp:ipfix"] for it in network["devices"]}
    found: Counter[tuple[str, str, str]] = Counter()
    path: list[dict[str, str]] = []
    for line in certificate.read_text(encoding="utf-8").splitlines():
        words = line.split()
        if words[0] == "class":
            path = traffic["classes"][int(words[1]) - 1]["paths"][int(words[3]) - 1]
        elif words[0] == "L":
            crossing = path[int(words[1]) - 1]
            point = devices[crossing["device"]]["observationPoint"][int(words[2]) - 1]
            at = f"{crossing['device']} {crossing['interface']} {crossing['direction']}"
            found[(at, point["name"], point["selectionProcess"][int(words[3]) - 1])] += 1
    return found


def test_the_totals_and_steps_of_a_refutation(once: str, tmp_path: Path, demo: Path) -> None:
    status, html = made(once, tmp_path, *documents(TWICE), "--answer", TWICE / "refutation.txt")
    stored = TWICE.joinpath("refuted.txt").read_text(encoding="utf-8")
    run, plain = (dict(re.findall(r"^(\S+) packets (.*)$", part, re.M)) for part in stored.split("plain\n"))
    assert status == 1 and run != plain
    for key in {*run, *plain}:
        (packets, octets), (packets_due, octets_due) = (it[key].split(" octets ") for it in (run, plain))
        assert [key, packets, packets_due, octets, octets_due, "wrong"] in html.rows
    steps = [it for it in TWICE.joinpath("refutation.txt").read_text(encoding="utf-8").splitlines() if it.split()[0] in ("cross", "expire", "arrive")]
    assert sum(tag == "li" and data.startswith(("packet 1 crosses", "a record")) for tag, data in html.texts) == len(steps)
    said = html.text()
    crossings = ", then ".join(f"{it['device']} {it['interface']} {it['direction']}" for it in value_of(TWICE / "traffic.json")["classes"][0]["paths"][0])
    network, traffic = documents(TWICE)
    assert f"once-mend {network} {traffic} searches for the fewest changes" in said
    assert crossings in said and "What to do" in said and "is counted 2 times instead of once" in said


def test_a_packet_that_nothing_meters(once: str, tmp_path: Path, demo: Path) -> None:
    traffic = tmp_path / "traffic.json"
    traffic.write_text(TWICE.joinpath("traffic.json").read_text(encoding="utf-8").replace('"eth0"', '"eth8"').replace('"eth1"', '"eth9"'), encoding="utf-8")
    status, html = made(once, tmp_path, TWICE / "network.json", traffic)
    assert status == 1 and "Collector holds nothing" in html.text() and not html.faults
    assert ["edge-router eth8 ingress, then edge-router eth9 egress" in row[-1] for row in html.rows].count(True) == 1
    assert "wrong" in [row[-1] for row in html.rows if row[1:5] == ["0", "1", "0", "1"]]
    drawn = " ".join(data for tag, data in html.texts if tag == "text")
    assert "unobserved crossings: 1 to 2" in drawn


@pytest.mark.parametrize("name", NAMES)
def test_each_class_and_crossing_is_there(name: str, demo: Path) -> None:
    html = page(demo, name)
    cells = {cell for row in html.rows for cell in row}
    headings = "\n".join(data for tag, data in html.texts if tag == "h3")
    for one in value_of(EXAMPLES / name / "traffic.json")["classes"]:
        assert one["name"] + (" (exempt: must not be counted)" if "exempt" in one else "") in headings
        for path in one["paths"]:
            assert (", then ".join(f"{it['device']} {it['interface']} {it['direction']}" for it in path) or "none") in cells
        for value in one.get("region", {}).values():
            assert value.replace("-", " to ") in html.text()


@pytest.mark.parametrize("name", NAMES)
def test_digests(name: str, demo: Path) -> None:
    rows = {row[0]: row[-1] for row in page(demo, name).rows}
    for role, file in (("Network", "network.json"), ("Traffic", "traffic.json")):
        assert rows[role] == hashlib.sha256((EXAMPLES / name / file).read_bytes()).hexdigest()


def test_the_digest_and_commands_of_an_answer(once: str, tmp_path: Path, demo: Path) -> None:
    network, traffic = documents(SHARED)
    _, html = made(once, tmp_path, network, traffic)
    audited = run_once(once, "audit", network, traffic).output
    assert ["Certificate", "certificate.txt", str(len(audited)), hashlib.sha256(audited.encode()).hexdigest()] in html.rows
    commands = next(data for tag, data in html.texts if tag == "pre").split("\n")
    assert commands[0] == f"once audit {network} {traffic} > certificate.txt" and commands[-1] == f"once check {network} {traffic} certificate.txt"
    assert any(tag == "pre" and data == audited for tag, data in html.texts)


def test_a_refused_document_is_named_with_its_line(once: str, demo: Path, tmp_path: Path, capsys: pytest.CaptureFixture[str]) -> None:
    wrong = demo / "wrong.json"
    line = wrong.read_text(encoding="utf-8").split("by sauce")[0].count("\n") + 1
    status, html = made(once, tmp_path, wrong, SHARED / "traffic.json")
    place = "/devices/0/config/ietf-ipfix-psamp:ipfix/selectionProcess/0/cache"
    assert status == 2 and capsys.readouterr().err.startswith(f"wrong {wrong}:{line}: refused 107 {place}; ")
    said = html.text()
    assert "! Documents refused" in said and f"{wrong}:{line}" in said and f"refused 107 {place}" in said and 'there are: "by source"' in said


def test_an_answer_that_does_not_hold(once: str, tmp_path: Path, demo: Path, capsys: pytest.CaptureFixture[str]) -> None:
    file = SHARED / "certificate-wrong.txt"
    answer = SHARED.joinpath("answer-wrong.txt").read_text(encoding="utf-8").strip()
    status, html = made(once, tmp_path, *documents(SHARED), "--answer", file)
    assert status == 2 and "! Answer not accepted" in html.text() and answer in html.text()
    assert capsys.readouterr().err.startswith(f"wrong {file}:{answer.split()[-1]}: {answer}; ")


def test_undecided(once: str, tmp_path: Path, demo: Path, capsys: pytest.CaptureFixture[str]) -> None:
    status, html = made(once, tmp_path, *documents(SHARED), "--limit", "1")
    assert status == 1 and "? Undecided (601)" in html.text() and "unknown 601" in capsys.readouterr().err


def test_premises_are_those_of_the_guide(demo: Path) -> None:
    guide, proved = (" ".join((TOP / "docs" / name).read_text(encoding="utf-8").split()) for name in ("GUIDE.md", "PROVED.md"))
    for presumed, otherwise in premises.PREMISES:
        assert f"| {presumed} | {otherwise}" in guide
        assert [presumed, otherwise] in page(demo, NAMES[0]).rows and [presumed, otherwise] not in page(demo, "refused").rows
    assert premises.ABOUT in guide and premises.REFUTED in guide
    assert premises.YES in proved and premises.MODULO in proved and premises.UNTRUSTED in proved


def test_without_graphviz_the_report_says_so(once: str, demo: Path, tmp_path: Path, monkeypatch: pytest.MonkeyPatch,
                                             capsys: pytest.CaptureFixture[str]) -> None:
    monkeypatch.setenv("PATH", str(tmp_path))
    status, html = made(once, tmp_path, *documents(SHARED))
    assert status == 0 and "There is no picture: there is no program `dot`" in html.text()
    assert capsys.readouterr().err.startswith("no picture: there is no program `dot`: install Graphviz") and not html.values("viewbox")


def test_without_jinja2_the_package_is_named(once: str, tmp_path: Path, monkeypatch: pytest.MonkeyPatch, capsys: pytest.CaptureFixture[str]) -> None:
    monkeypatch.setitem(sys.modules, "jinja2", None)
    assert report(once, *documents(SHARED), "--out", tmp_path / "made.html") == 2
    assert "python3-jinja2" in capsys.readouterr().err and not (tmp_path / "made.html").exists()


def test_demo_lists_each_example(demo: Path) -> None:
    html = page(demo, "index")
    assert sorted(html.values("href")) == [f"{name}.html" for name in NAMES]


def test_findings_of_the_importer(once: str, tmp_path: Path, demo: Path) -> None:
    entry = {"accepted": False, "device": "edge-1", "topic": "sampler", "number": 108}
    findings = [{**entry, "grade": "note", "file": "edge-1.cfg", "line": 0, "text": "", "says": "nothing is metered", "todo": ""},
                {**entry, "grade": "not carried over", "file": "edge-<1>.cfg", "line": 7, "text": "sampler S", "says": "one packet in 100", "todo": "accept it"}]
    file = tmp_path / "import.json"
    file.write_text(json.dumps({"status": 1, "findings": findings, "meaning": ["It presumes:", "  1. <b>this</b>"]}), encoding="utf-8")
    _, html = made(once, tmp_path, *documents(SHARED), "--import-report", file)
    assert [row for row in html.rows if row[0] in ("note", "not carried over")] == [
        ["not carried over", "edge-<1>.cfg:7", "sampler S: one packet in 100; accept it"], ["note", "edge-1.cfg", "nothing is metered"]]
    assert "1. <b>this</b>" in html.text()


def test_lines_of_configurations_are_named(once: str, tmp_path: Path, demo: Path, capsys: pytest.CaptureFixture[str]) -> None:
    from once_tools import import_main

    folder = TESTS / "mistakes" / "01-input-and-output"
    assert import_main.main([str(folder / "project.toml"), "--out", str(tmp_path)]) == 0
    capsys.readouterr()
    status, html = made(once, tmp_path, tmp_path / "network.json", tmp_path / "traffic.json")
    line = folder.joinpath("edge-1.cfg").read_text(encoding="utf-8").split("\n").index(" ip flow monitor BILL4 output") + 1
    assert status == 1 and f"edge-1.cfg:{line}" in html.text() and "ip flow monitor BILL4 output" in html.text()


def test_the_same_report_twice(once: str, tmp_path: Path, demo: Path, monkeypatch: pytest.MonkeyPatch, capsysbinary: pytest.CaptureFixture[bytes]) -> None:
    monkeypatch.setenv("SOURCE_DATE_EPOCH", "86400")
    assert report(once, *documents(TWICE), "--out", tmp_path / "made.html") == 1 and report(once, *documents(TWICE)) == 1
    assert capsysbinary.readouterr().out == (tmp_path / "made.html").read_bytes() and b"made 1970-01-02 00:00 UTC" in (tmp_path / "made.html").read_bytes()


@pytest.mark.parametrize("words, status, says", [
    (["{network}"], 2, "name a network document and a traffic declaration"),
    (["{network}", "{traffic}", "--limit", "0"], 2, "a number from 1"),
    (["{network}", "{traffic}", "--answer", "{network}", "--limit", "1"], 2, "--limit is for an audit"),
    (["--demo", "{out}", "{network}"], 2, "--demo takes no documents"),
    (["--demo", "{out}", "--examples", "{out}"], 5, "there are no examples"),
    (["{out}/absent", "{traffic}"], 5, "absent: No such file or directory"),
    (["{out}", "{traffic}"], 5, "Is a directory"),
    (["{traffic}", "{network}"], 2, "refused 102 /classes"),
    (["{out}/empty", "{traffic}"], 2, "empty:1: refused 101"),
    (["{out}/octets", "{traffic}"], 2, "refused 101"),
    (["{network}", "{traffic}", "--answer", "{out}/empty"], 2, "no 501"),
    (["{network}", "{traffic}", "--answer", "{out}/octets"], 2, "octets"),
    (["{network}", "{traffic}", "--import-report", "{out}/empty"], 2, "empty:1: is no report of once-import"),
    (["{network}", "{traffic}", "--import-report", "{network}"], 2, "it has no list of findings"),
    (["{network}", "{traffic}", "--out", "{out}"], 5, "Is a directory"),
])
def test_bad_input_ends_without_a_traceback(words: list[str], status: int, says: str, once: str, demo: Path, tmp_path: Path, capsys: pytest.CaptureFixture[str]) -> None:
    (tmp_path / "empty").write_bytes(b"")
    (tmp_path / "octets").write_bytes(bytes(range(256)))
    network, traffic = documents(SHARED)
    given = [it.format(network=network, traffic=traffic, out=tmp_path) for it in words]
    try:
        ended = report(once, *given)
    except SystemExit as error:
        ended = int(str(error.code))
    printed = capsys.readouterr().err
    assert ended == status and says in printed and "Traceback" not in printed and "has a fault" not in printed


STORY = Answer("confirm", "refuted", 0, "refuted\n", explanation=(
    'verdict: a packet of class 1 "a: 2. b" on path 1 is counted 2 times instead of once', 'what to do: Take it out, and audit again: "in the end"',
    'the packet: class 1 "a: 2. b", path 1, source 10.0.0.0, octets 1', "1. packet 1 crosses edge eth0 ingress: verdict: none",
    'aggregation "by net" doesn\'t take it in', '2. a record leaves cache "flows" of edge', "no record reaches the report", "in the end the collector holds",
    "keys 0", "unassigned 0"), totals=Totals((Total("10.0.0.0/24 6", 2, 3000),), 3))


def test_the_story_of_a_refutation() -> None:
    story = story_of(STORY)
    assert story.held == STORY.totals and story.due == Totals()
    assert story.steps == (Step("packet 1 crosses edge eth0 ingress: verdict: none", ('aggregation "by net" doesn\'t take it in',)),
                           Step('a record leaves cache "flows" of edge'))
    assert story.ending == "no record reaches the report" and story.todo == 'Take it out, and audit again: "in the end"'
    assert story.verdict == 'a packet of class 1 "a: 2. b" on path 1 is counted 2 times instead of once'


@pytest.mark.parametrize("does, says", [
    ("exit 0", "wrong: `once lint` answered: nothing, with status 0; name the program `once` by --once PROGRAM\n"),
    ("echo ok", "wrong: `once lint` answered: ok; name the program `once` by --once PROGRAM\n"),
    ("echo \"error: unexpected argument '--format' found\"; exit 6",
     "wrong: `once` does not have the option --format json; use once 1.0.0 or later, as it is installed beside this program\n"),
])
def test_a_program_that_does_not_answer(does: str, says: str, tmp_path: Path, capsys: pytest.CaptureFixture[str]) -> None:
    module("jinja2")
    program = tmp_path / "once"
    program.write_text(f"#!/bin/sh\n{does}\n", encoding="utf-8")
    program.chmod(0o755)
    assert report(str(program), *documents(SHARED), "--out", tmp_path / "made.html") == 5
    assert capsys.readouterr().err == says and not (tmp_path / "made.html").exists()


def test_lines_of_pointers() -> None:
    text = '{\n "a": [1,\n  {"b/c": "x",\n   "d": 2},\n  3],\n "d": "]}",\n "a~": {}\n}\n'
    wanted = {"": 1, "/a": 2, "/a/0": 2, "/a/1": 3, "/a/1/b~1c": 3, "/a/1/d": 4, "/a/2": 5, "/a/3": 2, "/d": 6, "/a~0": 7, "/a~0/e": 7}
    assert {pointer: line_at(text, pointer) for pointer in wanted} == wanted
    assert line_at('{"a": 1,\n"a": 2}', "/a") == 2 and line_at("{", "/a") == 0 and line_at("", "") == 0


def test_what_a_page_must_not_have_is_left_out_of_a_picture() -> None:
    svg = '<svg xmlns="http://www.w3.org/2000/svg" xmlns:x="http://www.w3.org/1999/xlink" width="9pt" onload="a()"><script>b()</script>' \
          '<g id="graph0" style="fill:url(c)"><a x:href="javascript:d()"><text>e</text></a><text fill="red" onclick="f()">g &lt;h&gt;</text></g></svg>'
    found = picture.cleaned(ElementTree.fromstring(svg))
    assert found is not None
    assert ElementTree.tostring(found, encoding="unicode") == '<svg><g><text class="fill-wrong">g &lt;h&gt;</text></g></svg>'


def test_the_picture_of_a_run_has_its_devices_alone() -> None:
    drawing = "\n".join([
        "digraph network {", "  rankdir=LR;", "  subgraph cluster_1 {", '    label="used [color=darkorange, "; style=rounded;',
        '    point1_1_0 [label="p"];', "  }",
        "  subgraph cluster_2 {", '    label="other";', '    point2_1_0 [label="p"];', "  }", '  packets1_1_0 [label="x"];', '  packets1_2_0 [label="y"];',
        "  packets1_1_0 -> point1_1_0;", '  packets1_1_0 -> point1_1_0 [color=darkorange, label="step 1"];',
        "  packets1_2_0 -> point2_1_0 [color=blue];",
        '  packets1_1_0 -> point1_1_0 [color=darkorange, label="step 3"];', "}"])
    part = picture.run_in(drawing, 1, 1)
    assert '    label="used [color=darkorange, "; style=rounded;\n' in part and "  rankdir=TB;\n" in part
    assert part.count("packets1_1_0 -> point1_1_0") == 1 and r'label="step 1\nstep 3"];' in part
    assert not [one for one in ("other", "point2", "packets1_2") if one in part]


def test_the_script_runs() -> None:
    ran = run_once(needed("python3"), str(TOP / "tools" / "once-report"), "--help")
    assert ran.status == 0 and "certificate" in ran.output

"""How objects are read and compared with the text that is printed without `--format json`."""
import pytest
from json_answer import Expected, comparisons, differences, files_in, object_in, place_in, printed_totals, reason_text, refusal_in

NETWORK = {"network": "n.json"}
REASON = {"wrong": "a", "usually": "b", "whatToDo": "c", "see": "d"}
REASON_LINES = "wrong: a\nusually: b\nwhat to do: c\nsee: d\n"
REFUSED = {
    "answer": "refused", "command": "lint", "explanation": ["file: n.json"], "facts": [], "files": NETWORK, "format": "once-answer/1",
    "notes": [], "number": 104, "output": "refused 104 /links\n", "place": {"kind": "pointer", "pointer": "/links"}, "reason": REASON,
    "status": 2,
}
EXPECTED = Expected(
    ("lint", "n.json"), "", 2, "refused 104 /links\n", "refused 104 /links\nfile: n.json\n" + REASON_LINES, REASON_LINES, None)
FIELDS = {"ipVersion": 4, "protocolIdentifier": 6, "sourceIPv4Address": "10.0.0.1"}
RUN = {"about": "refuting run", "class": {"number": 1, "name": "web"}, "path": 1, "crossings": [], "fields": FIELDS, "octets": 40, "steps": 2}
TRAFFIC = {"classes": [{"name": "web", "paths": [[]]}]}


def test_an_object_in_a_line_is_read():
    assert object_in(b'{"a":[{"b":1,"c":null}],"d":"\\n"}\n') == {"a": [{"b": 1, "c": None}], "d": "\n"}


@pytest.mark.parametrize(
    "octets",
    [
        b"", b"{}", b"{}\n\n", b"{\n}\n", b"[]\n", b'{"b":1,"a":2}\n', b'{"a":1,"a":1}\n', b'{"x":{"b":1,"a":2}}\n', b'{"a":1.0}\n',
        b'{"a":NaN}\n', b'{"a":"\xff"}\n', b"yes\n",
    ],
)
def test_anything_else_is_refused(octets):
    with pytest.raises(ValueError):
        object_in(octets)


@pytest.mark.parametrize(
    "output, number, place",
    [
        ("refused 101\n", 101, None),
        ("refused 104 \n", 104, {"kind": "pointer", "pointer": ""}),
        ("refused 102 /a b/0\n", 102, {"kind": "pointer", "pointer": "/a b/0"}),
        ("refused 204 1 1, 2 1\n", 204, {"kind": "text", "text": "1 1, 2 1"}),
        ("refused 613 octet 0\n", 613, {"kind": "octet", "octet": 0}),
        ("no 406 line 3\n", 406, {"kind": "line", "line": 3}),
        ("unknown 601\n", 601, None),
        ("yes\n", None, None),
        ("unknown number\n", None, None),
        ("once-refutation 2\nno 501\n", None, None),
    ],
)
def test_numbers_and_places_are_read_from_lines(output, number, place):
    assert refusal_in(output) == (number, place)


def test_no_place_is_none():
    assert place_in(None) is None


def test_totals_are_written_back():
    totals = {
        "complete": False, "gaps": 1, "keys": [{"key": FIELDS, "octets": 5, "packets": 2}, {"key": {}, "octets": 0, "packets": 0}],
        "skipped": 2, "skippedFrames": {"malformed": 4, "other": 3}, "unassigned": 7,
    }
    text = "keys 2\n10.0.0.1 6 4 packets 2 octets 5\nall packets 0 octets 0\nunassigned 7\ncomplete no\nskipped other 3 malformed 4\n"
    assert printed_totals({"totals": totals}) == text + "gaps 1\nskipped 2\n"


def test_plain_sums_follow_the_totals_of_a_refutation():
    totals, plain = {"keys": [], "unassigned": 0}, {"keys": [], "unassigned": 1}
    assert printed_totals({"totals": totals, "plain": plain}) == "refuted\nrun\nkeys 0\nunassigned 0\nplain\nkeys 0\nunassigned 1\n"


def test_a_reason_without_a_page_has_no_line_for_it():
    assert reason_text(REASON) == REASON_LINES
    assert reason_text({**REASON, "see": ""}) == REASON_LINES.replace("see: d\n", "")
    assert reason_text(None) == ""


def test_files_are_found_between_options():
    words = ["run", "--links", "link", "n", "t", "--progress", "c", "s"]
    assert files_in(words) == {"network": "n", "traffic": "t", "capture": "c", "schedule": "s"}
    assert files_in(["audit", "n", "--limit=3", "t"]) == {"network": "n", "traffic": "t"}
    assert files_in(["explain", "101"]) == {}


def test_a_true_object_has_no_differences():
    assert list(differences(REFUSED, EXPECTED)) == []


@pytest.mark.parametrize(
    "member, value",
    [
        ("status", 0), ("command", "audit"), ("files", {}), ("output", "ok\n"), ("number", 105), ("place", None), ("explanation", []),
        ("notes", ["more"]), ("reason", {**REASON, "usually": "x"}), ("reason", None),
    ],
)
def test_each_other_member_is_a_difference(member, value):
    assert len(list(differences({**REFUSED, member: value}, EXPECTED))) == 1


def test_facts_are_compared_with_the_output_and_the_traffic():
    output = "once-refutation 2\npacket 1 1 10.0.0.1 6 4 40\ncross 1 1 n\narrive 1 1\nend\n"
    expected = Expected(("audit", "n", "t"), "", 1, output, output, "", TRAFFIC)
    answer = {**REFUSED, "answer": "refutation", "command": "audit", "explanation": [], "files": {"network": "n", "traffic": "t"}}
    answer.update(number=None, output=output, place=None, reason=None, status=1)
    assert list(differences({**answer, "facts": [RUN]}, expected)) == []
    assert len([*comparisons({**answer, "facts": [RUN]}, expected)]) == 12
    for name, value in (("class", {"number": 1, "name": "x"}), ("crossings", [{}]), ("octets", 41), ("steps", 3)):
        assert len(list(differences({**answer, "facts": [{**RUN, name: value}]}, expected))) == 1
    for name, value in (("class", {"number": 2, "name": "web"}), ("path", 2)):
        assert len(list(differences({**answer, "facts": [{**RUN, name: value}]}, expected))) > 1

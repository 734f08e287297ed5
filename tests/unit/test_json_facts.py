"""What the plain walk of json_facts.py finds, on documents small enough to do it by hand."""
import pytest
from json_facts import kind_of, leaf_faults, leaf_names_due, line_stated, region_stated, story_faults, verdict_faults
from mistaken_certificates import end_of_tree
from mistaken_networks import ELEMENTS, cache, device_named, exporter, link, selection
from plain_runs import Run
from plain_walk import (
    AXES, CUT, DIFFERING, MORE, NEVER, ONCE, UNASSIGNED, WHOLE, Certificate, Network, Walk, bound_of, certificate_of, narrowed, one_of,
    overlap, range_of, shown, together, with_range,
)
from stated_facts import leaf_names_in, story_in, undone_in

SOURCE, VERSION = 0, 6
LOW = {"ieName": "sourceIPv4Prefix", "value": "0.0.0.0/1"}
IN, OUT = ({"device": "edge", "interface": name, "direction": way} for name, way in (("eth0", "ingress"), ("eth1", "egress")))


def point(name, interface, *processes):
    return {"name": name, "observationDomainId": 0, "ifName": [interface], "selectionProcess": list(processes)}


def documents(points=None, destinations=("up",), mode="parallel", key=("sourceIPv4Address",), elements=None, filters=()):
    """Returns a network of one meter and one collector, whose records go to the first of the meter's destinations."""
    meter = {
        "observationPoint": points or [point("in", "eth0", "all")],
        "selectionProcess": [selection("all", []), selection("some", list(filters))],
        "cache": [cache("flows", elements or ELEMENTS, ["out"])],
        "exportingProcess": [exporter("out", list(destinations), mode)],
    }
    devices = [device_named("edge", meter), device_named("host", {"collectingProcess": [{"name": "collect"}]})]
    report = {"device": "host", "collectingProcess": "collect", "key": [{"ieName": it} for it in key]}
    return {"devices": devices, "links": [link("edge", "out", destinations[0], "host")], "report": report}


def traffic(path=(IN, OUT), **more):
    return {"classes": [{"name": "customers", "region": {"sourceIPv4Address": "10.0.0.0/8"}, "paths": [list(path)], **more}]}


TWICE = [point("in", "eth0", "all"), point("out", "eth1", "all")]
SHARED = [point("in", "eth0", "some"), point("out", "eth1", "all")]


@pytest.mark.parametrize(
    "at, text, values, bits",
    [
        (SOURCE, "10.1.2.3", (0x0A010203, 0x0A010203), 32),
        (SOURCE, "10.1.2.3/8", (0x0A000000, 0x0AFFFFFF), 8),
        (SOURCE, "10.0.0.1-10.0.0.9", (0x0A000001, 0x0A000009), 32),
        (3, "80-443", (80, 443), 16),
        (7, "2001:db8::/32", (0x20010DB8 << 96, (0x20010DB9 << 96) - 1), 32),
    ],
)
def test_values_are_read(at, text, values, bits):
    assert range_of(AXES[at], text) == (values, bits)


def test_values_are_written():
    assert [shown(SOURCE, 0x0A000001), shown(VERSION, 4), shown(8, 0x20010DB8 << 96 | 1)] == ["10.0.0.1", "4", "2001:db8:0:0:0:0:0:1"]
    assert region_stated(with_range(WHOLE, VERSION, (4, 6))) == {"ipVersion": {"low": 4, "high": 6}}


def test_a_filter_holds_for_all_some_or_none():
    half = narrowed([LOW])
    assert overlap(with_range(WHOLE, SOURCE, (5, 6)), half) == "all"
    assert overlap(WHOLE, half) == "some" and bound_of(WHOLE, half) == (SOURCE, 1 << 31)
    assert overlap(with_range(WHOLE, SOURCE, (1 << 31, 1 << 31)), half) == "none"
    assert narrowed([LOW, {"ieId": 44, "value": "128.0.0.0/1"}]) is None


def test_fates_are_combined():
    assert [together(it) for it in ([], [NEVER, ONCE], [ONCE, ONCE], [MORE, NEVER])] == [NEVER, ONCE, MORE, MORE]
    assert [together(it) for it in ([DIFFERING, MORE], [UNASSIGNED, DIFFERING], [CUT, UNASSIGNED])] == [DIFFERING, UNASSIGNED, CUT]
    choices = ([ONCE, ONCE], [ONCE, NEVER], [MORE, ONCE], [UNASSIGNED, NEVER])
    assert [one_of(it) for it in choices] == [ONCE, DIFFERING, DIFFERING, UNASSIGNED]


@pytest.mark.parametrize(
    "network, fate, counting",
    [
        (documents(), ONCE, [(1, 1, 1)]),
        (documents(TWICE), MORE, [(1, 1, 1), (2, 2, 1)]),
        (documents([point("in", "eht0", "all")]), NEVER, []),
        (documents(destinations=("up", "spare"), mode="fallback"), DIFFERING, [(1, 1, 1)]),
        (documents(destinations=("up", "spare")), ONCE, [(1, 1, 1)]),
        (documents(elements=["ipVersion"]), UNASSIGNED, [(1, 1, 1)]),
        (documents(SHARED, filters=[("ipVersion", "4")]), CUT, [(1, 1, 1), (2, 2, 1)]),
    ],
)
def test_packets_are_followed_to_the_report(network, fate, counting):
    found, occurrences = Walk(Network(network), with_range(WHOLE, SOURCE, (0x0A000000, 0x0AFFFFFF))).path([IN, OUT])
    assert (found, [it.numbers for it in occurrences]) == (fate, counting)


HEAD = "once-certificate 1\nclass 1 path 1\n"


@pytest.mark.parametrize(
    "points, text, number, line, due",
    [
        (None, HEAD + "L 1 1 1\nend\n", None, None, None),
        (None, HEAD + "S version 4\nL 1 1 1\nL 1 1 1\nend\n", None, None, None),
        (TWICE, HEAD + "L 1 1 1\nend\n", 408, 3, "tree"),
        ([point("in", "eth9", "all")], HEAD + "L 1 1 1\nend\n", 407, 3, "tree"),
        (None, HEAD + "L 1 1 2\nend\n", 410, 3, "tree"),
        (SHARED, HEAD + "L 1 1 1\nend\n", 406, 3, "tree"),
        (None, HEAD + "N\nend\n", 403, 3, "tree"),
        (None, HEAD + "S source 167772160\nend\n", 404, 3, "tree"),
        (None, HEAD + "S source 10.0.0.1\n", 402, 3, "tree"),
        (None, HEAD + "L 1 1 1\nL 1 1 1\nend\n", 403, 4, "end"),
        (None, HEAD + "L 1 1 1\nend\n\n", 411, 5, "nothing"),
        (None, HEAD + "L 1 1 1\nend", 405, 4, "end"),
        (None, HEAD, 405, 3, "tree"),
        (None, "once-certificate 1\nend\n", 403, 2, "class"),
        (None, "once-certificate 3\n", 401, 1, "header"),
        (None, "", 405, 1, "header"),
        (None, HEAD + "".join(f"S sport {it}\n" for it in range(513, 0, -1)), 412, 515, "tree"),
    ],
)
def test_certificates_are_refused(points, text, number, line, due):
    found = Certificate(Network(documents(points, filters=[("ipVersion", "4")])), traffic(), text).refusal()
    assert (found and (found.number, found.line, found.due)) == (number and (number, line, due))


def test_a_refused_line_is_stated_with_its_region():
    network, lines = Network(documents()), (HEAD + "S version 4\nL 1 1 1\nL 9 1 1\nend\n").splitlines()
    found = Certificate(network, traffic(), "\n".join(lines) + "\n").refusal()
    assert line_stated(traffic(), found, lines) == {
        "about": "certificate line", "due": "tree", "line": 5, "text": "L 9 1 1", "depth": 1, "class": {"number": 1, "name": "customers"},
        "path": 1, "crossings": [IN, OUT],
        "region": {"sourceIPv4Address": {"low": "10.0.0.0", "high": "10.255.255.255"}, "ipVersion": {"low": 4, "high": 255}},
    }


def test_a_certificate_is_split_where_a_filter_cuts():
    network = Network(documents(filters=[("ipVersion", "4")], points=SHARED))
    lines = certificate_of(network, traffic([IN, IN]))
    assert lines == ["once-certificate 1", "class 1 path 1", "S version 4", "L 1 1 1", "S version 5", "L 1 1 1", "L 1 1 1", "end"]
    assert [end_of_tree(lines, at) for at in (2, 3, 4)] == [7, 4, 7]
    assert certificate_of(network, traffic([], exempt=True))[2] == "N"


# ---- a packet that is counted twice, as README.md has it

PACKET = "packet 1 1 10.0.0.0 0.0.0.0 0 0 0 0 0 0:0:0:0:0:0:0:0 0:0:0:0:0:0:0:0 7"
STEPS = ["cross 1 1 n", "expire cache 1 1 1", "arrive 1 1", "cross 1 2 n", "expire cache 1 1 1", "arrive 1 1"]
ONE_WAY = [*STEPS[:3], "cross 1 2"]
LINK = 'a record on the link from destination "up" of exporting process "out" of edge reaches collecting process "collect" of host'
SENTENCES = [
    'verdict: a packet of class 1 "customers" on path 1 is counted 2 times instead of once',
    'what to do: Remove all but one of them: observation point "in" at crossing 1 (edge eth0 ingress), selection process "all", '
    'cache "flows"; observation point "out" at crossing 2 (edge eth1 egress), selection process "all", cache "flows"',
    '1. packet 1 crosses edge eth0 ingress: observation point "in", selection process "all": cache "flows" holds a record of it',
    '2. a record leaves cache "flows" of edge: exporting process "out" sends to destination "up", which is linked to collecting process '
    '"collect" of host',
    f"3. {LINK}; it is counted, or unassigned where it lacks the report's key",
    '4. packet 1 crosses edge eth1 egress: observation point "out", selection process "all": cache "flows" holds a record of it',
    '5. a record leaves cache "flows" of edge: exporting process "out" sends to destination "up", which is linked to collecting process '
    '"collect" of host',
    f"6. {LINK}; it is counted, or unassigned where it lacks the report's key",
    "a record reaches the report at step 3, and at step 6",
]


def run_of(network, steps, declared=None):
    return Run(Network(network), declared or traffic(), ["once-refutation 2", PACKET, *steps, "end"])


def test_a_run_is_made_step_by_step():
    made = run_of(documents(TWICE), STEPS)
    assert [step.names[0] for step in made.steps] == ["edge", "cache", "up", "edge", "cache", "up"]
    assert [step.ends for step in made.steps] == [[], [], ["counted"], [], [], ["counted"]]
    assert (made.verdict(), made.totals, made.to_come, made.parting()) == ("counted 2", {(0x0A000000,): [2, 14]}, set(), None)
    assert sorted(it.numbers for it in made.counting) == [(1, 1, 1), (2, 2, 1)]


def test_the_sentences_of_a_run_are_compared_with_it():
    made = run_of(documents(TWICE), STEPS)
    assert not [*story_faults(made, story_in(SENTENCES)), *verdict_faults(made, story_in(SENTENCES))]


@pytest.mark.parametrize(
    "word, other, what",
    [
        ("eth0", "eth2", "step 1: names"),
        ('"in", sel', '"inner", sel', "step 1: metered"),
        ("; it is counted", "", "step 3: is_reported"),
        ("step 6", "step 5", "reports"),
        ("2 times", "3 times", "the verdict"),
        ("crossing 2", "crossing 1", "occurrences to remove"),
    ],
)
def test_a_changed_sentence_is_a_fault(word, other, what):
    made, story = run_of(documents(TWICE), STEPS), story_in([it.replace(word, other) for it in SENTENCES])
    assert what in [it[0] for it in (*story_faults(made, story), *verdict_faults(made, story))]


def test_what_is_left_of_a_run_is_held_or_carried():
    made = run_of(documents(TWICE), STEPS[:2])
    assert (made.to_come, [len(it) for it in made.carried.values()], [len(it) for it in made.held.values()]) == ({2}, [1], [0])
    undone = undone_in([
        "crossing 2 (edge eth1 egress) is still to come",
        'on the link to collecting process "collect" of host are still records: 1; the first arrives by a line arrive 1 1 CHOICES',
        'cache "flows" of edge still holds records: 2; the first leaves by a line expire cache 1 1 1 CHOICES',
    ])
    assert undone == {
        "held": [("cache", "flows", "edge", 2, (1, 1))], "carried": [(1, "collect", "host", 1)], "to come": [(2, "edge", "eth1", "egress")]}


@pytest.mark.parametrize(
    "network, steps, declared, verdict, ends",
    [
        (documents(destinations=("up", "spare"), mode="fallback"), ["cross 1 1 n", "cross 1 2", "expire cache 1 1 1 2"], None, "lost",
         [[], [], ["lost: spare of out of edge has no link"]]),
        (documents(elements=["ipVersion"]), ONE_WAY, None, "unassigned", [[], [], ["unassigned"], []]),
        (documents(), ONE_WAY, traffic(exempt=True), "exempt", [[], [], ["counted"], []]),
        (documents(elements=["ipVersion"]), ONE_WAY, traffic(exempt=True), "exempt and unassigned", [[], [], ["unassigned"], []]),
        (documents([point("in", "eth9", "all")]), ["cross 1 1", "cross 1 2"], None, "not metered", [[], []]),
    ],
)
def test_packets_end_somewhere(network, steps, declared, verdict, ends):
    made = run_of(network, steps, declared)
    assert (made.verdict(), [step.ends for step in made.steps]) == (verdict, ends)


def test_a_record_parts_where_it_goes_on_twice():
    network = documents(destinations=("up", "copy"))
    network["links"].append(link("edge", "out", "copy", "host"))
    made = run_of(network, ["cross 1 1 n", "expire cache 1 1 1", "arrive 2 1", "arrive 1 1", "cross 1 2"])
    assert (made.verdict(), made.parting()) == ("counted 2", 2)


def test_what_sees_the_packets_of_a_leaf_is_compared():
    network, region = Network(documents(SHARED, filters=[("ipVersion", "4")])), with_range(WHOLE, VERSION, (4, 4))
    sends = 'cache "flows": exporting process "out" sends to destination "up", which is linked to collecting process "collect" of host'
    sentences = [
        'the leaf names crossing 1 (edge eth0 ingress), observation point "in", selection process "some", cache "flows"',
        f'crossing 1 (edge eth0 ingress): observation point "in", selection process "some" selects all of these packets, {sends}',
        f'crossing 2 (edge eth1 egress): observation point "out", selection process "all" selects all of these packets, {sends}',
        'collecting process "collect" of host is the report\'s',
    ]
    due = leaf_names_due(network, [IN, OUT], region, ["1", "1", "1"])
    assert not list(leaf_faults(network, leaf_names_in(sentences), due))
    assert [it[0] for it in leaf_faults(network, leaf_names_in(sentences[:3]), due)] == ["reached"]
    assert [it[0] for it in leaf_faults(network, leaf_names_in(sentences[1:]), due)] == ["the leaf"]


def test_verdicts_are_read():
    assert kind_of("is counted 12 times instead of once") == "counted 12"
    assert kind_of("is counted once, and a record of it is unassigned") == "unassigned"
    assert kind_of("is counted, and its class is exempt") == "exempt"

"""Totals of the lab: texts of several programs, and how they are compared."""
from __future__ import annotations

from pathlib import Path

import pytest

from lab.captures import watched
from lab.checks import all_of, at_most_due, exactly_in, has_lost, in_fragments, is_refused, multiple, packets_between, without
from lab.collectors import dumped, printed
from lab.plan import Packet, as_ipv6, both_versions, fragments, short_lived, sums, usual
from lab.totals import differences, is_within, joined, less, read_answer, spelled, times, whole
from lab.verdicts import CERTIFICATE, Loss, Measured

TEXT = """keys 2
10.0.0.1 packets 2 octets 1580
2001:db8:0:0:0:0:0:1 packets 1 octets 60
unassigned 3
gaps 1
skipped 0
"""


def measured(found: dict[str, dict[str, tuple[int, int]]], due: dict[str, tuple[int, int]]) -> Measured:
    return Measured(CERTIFICATE, due, due, due, found)


def test_answer_of_collect() -> None:
    answer = read_answer(TEXT, 0)
    assert answer.totals == {"10.0.0.1": (2, 1580), "2001:db8:0:0:0:0:0:1": (1, 60)}
    assert answer.notes == {"unassigned": 3, "gaps": 1, "skipped": 0}


def test_answer_of_run() -> None:
    answer = read_answer("keys 1\nall packets 7 octets 700\nunassigned 0\nskipped other 2 malformed 1\n", 0)
    assert answer.totals == {"all": (7, 700)}
    assert answer.notes == {"unassigned": 0, "skipped other": 2, "malformed": 1}


def test_a_refusal_is_no_table() -> None:
    assert read_answer("refused 618 octet 0\n", 2).refusal == "refused 618 octet 0"


@pytest.mark.parametrize("text", ["keys 2\n10.0.0.1 packets 2 octets 3\nunassigned 0\n", "keys 0\nsome other line\n", ""])
def test_a_cut_or_strange_answer_is_refused(text: str) -> None:
    with pytest.raises(ValueError):
        read_answer(text, 0)


def test_spelling_of_addresses() -> None:
    assert spelled("10.1.0.11") == "10.1.0.11"
    assert spelled("2001:db8:1::11") == "2001:db8:1:0:0:0:0:11"
    assert spelled("fe80::1") == "fe80:0:0:0:0:0:0:1"
    assert spelled("::") == "0:0:0:0:0:0:0:0"
    assert spelled("2001:0db8:0000:0000:0000:0000:0000:0001") == "2001:db8:0:0:0:0:0:1"


def test_lines_of_nfdump() -> None:
    text = " 10.1.0.11 2 300\n 2001:db8::1   1 60\n10.1.0.11 1 28\nNo matching flows\n"
    assert dumped(text) == {"10.1.0.11": (3, 328), "2001:db8:0:0:0:0:0:1": (1, 60)}


def test_lines_of_nfacctd(tmp_path: Path) -> None:
    path = tmp_path / "print.json"
    assert printed(path) == {}
    path.write_text('{"event_type": "purge", "ip_src": "10.1.0.11", "packets": 2, "bytes": 300}\n'
                    '{"ip_src": "10.1.0.11", "packets": 1, "bytes": 28}\nnoise\n', encoding="utf-8")
    assert printed(path) == {"10.1.0.11": (3, 328)}


def test_arithmetic() -> None:
    one, other = {"a": (1, 10), "b": (2, 20)}, {"b": (2, 20), "c": (3, 30)}
    assert joined([one, other]) == {"a": (1, 10), "b": (4, 40), "c": (3, 30)}
    assert whole(one) == (3, 30)
    assert times(one, 2) == {"a": (2, 20), "b": (4, 40)}
    assert less(one, {"b": (2, 20)}) == {"a": (1, 10)}
    assert is_within({"a": (1, 9)}, one) and not is_within({"a": (2, 9)}, one) and not is_within({"z": (0, 0)}, one)


def test_differences_name_missing_keys() -> None:
    found = differences({"a": (1, 10)}, {"a": (1, 10), "b": (2, 20)})
    assert [str(one) for one in found] == ["b has 0 / 0, and 2 / 20 was expected"]


def test_plan_is_always_the_same() -> None:
    packets = usual(1000)
    assert packets == usual(1000) and len(packets) == 1000
    assert {one.length for one in packets} <= set(range(32, 1432))
    assert sums(packets[:2]) == {packets[0].source: (1, packets[0].length), packets[1].source: (1, packets[1].length)}


def test_plans_of_both_versions() -> None:
    packets = both_versions(20)
    assert [":" in one.source for one in packets] == [False] * 5 + [True] * 5 + [False] * 5 + [True] * 5
    assert as_ipv6("10.9.0.12") == "2001:db8:9::12"


def test_short_lived_packets() -> None:
    assert [one.ttl for one in short_lived(30)] == [1, *[64] * 9, 2, *[64] * 9, 1, *[64] * 9]


def test_fragments_worked_by_hand() -> None:
    def sizes(length: int) -> tuple[int, int]:
        packet = Packet("c1", "10.1.0.11", "10.9.0.11", 1, 2, length - 28, may_fragment=True)
        assert packet.length == length
        return in_fragments([packet], 600)["10.1.0.11"]
    assert sizes(600) == (1, 600)  # just fits
    assert sizes(601) == (2, 621)  # 576 octets of payload, then 5
    assert sizes(20 + 576 + 580) == (2, 20 + 576 + 580 + 20)  # the last fragment may fill the MTU
    assert sizes(20 + 576 + 581) == (3, 20 + 576 + 581 + 40)
    assert sizes(1427) == (3, 1427 + 40)


def test_fragments_of_the_plan() -> None:
    """tshark counted 1,788 packets of 755,148 octets after a link of 600 octets of MTU."""
    assert whole(in_fragments(fragments(1000), 600)) == (1788, 755148)


def test_checks() -> None:
    due = {"a": (2, 20), "b": (1, 5)}
    twice = measured({"nfacctd": times(due, 2)}, due)
    assert multiple(2)(twice) == [] and multiple(1)(twice)
    assert at_most_due()(twice) and at_most_due("nfcapd")(twice) == []
    assert packets_between(6, 6)(twice) == [] and packets_between(0, 5)(twice)
    assert exactly_in("nfacctd")(twice) and exactly_in("nfcapd")(twice) == ["nfcapd has no totals"]
    assert exactly_in("nfacctd")(measured({"nfacctd": due}, due)) == []
    assert all_of(multiple(2), packets_between(0, 5))(twice)


def test_checks_of_losses_and_refusals() -> None:
    one = measured({}, {})
    assert has_lost("ICMP error")(one)
    one.losses.append(Loss("messages on the wire", "answers with 2 ICMP errors"))
    assert has_lost("ICMP error")(one) == []
    assert is_refused("once collect", "refused 618")(one)
    one.refused["once collect"] = "refused 618 octet 0"
    assert is_refused("once collect", "refused 618")(one) == []


def test_check_of_packets_that_die() -> None:
    packets = [Packet("c1", "10.1.0.11", "10.9.0.11", 1, 2, 72, ttl=ttl) for ttl in (1, 64, 64)]
    check = without(lambda one: one.ttl == 1, packets)
    due = {"10.1.0.11": (3, 300)}
    assert check(measured({"nfacctd": {"10.1.0.11": (2, 200)}}, due)) == []
    assert check(measured({"nfacctd": due}, due))


def test_names_of_captures(tmp_path: Path) -> None:
    assert watched(tmp_path, "edge", "up0") == tmp_path / "at-edge-up0.pcap"

"""When the lab's network is ready: texts of `ip` and FRR, what must come to receivers, and programs that have read everything."""
from __future__ import annotations

import subprocess
import sys
import time
from pathlib import Path
from typing import Any, cast

import pytest

from lab import acquaintance, programs, receivers
from lab.namespaces import NO_TESTS
from lab.plan import Packet, acquainting, both_versions, exporting, short_lived, to_customers, usual
from lab.programs import LabError, Running, is_asleep, still_busy
from lab.readiness import unusable, wait_until_none, without_route
from lab.receivers import Place, Receiver, arrivals, received_in

OWNERS = {"10.9.0.11": "s1", "10.9.0.12": "s2", "2001:db8:9::11": "s1", "2001:db8:9::12": "s2",
          **{f"10.2.0.{last}": "c2" for last in range(11, 16)}}
SERVERS = [Place("s1", 5000, 5009, 4), Place("s2", 5000, 5009, 4)]
CUSTOMERS = [Place("c1", 4000, 4009), Place("c2", 4000, 4009)]


def test_addresses_that_are_tested_for_duplicates() -> None:
    links: list[dict[str, Any]] = [
        {"ifname": "up0", "addr_info": [{"local": "fe80::1", "tentative": True}, {"local": "2001:db8::1"}]},
        {"ifname": "up1", "addr_info": [{"local": "fe80::2", "dadfailed": True}]}, {"ifname": "lo"}]
    assert unusable("edge", links) == ["edge up0 fe80::1", "edge up1 fe80::2"]


def test_no_address_is_tested_in_the_lab() -> None:
    assert NO_TESTS["net/ipv6/conf/all/accept_dad"] == "0" == NO_TESTS["net/ipv6/conf/default/accept_dad"]


def test_routes_that_frr_lacks() -> None:
    text = ('{"2001:db8:9::/64": [{"protocol": "kernel", "installed": true}], "2001:db8:1::/64": [{"protocol": "kernel"}]}')
    assert without_route(text, ["2001:db8:9::/64", "2001:db8:1::/64", "2001:db8:2::/64"]) == ["2001:db8:1::/64", "2001:db8:2::/64"]
    assert without_route("", ["2001:db8:9::/64"]) == ["2001:db8:9::/64"]


def test_what_stays_missing_is_named() -> None:
    with pytest.raises(LabError, match="FRR lacks routes after 0 s: edge a"):
        wait_until_none(lambda: ["edge a"], "FRR lacks routes", 0.0)


def test_waiting_ends_when_nothing_is_missing() -> None:
    answers = iter([["a"], ["a"], []])
    wait_until_none(lambda: next(answers), "addresses", 10.0)


def test_counts_of_a_receiver() -> None:
    assert received_in("") == 0 == received_in("ready\n")
    assert received_in("ready\nreceived 9 answered 2\nreceived 12 answered 3\nreceived 1") == 12


def test_what_must_come_to_servers_and_customers() -> None:
    found = arrivals(usual(1000), [*SERVERS, *CUSTOMERS], OWNERS)
    assert sum(found[:2]) == 1000 and sum(found[2:]) == 250
    assert found == arrivals(both_versions(1000), [*SERVERS, *CUSTOMERS], OWNERS)


def test_packets_that_die_do_not_come() -> None:
    """One in ten dies; of those that come, the numbers that 4 divides and 10 does not are answered: 250 - 50."""
    found = arrivals(short_lived(1000), [*SERVERS, *CUSTOMERS], OWNERS)
    assert sum(found[:2]) == 900 and sum(found[2:]) == 200


def test_packets_between_customers_come_and_are_not_answered() -> None:
    places = [*SERVERS, Place("c1", 5000, 5009), Place("c2", 5000, 5009)]
    assert arrivals(to_customers(500), places, OWNERS) == [0, 0, 0, 500]


def test_a_packet_to_nobody_counts_nowhere() -> None:
    assert arrivals([Packet("c1", "10.1.0.11", "10.7.0.1", 4000, 5000, 20)], SERVERS, OWNERS) == [0, 0]
    assert arrivals([Packet("c1", "10.1.0.11", "10.9.0.11", 4000, 6000, 20)], SERVERS, OWNERS) == [0, 0]


def log(folder: Path, text: str) -> Running:
    path = folder / "receive.log"
    path.write_text(text, encoding="utf-8")
    return Running(cast(Any, None), "receive", path)


def test_a_packet_that_did_not_come_is_a_loss(tmp_path: Path) -> None:
    running = log(tmp_path, "ready\nreceived 499 answered 125\n")
    assert [str(one) for one in receivers.lost([Receiver(SERVERS[0], running, 500)])] == ["receiver at s1: 499 of 500 packets came"]
    assert receivers.lost([Receiver(SERVERS[0], running, 499)]) == []
    began = time.monotonic()
    receivers.wait([Receiver(SERVERS[0], running, 500)], 0.1)
    assert time.monotonic() - began >= 0.1


def test_acquainting_packets() -> None:
    found = acquainting(usual(1000))
    assert len(found) == 20 and {(one.source_port, one.destination_port) for one in found} == {(4000, 5000)}
    assert len(acquainting(both_versions(1000))) == 40 and acquainting(short_lived(1000))[0].ttl == 64
    places = acquaintance.places_of(found, OWNERS)
    assert places == [Place("s1", 5000, 5000, 1), Place("s2", 5000, 5000, 1), Place("c1", 4000, 4000), Place("c2", 4000, 4000)]
    assert sum(arrivals(found, places, OWNERS)) == 40


def test_each_exporter_talks_with_each_collector() -> None:
    hosts = [(one.host, one.destination) for one in exporting()]
    assert ("edge", "172.31.0.1") in hosts and ("sw", "172.31.0.6") in hosts and ("med1", "172.31.0.1") in hosts
    assert all(host != "bill" for host, _ in hosts) and len(hosts) == len(set(hosts)) == 13


@pytest.mark.parametrize("answers, talks", [([["x"], ["x"], []], 3), ([[]], 1)])
def test_hosts_talk_until_nothing_is_lost(answers: list[list[str]], talks: int, monkeypatch: pytest.MonkeyPatch) -> None:
    left = list(answers)
    monkeypatch.setattr(acquaintance, "talk", lambda *_: left.pop(0))
    acquaintance.acquaint(Path("none"), usual(1), OWNERS)
    assert len(answers) - len(left) == talks


def test_a_network_that_loses_packets_is_no_lab(monkeypatch: pytest.MonkeyPatch) -> None:
    monkeypatch.setattr(acquaintance, "talk", lambda *_: ["receiver at s1: 1 of 2 packets came"])
    with pytest.raises(LabError, match="loses packets before anything is metered: receiver at s1"):
        acquaintance.acquaint(Path("none"), usual(1), OWNERS)


def running(folder: Path, code: str) -> Running:
    path = folder / "log"
    path.write_bytes(b"")
    return Running(subprocess.Popen([sys.executable, "-c", code]), "a program", path)


def test_a_program_that_works_has_not_read_everything(tmp_path: Path) -> None:
    busy, idle = running(tmp_path, "while True: pass"), running(tmp_path, "import time; time.sleep(60)")
    try:
        assert still_busy([busy, idle], 2.0) == [busy]
        assert still_busy([idle], 10.0) == []
    finally:
        busy.end(9)
        idle.end(9)
    assert is_asleep(busy.process.pid) and still_busy([], 10.0) == []


def test_threads_that_work_count_too(tmp_path: Path) -> None:
    code = "import threading, time\ndef work():\n    while True: pass\nthreading.Thread(target=work, daemon=True).start()\ntime.sleep(60)"
    one = running(tmp_path, code)
    try:
        assert still_busy([one], 2.0) == [one]
    finally:
        one.end(9)


def test_agents_start_without_the_site() -> None:
    assert programs.agent("send", "plan")[1:4] == ["-B", "-I", "-S"]

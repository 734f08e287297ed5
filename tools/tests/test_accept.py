"""Each topic of [accept] is one that readers report, and accepts exactly what is of it."""
from __future__ import annotations

import re

import pytest

from conftest import TOP
from expected import SAMPLES, read_text
from once_tools.model import Grade, Place, Topic
from once_tools.project import Accept
from once_tools.report import Report, of_device

ROUTER = ("flow record R\n match ipv4 source address\n collect counter packets long\n collect counter bytes long\n"
          "flow exporter E\n destination 192.0.2.10\n transport udp 4739\nflow monitor M\n record R\n exporter E\n"
          "sampler S\n mode random 1 out-of 9\ninterface GigabitEthernet0/0\n ip flow monitor M input\n")
PROBE = "pcap_interface: eth0\nplugins: nfprobe[a]\nnfprobe_receiver: 192.0.2.10:4739\n"
VRP = (SAMPLES / "huawei-vrp" / "ne-1.cfg").read_text()
XR = "flow exporter-map E\n destination 192.0.2.10\n transport udp 4739\nflow monitor-map M\n record mpls\n exporter E\n"

# A configuration for each topic, and words of the finding. A key by masks: addresses are replaced by prefixes.
CASES = [
    (Topic.SAMPLER, "cisco-ios", ROUTER.replace("monitor M input", "monitor M sampler S input"), "one packet in 9"),
    (Topic.COUNTERS, "cisco-ios", ROUTER.replace(" collect counter packets long\n", ""), "packets"),
    (Topic.FILTER, "pmacctd", PROBE + "aggregate_filter[a]: portrange 1-9000\n", "filter"),
    (Topic.NAT, "vyos", (SAMPLES / "vyos" / "gw-1.set").read_text(), "nat source rule"),
    (Topic.MPLS, "cisco-xr", XR + "interface HundredGigE0/0/0/0\n flow mpls monitor M ingress\n", "labels"),
    (Topic.MASK, "pmacctd", PROBE + "networks_file: n.lst\nnetworks_file_filter: true\n", "counted as 0.0.0.0"),
    (Topic.MASK, "nfacctd", "plugins: print[p]\naggregate[p]: src_host\nnetworks_file_filter: true\n", "counted as 0.0.0.0"),
    (Topic.MASK, "nokia-sros", "/configure cflowd collector 192.0.2.10:4739 version 8\n/configure cflowd collector "
     "192.0.2.10:4739 no shutdown\n/configure cflowd no shutdown\n", "version 8"),
    (Topic.UNKNOWN, "cisco-ios", ROUTER + " ip flow frobnicate\n", "frobnicate"),
    (Topic.OTHER, "nfacctd", "plugins: print[p]\naggregate[p]: src_host\nnfacctd_ipv6_only: true\n", "over IPv4")]


@pytest.mark.parametrize("topic, kind, text, words", CASES)
def test_a_topic_accepts_what_is_of_it_alone(topic: Topic, kind: str, text: str, words: str) -> None:
    lost = [one for one in of_device(read_text(kind, text).findings, "device") if one.grade is Grade.NOT_CARRIED_OVER]
    mine = [one for one in lost if one.topic is topic]
    assert any(words in one.says + one.place.text for one in mine)
    for other in Topic:
        report = Report(mine, [Accept(other, "device", Place(""))])
        assert report.status == (0 if other is topic else 1)
        assert all(line.startswith("accepted " if other is topic else "not carried over ") for line in report.lines())


def test_each_topic_has_a_case() -> None:
    assert {topic for topic, *_ in CASES} == set(Topic)


def test_the_topics_are_those_of_the_documentation() -> None:
    text = (TOP / "tools" / "README.md").read_text(encoding="utf-8")
    table = text.partition("### What [accept] accepts")[2].partition("\n#")[0]
    assert re.findall(r"^\| `(\w+)` \|", table, flags=re.M) == [topic.value for topic in Topic]

"""Mutated configurations: no reader fails, and none passes over a change in silence.

A change is heard of if the device differs, a finding differs, or the reader refuses the text. Lines that do not bear on
what is metered are listed by sample, and so are words in which a change of spelling is no change of meaning.
"""
from __future__ import annotations

import random
import re
from dataclasses import asdict

import pytest

from expected import SAMPLES
from once_tools.model import Device, Unusable
from once_tools.readers import READERS
from once_tools.report import line_of
from once_tools.source import Source, read_source

COUNT = 300
FILES = {"pmacctd": "pmacct/pmacctd.conf", "softflowd": "pmacct/softflowd.service", "nfacctd": "pmacct/nfacctd.conf",
         "nfcapd": "pmacct/nfcapd.args", "openvswitch": "openvswitch/hv-1.ovsdb.json",
         "junos": "juniper-junos/mx-1.set", "cisco-ios": "cisco-ios-xe/edge-1.cfg",
         "cisco-xr": "cisco-ios-xr/core-1.cfg", "vyos": "vyos/gw-1.set", "arista-eos": "arista-eos/leaf-1.cfg",
         "mikrotik": "mikrotik/gw-6.rsc", "nokia-sros": "nokia-sros/pe-1.cfg", "huawei": "huawei-vrp/ne-1.cfg",
         # After a space, another form of a kind's text.
         "vyos boot": "vyos/gw-1.boot", "huawei aggregation": "huawei-vrp/ne-2.cfg",
         "nokia-sros filters": "nokia-sros/pe-2.cfg", "nokia-sros md": "nokia-sros/pe-1.curly",
         "nokia-sros flat": "nokia-sros/pe-1.flat"}
OTHERS = {"nfacctd": ["pmacct/tee_receivers.lst"]}
# Lines whose change may go unheard: comments, and what does not bear on which packets are counted in which record.
HARMLESS = {
    "pmacctd": r"\s*[!#].*|\s*$|(daemonize|imt_path\[\w+\]|plugin_buffer_size|aggregate\[local\]).*",
    "softflowd": r"\s*#.*|\s*$|\[Service\]|ExecStart=$",
    "nfacctd": r"\s*[!#].*|\s*$|(nfacctd_time_new|print_\w+\[bill\]|nfacctd_renormalize|tee_transparent\[copy\]).*",
    "nfcapd": r"$^",
    "junos": r"\s*#.*|\s*$|.*(description|template-refresh-rate|static route|host-name).*"
             r"|.*xe-0/0/3 unit 0 family inet sampling( input)?"
             r"|.*(term management then accept|customers then accept|rest then accept)",
    "cisco-ios": r"\s*!.*|\s*$|\s*(version|hostname|description|collect (interface|timestamp)|template data).*|end",
    "cisco-xr": r"\s*!.*|\s*$|\s*(options interface-table|template|description|hostname).*|end|\s*cache timeout.*|\s*source Loop.*"
                r"|\s*shutdown|\s*interface Loop.*| ipv4 address 198.51.100.2.*",
    "vyos": r"\s*#.*|\s*$|.*(description|disable-imt|expiry-interval|protocols static|host-name|translation).*",
    "vyos boot": r"\s*//.*|\s*\}?$|\s*(description|disable-imt|expiry-interval|host-name|address masquerade|translation|loopback|timeout).*"
                 r"|(protocols|    static|        route|            next-hop|    ethernet).*",
    "mikrotik": r"#.*|\s*$|/ip firewall nat.*|/ip address.*|/system identity.*|/interface ethernet.*",
    "nokia-sros": r"\s*#.*|\s*$|\s*(exit|template-set|system|name|configure|shutdown|router).*|\s*collector 192.0.2.20.*",
    "nokia-sros filters": r"\s*(#.*|exit|default-action.*|configure|filter|router.*|cflowd|entry 20 create)?$"
                          r"|\s*(filter-sample|match protocol udp|src-ip 10.1.2.0/24|dst-port eq 53)",  # entry 20 is not active

    "nokia-sros md": r"\s*#.*|\s*\}?$|\s*(template-set|name|system|configure|admin-state disable|router|interface|ipv4|primary).*",
    "nokia-sros flat": r"\s*#.*|\s*$|/configure (system name|cflowd collector 192.0.2.20).*|.*template-set.*",
    "huawei": r"\s*#.*|\s*$|return|\s*(sysname|description|ip netstream timeout).*",
    "huawei aggregation": r"\s*#.*|\s*$|return|\s*(sysname|description|ip netstream timeout|ip netstream export version 9|mask).*"
                          r"| ip netstream export host 192.0.2.10 4739",
    "arista-eos": r"\s*!.*|\s*$|\s*(description|hostname|template interval|no switchport|record export|format ipfix|local interface).*|end"
                  r"|\s*interface Ethernet2|\s*channel-group.*",
}
# Kinds whose statements look alike, so that each may be read as the other.
ALIKE = [{"pmacctd", "nfacctd"}, {"junos", "vyos"}, {"cisco-ios", "huawei"}]
# Lines that say what holds without them too.
USUAL = {"pmacctd": r"nfprobe_version: 10|aggregate\[billing\]: src_host, dst_host, src_port, dst_port, proto, tos|nfprobe_engine\[noc\].*"}


def kind_of(form: str) -> str:
    """Returns the kind of a form of its texts."""
    return form.partition(" ")[0]


def without_usual_words(kind: str, text: str) -> list[str]:
    """Returns the words of a text, without those that mean the same if they are left out."""
    return [word for word in text.split() if kind != "nokia-sros flat" or word not in ('"Base"', "/configure")]


def sources(kind: str) -> list[Source]:
    return [read_source(SAMPLES / file) for file in [FILES[kind], *OTHERS.get(kind, [])]]


def values(device: Device) -> str:
    """Returns all of a device but the places of its parts, which move with its lines."""
    text = re.sub(r"'place': \{.*?\}|'interface_places': \[.*?\]|'?line'?[:=] ?\d+", "", str(asdict(device)),
                  flags=re.S)
    return re.sub(r"'findings': \[.*?\](, 'hostname')", r"\1", text, flags=re.S)


def heard(kind: str, texts: list[Source]) -> tuple[str, frozenset[str]]:
    """Returns what a reader makes of texts: the device without places, and its findings without line numbers."""
    try:
        device = READERS[kind_of(kind)].read("device", texts, {})
    except Unusable as error:
        return "unusable", frozenset([error.finding.says])
    lines = [line_of(one) for one in device.findings]
    assert all("Traceback" not in line for line in lines)
    return values(device), frozenset(re.sub(r":\d+|\bline \d+", "", line) for line in lines)


def mutate(text: str, source: random.Random) -> tuple[str, str, int]:
    """Returns a text with one change, what was done, and the index of the line that was changed."""
    lines = text.split("\n")
    place = source.randrange(len(lines))
    what = source.choice(["drop", "double", "swap", "misspell", "cut", "drop word"])
    line = lines[place]
    if what == "drop":
        del lines[place]
    elif what == "double":
        lines.insert(place, line)
    elif what == "swap" and place + 1 < len(lines):
        lines[place], lines[place + 1] = lines[place + 1], line
    elif what == "cut":
        lines[place] = line[:source.randrange(len(line) + 1)]
    elif what == "drop word" and line.split():
        words = line.split(" ")
        del words[source.randrange(len(words))]
        lines[place] = " ".join(words)
    elif line:
        at = source.randrange(len(line))
        lines[place] = line[:at] + source.choice("xq7") + line[at + 1:]
        what = "misspell"
    return "\n".join(lines), what, place


def is_silent_by_right(kind: str, what: str, before: str, text: str, place: int) -> bool:
    """Returns whether a change has no effect: none at all, an order that means nothing, a repetition, a harmless line."""
    line = before.split("\n")[place]
    if without_usual_words(kind, before) == without_usual_words(kind, text) or what in ("double", "swap") or re.fullmatch(HARMLESS[kind], line):
        return True
    return what in ("drop", "cut") and re.fullmatch(USUAL.get(kind, "$^"), line) is not None


@pytest.mark.parametrize("kind", HARMLESS)
def test_no_change_is_passed_over_in_silence(kind: str) -> None:
    first, *others = sources(kind)
    usual = heard(kind, [first, *others])
    chance = random.Random(kind)
    silent = []
    for _ in range(COUNT):
        text, what, place = mutate(first.text, chance)
        found = heard(kind, [Source(first.name, text), *others])
        if found == usual and not is_silent_by_right(kind, what, first.text, text, place):
            silent.append((what, first.text.split("\n")[place], text.split("\n")[place] if place < len(text.split("\n"))
                           else ""))
    assert not silent


@pytest.mark.parametrize("kind", FILES)
@pytest.mark.parametrize("seed", range(3))
def test_heaps_of_changes_do_not_make_a_reader_fail(kind: str, seed: int) -> None:
    first, *others = sources(kind)
    chance = random.Random(seed)
    for _ in range(40):
        text = first.text
        for _ in range(chance.randrange(1, 12)):
            text = mutate(text, chance)[0]
        heard(kind, [Source(first.name, text), *others])


def hostile(text: str) -> dict[str, str]:
    lines = text.split("\n")
    middle = len(lines) // 2
    return {
        "empty": "",
        "a line of a megabyte": "\n".join([*lines[:middle], "x" * 1_000_000, *lines[middle:]]),
        "a line of a megabyte of words": "\n".join([*lines[:middle], "set a " * 160_000, *lines[middle:]]),
        "octets that are no UTF-8": text.replace("e", "\\xe9"),
        "carriage returns": text.replace("\n", "\r\n"),
        "a pager": text.replace("\n", "\n--More-- \x08\x08\x08", 5),
        "control characters": text.replace(" ", "\x00", 9),
        "surrogates and marks": "\ufeff" + text.replace("1", "\u0661"),
        "long names": re.sub(r"\b(billing|BILL|V4|ALL|eth0)\b", "n" * 300, text),
        "deep braces": "a {" * 20_000,
        "deep indentation": "\n".join(" " * place + "flow x" for place in range(500)),
    }


@pytest.mark.parametrize("kind", FILES)
def test_hostile_texts_do_not_make_a_reader_fail(kind: str) -> None:
    first, *others = sources(kind)
    for text in hostile(first.text).values():
        heard(kind, [Source(first.name, text), *others])
        READERS[kind_of(kind)].detect(text)


@pytest.mark.parametrize("kind", FILES)
def test_carriage_returns_and_pagers_change_nothing(kind: str) -> None:
    first, *others = sources(kind)
    usual = heard(kind, [first, *others])
    texts = [first.text.replace("\n", "\r\n")]
    if kind not in ("openvswitch", "softflowd", "nfcapd"):
        texts.append(first.text.replace("\n", "\n --More-- \x08\x08\x08\x08", 3))
    for text in texts:
        assert heard(kind, [Source(first.name, text), *others]) == usual


@pytest.mark.parametrize("kind", [kind for kind in FILES if kind not in ("openvswitch", "nfcapd", "softflowd")])
def test_a_comment_moves_line_numbers_alone(kind: str) -> None:
    first, *others = sources(kind)
    mark = "!" if kind in ("pmacctd", "nfacctd", "cisco-xr", "arista-eos") else "#"
    assert heard(kind, [Source(first.name, f"{mark} a comment\n{first.text}"),
                        *others]) == heard(kind, [first, *others])


@pytest.mark.parametrize("kind", FILES)
def test_a_text_of_another_kind_is_refused(kind: str) -> None:
    for other in FILES:
        if kind_of(other) != kind_of(kind) and {kind_of(other), kind_of(kind)} not in ALIKE:
            what, _ = heard(kind, [Source("config", (SAMPLES / FILES[other]).read_text())])
            assert what == "unusable", (other, what[:200])

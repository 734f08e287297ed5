#!/usr/bin/env python3
"""make_capture_frames.py [FOLDER]: writes the captures of crates/fx_tests_values/src/frames, and what each frame holds.

scapy (Debian's package python3-scapy, 2.5.0: run this with /usr/bin/python3) makes the 138 frames and the captures, in both octet
orders, with microseconds and nanoseconds, of Ethernet and of raw packets; tshark (4.0.17) reports each frame's fields. The
test `holds_what_tshark_tells` compares them with what the reader lends and skips. Made again, the files are the same. What a
frame holds follows from these fields by our rules (docs/DECISIONS.md, "Captures and streams"), by which a reader reads less
than tshark does:
- EtherTypes 0x8100 and 0x88a8 are tags; after them 0x0800 and 0x86dd are packets, all others are other frames;
- the protocol of IPv6 is the first of tshark's next headers that isn't skipped (0, 43, 44, 60); of such a header
  the length is read too, or the fragment's offset, and after a later fragment's header nothing;
- only protocols 6, 17 and 132 have ports, and those of IPv4 only at fragment offset 0: there are none after an
  authentication header or in a tunnel, where tshark reports some;
- a packet of IPv6 has 40 octets and its payload length, so the hop-by-hop header of a jumbogram isn't there;
- a frame is malformed if tshark doesn't report a field that is read, or reports a version or a length that can't be.

Once, on 2026-11-24, 120,000 random frames were compared in the same way, by a small program over fx_pcap that wasn't kept: frames
of scapy with up to three tags, five extension headers and tunnels, half of them changed or cut, in both orders and of both link
types. On 119,277 the reader and tshark agreed: 100,943 packets with the same fields, 13,842 malformed frames, 4,492 others. On 696
the reader found a packet of which tshark reported less (_ws.malformed, _ws.short, _ws.unreassembled), stopping at what the
reader skips: wrong contents of an extension header, options of IPv4 that weren't captured, the rest of SCTP's header, the last
four octets of a fragment header. On 27 raw frames of other versions tshark reported no version: 18 are short, 9 begin with ten
octets of 0, which it takes for a link's header. On all 723 the reader answered as a few lines of Python do that read the octets
by the RFCs.
"""
import ipaddress
import os
import sys
import tempfile

from program import NOWHERE, succeed
import scapy
from scapy.all import ARP, IP, TCP, UDP, Dot1AD, Dot1Q, Ether, ICMP, Padding, RawPcapWriter
from scapy.contrib.igmp import IGMP
from scapy.contrib.mpls import MPLS
from scapy.layers.inet import IPOption_NOP, IPOption_Router_Alert, IPOption_Timestamp
from scapy.layers.inet6 import (HAO, ICMPv6EchoRequest, ICMPv6MLReport, ICMPv6ND_NS, ICMPv6TimeExceeded, IPv6, Jumbo,
                                IPv6ExtHdrDestOpt, IPv6ExtHdrFragment, IPv6ExtHdrHopByHop, IPv6ExtHdrRouting,
                                IPv6ExtHdrSegmentRouting, MIP6MH_HoTI, Pad1, PadN, RouterAlert)
from scapy.layers.ipsec import AH, ESP
from scapy.layers.l2 import GRE, LLC, STP, Dot3
from scapy.layers.ppp import PPP, PPPoE
from scapy.layers.sctp import SCTP

HERE = os.path.dirname(os.path.abspath(__file__))
FOLDER = os.path.join(HERE, "..", "crates", "fx_tests_values", "src", "frames")
ADDRESSES = {"FROM": "2001:db8::1", "TO": "2001:db8:ffff:ffff:fedc:ba98:7654:3210", "NEAR": "fe80::1",
             "NODES": "ff02::1", "NOBODY": "::", "LAST": "ffff:ffff:ffff:ffff:ffff:ffff:ffff:ffff",
             "FROM_4": "10.0.0.1", "TO_4": "192.0.2.1", "LAST_4": "255.255.255.255"}
NAMES = {ipaddress.ip_address(address): name for name, address in ADDRESSES.items()}

# ---- the frames

PORTS = {"sport": 1000, "dport": 443}
ANSWER = {"sport": 53, "dport": 65535}
DATAGRAM = bytes(UDP(**PORTS, len=8, chksum=0))


def ethernet(ether_type=None):
    ends = {"src": "02:00:00:00:00:01", "dst": "02:00:00:00:00:02"}
    return Ether(**ends) if ether_type is None else Ether(type=ether_type, **ends)


def ipv6(tc=0, **fields):
    return IPv6(**{"src": ADDRESSES["FROM"], "dst": ADDRESSES["TO"], "tc": tc, **fields})


def ipv4(**fields):
    return IP(**{"src": ADDRESSES["FROM_4"], "dst": ADDRESSES["TO_4"], "tos": 0, **fields})


def hop(*options, **fields):
    return IPv6ExtHdrHopByHop(options=list(options) or [RouterAlert()], **fields)


def options(*options, **fields):
    return IPv6ExtHdrDestOpt(options=list(options) or [PadN(optdata=bytes(4))], **fields)


def routing(count=1, **fields):
    return IPv6ExtHdrRouting(addresses=["2001:db8::%x" % (9 + n) for n in range(count)], **fields)


def segments(count=1):
    return IPv6ExtHdrSegmentRouting(addresses=["2001:db8::%x" % (9 + n) for n in range(count)])


def fragment(offset=0, m=0, **fields):
    return IPv6ExtHdrFragment(offset=offset, m=m, id=7, **fields)


def authentication(following):
    return AH(nh=following, payloadlen=4, spi=256, seq=1, icv=bytes(range(12)))


def wellformed6():
    yield "UDP", ipv6(184) / UDP(**PORTS)
    yield "TCP, the greatest class", ipv6(255, fl=0xfffff) / TCP(**ANSWER)
    yield "SCTP", ipv6(1) / SCTP(**PORTS)
    yield "echo request", ipv6(128) / ICMPv6EchoRequest()
    yield "neighbour solicitation", ipv6(src=ADDRESSES["NEAR"], dst=ADDRESSES["NODES"]) / ICMPv6ND_NS(tgt="fe80::2")
    yield "error that quotes UDP", ipv6() / ICMPv6TimeExceeded() / ipv6() / UDP(**PORTS)
    yield "ESP", ipv6() / ESP(spi=256, seq=1, data=bytes(12))
    yield "no next header", ipv6(src=ADDRESSES["NOBODY"], dst=ADDRESSES["LAST"], nh=59)
    yield "authentication, TCP", ipv6() / authentication(6) / TCP(**PORTS)
    yield "hop-by-hop, UDP", ipv6() / hop() / UDP(**PORTS)
    yield "hop-by-hop, multicast listener report", ipv6() / hop(RouterAlert(), Pad1(), Pad1()) / ICMPv6MLReport()
    yield "hop-by-hop of 48 octets, TCP", ipv6() / hop(RouterAlert(), PadN(optdata=bytes(40))) / TCP(**PORTS)
    yield "routing of type 2, TCP", ipv6() / routing(type=2, segleft=1) / TCP(**PORTS)
    yield "routing of an unknown type, SCTP", ipv6() / routing(2, type=200) / SCTP(**PORTS)
    yield "segment routing, UDP", ipv6() / segments(2) / UDP(**PORTS)
    yield "destination options, SCTP", ipv6() / options() / SCTP(**ANSWER)
    yield "home address, UDP", ipv6() / options(HAO(hoa="2001:db8::9")) / UDP(**PORTS)
    yield "first fragment, UDP", ipv6() / fragment(m=1) / UDP(**PORTS, len=1000) / bytes(8)
    yield "first fragment with reserved bits, TCP", ipv6() / fragment(m=1, res1=255, res2=3) / TCP(**PORTS)
    yield "fragment that is whole, SCTP", ipv6() / fragment() / SCTP(**PORTS)
    yield "first fragment, echo request", ipv6() / fragment(m=1) / ICMPv6EchoRequest()
    yield "later fragment of UDP", ipv6() / fragment(1, 1, nh=17) / DATAGRAM
    yield "last fragment of TCP, the greatest offset", ipv6() / fragment(8191, nh=6) / DATAGRAM
    yield "later fragment of destination options", ipv6() / fragment(32, nh=60) / (bytes(options(nh=17)) + DATAGRAM)
    yield "destination options, hop-by-hop, UDP", ipv6() / options() / hop() / UDP(**PORTS)
    yield "all in the order of RFC 8200, TCP", (
        ipv6(8) / hop() / options() / routing() / fragment(m=1) / options() / TCP(**PORTS))
    yield "the same with authentication", (
        ipv6() / hop() / options() / routing() / fragment() / authentication(60) / options() / UDP(**PORTS))
    yield "the same as a later fragment", ipv6() / hop() / options() / routing() / fragment(9, nh=17) / DATAGRAM
    yield "routing and options twice, UDP", (
        ipv6() / routing() / options() / segments() / options() / UDP(**PORTS))
    yield "two fragment headers, the second later", ipv6() / fragment() / fragment(2, nh=17) / DATAGRAM
    yield "fragment header, then hop-by-hop, UDP", ipv6() / fragment() / hop() / UDP(**PORTS)
    yield "hop-by-hop, destination options, ESP", ipv6() / hop() / options() / ESP(spi=256, seq=1, data=bytes(4))
    yield "routing, no next header", ipv6() / routing(nh=59)
    yield "mobility", ipv6() / MIP6MH_HoTI(cookie=bytes(8))
    yield "IPv6 in IPv6", ipv6(4) / IPv6(src="2001:db8::5", dst="2001:db8::6", tc=8) / UDP(**PORTS)
    yield "IPv4 in IPv6, behind options", ipv6() / options() / ipv4(tos=8) / UDP(**PORTS)
    yield "GRE", ipv6() / GRE() / ipv4() / UDP(**PORTS)
    yield "UDP-Lite, whose ports aren't read", ipv6(nh=136) / DATAGRAM
    yield "DCCP, likewise", ipv6(nh=33) / bytes.fromhex("03e801bb040000000000000000000001")


def cut6():
    """Packets of IPv6 that are cut or malformed: the packet, and how many of its octets were captured."""
    udp, many = ipv6() / UDP(**PORTS), ipv6() / hop() / options() / UDP(**PORTS)
    yield "the fixed header without its last octet", udp, 39
    yield "a fixed header, UDP", udp, 40
    yield "three octets of UDP", udp, 43
    yield "four octets of UDP", udp, 44
    yield "payload length 3, UDP", ipv6(plen=3) / UDP(**PORTS), None
    yield "payload length 4, UDP", ipv6(plen=4) / UDP(**PORTS), None
    yield "payload length 0, UDP", ipv6(plen=0) / UDP(**PORTS), None
    yield "the greatest payload length, UDP", ipv6(plen=65535) / UDP(**PORTS), None
    yield "jumbogram, UDP", ipv6(plen=0) / hop(Jumbo(jumboplen=65544)) / UDP(**PORTS), None
    yield "an octet of hop-by-hop", many, 41
    yield "two octets of hop-by-hop", many, 42
    yield "an octet of destination options", many, 49
    yield "an octet of a routing header", ipv6() / routing(nh=59), 41
    yield "destination options, UDP", many, 56
    yield "two octets of hop-by-hop, echo request", ipv6() / hop() / ICMPv6EchoRequest(), 42
    yield "payload length 1, hop-by-hop", ipv6(plen=1) / hop() / UDP(**PORTS), None
    yield "hop-by-hop past the payload length, UDP", ipv6() / hop(len=3) / UDP(**PORTS), None
    yield "three octets of a fragment header", ipv6() / fragment() / UDP(**PORTS), 43
    yield "a later fragment's header", ipv6() / fragment(1, nh=17) / bytes(16), 48
    yield "a first fragment's header, TCP", ipv6() / fragment(m=1) / TCP(**PORTS), 48
    yield "authentication", ipv6() / authentication(17) / UDP(**PORTS), 40


def wellformed4():
    yield "UDP", ipv4(tos=184) / UDP(**PORTS)
    yield "TCP with options", ipv4(tos=255) / TCP(**ANSWER, options=[("MSS", 1460), ("NOP", None)])
    yield "TCP behind options", ipv4(options=[IPOption_NOP()] * 4) / TCP(**PORTS)
    yield "SCTP", ipv4() / SCTP(**PORTS)
    yield "echo request", ipv4(src=ADDRESSES["LAST_4"]) / ICMP()
    yield "error that quotes UDP", ipv4() / ICMP(type=11) / ipv4() / UDP(**PORTS)
    yield "IGMP behind a router alert", ipv4(options=[IPOption_Router_Alert()]) / IGMP()
    yield "40 octets of options, UDP", ipv4(options=[IPOption_Timestamp(length=40)]) / UDP(**PORTS)
    yield "first fragment, UDP", ipv4(flags="MF") / UDP(**PORTS, len=1000) / bytes(8)
    yield "its reserved bit set, TCP", ipv4(flags=7) / TCP(**PORTS)
    yield "later fragment, UDP", ipv4(flags="MF", frag=1, proto=17) / DATAGRAM
    yield "last fragment, TCP", ipv4(frag=8191, proto=6) / DATAGRAM
    yield "ESP", ipv4() / ESP(spi=256, seq=1, data=bytes(12))
    yield "authentication, TCP", ipv4() / authentication(6) / TCP(**PORTS)
    yield "IPv6 in IPv4", ipv4() / ipv6(255) / UDP(**PORTS)


def cut4():
    udp = ipv4() / UDP(**PORTS)
    yield "the header without its last octet", udp, 19
    yield "three octets of UDP", udp, 23
    yield "four octets of UDP", udp, 24
    yield "a header of 16 octets", ipv4(ihl=4) / UDP(**PORTS), None
    yield "total length 19", ipv4(len=19) / UDP(**PORTS), None
    yield "total length below the header", ipv4(ihl=15, len=59) / bytes(60), None
    yield "total length 23, UDP", ipv4(len=23) / UDP(**PORTS), None
    yield "the greatest total length, UDP", ipv4(len=65535) / UDP(**PORTS), None
    yield "a later fragment's header", ipv4(frag=1, proto=17) / bytes(16), 20


def captured(frame, count=None, before=0):
    """A frame's octets, of which this many were captured after the link's header, and its length."""
    octets = bytes(frame)
    return octets[:None if count is None else before + count], len(octets)


def of_ipv6():
    for name, packet in wellformed6():
        yield name, captured(ethernet() / packet)
    for name, packet, count in cut6():
        yield name, captured(ethernet() / packet, count, 14)


def tagged():
    """Tags and EtherTypes."""
    dot3 = Dot3(src="02:00:00:00:00:01", dst="01:80:c2:00:00:00")
    six, four = ipv6(4) / UDP(**PORTS), ipv4(tos=4) / UDP(**PORTS)
    yield "802.1Q, IPv6", captured(ethernet() / Dot1Q(vlan=5) / six)
    yield "802.1Q, IPv4", captured(ethernet() / Dot1Q(vlan=5) / four)
    yield "802.1Q twice, IPv6", captured(ethernet() / Dot1Q() / Dot1Q() / six)
    yield "802.1Q twice, IPv4", captured(ethernet() / Dot1Q() / Dot1Q() / four)
    yield "802.1ad, IPv6", captured(ethernet() / Dot1AD(prio=7) / six)
    yield "802.1ad twice, IPv4", captured(ethernet() / Dot1AD() / Dot1AD() / four)
    yield "802.1ad and 802.1Q, IPv6", captured(ethernet() / Dot1AD() / Dot1Q() / six)
    yield "802.1ad and 802.1Q twice, IPv4", captured(ethernet() / Dot1AD() / Dot1Q() / Dot1Q() / four)
    yield "ARP", captured(ethernet() / ARP(), 2, 14)
    yield "802.1Q, ARP", captured(ethernet() / Dot1Q() / ARP(), 2, 18)
    yield "EtherType 0x9100, which is no tag", captured(ethernet(0x9100) / Dot1Q(type=0x86dd) / six)
    yield "MPLS, IPv6", captured(ethernet() / MPLS(s=1) / six)
    yield "PPPoE, IPv4", captured(ethernet() / PPPoE() / PPP() / four)
    yield "a length in place of an EtherType", captured(dot3 / LLC() / STP(), 3, 14)
    yield "1501, neither a length nor an EtherType", captured(ethernet(1501) / bytes(six), 0, 14)
    yield "a length behind a tag", captured(ethernet() / Dot1Q(type=38) / LLC() / STP(), 3, 18)
    yield "wrong version, IPv4 under 0x86dd", captured(ethernet(0x86dd) / bytes(four))
    yield "wrong version, IPv6 under 0x0800", captured(ethernet(0x0800) / bytes(six))
    yield "version 5 under 0x86dd", captured(ethernet(0x86dd) / bytes(ipv6(version=5) / UDP(**PORTS)))
    yield "nothing behind 0x86dd", captured(ethernet() / six, 0, 14)
    yield "an octet of the EtherType", captured(ethernet() / six, 13)
    yield "a tag's first two octets", captured(ethernet() / Dot1Q() / six, 14)
    yield "a tag without its EtherType", captured(ethernet() / Dot1Q() / six, 16)
    yield "a second tag's first three octets", captured(ethernet() / Dot1AD() / Dot1Q() / six, 19)
    yield "nothing", captured(b"")
    for name, packet in wellformed4():
        yield name, captured(ethernet() / packet)
    for name, packet, count in cut4():
        yield name, captured(ethernet() / packet, count, 14)
    yield "padding of a short frame", captured(ethernet() / four / Padding(bytes(18)))


def raw_of(*words):
    """Packets of both versions by themselves: those whose names begin with a word."""
    whole = [("IPv6: " + name, packet, None) for name, packet in wellformed6()]
    whole += [("IPv4: " + name, packet, None) for name, packet in wellformed4()]
    cut = [("IPv6: " + name, *rest) for name, *rest in cut6()] + [("IPv4: " + name, *rest) for name, *rest in cut4()]
    for name, packet, count in whole + cut:
        if name.startswith(words):
            yield name, captured(packet, count)


def raw_frames():
    yield "version 5", captured(ipv4(version=5) / UDP(**PORTS))
    yield from raw_of("IPv6: UDP", "IPv6: SCTP", "IPv6: all", "IPv6: later", "IPv6: the fixed", "IPv6: jumbo")
    yield "nothing", captured(b"")
    yield from raw_of("IPv4: TCP with", "IPv4: first", "IPv4: IGMP", "IPv4: the header")


def raw_frames_too():
    yield from raw_of("IPv4: UDP", "IPv4: later", "IPv4: total length 19")
    yield "version 0", captured(ipv4(version=0) / UDP(**PORTS))
    yield "version 15", captured(ipv6(version=15) / UDP(**PORTS))
    yield from raw_of("IPv6: TCP", "IPv6: the same with", "IPv6: IPv4 in", "IPv6: payload", "IPv6: segm", "IPv6: four")


# ---- what tshark prints of them

# what is read of a header that is passed over: the next header, and the length or the offset
PASSED_OVER = {0: ["ipv6.hopopts.nxt", "ipv6.hopopts.len"], 43: ["ipv6.routing.nxt", "ipv6.routing.len"],
               44: ["ipv6.fraghdr.nxt", "ipv6.fraghdr.offset"], 60: ["ipv6.dstopts.nxt", "ipv6.dstopts.len"]}
WITH_PORTS, ENDS = {6: "tcp", 17: "udp", 132: "sctp"}, (".srcport", ".dstport")
TAGS = {0x8100: "vlan.etype", 0x88a8: "ieee8021ah.etype"}
LENGTHS = ["eth.len", "eth.invalid_lentype", "vlan.len"]
TOLD = (["frame.time_epoch", "frame.protocols", "eth.type"] + LENGTHS + list(TAGS.values())
        + ["ip.version", "ip.hdr_len", "ip.len", "ip.dsfield", "ip.frag_offset", "ip.proto", "ip.src", "ip.dst"]
        + ["ipv6.version", "ipv6.tclass", "ipv6.plen", "ipv6.nxt", "ipv6.src", "ipv6.dst"]
        + sum(PASSED_OVER.values(), []) + [name + end for name in WITH_PORTS.values() for end in ENDS])
OTHER, MALFORMED = "Other", "Malformed"


def output(words):
    return succeed(words, stderr=NOWHERE, text=True).stdout


def told_of(capture):
    """Each frame's fields, each as the texts that tshark gives for it, in order."""
    words = ["tshark", "-r", capture, "-T", "fields", "-E", "occurrence=a"]
    for wish in ("ip.defragment", "ipv6.defragment", "tcp.desegment_tcp_streams", "ip.tso_support"):
        words += ["-o", wish + ":FALSE"]
    for name in TOLD:
        words += ["-e", name]
    lines = output(words).split("\n")[:-1]
    return [dict(zip(TOLD, [text.split(",") if text else [] for text in line.split("\t")])) for line in lines]


def number(told, name):
    """A field of the outermost header that has it."""
    return int(told[name][0], 0) if told[name] else None


def ports(told, protocol):
    source, destination = (number(told, WITH_PORTS[protocol] + end) for end in ENDS)
    return None if destination is None else [source, destination]


def transport6(told):
    """The protocol, and its ports; nothing where a header is cut."""
    kind = number(told, "ipv6.nxt")
    behind = {kind: list(zip(*map(told.get, names))) for kind, names in PASSED_OVER.items()}
    if kind == 0 and number(told, "ipv6.plen") == 0:
        return None, None
    while kind in PASSED_OVER:
        if not behind[kind]:
            return None, None
        following, length_or_offset = (int(text, 0) for text in behind[kind].pop(0))
        if kind == 44 and length_or_offset > 0:
            return following, [0, 0]
        kind = following
    return kind, ports(told, kind) if kind in WITH_PORTS else [0, 0]


def held6(told):
    if number(told, "ipv6.version") != 6 or not told["ipv6.dst"]:
        return MALFORMED
    protocol, pair = transport6(told)
    if pair is None:
        return MALFORMED
    ends = [ipaddress.ip_address(told[name][0]) for name in ("ipv6.src", "ipv6.dst")]
    return [0, 0, protocol, *pair, number(told, "ipv6.tclass"), 6, *ends], 40 + number(told, "ipv6.plen")


def held4(told):
    if number(told, "ip.version") != 4 or not told["ip.dst"]:
        return MALFORMED
    if not 20 <= number(told, "ip.hdr_len") <= number(told, "ip.len"):
        return MALFORMED
    protocol, pair = number(told, "ip.proto"), [0, 0]
    if protocol in WITH_PORTS and number(told, "ip.frag_offset") == 0:
        pair = ports(told, protocol)
    if pair is None:
        return MALFORMED
    ends = [ipaddress.ip_address(told[name][0]) for name in ("ip.src", "ip.dst")]
    return [*ends, protocol, *pair, number(told, "ip.dsfield"), 4, 0, 0], number(told, "ip.len")


def held_in_ethernet(told):
    kind, behind = number(told, "eth.type"), {kind: list(told[name]) for kind, name in TAGS.items()}
    while kind in TAGS:
        kind = int(behind[kind].pop(0), 0) if behind[kind] else None
    if kind is None:
        return OTHER if any(told[name] for name in LENGTHS) else MALFORMED
    return {0x0800: held4, 0x86dd: held6}.get(kind, lambda told: OTHER)(told)


def held_by_itself(told):
    layers = told["frame.protocols"][0].split(":")
    if layers == ["raw"]:
        return MALFORMED
    return {"ip": held4, "ipv6": held6}.get(layers[1], lambda told: OTHER)(told)


def held_in(link, capture):
    """What each frame of a capture holds, and its second."""
    for told in told_of(capture):
        yield (held_in_ethernet if link == 1 else held_by_itself)(told), int(told["frame.time_epoch"][0].split(".")[0])


# ---- captures, and the files of Rattle

# a file, what it has, and its captures: a constant, frames, link type, octet order, whether nanoseconds, first second
FILES = [
    ("ipv6", "Packets of IPv6 after an Ethernet header: little-endian, microseconds", [("IPV6", of_ipv6, 1, "<", False, 1)]),
    ("tags", "Tags, other EtherTypes and IPv4 after an Ethernet header: big-endian, nanoseconds",
     [("TAGS", tagged, 1, ">", True, 1)]),
    ("raw", "Packets of both versions by themselves: little-endian, nanoseconds; big-endian, microseconds",
     [("LITTLE", raw_frames, 101, "<", True, 1), ("BIG", raw_frames_too, 101, ">", False, 2**32 - 14)])]


def write_capture(path, frames, link, order, nanoseconds, second):
    writer = RawPcapWriter(path, linktype=link, endianness=order, nano=nanoseconds, snaplen=65535)
    writer.write_header(None)
    for place, (octets, length) in enumerate(frames):
        writer.write_packet(octets, sec=second + place, usec=999_999_999 if nanoseconds else 999_999, wirelen=length)
    writer.close()


def array_of(octets):
    lines = [octets[place:place + 16] for place in range(0, len(octets), 16)]
    return ["    " + ", ".join("0x%02x" % octet for octet in line) + "," for line in lines]


def row(held, second, used):
    if isinstance(held, str):
        return held
    fields, octets = held
    used.update(value for value in fields if value in NAMES)
    return "Packet([%s], %d, %d)" % (", ".join(NAMES.get(value, str(value)) for value in fields), octets, second)


def constants(captures, work, used):
    """A capture's octets, and a row for each of its frames."""
    for word, frames, link, order, nanoseconds, second in captures:
        names, listed = zip(*frames())
        path = os.path.join(work, word)
        write_capture(path, listed, link, order, nanoseconds, second)
        with open(path, "rb") as file:
            octets = file.read()
        rows = [row(held, second, used) for held, second in held_in(link, path)]
        assert len(rows) == len(names)
        yield ["", "pub(crate) const %s: [u8; %d] = [" % (word, len(octets)), *array_of(octets), "];"]
        told = ["    %s, // %s" % (text, name) for text, name in zip(rows, names)]
        yield ["", "pub(crate) const %s_TOLD: [Held; %d] = [" % (word, len(rows)), *told, "];"]


def versions():
    return "scapy %s and tshark %s" % (scapy.__version__, output(["tshark", "--version"]).split()[2].rstrip("."))


def write_file(path, about, captures, work):
    used = set()
    lines = [line for block in constants(captures, work, used) for line in block]
    addresses = [line for address in NAMES if address in used
                 for line in ("const %s: u128 = 0x%s;" % (NAMES[address], grouped(address)), "")]
    head = ["//! %s." % about, "//! `tests/make_capture_frames.py` writes this file, with %s." % versions()]
    head += ["use crate::frames::Held::{self, Malformed, Other, Packet};", ""]
    with open(path, "w") as file:
        file.write("\n".join(head + addresses + lines[1:]) + "\n")


def grouped(address):
    """An address's digits, four together."""
    digits = address.packed.hex()
    return "_".join(digits[place:place + 4] for place in range(0, len(digits), 4))


def main(folder=FOLDER):
    os.makedirs(folder, exist_ok=True)
    with tempfile.TemporaryDirectory() as work:
        for name, about, captures in FILES:
            write_file(os.path.join(folder, name + ".rt"), about, captures, work)


if __name__ == "__main__":
    if len(sys.argv) > 2:
        sys.exit(__doc__)
    main(*sys.argv[1:])

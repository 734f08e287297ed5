"""Statements of configurations that paths cannot follow: policy routing, translation, tunnels, filters, leaks."""
from __future__ import annotations

import re
from dataclasses import dataclass
from typing import Iterable

from once_tools.model import Device, Finding, Grade, Topic
from once_tools.paths.in_force import SYSTEMS
from once_tools.readers import junos, vyos
from once_tools.source import Source

# Kinds whose statements are looked at as `set` lines, in whichever form the text has them.
STATEMENTS = {"junos": junos.statements_of, "vyos": vyos.statements_of}


@dataclass(frozen=True)
class Pattern:
    """A statement, and what is said of it once a device."""

    expression: re.Pattern[str]
    grade: Grade
    says: str
    todo: str
    topic: Topic = Topic.OTHER


# Parts of the lines of `in_force`: a router or a VPRN of SR OS, and what the command `nat` of VRP may be followed by.
ROUTER = r"^sros (router|service vprn \S+) "
NAT_OF_VRP = r"(outbound|inbound|server|static|bind)( |$)"


def _pattern(expression: str, grade: Grade, says: str, todo: str, topic: Topic = Topic.OTHER) -> Pattern:
    return Pattern(re.compile(expression), grade, says, todo, topic)


PATTERNS = [
    _pattern(r"^\s*ip(v6)? policy route-map |^\s*service-policy type pbr |then routing-instance |^\s*ip rule add |"
             r"^set policy route |^sros filter \S+ \S+ entry \S+ action forward \S|"
             r"^sros (.* )?policy-based-forwarding |"
             r"^routeros ip(v6)? firewall mangle add action=(mark-routing|route) |^routeros (routing|ip route) rule add |"
             r"^vrp .*with-redirect|^vrp (.* )?ip(v6)? (local )?policy-based-route |^vrp (.* )?traffic-redirect |"
             r"^vrp policy-based-route rule .* action pbr ", Grade.NOT_CARRIED_OVER,
             "policy routing: paths follow destinations alone, and what this policy sends elsewhere has another path",
             "declare the traffic that it takes with 'paths', or by roles ('from' and 'to')"),
    _pattern(r"^\s*ip nat (inside|outside|source|pool)|^set nat (source|destination)|^set security nat |"
             r"^set services nat |" + ROUTER + r"nat (inside|outside) (?!exit$)\S|"
             r"^sros filter \S+ \S+ entry \S+ action nat( |$)|^sros (?!service nat ).* nat-policy \S|"
             r"^routeros ip(v6)? firewall nat add action=(src-nat|masquerade|dst-nat|netmap|redirect|same|endpoint-\S+)( |$)|"
             r"^vrp (.* )?nat " + NAT_OF_VRP + r"|^vrp nat-policy .* action (source-nat|destination-nat|nat)( |$)",
             Grade.NOT_CARRIED_OVER,
             "address translation (NAT): a packet has other addresses after it, and whether one packet is counted on both "
             "sides the audit cannot see", "declare a class for each side of the translation, and meter one side alone",
             Topic.NAT),
    _pattern(r"^\s*tunnel source |^\s*crypto map |^\s*tunnel protection |^set interfaces (gr|ip|st0|vxlan|tunnel|wireguard)|"
             r"^\s*vxlan source-interface |^sros (.* )?(ip-tunnel|ipsec-tunnel|ipsec-gw|ipsec-gateway) \S|"
             r"^sros service sdp \S+ (delivery-type )?gre|^sros (.* )?auto-bind(-tunnel resolution-filter)? gre( |$)|"
             r"^sros service \S+ \S+ vxlan |^routeros interface (gre|ipip|eoip|wireguard|vxlan|6to4|gre6|ipipv6|eoipv6|"
             r"(l2tp|pptp|sstp|ovpn)-client) add |^routeros interface (l2tp|pptp|sstp|ovpn)-server server set .*enabled=yes|"
             r"^routeros ip ipsec policy add (?!.*(action=(none|discard)|template=yes))|"
             r"^vrp interface \S+ (tunnel-protocol (?!none|mpls)|ipsec policy )|^vrp interface Nve\S* (source|vni) ",
             Grade.PREMISE,
             "a tunnel: its outer packets are packets of their own, and a meter that sees both counts both",
             "see that an exempt class has the outer packets (protocol 47 or 50, or the tunnel's port)"),
    _pattern(r"^\s*mpls (ip|ldp|traffic-eng)|^set protocols (mpls|ldp|rsvp)|"
             r"^sros router (mpls|ldp|rsvp|(isis|ospf)( \d+)? segment-routing)( |$)|"
             r"^sros service sdp \S+ (delivery-type )?mpls|^sros (.* )?auto-bind(-tunnel resolution(-filter)?)? "
             r"(?!gre|filter|disabled|\S+ false)\S+|"
             r"^routeros mpls (?!interface )[^=]*add |^routeros mpls ldp set .*enabled=yes|^routeros interface vpls add |"
             r"^vrp (interface \S+ )?mpls(?! lsr-id)( |$)|^vrp interface \S+ tunnel-protocol mpls|"
             r"^vrp (isis|ospf) .*segment-routing mpls", Grade.PREMISE,
             "MPLS: core interfaces are crossed by labelled packets, which meters of IP may not see",
             "meter at interfaces where packets have no labels", Topic.MPLS),
    _pattern(r"^\s*ip(v6)? route vrf .* global\b|^\s*route-replicate |^\s*import ipv4 unicast map|rib-groups? |"
             r"^\s*route-target import |^sros service vprn \S+ (.* )?((vrf-import|grt-lookup|grt-leaking)( |$)|"
             r"vrf-target (?!export(-community)? \S+$))|^sros (.* )?rib-management .*leak-(import|export) |"
             r"^routeros ip(v6)? route add .* leads-to-another-table$|"
             r"^routeros (routing bgp (vpn|instance vrf)|ip route vrf) add .*import|"
             r"^vrp ip vpn-instance \S+ .*vpn-target (?!.*export-extcommunity)|^vrp .*import-rib |"
             r"^vrp ip(v6)? route-static vpn-instance \S+ .* (vpn-instance|public)( |$)|"
             r"^vrp ip(v6)? route-static (?!vpn-instance ).* vpn-instance ", Grade.PREMISE,
             "routes may lead from one VRF into another: such ways are declared only where an interface pair joins them",
             "declare traffic between VRFs with 'paths'"),
    _pattern(r"^\s*ip access-group |^\s*ipv6 traffic-filter |^\s*ipv4 access-group |"
             r"^sros filter \S+ \S+ (entry \S+ action|default-action) drop( |$)|"
             r"^routeros ip(v6)? firewall filter add action=(drop|reject|tarpit) (.* )?chain=(?!(input|output)( |$))|"
             r"^routeros ip(v6)? firewall raw add action=drop (.* )?chain=prerouting( |$)|"
             r"^vrp (.* )?traffic-(filter|secure) |^vrp .*with-deny|^vrp security-policy .* action deny$", Grade.PREMISE,
             "a packet filter: packets that it denies end here, and are declared only with may_drop",
             "write may_drop = true under [paths] if a meter comes after the filter"),
    _pattern(r"^vrp .*with-unknown", Grade.NOT_CARRIED_OVER,
             "a traffic policy that is not defined whole in this text: it may send packets elsewhere, or deny them",
             "give the whole configuration, or declare the traffic that it takes with 'paths'"),
    _pattern(r"^sros filter \S+ \S+ default-action-not-given$", Grade.PREMISE,
             "a packet filter that gives no default action: it may drop what none of its entries takes (whether it does is not "
             "established here), and such packets are declared only with may_drop", "give the filter a default action, or "
             "write may_drop = true under [paths] if a meter comes after it"),
    _pattern(r"^\s*ip mtu |^\s*ip tcp adjust-mss|^\s*(ipv6 )?mtu (?!1500\b)\d|^set interfaces .* mtu |"
             r"^sros (router|service \S+ \S+) (.* )?interface \S+ (.* )?ip-mtu (?!1500( |$))\d|"
             r"^sros (port|lag) \S+ (.* )?mtu \d|^routeros interface .* (max-)?mtu=(?!1500( |$))\d|"
             r"^routeros ip(v6)? firewall mangle add action=change-mss |"
             r"^vrp interface \S+ ((ipv6 )?mtu (?!1500( |$))\d|tcp adjust-mss )", Grade.PREMISE,
             "an MTU of its own: where a packet is fragmented, meters after it count each fragment, with its header",
             "make all MTUs on metered paths equal, or meter before this interface"),
]

# A rule of VyOS that is disabled, or statements of Junos that are deactivated, where the text is taken line by line.
OFF = re.compile(r"(set nat \S+ rule \S+) disable\s*|deactivate (.+?)\s*")


def not_in_force(lines: Iterable[str]) -> tuple[str, ...]:
    """Returns how the statements begin that other lines disable or deactivate."""
    found = [OFF.fullmatch(line) for line in lines]
    return tuple((one[1] or f"set {one[2]}") + " " for one in found if one)


def lines_of(device: Device, source: Source) -> list[tuple[int, str]]:
    """Returns the lines of a configuration that are in force, with their numbers."""
    if device.kind in SYSTEMS:
        return SYSTEMS[device.kind](source)
    found = STATEMENTS.get(device.kind)
    lines = [(one.place.line, "set " + " ".join(one.words)) for one in found(source) if not one.inactive] if found else \
        list(enumerate(source.lines(), 1))
    off = not_in_force(line for _, line in lines)
    return [(number, line) for number, line in lines if not line.startswith(off)]


def premises(device: Device, sources: Iterable[Source], read: set[Topic] = set()) -> list[Finding]:
    """Returns a finding for each kind of statement, at its first line, unless the reader has reported that line. `read` are
    the topics that are reported in full elsewhere."""
    reported = {(one.place.file, one.place.line) for one in device.findings}
    topics = read | {one.topic for one in device.findings if one.topic in (Topic.NAT, Topic.MPLS)}
    found: dict[int, Finding] = {}
    for source in sources:
        for number, line in lines_of(device, source):
            for at, pattern in enumerate(PATTERNS):
                if at in found or pattern.topic in topics or (source.name, number) in reported:
                    continue
                if pattern.expression.search(line):
                    found[at] = Finding(pattern.grade, source.place(number), pattern.says, pattern.todo, pattern.topic,
                                        None, device.name)
    return list(found.values())


TO_THE_END = "Each packet makes all crossings of its path: one that dies on the way is not declared, unless may_drop says so."
MAY_DROP = "A packet may die after any crossing of its path: that is declared, too."


def meaning(may_drop: bool) -> list[str]:
    """Returns in sentences what every declaration of paths presumes."""
    return [
        "No packet is fragmented, and none has its addresses changed, between two crossings of its path.",
        MAY_DROP if may_drop else TO_THE_END,
        "A path has no branches: multicast and flooded packets are not described.",
        "Meters see each packet that crosses their interfaces, are not ended before they have exported, and each message "
        "reaches its collector.",
    ]

"""The lab as a graph in the DOT language, from its cables and addresses."""
from __future__ import annotations

from lab.namespaces import ADDRESSES, CABLES, CUSTOMERS, MANAGEMENT, ROUTERS, SERVERS

WHAT = {**{host: "customer" for host in (*CUSTOMERS, "c3")}, **{host: "router: FRR" for host in ROUTERS}, "sw": "Open vSwitch",
        **{host: "server" for host in SERVERS}, "bill": "collectors: nfacctd, nfcapd", "med1": "nfacctd with tee",
        "med2": "nfacctd with tee"}


def address_of(host: str, interface: str) -> str:
    """Returns the addresses of an interface in a few words."""
    found = ADDRESSES.get((host, interface), [])
    texts = [text.partition("/")[0] for text in found]
    return texts[0] if len(texts) == 1 else f"{texts[0]}, {texts[1]} to {texts[-1]}" if texts else ""


def node(host: str) -> str:
    """Returns the statement of a host."""
    addresses = address_of(host, "eth0") or ("10.1.100.11 to 10.1.100.15, VLAN 100" if host == "c3" else "")
    label = "\\n".join(text for text in (host, WHAT[host], addresses) if text)
    return f'  "{host}" [label="{label}"]'


def edge(a: str, a_interface: str, b: str, b_interface: str, style: str = "") -> str:
    """Returns the statement of a cable, with the interfaces at its ends that meters name."""
    ends = [name if name not in ("eth0", "mgmt") else "" for name in (a_interface, b_interface)]
    return f'  "{a}" -- "{b}" [taillabel="{ends[0]}", headlabel="{ends[1]}"{style}]'


def drawing() -> list[str]:
    """Returns the lines of the graph: packets' cables solid, the management network dashed."""
    lines = ["graph lab {", '  graph [rankdir=LR, nodesep=0.5, ranksep=1.2, fontname="sans-serif"]',
             '  node [shape=box, fontname="sans-serif", fontsize=11]', '  edge [fontname="sans-serif", fontsize=9, labeldistance=1.8]']
    lines += [node(host) for host in WHAT]
    lines += [edge(one.a, one.a_interface, one.b, one.b_interface) for one in CABLES]
    lines.append('  { rank=same; "core"; "bill" }')
    for host in MANAGEMENT:
        if host in WHAT and host.startswith("med"):
            lines.append(edge("bill", "mgmt", host, "mgmt", ", style=dashed"))
        elif host != "bill":
            lines.append(edge(host, "mgmt", "bill", "mgmt", ", style=dashed, constraint=false"))
    return [*lines, "}"]

"""Interfaces and addresses from the outputs of devices: `ip -j addr`, IOS, Junos."""
from __future__ import annotations

import json
import re
from typing import Iterator

from once_tools.model import Interface, Place, Unusable
from once_tools.source import Source


def read_interfaces(source: Source) -> Iterator[Interface]:
    """Yields the interfaces of a file with their addresses."""
    if source.text.lstrip()[:1] == "[":
        yield from _linux(source)
        return
    found = list(_texts(source))
    if not found:
        raise Unusable(Place(source.name), "has no interfaces in a form that is known",
                       "give the output of `ip -j addr`, `show ip interface brief` or `show interfaces terse`")
    yield from found


def _linux(source: Source) -> Iterator[Interface]:
    place = Place(source.name)
    try:
        for one in json.loads(source.text):
            if "ifname" not in one:
                continue
            addresses = [f"{each['local']}/{each['prefixlen']}" for each in one.get("addr_info", []) if "local" in each]
            flags = one.get("flags", [])
            yield Interface(str(one["ifname"]), place, addresses=addresses, index=one.get("ifindex"),
                            is_shut="UP" not in flags if flags else False)
    except (ValueError, KeyError, TypeError, AttributeError, RecursionError) as error:
        raise Unusable(place, "has not the form of `ip -j addr`", "save the command's whole output") from error


def _texts(source: Source) -> Iterator[Interface]:
    for number, line in enumerate(source.lines(), 1):
        ios = re.match(r"(\S+\d)\s+(\d+\.\d+\.\d+\.\d+|unassigned)\s+(?:YES|NO)\s+\S+\s+(\S.*?)\s{2,}(\S+)", line)
        junos = re.match(r"(\S+\.\d+)\s+(up|down)\s+(?:up|down)\s+inet6?\s+(\S+)", line)
        if ios:
            addresses = [] if ios[2] == "unassigned" else [ios[2] + "/32"]
            yield Interface(ios[1], source.place(number), addresses=addresses, is_shut="admin" in ios[3])
        elif junos:
            address = junos[3] if "/" in junos[3] else junos[3] + ("/128" if ":" in junos[3] else "/32")
            yield Interface(junos[1], source.place(number), addresses=[address], is_shut=junos[2] == "down")

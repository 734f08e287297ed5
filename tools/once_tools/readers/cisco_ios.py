"""Cisco IOS and IOS-XE: Flexible NetFlow and classic NetFlow."""
from __future__ import annotations

import re
from typing import Mapping

from once_tools.model import Device, Unusable
from once_tools.readers.ios.device import read_running
from once_tools.source import Source

FLEXIBLE = re.compile(r"^(?:flow (?:record|monitor|exporter) \S|\s+(?:ip|ipv6) flow monitor \S)", re.M)
CLASSIC = re.compile(r"^(?:ip flow-export |\s+ip flow (?:ingress|egress)\s*$|\s+ip route-cache flow\s*$)", re.M)
COMMON = re.compile(r"^(?:\s+ip address \d+\.\d+\.\d+\.\d+ 255\.|version 1\d\.\d+\s*$|ip cef|Building configuration)", re.M)
OTHERS = re.compile(r"^(?:flow (?:exporter|monitor)-map |flow tracking |feature netflow|!! IOS XR|set |#\s*$|\{)", re.M)
# Sections of IOS-XR and EOS, whose other lines may look like those of IOS.
FOREIGN = re.compile(r"^(?:flow (?:exporter|monitor)-map |flow tracking |sampler-map )", re.M)
# An interface of IOS, in a text that may be part of a configuration.
INTERFACE = re.compile(r"^interface (?:\w+Ethernet|Loopback|Vlan|Port-channel|Serial|Tunnel)\S+\s*$", re.M)


class CiscoIos:
    kind = "cisco-ios"
    title = "Cisco IOS and IOS-XE: Flexible NetFlow, classic NetFlow"
    how_to_get = "show running-config"
    certainty = "certain"

    def detect(self, text: str) -> int:
        """Returns how surely the text is a running configuration of IOS."""
        if OTHERS.search(text):
            return 5
        found = 0
        found = max(found, 95 if FLEXIBLE.search(text) else 0, 85 if CLASSIC.search(text) else 0)
        found = max(found, 60 if COMMON.search(text) and INTERFACE.search(text) else 0)
        return found

    def read(self, name: str, sources: list[Source], options: Mapping[str, str]) -> Device:
        """Returns the device that running configurations describe."""
        texts = "\n".join(one.text for one in sources)
        if FOREIGN.search(texts) or not any(one.search(texts) for one in (FLEXIBLE, CLASSIC, COMMON, INTERFACE)):
            raise Unusable(sources[0].place(0), "no statement of Cisco IOS is in the text",
                           "give the output of 'show running-config', or another kind")
        return read_running(name, sources)


READER = CiscoIos()

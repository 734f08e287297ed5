"""Readers of configurations, one module for each kind of device."""
from __future__ import annotations

import importlib
from typing import Mapping, Protocol

from once_tools.model import Device
from once_tools.source import Source


class Reader(Protocol):
    """Reads the configuration of one kind of device. A module of `MODULES` has one as `READER`, or several as `READERS`.

    `how_to_get` is the command that prints the text. `certainty` is "certain", "fairly" or "unsure": how well the meaning
    of the vendor's statements is established.
    """

    kind: str
    title: str
    how_to_get: str
    certainty: str

    def detect(self, text: str) -> int:
        """Returns how surely the text is of this kind, from 0 to 100."""

    def read(self, name: str, sources: list[Source], options: Mapping[str, str]) -> Device:
        """Returns what the texts say about the device `name`; raises `Unusable` if nothing can be made of them."""


MODULES = [
    "once_tools.readers.cisco_ios",
    "once_tools.readers.pmacctd",
    "once_tools.readers.softflowd",
    "once_tools.readers.nfacctd",
    "once_tools.readers.nfcapd",
    "once_tools.readers.openvswitch",
    "once_tools.readers.junos",
    "once_tools.readers.cisco_xr",
    "once_tools.readers.vyos",
    "once_tools.readers.arista_eos",
    "once_tools.readers.mikrotik",
    "once_tools.readers.nokia_sros",
    "once_tools.readers.huawei",
]

# Other spellings that a project may use for a kind.
ALIASES = {
    "ios": "cisco-ios",
    "ios-xe": "cisco-ios",
    "iosxe": "cisco-ios",
    "cisco-ios-xe": "cisco-ios",
    "ios-xr": "cisco-xr",
    "cisco-ios-xr": "cisco-xr",
    "juniper": "junos",
    "juniper-junos": "junos",
    "ovs": "openvswitch",
    "open-vswitch": "openvswitch",
    "eos": "arista-eos",
    "arista": "arista-eos",
    "routeros": "mikrotik",
    "sros": "nokia-sros",
    "nokia": "nokia-sros",
    "huawei-vrp": "huawei",
    "vrp": "huawei",
}


def _load() -> dict[str, Reader]:
    found: dict[str, Reader] = {}
    for name in MODULES:
        module = importlib.import_module(name)
        readers: list[Reader] = getattr(module, "READERS", None) or [module.READER]
        for reader in readers:
            found[reader.kind] = reader
    return found


READERS: dict[str, Reader] = _load()


def reader_of(kind: str) -> Reader | None:
    """Returns the reader of a kind, or of another spelling of it."""
    return READERS.get(ALIASES.get(kind, kind))

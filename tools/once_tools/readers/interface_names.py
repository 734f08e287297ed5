"""Short names of interfaces, as neighbours, tables and people write them."""
from __future__ import annotations

import re

# The short spellings of each type of interface of Cisco's, Arista's and Huawei's systems.
SHORT: dict[str, list[str]] = {
    "FastEthernet": ["Fa", "FastEth"],
    "GigabitEthernet": ["Gi", "Gig", "GE"],
    "TwoGigabitEthernet": ["Tw"],
    "FiveGigabitEthernet": ["Fi"],
    "TenGigabitEthernet": ["Te", "Ten"],
    "TenGigE": ["Te"],
    "TwentyFiveGigE": ["Twe"],
    "TwentyFiveGigabitEthernet": ["Twe"],
    "FortyGigabitEthernet": ["Fo"],
    "FortyGigE": ["Fo"],
    "FiftyGigE": ["Fi"],
    "HundredGigE": ["Hu"],
    "HundredGigabitEthernet": ["Hu"],
    "FourHundredGigE": ["Fou"],
    "Ethernet": ["Et", "Eth"],
    "Port-channel": ["Po"],
    "Port-Channel": ["Po"],
    "Bundle-Ether": ["BE"],
    "Vlan": ["Vl", "Vlanif"],
    "Loopback": ["Lo"],
    "Tunnel": ["Tu"],
    "Serial": ["Se"],
    "BDI": ["BD"],
    "Dialer": ["Di"],
    "Cellular": ["Ce"],
    "Virtual-Template": ["Vt"],
    "MgmtEth": ["Mg"],
    "Management": ["Ma"],
    "XGigabitEthernet": ["XGE"],
    "Eth-Trunk": [],
}
NAME = re.compile(r"^([A-Za-z][A-Za-z-]*?)\s*(\d.*)$")


def aliases_of(name: str) -> list[str]:
    """Returns the other spellings of an interface's name: `Gi0/0/1` for `GigabitEthernet0/0/1`."""
    match = NAME.match(name)
    if match is None:
        return []
    return [short + match[2] for short in SHORT.get(match[1], [])]


def parent_of(name: str) -> str:
    """Returns the main interface of a subinterface such as `Gi0/0/1.100`, or ""."""
    main, dot, number = name.rpartition(".")
    return main if dot and number.isdigit() else ""

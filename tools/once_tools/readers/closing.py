"""Interfaces that are shut with another one, and members of bundles."""
from __future__ import annotations

from typing import Mapping

from once_tools.model import Interface


def close_subinterfaces(interfaces: Mapping[str, Interface]) -> None:
    """Shuts the subinterfaces of interfaces that are shut, also those of subinterfaces."""
    for one in interfaces.values():
        above, seen = one, {one.name}
        while above.parent in interfaces and above.parent not in seen and not one.is_shut:
            above = interfaces[above.parent]
            seen.add(above.name)
            one.is_shut = above.is_shut


def bundles_of(interfaces: Mapping[str, Interface], prefix: str) -> dict[str, str]:
    """Returns the bundle of each interface that is a member of one; the names of bundles begin with a prefix."""
    return {member: one.name for one in interfaces.values() if one.name.startswith(prefix) for member in one.members}


IN_A_BUNDLE = "{0} is a member of {1}: whether a monitor at a member is in force is not known, and the document has it"

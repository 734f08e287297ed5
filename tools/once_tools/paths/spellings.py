"""The names that may be written for an interface: its own, its aliases, and short or long forms of its kind."""
from __future__ import annotations

import re
from typing import Iterable

from once_tools.model import Interface

# Short names whose letters are not the first letters of the long name.
SHORT = {"be": "bundleether", "ge": "gigabitethernet", "xge": "xgigabitethernet", "po": "portchannel", "te": "tengig",
         "hu": "hundredgig", "fo": "fortygig", "twe": "twentyfivegig", "vl": "vlan", "lo": "loopback", "tu": "tunnel"}


def letters_of(name: str) -> tuple[str, str]:
    """Returns the letters before the first digit of a name, in lower case, and the rest of the name."""
    found = re.match(r"[^0-9]*", name)
    letters = found[0] if found else ""
    return re.sub(r"[^a-z]", "", letters.casefold()), name[len(letters):]


class Spellings:
    """The interfaces of a device, found by the names that may be written for them.

    Each interface is stored under its own name and aliases, under the name of its port, and under the numbers in its
    name, so that a lookup examines only the interfaces with the same numbers.
    """

    def __init__(self, interfaces: Iterable[Interface] = ()) -> None:
        self._order: dict[str, int] = {}
        self._exact: dict[str, set[str]] = {}
        self._units: dict[str, set[str]] = {}
        self._numbered: dict[str, list[tuple[str, str]]] = {}
        for one in interfaces:
            self.add(one)

    def add(self, interface: Interface) -> None:
        """Adds an interface after those that are known."""
        name = interface.name
        self._order.setdefault(name, len(self._order))
        for alias in interface.aliases:
            self._exact.setdefault(f"alias {alias}", set()).add(name)
        self._exact.setdefault(f"name {name.casefold()}", set()).add(name)
        if "." in name:
            self._units.setdefault(name.partition(".")[0], set()).add(name)
        letters, numbers = letters_of(name)
        self._numbered.setdefault(numbers, []).append((letters, name))

    def has_alias(self, name: str) -> bool:
        """Returns whether a name is an alias of an interface."""
        return f"alias {name}" in self._exact

    def same(self, name: str) -> list[str]:
        """Returns the interfaces that a short or other spelling may mean, in the order in which they were added."""
        found = self._exact.get(f"alias {name}", set()) | self._exact.get(f"name {name.casefold()}", set())
        found = found or self._units.get(name, set())
        if not found and not re.match(r"[a-z]+-\d", name):  # Junos has no short names
            found = self._of_kind(name)
        return sorted(found, key=self._order.__getitem__)

    def _of_kind(self, name: str) -> set[str]:
        letters, numbers = letters_of(name)
        starts = [letters, SHORT[letters]] if letters in SHORT else [letters]
        found = set()
        for long, other in self._numbered.get(numbers, ()) if numbers else ():
            is_short = len(letters) >= 2 and any(long.startswith(start) for start in starts)
            is_long = len(long) >= 2 and letters.startswith(long)
            if is_short or is_long:
                found.add(other)
        return found

"""A table of a TOML text, read member by member: what is wrong is kept as findings, so that all of it is reported."""
from __future__ import annotations

import difflib
from typing import Iterable, Mapping

from once_tools.model import Finding, Grade, Place
from once_tools.toml_places import TomlPlaces


def nearest(name: str, known: Iterable[str]) -> str:
    """Returns "; write X" with the known name nearest to a wrong one, or all names if none is near."""
    names = list(known)
    close = difflib.get_close_matches(name, names, 1, 0.6)
    return f"write '{close[0]}'" if close else "known are: " + ", ".join(names)


class Table:
    """A table `name`, the `number`th of that name."""

    def __init__(self, raw: object, places: TomlPlaces, name: str, number: int, findings: list[Finding]) -> None:
        self.places, self.name, self.number, self.findings = places, name, number, findings
        self.asked: list[str] = []
        self.raw: Mapping[str, object] = {}
        if isinstance(raw, dict):
            self.raw = raw
        else:
            self.wrong("", f"'{name}' must be a table", f"write [{name}]")

    def place(self, key: str = "") -> Place:
        """Returns the place of a key of the table, or of the table itself."""
        return self.places.place(self.name, self.number, key)

    def wrong(self, key: str, says: str, todo: str) -> None:
        """Adds a finding about a key."""
        self.findings.append(Finding(Grade.WRONG, self.place(key), says, todo))

    def _value(self, key: str, needed: bool) -> object:
        self.asked.append(key)
        if needed and key not in self.raw:
            self.wrong("", f"[{self.name}] has no member '{key}'", f"add {key} = ..")
        return self.raw.get(key)

    def text(self, key: str, needed: bool = False) -> str:
        """Returns a text, "" if there is none."""
        value = self._value(key, needed)
        if value is None or isinstance(value, str):
            return value or ""
        self.wrong(key, f"'{key}' must be a text", f'write {key} = ".."')
        return ""

    def texts(self, key: str, needed: bool = False) -> tuple[str, ...]:
        """Returns a list of texts; one text is a list of one."""
        value = self._value(key, needed)
        entries = [] if value is None else value if isinstance(value, list) else [value]
        if all(isinstance(entry, str) for entry in entries):
            return tuple(str(entry) for entry in entries)
        self.wrong(key, f"'{key}' must be a text or a list of texts", f'write {key} = ["..", ".."]')
        return ()

    def flag(self, key: str, default: bool = False) -> bool:
        """Returns true or false."""
        value = self._value(key, False)
        if value is None or isinstance(value, bool):
            return default if value is None else value
        self.wrong(key, f"'{key}' must be true or false", f"write {key} = true")
        return default

    def number_of(self, key: str, default: int, least: int, most: int) -> int:
        """Returns a whole number within bounds."""
        value = self._value(key, False)
        if value is None:
            return default
        if isinstance(value, int) and not isinstance(value, bool) and least <= value <= most:
            return value
        self.wrong(key, f"'{key}' must be a whole number from {least} to {most}", f"write {key} = {default}")
        return default

    def options(self, key: str) -> dict[str, str]:
        """Returns a table of texts, numbers and flags as texts."""
        value = self._value(key, False)
        if value is None:
            return {}
        if not isinstance(value, dict):
            self.wrong(key, f"'{key}' must be a table", f"write {key} = {{ NAME = \"..\" }}")
            return {}
        return {name: str(one).lower() if isinstance(one, bool) else str(one) for name, one in value.items()}

    def value(self, key: str) -> object:
        """Returns the value as it is."""
        return self._value(key, False)

    def end(self) -> None:
        """Adds a finding for each member that was not asked for."""
        for key in self.raw:
            if key not in self.asked:
                self.wrong(key, f"[{self.name}] has no member '{key}'", nearest(key, self.asked))

"""The lines at which the tables and keys of a TOML text begin, which `tomllib` does not say."""
from __future__ import annotations

import re

from once_tools.model import Place
from once_tools.source import Source

HEADER = re.compile(r"^\s*(\[\[?)\s*([^\[\]]+?)\s*\]\]?\s*(?:#.*)?$")
KEY = re.compile(r"""^\s*(?:"([^"]*)"|'([^']*)'|([A-Za-z0-9_.-]+))\s*=""")


class TomlPlaces:
    """Finds places by a table's name, its number among tables of that name, and a key."""

    def __init__(self, source: Source) -> None:
        self.file = source.name
        self.found: dict[tuple[str, int, str], Place] = {}
        self._scan(source)

    def _scan(self, source: Source) -> None:
        seen: dict[str, int] = {}
        table = ("", 0)
        for number, line in enumerate(source.lines(), 1):
            place = Place(source.name, number, line.strip())
            header, key = HEADER.match(line), KEY.match(line)
            if header and not key:
                name = header[2].replace(" ", "")
                table = (name, seen.get(name, 0))
                seen[name] = table[1] + 1
                self.found.setdefault((*table, ""), place)
            elif key:
                self.found.setdefault((*table, key[1] or key[2] or key[3] or ""), place)

    def place(self, table: str, number: int = 0, key: str = "") -> Place:
        """Returns the place of a key, or else that of its table, or else the file."""
        for wanted in ((table, number, key), (table, number, "")):
            if wanted in self.found:
                return self.found[wanted]
        return Place(self.file)

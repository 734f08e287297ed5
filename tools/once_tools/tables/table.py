"""The rows of a table, as words or as CSV, with the kind first, and the faults of a table by line."""
from __future__ import annotations

import csv
import re
import shlex
from typing import Iterator, NamedTuple

from once_tools.model import Failed, Place, Unusable

# The cells of each kind of row. A cell in brackets may be left out.
KINDS = {
    "device": ["DEVICE"],
    "observation-point": ["DEVICES", "POINT", "INTERFACES", "DIRECTION", "SELECTION-PROCESSES"],
    "selection-process": ["DEVICES", "SELECTION-PROCESS", "FILTERS", "CACHE"],
    "cache": ["DEVICES", "CACHE", "KIND", "KEY", "EXPORTING-PROCESSES"],
    "exporting-process": ["DEVICES", "EXPORTING-PROCESS", "MODE", "DESTINATIONS"],
    "collecting-process": ["DEVICES", "COLLECTING-PROCESS", "EXPORTING-PROCESSES"],
    "aggregation": ["DEVICES", "COLLECTING-PROCESS", "AGGREGATION", "KEY", "FILTERS", "EXPORTING-PROCESSES"],
    "link": ["DEVICES", "EXPORTING-PROCESS", "DESTINATION", "TO-DEVICE", "TO-COLLECTING-PROCESS"],
    "report": ["DEVICE", "COLLECTING-PROCESS", "KEY"],
    "class": ["CLASS", "REGION", "[exempt]"],
    "path": ["CLASS", "CROSSINGS"],
}

class Row(NamedTuple):
    """A row: its line, its kind, and the contents of its cells."""

    line: int
    kind: str
    cells: list[str]


class Faults:
    """What is wrong with a table."""

    def __init__(self, file: str) -> None:
        self.file = file
        self.found: list[tuple[int, str]] = []

    def add(self, line: int, wrong: str, cure: str) -> None:
        """Adds what is wrong at a line, and what to do about it."""
        self.found.append((line, "%s:%d: %s; %s" % (self.file, line, wrong, cure)))

    def lines(self) -> list[str]:
        """Returns a text for each fault, in the order of their lines."""
        return [text for _, text in sorted(dict.fromkeys(self.found), key=lambda fault: fault[0])]


def text_of(path: str) -> str:
    """Returns the text of a file; raises `Failed` if it cannot be read, and `Unusable` if it is not UTF-8."""
    try:
        with open(path, encoding="utf-8-sig", newline="") as file:
            return file.read()
    except OSError as error:
        raise Failed(Place(path), f"cannot be read: {error.strerror}", "name a file that can be read") from None
    except UnicodeDecodeError:
        raise Unusable(Place(path), "is not a text in UTF-8", "save it as UTF-8") from None
    except ValueError:
        raise Failed(Place(path), "is no name of a file", "name a file that can be read") from None


def words_of(line: str) -> list[str]:
    """Returns the cells of a line of words: a name with spaces is quoted, and # begins a comment."""
    return shlex.split(line, comments=True)


def commas_of(line: str) -> list[str]:
    """Returns the cells of a line of CSV."""
    cells = [cell.strip() for cell in next(csv.reader([line], strict=True))]
    while cells and not cells[-1]:
        cells.pop()
    return [] if not cells or cells[0].startswith("#") else cells


def rows_of(path: str, faults: Faults) -> Iterator[Row]:
    """Yields the rows of a table that have the right form. A file whose name ends in .csv is read as CSV."""
    cells_of = commas_of if path.lower().endswith(".csv") else words_of
    for number, line in enumerate(re.split(r"\r\n|\n|\r", text_of(path)), 1):
        try:
            cells = cells_of(line) if line.strip() else []
        except (ValueError, csv.Error):
            faults.add(number, "a quotation mark is not closed", "close it on the same line")
            continue
        if cells:
            row = Row(number, cells[0], cells[1:])
            if has_form(row, faults):
                yield row


def has_form(row: Row, faults: Faults) -> bool:
    """Returns whether a row is of a known kind and has the right number of cells; adds a fault if not."""
    if row.kind not in KINDS:
        faults.add(row.line, "%s is not a kind of row" % row.kind, "begin with one of: " + ", ".join(KINDS))
        return False
    wanted = KINDS[row.kind]
    least = len([cell for cell in wanted if not cell.startswith("[")])
    if not least <= len(row.cells) <= len(wanted):
        faults.add(row.line, "this row %s has %d cells after the kind" % (row.kind, len(row.cells)), "write: %s %s (- for none)" % (
            row.kind, " ".join(wanted)))
        return False
    return True

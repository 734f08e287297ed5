"""The contents of cells: names, keys, filters, regions."""
from __future__ import annotations

from typing import Any, Callable

from once_tools import elements
from once_tools.tables.table import Faults, Row

Entry = dict[str, Any]
LONGEST = 255


def listed(cell: str) -> list[str]:
    """Returns the entries of a list: they are separated by commas, and `-` is the empty list."""
    return [] if cell == "-" else [entry.strip() for entry in cell.split(",")]


def is_name(text: str) -> bool:
    """Returns whether a text may be a name in a document."""
    return text != "" and text == text.strip() and len(text.encode()) <= LONGEST


def name(row: Row, text: str, faults: Faults) -> bool:
    """Returns whether a text may be a name, and adds a fault if it may not."""
    if is_name(text):
        return True
    cure = "write 1 to 255 octets without white space at either end, and no empty entry"
    faults.add(row.line, "%r is not a name" % text, cure)
    return False


def names(row: Row, cell: str, faults: Faults) -> list[str]:
    """Returns the names in a cell."""
    found: list[str] = []
    for text in listed(cell):
        if text in found:
            faults.add(row.line, "%s occurs twice" % text, "take one of them out")
        elif name(row, text, faults):
            found.append(text)
    return found


def word(row: Row, cell: str, words: list[str], what: str, faults: Faults) -> str | None:
    """Returns the word in a cell if it is one of a few, otherwise None after a fault."""
    if cell in words:
        return cell
    faults.add(row.line, "there is no %s %s" % (what, cell), "write one of: " + ", ".join(words))
    return None


def axes(row: Row, cell: str, faults: Faults) -> list[str]:
    """Returns the flow keys of a cache."""
    found: list[str] = []
    for text in listed(cell):
        if text not in elements.AXES:
            faults.add(row.line, "%s cannot be a flow key" % text, "write elements of: " + ", ".join(elements.AXES))
        elif text in found:
            faults.add(row.line, "%s occurs twice" % text, "take one of them out")
        else:
            found.append(text)
    return found


def key(row: Row, cell: str, faults: Faults) -> list[Entry]:
    """Returns the fields of the key of a report or an aggregation: axes, and prefixes as sourceIPv4Prefix/24."""
    found: list[Entry] = []
    seen: set[str] = set()
    for text in listed(cell):
        element, slash, bits = text.partition("/")
        if element in elements.PREFIXES:
            most = elements.BITS[elements.PREFIXES[element]]
            right = elements.is_number(bits, 1, most)
            cure = "write %s/n, n from 1 to %d" % (element, most)
        else:
            right = element in elements.AXES and not slash
            cure = "write an axis (%s) or a prefix with its length (sourceIPv4Prefix/24)" % ", ".join(elements.AXES)
        if not right:
            faults.add(row.line, "%s cannot be a field of a key" % text, cure)
        elif elements.axis_of(element) in seen:
            faults.add(row.line, "an earlier field of the key is already on the axis of %s" % text, "take one of them out")
        else:
            seen.add(elements.axis_of(element))
            found.append({"ieName": element, "prefixLength": int(bits)} if slash else {"ieName": element})
    return found


def pairs(row: Row, cell: str, known: list[str], fits: Callable[[str, str], bool],
          faults: Faults) -> list[tuple[str, str]]:
    """Returns the elements in a cell with their values, as in ipVersion=4; `all` stands for none."""
    found: list[tuple[str, str]] = []
    for text in listed(cell) if cell != "all" else []:
        element, equals, value = text.partition("=")
        if element not in known or not equals:
            cure = "write all, or ELEMENT=VALUE with one of: " + ", ".join(known)
            faults.add(row.line, "%s is not an element with a value" % text, cure)
        elif not fits(element, value):
            cure = "write " + elements.form_of(element)
            if fits is elements.is_range:
                cure += ", or low-high" + (" or address/n" if element in elements.ADDRESSES else "")
            faults.add(row.line, "%s has no value %s" % (element, value), cure)
        else:
            found.append((element, value))
    return found


def filters(row: Row, cell: str, faults: Faults) -> list[Entry]:
    """Returns the values that packets or records must have."""
    known = elements.AXES + list(elements.PREFIXES)
    found = pairs(row, cell, known, elements.is_value, faults)
    return [{"ieName": element, "value": value} for element, value in found]


def region(row: Row, cell: str, faults: Faults) -> dict[str, str]:
    """Returns the values that the packets of a class have."""
    found: dict[str, str] = {}
    for element, value in pairs(row, cell, elements.AXES, elements.is_range, faults):
        if element in found:
            faults.add(row.line, "%s occurs twice" % element, "write one range, or two classes")
        found[element] = value
    return found

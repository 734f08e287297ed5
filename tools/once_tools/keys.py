"""Keys of reports and aggregations: elements, and prefixes with their lengths."""
from __future__ import annotations

from once_tools.elements import AXES, BITS, PREFIXES, axis_of, is_number
from once_tools.model import Finding, Grade, Place
from once_tools.project import AXES as NAMES
from once_tools.toml_table import nearest

KeyField = tuple[str, int | None]
SIDES = ("source", "destination")


def is_generic(text: str) -> bool:
    """Returns whether a key's entry stands for an address of either version."""
    return text.split("/")[0] in SIDES


def generic(text: str, version: int) -> KeyField | None:
    """Returns what `source`, or `source/24/48`, is for a version of IP."""
    side, *lengths = text.split("/")
    if not lengths:
        return (f"{side}IPv{version}Address", None)
    if len(lengths) > 2 or not all(is_number(one, 1, 128) for one in lengths):
        return None
    length = int(lengths[0] if version == 4 or len(lengths) == 1 else lengths[1])
    return (f"{side}IPv{version}Prefix", length) if length <= BITS[version] else None


def specific(text: str) -> KeyField | None:
    """Returns the field that an element, or a prefix as `sourceIPv4Prefix/24`, is."""
    element, slash, length = text.partition("/")
    element = NAMES.get(element, element)
    if not slash:
        return (element, None) if element in AXES else None
    if element not in PREFIXES or not is_number(length, 1, BITS[PREFIXES[element]]):
        return None
    return (element, int(length))


def key_of(texts: tuple[str, ...], version: int | None, place: Place, findings: list[Finding]) -> list[KeyField]:
    """Returns the fields of a key; what is wrong is added to the findings."""
    found: list[KeyField] = []
    for text in texts:
        field = generic(text, version) if version and is_generic(text) else specific(text)
        if field is None:
            known = [*SIDES, *AXES, *(f"{one}/24" for one in PREFIXES)]
            findings.append(Finding(Grade.WRONG, place, f"'{text}' is no field of a key", nearest(text, known)))
        elif field[0] in [one for one, _ in found]:
            findings.append(Finding(Grade.WRONG, place, f"'{text}' is twice in the key", "take one of them out"))
        else:
            found.append(field)
    return found


def spelled(key: list[KeyField]) -> str:
    """Returns a key in words."""
    return ", ".join(element if length is None else f"{element}/{length}" for element, length in key) or "nothing"


def missing(wanted: list[KeyField], there: list[KeyField]) -> list[KeyField]:
    """Returns the fields of a key that cannot be read from records that have another one."""
    found = []
    for element, length in wanted:
        lengths = [BITS[PREFIXES[one]] if at is None and one in PREFIXES else at for one, at in there
                   if axis_of(one) == axis_of(element)]
        full = any(at is None for at in lengths)
        if not full and not (length is not None and any(at is not None and at >= length for at in lengths)):
            found.append((element, length))
    return found

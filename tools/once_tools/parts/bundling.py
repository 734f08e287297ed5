"""Writes parts with their certificates as the one text that `once join` reads."""
from __future__ import annotations

from pathlib import Path
from typing import BinaryIO, Iterable

from once_tools.model import Failed
from once_tools.parts.auditing import place_of
from once_tools.parts.manifest import PartEntry

# The line that ends each text of a bundle.
MARK = b"%%\n"


def text_of(part: PartEntry, path: Path) -> bytes:
    """Returns a text of a part, with a line feed at its end. Raises `Failed` if it can't stand in a bundle."""
    octets = path.read_bytes()
    ended = octets if octets.endswith(b"\n") else octets + b"\n"
    if ended.startswith(MARK) or b"\n" + MARK in ended:
        raise Failed(place_of(part), f"{path.name} has a line `%%`, which ends a text of a bundle", "cut the network again")
    return ended


def certified(parts: Iterable[PartEntry]) -> list[PartEntry]:
    """Returns the parts, if each has a certificate. Raises `Failed` otherwise."""
    found = list(parts)
    for part in found:
        if not part.certificate.exists():
            why = "it is refuted: see refutation.txt" if part.refutation.exists() else "there is no certificate"
            raise Failed(place_of(part), why, "mend the network and cut it again" if part.refutation.exists() else "run `once-part audit`")
    return found


def write_bundles(parts: Iterable[PartEntry], out: BinaryIO) -> int:
    """Writes a bundle of the command `check` for each part, one directly after another. Returns how many."""
    written = 0
    for part in certified(parts):
        out.write(b"check\n")
        for path in (part.network, part.traffic, part.certificate):
            out.write(text_of(part, path) + MARK)
        written += 1
    return written

"""Pieces of declared traffic, joined to classes."""
from __future__ import annotations

from dataclasses import dataclass, field, replace
from typing import Iterable

from once_tools.model import Crossing, Finding, Grade, Place, TrafficClass
from once_tools.paths.regions import Span
from once_tools.paths.topology import Topology
from once_tools.paths.ways import Path

MOST_PATHS, MOST_CLASSES, MOST_CROSSINGS, LONGEST_NAME = 16, 256, 32, 255
ELEMENTS = {("source", 4): "sourceIPv4Address", ("destination", 4): "destinationIPv4Address",
            ("source", 6): "sourceIPv6Address", ("destination", 6): "destinationIPv6Address"}


@dataclass(frozen=True)
class Piece:
    """Traffic whose packets all have the same paths. Without a span it holds all addresses."""

    traffic: str
    version: int
    source: Span | None
    destination: Span | None
    paths: tuple[Path, ...]
    place: Place
    axes: tuple[tuple[str, str], ...] = ()
    exempt: bool = False


@dataclass
class Declaration:
    """What a project declares: classes of traffic, findings, and sentences about what the paths mean."""

    pieces: list[Piece]
    topology: Topology
    findings: list[Finding] = field(default_factory=list)
    meaning: list[str] = field(default_factory=list)

    @property
    def classes(self) -> list[TrafficClass]:
        """The classes of the declaration: pieces with equal paths are joined."""
        return classes_of(self.pieces)


def joined(pieces: list[Piece], axis: str) -> list[Piece]:
    """Returns pieces in which neighbours on an axis with equal paths are one."""
    found: list[Piece] = []
    for piece in pieces:
        last = found[-1] if found else None
        span = getattr(piece, axis)
        before = getattr(last, axis) if last else None
        if last and span and before and before.version == span.version and before.high + 1 == span.low and _is_like(
                last, piece, axis):
            found[-1] = replace(last, **{axis: Span(span.version, before.low, span.high)})
        else:
            found.append(piece)
    return found


def _is_like(a: Piece, b: Piece, axis: str) -> bool:
    other = "source" if axis == "destination" else "destination"
    return (a.traffic, a.version, a.axes, a.exempt) == (b.traffic, b.version, b.axes, b.exempt) and (
        getattr(a, other) == getattr(b, other) and set(a.paths) == set(b.paths))


def classes_of(pieces: list[Piece]) -> list[TrafficClass]:
    """Returns the classes of pieces: at most 16 paths each, and each with a name of its own."""
    pieces = joined(joined(pieces, "destination"), "source")
    found: list[TrafficClass] = []
    names: set[str] = set()
    by_traffic: dict[str, list[Piece]] = {}
    for piece in pieces:
        by_traffic.setdefault(piece.traffic, []).append(piece)
    title = {traffic: _Titles(same) for traffic, same in by_traffic.items()}
    for piece in pieces:
        parts = [piece.paths[at:at + MOST_PATHS] for at in range(0, len(piece.paths), MOST_PATHS)]
        for number, paths in enumerate(parts, 1):
            name = title[piece.traffic].of(piece) + (f" {number}" if len(parts) > 1 else "")
            name = _unused(name, names)
            found.append(TrafficClass(name, _region(piece), list(paths), piece.exempt, piece.place))
    return found


def _region(piece: Piece) -> dict[str, str]:
    found = {}
    for axis, span in (("source", piece.source), ("destination", piece.destination)):
        if span and not span.is_all:
            found[ELEMENTS[axis, piece.version]] = str(span)
    return found | dict(piece.axes) | {"ipVersion": str(piece.version)}


class _Titles:
    """The names of the pieces of one traffic: its own name, with what distinguishes a piece from the others."""

    def __init__(self, pieces: Iterable[Piece]) -> None:
        self._sources: dict[int, set[Span | None]] = {}
        self._destinations: dict[int, set[Span | None]] = {}
        for one in pieces:
            self._sources.setdefault(one.version, set()).add(one.source)
            self._destinations.setdefault(one.version, set()).add(one.destination)

    def of(self, piece: Piece) -> str:
        """Returns the name of a piece."""
        name = piece.traffic + (" over IPv6" if len(self._sources) > 1 and piece.version == 6 else "")
        if len(self._destinations[piece.version]) > 1:
            name += f" to {piece.destination}"
        if len(self._sources[piece.version]) > 1:
            name += f" from {piece.source}"
        return name


def _unused(name: str, names: set[str]) -> str:
    while len(name.encode()) > LONGEST_NAME:
        name = name[:-1]
    number, unused = 2, name
    while unused in names:
        unused, number = f"{name[:LONGEST_NAME - 8]} {number}", number + 1
    names.add(unused)
    return unused


def limit_findings(classes: list[TrafficClass], place: Place) -> list[Finding]:
    """Returns findings for what is more than `once` reads in one document."""
    found = []
    if len(classes) > MOST_CLASSES:
        found.append(Finding(Grade.WRONG, place, f"the traffic has {len(classes)} classes, and one document holds "
                             f"{MOST_CLASSES}", "write merge = \"paths\" for the traffic with most classes, or cut the "
                             "traffic into several projects"))
    for one in classes:
        longest = max((len(path) for path in one.paths), default=0)
        if longest > MOST_CROSSINGS:
            found.append(Finding(Grade.WRONG, one.place, f"a path of '{one.name}' has {longest} crossings, and a document's "
                                 f"path has at most {MOST_CROSSINGS}", "write fewer hops, or leave full off"))
    return found


def beginnings(paths: tuple[Path, ...]) -> tuple[Path, ...]:
    """Returns paths with all their beginnings: packets may die after any crossing."""
    return tuple(dict.fromkeys(path[:at] for path in paths for at in range(len(path), min(len(path), 1) - 1, -1)))


def kept(paths: tuple[Path, ...], metered: set[Crossing]) -> tuple[Path, ...]:
    """Returns paths without the crossings that nothing meters; equal ones fall together."""
    return tuple(dict.fromkeys(tuple(one for one in path if one in metered) for path in paths))

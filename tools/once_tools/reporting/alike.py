"""Rows of a table of paths: successive paths that differ in the numbers of their devices' names alone are one row."""
from __future__ import annotations

from dataclasses import dataclass, replace
from typing import Iterable, Sequence

from once_tools.reporting.names import are_numbered, span

# At least this many successive paths are one row.
FEWEST = 3


@dataclass(frozen=True)
class Counted:
    """Where packets of a path are counted, and how many leaves of the certificate say so. `crossing` is 1-based."""

    crossing: int
    device: str
    interface: str
    direction: str
    point: str
    process: str
    leaves: int


@dataclass(frozen=True)
class Crossing:
    """A crossing of a path."""

    device: str
    interface: str
    direction: str

    def __str__(self) -> str:
        return f"{self.device} {self.interface} {self.direction}"


@dataclass(frozen=True)
class PathRow:
    """A path, or several that are alike: their numbers, the crossings, where packets are counted, and how many leaves say that they
    are not."""

    numbers: str
    crossings: tuple[Crossing, ...]
    counted: tuple[Counted, ...] = ()
    uncounted: int = 0


def form_of(row: PathRow) -> PathRow:
    """Returns what is the same of paths that are alike: all but the number and the devices."""
    crossings = tuple(replace(one, device="") for one in row.crossings)
    return replace(row, numbers="", crossings=crossings, counted=tuple(replace(one, device="") for one in row.counted))


def devices_of(row: PathRow) -> list[str]:
    return [one.device for one in row.crossings]


def varied(rows: Sequence[PathRow]) -> list[int]:
    """Returns the places of the crossings, from 0, whose devices are not the same in all rows."""
    return [at for at, names in enumerate(zip(*map(devices_of, rows))) if len(set(names)) > 1]


def are_alike(rows: Sequence[PathRow]) -> bool:
    """Returns whether rows are of one form, and each device is the same in all or has successive numbers."""
    names = list(zip(*map(devices_of, rows)))
    return len({form_of(one) for one in rows}) == 1 and bool(varied(rows)) and all(are_numbered(names[at]) for at in varied(rows))


def joined(rows: Sequence[PathRow]) -> PathRow:
    """Returns the row of paths that are alike, with the leaves of all."""
    first = rows[0]
    names = [span(one) if len(set(one)) > 1 else one[0] for one in zip(*map(devices_of, rows))]
    counted = tuple(replace(one, device=names[one.crossing - 1], leaves=one.leaves * len(rows)) for one in first.counted)
    crossings = tuple(replace(one, device=name) for one, name in zip(first.crossings, names))
    return PathRow(f"{first.numbers} to {rows[-1].numbers}", crossings, counted, first.uncounted * len(rows))


def runs_of(rows: Iterable[PathRow]) -> list[list[PathRow]]:
    """Returns successive rows that are alike together, each row with those before it where it can be."""
    runs: list[list[PathRow]] = []
    for row in rows:
        if runs and are_alike([*runs[-1], row]):
            runs[-1].append(row)
        else:
            runs.append([row])
    return runs


def folded(rows: Iterable[PathRow]) -> tuple[PathRow, ...]:
    """Returns the rows with one for successive paths that are alike."""
    return tuple(row for run in runs_of(rows) for row in ([joined(run)] if len(run) >= FEWEST else run))

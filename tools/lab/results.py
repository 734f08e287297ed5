"""Results of a run of the lab as a JSON text, and whether two runs agree."""
from __future__ import annotations

import json
import time
from dataclasses import dataclass, field
from pathlib import Path
from typing import Any

from lab.analysis import Result
from lab.programs import LabError, run
from lab.totals import Totals, whole

PACKAGES = ("frr", "pmacct", "softflowd", "openvswitch-switch", "nfdump", "tshark", "iproute2")
Entry = dict[str, Any]


@dataclass
class Results:
    """The outcome of a run: versions, seconds, and an entry for each scenario that was measured."""

    date: str
    versions: dict[str, str]
    seconds: float
    up: float
    scenarios: list[Entry] = field(default_factory=list)
    faults: list[str] = field(default_factory=list)


def versions() -> dict[str, str]:
    """Returns the versions of the kernel and of the Debian packages of what runs in the lab."""
    found = {"Linux": run(["uname", "-r"]).output.strip()}
    for package in PACKAGES:
        said = run(["dpkg-query", "-W", "-f=${Version}", package], check=False)
        found[package] = said.output.strip() if said.status == 0 else "not a Debian package"
    return found


def entry_of(result: Result) -> Entry:
    """Returns what is kept of a scenario's result."""
    scenario, measured, judged = result.scenario, result.measured, result.judged
    return {"name": scenario.name, "title": scenario.title, "is core": scenario.is_core, "is random": scenario.is_random,
            "audit": measured.audit, "verdict": judged.verdict.value, "borne out": judged.borne_out,
            "premise": scenario.expected.premise, "reasons": judged.reasons, "faults": judged.faults,
            "due": measured.due, "plain": measured.plain, "predicted": measured.predicted, "found": measured.found,
            "refused": measured.refused, "others": measured.others, "losses": [str(one) for one in measured.losses],
            "notes": measured.notes, "lost before": result.lost_before, "gaps": result.gaps, "seconds": round(result.seconds, 1)}


def make(results: list[Result], faults: list[str], up: float, seconds: float) -> Results:
    """Returns the results of a run that ends now."""
    return Results(time.strftime("%Y-%m-%d", time.gmtime()), versions(), round(seconds, 1), round(up, 1),
                   [entry_of(one) for one in results], faults)


def write(results: Results, path: Path) -> None:
    """Writes results as JSON."""
    path.parent.mkdir(parents=True, exist_ok=True)
    path.write_text(json.dumps(vars(results), indent=1) + "\n", encoding="utf-8")


def read(path: Path) -> Results:
    """Returns the results of a file."""
    try:
        return Results(**json.loads(path.read_text(encoding="utf-8")))
    except (OSError, ValueError, TypeError) as error:
        raise LabError(f"{path} has no results of the lab: {error}") from error


def counts(table: Totals | None) -> str:
    """Returns a table's packets and octets in words."""
    return "none" if table is None else "%d / %d" % whole(table)


def difference(one: Entry, other: Entry) -> list[str]:
    """Returns where two results of a scenario differ. Of one whose totals are left to chance, the answers alone are compared:
    its bounds were checked in each run."""
    same = ["audit", "borne out", "faults"] if one["is random"] else ["audit", "verdict", "borne out", "faults", "due",
                                                                      "predicted", "found", "refused", "losses"]
    return [f"{one['name']}: {member} differs" for member in same if one[member] != other[member]]


def compare(one: Results, other: Results) -> list[str]:
    """Returns where two runs differ, scenario by scenario."""
    first, second = ({each["name"]: each for each in results.scenarios} for results in (one, other))
    found = [f"{name} was measured in one of the runs alone" for name in sorted(set(first) ^ set(second))]
    return found + [text for name, each in first.items() if name in second for text in difference(each, second[name])]

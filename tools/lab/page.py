"""The table of docs/LAB.md, written from the results of a run."""
from __future__ import annotations

from pathlib import Path

from lab.programs import LabError
from lab.results import Entry, Results, counts

BEGIN, END = "<!-- written by make lab: results -->", "<!-- end of results -->"
HEAD = ("| Scenario | What runs | Audit | Due | Predicted | nfacctd | `once collect` | nfcapd | Result |",
        "|---|---|---|---|---|---|---|---|---|")


def cell(one: Entry, program: str) -> str:
    """Returns what a program totals: as predicted, its counts, or why it has none."""
    if program in one["refused"]:
        return f"`{one['refused'][program]}`"
    if program not in one["found"]:
        return "running totals"
    table = one["found"][program]
    return "as predicted" if table == one["predicted"] else counts(table)


def outcome(one: Entry) -> str:
    """Returns a scenario's result in words."""
    text = f"**{one['verdict']}**" if one["verdict"] != "agreed" else "agreed"
    text += f". Premise that fails: {one['premise']}" if one["premise"] and one["verdict"] != "agreed" else ""
    text += f". Seen: {one['losses'][0]}" if one["losses"] else ""
    earlier = one["lost before"]
    return text + (f", at attempt {len(earlier) + 1}. Lost before: {earlier[-1]}" if earlier else "")


def row(one: Entry) -> str:
    """Returns a scenario's row."""
    name = f"{one['name']}{' (core)' if one['is core'] else ''}{' (random)' if one['is random'] else ''}"
    audit = one["audit"] if one["borne out"] else f"{one['audit']}, not borne out"
    due, predicted = counts(one["due"]), counts(one["predicted"])
    cells = [name, one["title"], audit, due, "as due" if predicted == due and one["predicted"] == one["due"] else predicted,
             *(cell(one, program) for program in ("nfacctd", "once collect", "nfcapd")), outcome(one)]
    return "| " + " | ".join(text.replace("|", "\\|") for text in cells) + " |"


def lines_of(results: Results) -> list[str]:
    """Returns the lines of the table, and what it was made with."""
    verdicts = [one["verdict"] for one in results.scenarios]
    tally = ", ".join(f"{verdicts.count(word)} {word}" for word in dict.fromkeys(sorted(verdicts)))
    made = ", ".join(f"{name} {version}" for name, version in results.versions.items())
    said = f"Run on {results.date}: {len(verdicts)} scenarios in {results.seconds:.0f} s, the lab up after {results.up:.0f} s: {tally}."
    return [said, "", f"Versions: {made}.", "", *HEAD, *(row(one) for one in results.scenarios)]


def write_table(page: Path, results: Results) -> None:
    """Writes the table into a page, between its marks. A run with faults, or of a part of the scenarios, is refused."""
    if results.faults:
        raise LabError(f"the table is not written: the run has {len(results.faults)} faults")
    text = page.read_text(encoding="utf-8")
    if text.count(BEGIN) != 1 or text.count(END) != 1:
        raise LabError(f"{page} has not one line '{BEGIN}' and one line '{END}'")
    before, _, rest = text.partition(BEGIN)
    page.write_text("\n".join([before + BEGIN, "", *lines_of(results), "", END + rest.partition(END)[2]]), encoding="utf-8")

"""`once-mend`: the fewest changes of a network after which each packet is counted exactly as declared."""
from __future__ import annotations

import argparse
import json
from pathlib import Path
from typing import Sequence

from once_tools.ending import FAILED, Parser, exit_status
from once_tools.mending.changes import Change
from once_tools.mending.patches import Document, Operation
from once_tools.mending.search import Limits, Proposal, mend
from once_tools.model import Failed, Place
from once_tools.once_program import find_once
from once_tools.report import where

MENDED, NONE_FOUND = 0, 1
EPILOG = """Each proposal was audited and its certificate checked by `once`, so it holds whatever this program does wrong; whether it is what
you want is for you to say. Exit statuses: 0 there are proposals, or nothing is to be mended; 1 none was found within the limits; 5 a file
or program failed, or once refuses the documents; 6 wrong arguments."""


def natural(text: str) -> int:
    if not text.isdigit() or int(text) < 1:
        raise argparse.ArgumentTypeError("a number from 1 is due")
    return int(text)


def make_parser() -> Parser:
    parser = Parser(prog="once-mend", description=__doc__.partition(": ")[2] if __doc__ else "", epilog=EPILOG)
    parser.add_argument("network", type=Path, help="the network document")
    parser.add_argument("traffic", type=Path, help="the traffic declaration")
    parser.add_argument("--changes", type=natural, default=3, metavar="N", help="the maximum number of changes in a proposal (3)")
    parser.add_argument("--proposals", type=natural, default=3, metavar="N", help="the maximum number of proposals (3)")
    parser.add_argument("--seconds", type=natural, default=10, metavar="N", help="search for at most so long (10)")
    parser.add_argument("--format", choices=("text", "json"), default="text", help="how proposals are printed")
    parser.add_argument("--out", type=Path, metavar="DIR", help="write the JSON Patches and the mended documents of each proposal there")
    parser.add_argument("--once", metavar="PROGRAM", help="the program `once`")
    return parser


def read_document(path: Path) -> Document:
    """Returns the object in a file; raises `Failed` where there is none."""
    try:
        found = json.loads(path.read_text(encoding="utf-8"))
    except OSError as error:
        raise Failed(Place(str(path)), f"cannot be read: {error.strerror}", "name a file that can be read") from error
    except ValueError as error:
        raise Failed(Place(str(path)), f"is no JSON text: {error}", "see `once lint`") from error
    if not isinstance(found, dict):
        raise Failed(Place(str(path)), "is no document: it has no object", "see `once lint`")
    return found


def operations(proposal: Proposal, document: str) -> list[Document]:
    """Returns the JSON Patch of a proposal for a document, `network` or `traffic`."""
    found: list[Operation] = [it for change in proposal.changes for it in (change.network if document == "network" else change.traffic)]
    return [it.entry() for it in found]


def change_entry(change: Change) -> Document:
    place = change.place
    return {"says": change.says, **({"file": place.file, "line": place.line, "text": place.text} if place.file else {})}


def entry_of(proposal: Proposal) -> Document:
    return {"changes": [change_entry(it) for it in proposal.changes],
            "network": operations(proposal, "network"), "traffic": operations(proposal, "traffic")}


def lines_of(number: int, proposal: Proposal) -> list[str]:
    """Returns the lines that print a proposal."""
    lines = [f"proposal {number}: {len(proposal.changes)} change{'s' if len(proposal.changes) > 1 else ''}"]
    for change in proposal.changes:
        lines.append(f"  {change.says}")
        if change.place.file:
            lines.append(f"    {where(change.place)}" + (f": {change.place.text}" if change.place.text else ""))
    for document in ("network", "traffic"):
        if operations(proposal, document):
            lines.append(f"  patch of the {document} document: {json.dumps(operations(proposal, document), ensure_ascii=False)}")
    return lines


def write_out(folder: Path, proposals: list[Proposal]) -> None:
    """Writes the patches and the mended documents of each proposal: NUMBER.network.patch.json, NUMBER.network.json and so on."""
    folder.mkdir(parents=True, exist_ok=True)
    for number, one in enumerate(proposals, 1):
        for document, mended in (("network", one.network), ("traffic", one.traffic)):
            for name, value in ((f"{number}.{document}.patch.json", operations(one, document)), (f"{number}.{document}.json", mended)):
                (folder / name).write_text(json.dumps(value, indent=1, ensure_ascii=False) + "\n", encoding="utf-8")


def run(arguments: argparse.Namespace) -> int:
    network, traffic = read_document(arguments.network), read_document(arguments.traffic)
    limits = Limits(arguments.changes, arguments.proposals, arguments.seconds)
    proposals = mend(find_once(arguments.once), network, traffic, limits)
    is_certified = proposals and not proposals[0].changes
    if arguments.out and not is_certified:
        write_out(arguments.out, proposals)
    if arguments.format == "json":
        print(json.dumps({"certified": bool(is_certified), "proposals": [] if is_certified else [entry_of(it) for it in proposals]}, ensure_ascii=False))
    elif is_certified:
        print("nothing to mend: each packet is counted exactly as declared")
    elif proposals:
        print("\n".join(line for number, one in enumerate(proposals, 1) for line in lines_of(number, one)))
    else:
        print(f"no proposal of up to {arguments.changes} changes was found; try --changes and --seconds")
    return MENDED if proposals else NONE_FOUND


def main(words: Sequence[str] | None = None) -> int:
    """Runs the program; returns its exit status."""
    arguments = make_parser().parse_args(words)
    return exit_status("once-mend", lambda: run(arguments), FAILED)

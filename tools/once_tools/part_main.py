"""`once-part`: a network beyond the limits of `once`, audited in parts."""
from __future__ import annotations

import argparse
import gc
import sys
from pathlib import Path
from typing import Sequence

from once_tools.ending import Parser, exit_status
from once_tools.once_program import find_once
from once_tools.parts.auditing import Outcome, audit_all, status_of
from once_tools.parts.bundling import write_bundles
from once_tools.parts.cutting import Sources, cut
from once_tools.parts.manifest import read_manifest
from once_tools.parts.verifying import verify
from once_tools.report import counted, printable

NO, REFUSED = 1, 2
PROVED = """`once join`, over what `bundle` prints, decides whether the parts certify the whole, and is proved: it trusts neither `cut` nor the
certificates. `verify` says in sentences what is wrong with parts, and is tested: it was written apart from `cut`, and trusts no part."""
STATUSES = """Exit statuses: 0 the parts are written or printed, all parts have a certificate, or `verify` says yes; 1 a part is refuted, or `verify` says no; 2 a
document is malformed or refused, or a class alone exceeds a limit; 3 a part is undecided (601), and none refuted or refused before it; 5 a file or
program failed; 6 wrong arguments."""


def jobs(text: str) -> int:
    if not (text.isascii() and text.isdigit() and len(text) < 4 and int(text) >= 1):
        raise argparse.ArgumentTypeError("a number from 1 to 999 is due")
    return int(text)


def add_documents(parser: argparse.ArgumentParser) -> None:
    parser.add_argument("network", type=Path, metavar="NETWORK", help="the network document of the whole")
    parser.add_argument("traffic", type=Path, metavar="TRAFFIC", help="the traffic declaration of the whole")


def add_running(parser: argparse.ArgumentParser) -> None:
    parser.add_argument("--jobs", type=jobs, default=1, metavar="N", help="run N programs at the same time (1)")
    parser.add_argument("--once", metavar="PROGRAM", help="the program `once`")


def make_parser() -> Parser:
    parser = Parser(prog="once-part", description=f"Audits a network of any size in parts that `once` can read. {PROVED}", epilog=STATUSES)
    commands = parser.add_subparsers(dest="command", required=True, metavar="COMMAND")
    one = commands.add_parser("cut", help="write the parts of a network", epilog=f"{PROVED} {STATUSES}", description="""Writes a folder for each part,
        with network.json and traffic.json, and manifest.json. A part has the report's device, the devices with an observation point that sees a crossing of one of
        its classes, and all devices that links lead to from these. Other devices are left out with their links and crossings.""")
    add_documents(one)
    one.add_argument("--to", type=Path, required=True, metavar="FOLDER", help="a new or empty folder for the parts")
    one.add_argument("--filters", action="store_true", help="also leave out selection processes that select no packet of the part's classes, and devices where none is left")
    one = commands.add_parser("audit", help="audit each part, and check each certificate", epilog=f"{PROVED} {STATUSES}", description="""Has `once` audit each part
        in a folder, check the certificates and confirm the refutations, which are written beside the parts' documents as certificate.txt or refutation.txt. Prints a
        line for each part and one for all.""")
    one.add_argument("folder", type=Path, metavar="FOLDER", help="the folder that `once-part cut` wrote")
    add_running(one)
    one = commands.add_parser("bundle", help="print all parts as the text that `once join` reads", epilog=f"{PROVED} {STATUSES}", description="""Prints the documents
        and the certificate of each part as a bundle, one after another, for `once join NETWORK TRAFFIC PARTS`. Fails if a part has no certificate.""")
    one.add_argument("folder", type=Path, metavar="FOLDER", help="the folder that `once-part cut` wrote")
    one = commands.add_parser("verify", help="judge whether the parts cover every path of the whole", epilog=f"{PROVED} {STATUSES}", description="""Judges whether
        each part is a part of the whole, whether some part covers each path of each class of the whole, and whether `once check` says yes of each certificate.
        Prints what is wrong, line by line, and last yes or no.""")
    one.add_argument("folder", type=Path, metavar="FOLDER", help="the folder that `once-part cut` wrote")
    add_documents(one)
    add_running(one)
    return parser


def run_cut(arguments: argparse.Namespace) -> int:
    parts = cut(Sources(arguments.network, arguments.traffic, arguments.to, arguments.filters))
    classes = sum(len(one.classes) for one in parts)
    print(f"{counted(len(parts), 'part', 'parts')} of {counted(classes, 'class', 'classes')} in {printable(str(arguments.to))}")
    return 0


def run_audit(arguments: argparse.Namespace) -> int:
    program, outcomes = find_once(arguments.once), []
    for one in audit_all(program, read_manifest(arguments.folder).parts, arguments.jobs):
        outcomes.append(one.outcome)
        size = f"{counted(len(one.part.classes), 'class', 'classes')}, {counted(len(one.part.devices), 'device', 'devices')}"
        print(f"part {one.part.name}: {size}: {one.outcome.name.lower()}", flush=True)
        for line in one.says:
            print(f"  {printable(line)}", flush=True)
    counts = [f"{outcomes.count(one)} {one.name.lower()}" for one in Outcome if one in outcomes]
    print(f"{counted(len(outcomes), 'part', 'parts')}: {', '.join(counts) or 'nothing to audit'}")
    return status_of(outcomes).value


def run_verify(arguments: argparse.Namespace) -> int:
    verdict = verify(find_once(arguments.once), arguments.folder, arguments.network, arguments.traffic, arguments.jobs)
    for line in verdict.notes:
        print(f"note: {printable(line)}", file=sys.stderr)
    for line in verdict.faults:
        print(printable(line))
    if verdict.faults:
        print("no")
        return NO
    print(f"yes: {counted(verdict.parts, 'part', 'parts')}, each with a certificate, cover all paths of {counted(verdict.classes, 'class', 'classes')}")
    return 0


def run_bundle(arguments: argparse.Namespace) -> int:
    write_bundles(read_manifest(arguments.folder).parts, sys.stdout.buffer)
    sys.stdout.flush()
    return 0


COMMANDS = {"cut": run_cut, "audit": run_audit, "bundle": run_bundle, "verify": run_verify}


def main(words: Sequence[str] | None = None) -> int:
    """Runs the program; returns its exit status."""
    arguments = make_parser().parse_args(words)
    gc.disable()  # a document has a million values and no circle: looking for one takes half of the time
    return exit_status("once-part", lambda: COMMANDS[arguments.command](arguments), REFUSED)

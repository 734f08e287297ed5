"""`once-report`: an answer of `once` as one page of HTML, for whoever signs the bill."""
from __future__ import annotations

import argparse
import sys
from pathlib import Path
from typing import Sequence

from once_tools.ending import Parser, exit_status
from once_tools.once_program import find_once
from once_tools.reporting.answer import Status
from once_tools.reporting.asking import Question
from once_tools.reporting.demo import build_demo
from once_tools.reporting.making import Wanted, make
from once_tools.reporting.page import encoded, html_of, templates

NOT_SHOWN, WRONG = 1, 2
STATUSES = {Status.ONCE: 0, Status.WRONG: NOT_SHOWN, Status.UNDECIDED: NOT_SHOWN, Status.REFUSED: WRONG, Status.NOT_ACCEPTED: WRONG}
MOST = 1_000_000
EPILOG = """Without --answer, `once audit` searches for one. A certificate is checked by `once check` and a refutation confirmed by `once
confirm` before the report is written. Exit statuses: 0 a certificate; 1 a refutation, or undecided; 2 a document or an answer is refused, or
the arguments are wrong, or Jinja2 is missing; 5 a file or program failed. A report is written for 0 and 1, and also if something is
refused. --demo ends with 0 if all reports were written."""


def limit(text: str) -> int:
    if not (text.isascii() and text.isdigit() and len(text) < 9 and 1 <= int(text) <= MOST):
        raise argparse.ArgumentTypeError(f"a number from 1 to {MOST} is due")
    return int(text)


def make_parser() -> Parser:
    parser = Parser(prog="once-report", description=__doc__.partition(": ")[2] if __doc__ else "", epilog=EPILOG)
    parser.status = WRONG
    parser.add_argument("network", type=Path, nargs="?", help="the network document")
    parser.add_argument("traffic", type=Path, nargs="?", help="the traffic declaration")
    parser.add_argument("--answer", type=Path, metavar="FILE", help="report on this certificate or refutation instead of an audit")
    parser.add_argument("--import-report", type=Path, metavar="FILE", help="include the report that `once-import PROJECT --format json` prints")
    parser.add_argument("--title", default="", metavar="TEXT", help="the heading of the report")
    parser.add_argument("--limit", type=limit, metavar="N", help="the limit of `once audit`")
    parser.add_argument("--out", type=Path, metavar="FILE", help="write the report there (standard output)")
    parser.add_argument("--demo", type=Path, metavar="FOLDER", help="write the reports of the examples, and an index.html, into a folder")
    parser.add_argument("--examples", type=Path, metavar="FOLDER", help="the examples of --demo, a folder with network.json and traffic.json each")
    parser.add_argument("--once", metavar="PROGRAM", help="the program `once`")
    return parser


def write(text: str, out: Path | None) -> None:
    """Writes a page into a file, or prints it."""
    if out:
        out.write_bytes(encoded(text))
    else:
        sys.stdout.buffer.write(encoded(text))
        sys.stdout.flush()


def run(arguments: argparse.Namespace) -> int:
    """Writes the reports that are asked for; returns the exit status."""
    templates()
    program = find_once(arguments.once)
    if arguments.demo:
        for remark in build_demo(program, arguments.demo, arguments.examples):
            print(remark, file=sys.stderr)
        return 0
    question = Question(arguments.network, arguments.traffic, arguments.answer, arguments.limit)
    made = make(program, Wanted(question, arguments.title, arguments.import_report))
    for remark in made.remarks:
        print(remark, file=sys.stderr)
    write(html_of(made.page), arguments.out)
    return STATUSES[made.page.status]


def fault_in(arguments: argparse.Namespace) -> str:
    """Returns what is wrong with arguments that are right each alone; an empty text if nothing is."""
    if arguments.demo:
        return "--demo takes no documents, --answer, --import-report, --title, --limit or --out" if any(
            (arguments.network, arguments.answer, arguments.import_report, arguments.title, arguments.limit, arguments.out)) else ""
    if arguments.examples:
        return "--examples goes with --demo"
    if arguments.answer and arguments.limit:
        return "--limit is for an audit, which --answer replaces"
    return "" if arguments.traffic else "name a network document and a traffic declaration"


def main(words: Sequence[str] | None = None) -> int:
    """Runs the program; returns its exit status."""
    parser = make_parser()
    arguments = parser.parse_args(words)
    fault = fault_in(arguments)
    if fault:
        parser.error(fault)
    return exit_status("once-report", lambda: run(arguments), WRONG)

"""`once-import blame NETWORK ANSWER`: names the files and lines that an answer of `once` is about."""
from __future__ import annotations

import argparse
import json
from pathlib import Path

from once_tools.answers import is_certificate, refusal_of, refutation_of
from once_tools.blame import blame
from once_tools.commands.options import Subparsers, print_report
from once_tools.json_answer import answer_in
from once_tools.model import Place, Unusable
from once_tools.network_view import Json
from once_tools.report import Report
from once_tools.report_forms import FORMATS
from once_tools.source import read_source

NAME = "blame"


def add_parser(subparsers: Subparsers) -> None:
    """Adds the command."""
    parser = subparsers.add_parser(NAME, help="name the lines that a refutation or a refusal of `once` is about")
    parser.add_argument("network", metavar="NETWORK", type=Path, help="a network document of once-import")
    parser.add_argument("answer", metavar="ANSWER", type=Path, help="what `once audit` printed, also with --format json")
    parser.add_argument("traffic", metavar="TRAFFIC", type=Path, nargs="?",
                        help="the traffic document (traffic.json beside NETWORK otherwise)")
    parser.add_argument("--format", choices=FORMATS, default="text", help="the form of what is printed")
    parser.set_defaults(run=run)


def document(path: Path) -> Json:
    """Returns the object of a document."""
    source = read_source(path)
    try:
        value = json.loads(source.text)
    except (ValueError, RecursionError):
        value = None
    if not isinstance(value, dict):
        raise Unusable(Place(str(path)), "this is no document of JSON", "name a document that once-import has written")
    return value


def printed(path: Path) -> str:
    """Returns what `once audit` printed into a file, and of a JSON object what it prints without the option."""
    text = read_source(path).text
    try:
        return answer_in(text).output
    except (ValueError, RecursionError, Unusable):
        return text


def run(arguments: argparse.Namespace) -> int:
    """Returns 0 if the answer is a certificate, 1 if lines are named, 2 if the answer cannot be read."""
    answer = printed(arguments.answer)
    if is_certificate(answer):
        print("a certificate: no line is to blame")
        return 0
    traffic = arguments.traffic or arguments.network.with_name("traffic.json")
    found = blame(document(arguments.network), document(traffic), refutation_of(answer) or refusal_of(answer))
    if not found:
        raise Unusable(Place(str(arguments.answer)), "this is no answer of `once audit`, or none that lines can be named for",
                       "give the text that `once audit` printed")
    print_report(Report(found), arguments.format)
    return 1

"""`once-import template`: the templates in a capture, and what in them bears on the count."""
from __future__ import annotations

import argparse
import sys
from pathlib import Path

from once_tools.report import printable
from once_tools.streams.advice import bearing, document
from once_tools.streams.capture import Reading
from once_tools.streams.elements import name_of
from once_tools.streams.extract import Extraction
from once_tools.streams.messages import VARIABLE
from once_tools.streams.survey import Survey, Use

DESCRIPTION = """Prints the templates that exporters send in a capture (IPFIX and NetFlow 9), what in them bears on the count
(lengths of counters, sampling, direction, prefixes), and what a network document says for them. A template does not say which
fields are flow keys: those that are printed as keys are the fields that can be."""


def add_parser(subparsers: argparse._SubParsersAction[argparse.ArgumentParser]) -> None:
    """Adds the command to a program."""
    parser = subparsers.add_parser("template", help="the templates in a capture of exports", description=DESCRIPTION)
    parser.add_argument("capture", type=Path, metavar="CAPTURE")
    parser.add_argument("--port", type=int, action="append", default=[], metavar="PORT",
                        help="read what goes to this port only; may be given several times")
    parser.set_defaults(run=run)


def run(arguments: argparse.Namespace) -> int:
    """Prints the templates; returns 0, or 2 if there are none."""
    survey, reading = Survey(), Reading(arguments.capture.name)
    Extraction(survey, tuple(arguments.port)).run(arguments.capture, reading)
    lines = [line for use in survey.uses for line in described(use)]
    for ends, records in survey.records_5.items():
        lines += [f"{ends}, NetFlow 5: {records} records of fixed fields, IPv4 alone, with counters of 4 octets", ""]
    if survey.unread:
        lines += [f"not read: {survey.unread} messages or parts of messages", ""]
    if not lines:
        print(f"wrong {printable(arguments.capture.name)}: none of its {reading.frames} frames has a template; capture for "
              "longer, since exporters send templates from time to time", file=sys.stderr)
        return 2
    print("\n".join(printable(line) for line in lines[:-1]))
    return 0


def described(use: Use) -> list[str]:
    """Returns the lines about a template."""
    kind = "options template" if use.template.is_options else "template"
    version = "IPFIX" if use.version == 10 else "NetFlow 9"
    lines = [f"{use.ends}, {version}, domain {use.domain}, {kind} {use.template.number} (frame {use.frame}), "
             f"records in the capture: {use.records}"]
    for at, one in enumerate(use.template.fields):
        length = "variable" if one.length == VARIABLE else str(one.length)
        scope = "  scope" if at < use.template.scope else ""
        lines.append(f"  {name_of(one):<34} {one.element:>5}  length {length}{scope}")
    sentences = list(bearing(use))
    lines += ["  Bears on the count:" if sentences else "  Nothing else in it bears on the count."]
    lines += [f"  - {sentence}" for sentence in sentences]
    if not use.template.is_options:
        lines += ["  The document of this network says:", *(f"    {line}" for line in document(use))]
    return [*lines, ""]

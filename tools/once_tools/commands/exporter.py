"""`once-import exporter`: the network document of one exporter, from the arguments that it is called with."""
from __future__ import annotations

import argparse
import json
import sys

from once_tools.commands.options import Subparsers
from once_tools.exporter import pmacctd, softflowd
from once_tools.exporter.meter import Unusable, network_of
from once_tools.tables import cells, table
from once_tools.tables.cells import Entry

NAME = "exporter"
DESCRIPTION = """Prints the network document of one meter, as the arguments set up softflowd (1.1.0) or pmacctd (1.7.7, plugin
nfprobe), and one collector, which receives what goes to the first destination. The arguments are those that the exporter is
called with; those of pmacctd may name its file of settings (-f FILE), and set more as KEY=VALUE."""
EPILOG = """What bears on totals and could not be carried over is printed on standard error, a line each that begins with
`not carried over: `; what else is to be known follows in lines that begin with `note: `. Exit statuses: 0 all was carried
over, 1 something was not, 2 no document can be made, 5 a file cannot be read."""
EXPORTERS = {"softflowd": softflowd.read, "pmacctd": pmacctd.read}


def add_parser(subparsers: Subparsers) -> None:
    """Adds the command."""
    parser = subparsers.add_parser(NAME, help="print the network of one softflowd or pmacctd, from its arguments",
                                   description=DESCRIPTION, epilog=EPILOG)
    parser.add_argument("--key", metavar="ELEMENTS", help="the key of the report: elements with commas between them, a prefix "
                                                          "as sourceIPv4Prefix/24")
    parser.add_argument("exporter", metavar="softflowd|pmacctd", choices=list(EXPORTERS))
    parser.add_argument("arguments", metavar="ARGUMENTS", nargs=argparse.REMAINDER)
    parser.set_defaults(run=run)


def asked_key(text: str | None) -> list[Entry] | None:
    """Returns the key of the report that is asked for, None if there is none."""
    if text is None:
        return None
    faults = table.Faults("--key")
    key = cells.key(table.Row(1, "--key", [text]), text, faults)
    for line in faults.lines():
        raise Unusable(line.replace("--key:1: ", "--key: ", 1))
    return key


def run(arguments: argparse.Namespace) -> int:
    """Returns 0 if all was carried over, 1 if something was not, 2 if no document can be made."""
    try:
        key = asked_key(arguments.key)
        meter = EXPORTERS[arguments.exporter](arguments.arguments)
        network = network_of(meter, key)
    except Unusable as why:
        print(why, file=sys.stderr)
        return 2
    print(json.dumps(network, indent=2, ensure_ascii=False))
    for line in meter.lost:
        print("not carried over: " + line, file=sys.stderr)
    for line in meter.told:
        print("note: " + line, file=sys.stderr)
    return 1 if meter.lost else 0

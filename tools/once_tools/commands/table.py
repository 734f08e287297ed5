"""`once-import table`: the network document that a table describes, and its traffic.

A table is a text of rows, or a file of CSV whose name ends in .csv; tools/README.md shows one in full. If the table has a
fault, nothing is written: each fault is printed with its file and line, what is wrong, and what to do.
"""
from __future__ import annotations

import argparse
import json
import sys
from pathlib import Path

from once_tools.commands.options import Subparsers
from once_tools.importing import write_texts
from once_tools.tables import table
from once_tools.tables.cells import Entry
from once_tools.tables.network import network_of
from once_tools.tables.traffic import traffic_of

NAME = "table"


def add_parser(subparsers: Subparsers) -> None:
    """Adds the command."""
    parser = subparsers.add_parser(NAME, help="write the network, and the traffic, that a table describes", epilog="Exit "
                                   "statuses: 0 the documents are written, 2 the table has a fault, and nothing is written, "
                                   "5 a file cannot be read or written.")
    parser.add_argument("table", metavar="TABLE", help="a text of rows, or a file of CSV whose name ends in .csv")
    parser.add_argument("network", metavar="NETWORK", help="the network document to write")
    parser.add_argument("traffic", metavar="TRAFFIC", nargs="?", help="the traffic document to write")
    parser.set_defaults(run=run)


def documents(path: str, faults: table.Faults) -> tuple[Entry, Entry | None]:
    """Returns the network and the traffic of a table, either with its faults noted."""
    rows = list(table.rows_of(path, faults))
    network, there = network_of(rows, faults)
    return network, traffic_of(rows, there)


def write(targets: list[str], found: list[Entry | None]) -> None:
    """Writes documents, all of them or none."""
    texts = {target: json.dumps(one, indent=2, ensure_ascii=False) + "\n" for target, one in zip(targets, found)}
    write_texts(texts, Path("."))


def run(arguments: argparse.Namespace) -> int:
    """Returns 0, or 2 if the table has a fault."""
    targets = [one for one in (arguments.network, arguments.traffic) if one is not None]
    faults = table.Faults(arguments.table)
    network, traffic = documents(arguments.table, faults)
    if not faults.found and len(targets) == 2 and traffic is None:
        faults.add(1, "the table declares no traffic", "add rows class and path, or leave out the file for it")
    if not faults.found and len(targets) == 1 and traffic is not None:
        faults.add(1, "the table declares traffic, and no file is named for it", "name a third file")
    if not faults.found:
        write(targets, [network, traffic])
    for line in faults.lines():
        print(line, file=sys.stderr)
    return 2 if faults.found else 0

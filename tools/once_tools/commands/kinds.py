"""`once-import kinds`: the kinds of devices that are read, and how to get each text."""
from __future__ import annotations

import argparse

from once_tools.commands.options import Subparsers
from once_tools.load import PLAIN
from once_tools.readers import READERS

NAME = "kinds"
MEANING = {"certain": "how the device meters is established", "fairly": "how the device meters is documented, not tried",
           "unsure": "how the device meters is not established: compare totals with the device's own counters"}


def add_parser(subparsers: Subparsers) -> None:
    """Adds the command."""
    parser = subparsers.add_parser(NAME, help="list the kinds of devices that are read, and how to get each text")
    parser.set_defaults(run=run)


def run(arguments: argparse.Namespace) -> int:
    """Prints the kinds."""
    width = max(len(kind) for kind in READERS)
    for kind, reader in READERS.items():
        print(f"{kind:<{width}}  {reader.title}")
        print(f"{'':<{width}}    get it by: {reader.how_to_get}")
        print(f"{'':<{width}}    {reader.certainty}: {MEANING.get(reader.certainty, '')}")
    print(f"{', '.join(PLAIN)}: devices without a meter, of which addresses and routes are read")
    return 0

"""`once-import new FOLDER`: a project file to start from."""
from __future__ import annotations

import argparse
import os
import sys
from pathlib import Path

from once_tools.commands.options import Subparsers
from once_tools.model import Failed, Place
from once_tools.proposal import project_text

NAME = "new"


def add_parser(subparsers: Subparsers) -> None:
    """Adds the command."""
    parser = subparsers.add_parser(NAME, help="print a project file to start from, for the configurations in a folder")
    parser.add_argument("folder", metavar="FOLDER", type=Path)
    parser.set_defaults(run=run)


def run(arguments: argparse.Namespace) -> int:
    """Prints the project."""
    if not arguments.folder.is_dir():
        raise Failed(Place(str(arguments.folder)), "this is no folder", "name the folder with the configurations")
    os.listdir(arguments.folder)  # raises where the folder cannot be read: patterns would match nothing
    sys.stdout.write(project_text(arguments.folder))
    return 0

"""`once-import PROJECT`: writes the documents of a project, and prints the report."""
from __future__ import annotations

import argparse

from once_tools.commands.options import Subparsers, add_import_options, options_of, print_report
from once_tools.importing import import_project, write_texts
from once_tools.project import read_project

NAME = "import"


def add_parser(subparsers: Subparsers) -> None:
    """Adds the command."""
    parser = subparsers.add_parser(NAME, help="write the documents of a project, and print the report (the word `import` "
                                              "may be left out)")
    add_import_options(parser)
    parser.set_defaults(run=run)


def run(arguments: argparse.Namespace) -> int:
    """Returns 0 if all was carried over or accepted, 1 if something was not, 2 if no document can be made, 5 if a file cannot be
    read."""
    imported = import_project(read_project(arguments.project), options_of(arguments))
    if imported.pairs and arguments.out:
        write_texts(imported.texts(), arguments.out)
    print_report(imported.report, arguments.format, arguments.project.parent)
    return imported.report.status

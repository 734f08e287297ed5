"""Arguments that several commands take."""
from __future__ import annotations

import argparse
import sys
from pathlib import Path
from typing import TYPE_CHECKING

from once_tools.importing import Options
from once_tools.report import Report
from once_tools.report_forms import FORMATS, form as form_of

if TYPE_CHECKING:
    Subparsers = argparse._SubParsersAction[argparse.ArgumentParser]
else:
    Subparsers = argparse._SubParsersAction


def add_import_options(parser: argparse.ArgumentParser) -> None:
    """Adds the arguments of an import to a parser."""
    parser.add_argument("project", metavar="PROJECT", type=Path, help="the project file (TOML)")
    parser.add_argument("--out", metavar="DIR", type=Path, help="the folder to write the documents and the report into")
    parser.add_argument("--format", choices=FORMATS, default="text", help="the form of the printed report")
    parser.add_argument("--faithful", action="store_true",
                        help="write samplers and short counters too, so that `once` itself refuses them")
    parser.add_argument("--full", action="store_true", help="keep crossings that no observation point sees")
    parser.add_argument("--may-drop", action="store_true", help="declare each path's beginnings too, for packets that are "
                                                                "dropped on the way")


def options_of(arguments: argparse.Namespace) -> Options:
    """Returns the options of an import."""
    return Options(arguments.faithful, arguments.full, arguments.may_drop)


def print_report(report: Report, form: str, folder: Path = Path(".")) -> None:
    """Prints a report on standard output; `folder` is that of the project."""
    sys.stdout.write(form_of(report, form, str(folder)))

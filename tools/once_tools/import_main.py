"""`once-import`: from the configurations of routers, probes and collectors to the documents that `once` reads."""
from __future__ import annotations

import importlib
import sys
from typing import Sequence

from once_tools.ending import Parser, exit_status

# The commands, with their modules.
COMMANDS = {"import": "convert", "audit": "audit", "blame": "blame", "new": "new", "show": "show", "kinds": "kinds",
            "table": "table", "exporter": "exporter", "streams": "streams", "template": "template"}
NO_DOCUMENT = 2
DESCRIPTION = """Reads the configurations of routers, probes and collectors, and writes the network and traffic documents
that `once` audits. Everything that bears on the count and is not carried over is reported with its file and line."""
EPILOG = """`once-import PROJECT --out DIR` writes the documents of a project. Exit statuses: 0 all was carried over or is
accepted, 1 something was not, 2 no document can be made, 5 a file or program failed, 6 wrong arguments; of `audit` see
`once-import audit --help`."""


def make_parser(commands: Sequence[str]) -> Parser:
    """Returns the parser of some commands; the modules of others are not loaded."""
    parser = Parser(prog="once-import", description=DESCRIPTION, epilog=EPILOG)
    subparsers = parser.add_subparsers(metavar="COMMAND", required=True, parser_class=Parser)
    for name in commands:
        importlib.import_module(f"once_tools.commands.{COMMANDS[name]}").add_parser(subparsers)
    return parser


def with_command(words: Sequence[str]) -> list[str]:
    """Returns the arguments with the command `import` before a project that has none."""
    first = next((word for word in words if not word.startswith("-")), None)
    if first is None or first in COMMANDS or words[0] in ("-h", "--help"):
        return list(words)
    return ["import", *words]


def main(words: Sequence[str] | None = None) -> int:
    """Runs a command; returns its exit status."""
    words = with_command(sys.argv[1:] if words is None else words)
    arguments = make_parser([words[0]] if words and words[0] in COMMANDS else list(COMMANDS)).parse_args(words)
    return exit_status("once-import", lambda: int(arguments.run(arguments)), NO_DOCUMENT)


if __name__ == "__main__":
    sys.exit(main())

"""`once-import streams`: one IPFIX stream for each exporter and transport session of a capture."""
from __future__ import annotations

import argparse
import sys
from pathlib import Path

from once_tools.report import Report, printable
from once_tools.streams.writing import Stream, read_capture, write_streams

DESCRIPTION = """Writes one IPFIX stream for `once collect` for each exporter and transport session of a capture (pcap or
pcapng; UDP, TCP and SCTP). A stream begins at its first templates. Everything that is left out is reported."""


def add_parser(subparsers: argparse._SubParsersAction[argparse.ArgumentParser]) -> None:
    """Adds the command to a program."""
    parser = subparsers.add_parser("streams", help="IPFIX streams for `once collect` from a capture of exports",
                                   description=DESCRIPTION)
    parser.add_argument("capture", type=Path, metavar="CAPTURE")
    parser.add_argument("--out", type=Path, default=Path("."), metavar="DIR", help="folder of the streams (default: .)")
    parser.add_argument("--port", type=int, action="append", default=[], metavar="PORT",
                        help="read what goes to this port only; may be given several times")
    parser.set_defaults(run=run)


def run(arguments: argparse.Namespace) -> int:
    """Writes the streams; returns 0, 1 if something that counts is left out, or 2 if there is no stream."""
    streams, findings = read_capture(arguments.capture, tuple(arguments.port))
    if streams:
        write_streams(streams, arguments.out)
    for stream in streams:
        print(_line(stream))
    report = Report(findings)
    print(report.text(), end="", file=sys.stdout if streams else sys.stderr)
    return report.status


def _line(stream: Stream) -> str:
    part = stream.part
    return printable(f"wrote {stream.name}: {stream.ends}, messages {part.messages}, records {part.records}")

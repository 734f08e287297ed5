"""Streams of a capture: one for each transport session, and what is left out of them."""
from __future__ import annotations

import os
import tempfile
from dataclasses import dataclass, field
from pathlib import Path

from once_tools.model import Failed, Finding, Grade, Place
from once_tools.streams.capture import Reading
from once_tools.streams.extract import Extraction
from once_tools.streams.leavings import findings_of
from once_tools.streams.session import Cause, Ends, Part, Session


@dataclass
class Sessions:
    """Takes the messages of a capture, by transport session in the order of their first messages."""

    found: dict[Ends, Session] = field(default_factory=dict)

    def _session(self, ends: Ends) -> Session:
        return self.found.setdefault(ends, Session(ends))

    def message(self, ends: Ends, octets: bytes, frame: int, stream: int) -> None:
        self._session(ends).offer(octets, frame, stream)

    def netflow(self, ends: Ends, version: int, octets: bytes, frame: int) -> None:
        cause = Cause.NETFLOW_5 if version == 5 else Cause.NETFLOW_9
        self._session(ends).tally(cause, frame, int.from_bytes(octets[2:4], "big"))

    def note(self, ends: Ends, cause: Cause, frame: int, amount: int, detail: str) -> None:
        self._session(ends).tally(cause, frame, amount, detail)


@dataclass(frozen=True)
class Stream:
    """A stream with the name of its file."""

    name: str
    ends: Ends
    part: Part


def read_capture(path: Path, ports: tuple[int, ...] = ()) -> tuple[list[Stream], list[Finding]]:
    """Returns the streams of a capture, and findings about what is left out."""
    sessions, reading = Sessions(), Reading(path.name)
    extraction = Extraction(sessions, ports)
    extraction.run(path, reading)
    streams = [stream for session in sessions.found.values() for stream in _streams(session)]
    findings = findings_of(path.name, reading, extraction, list(sessions.found.values()))
    if not streams:
        findings.append(Finding(Grade.WRONG, Place(path.name), _nothing(ports, reading.frames),
                                "capture at the collector, with --port if the exporters use another port"))
    return streams, findings


def _nothing(ports: tuple[int, ...], frames: int) -> str:
    where = f" to port {' or '.join(map(str, ports))}" if ports else ""
    return f"none of the {frames} frames has an IPFIX message{where} that can be read"


def _streams(session: Session) -> list[Stream]:
    parts = [part for part in session.parts if part.messages]
    ends = session.ends
    name = (f"{ends.source}-{ends.source_port}-to-{ends.destination}-{ends.destination_port}-{ends.transport}"
            .replace(":", "_")) + (f"-connection-{ends.number}" if ends.number > 1 else "")
    return [Stream(name + (f"-part-{at}" if at > 1 else "") + ".ipfix", ends, part) for at, part in enumerate(parts, 1)]


def write_streams(streams: list[Stream], folder: Path) -> None:
    """Writes all streams, or none if one of them cannot be written."""
    written: list[tuple[str, Path]] = []
    try:
        folder.mkdir(parents=True, exist_ok=True)
        for stream in streams:
            handle, temporary = tempfile.mkstemp(prefix=".once-", dir=folder)
            written.append((temporary, folder / stream.name))
            with os.fdopen(handle, "wb") as file:
                file.write(stream.part.octets)
            os.chmod(temporary, 0o644)
        for temporary, final in written:
            os.replace(temporary, final)
    except OSError as error:
        for temporary, _ in written:
            Path(temporary).unlink(missing_ok=True)
        raise Failed(Place(str(folder)), f"cannot be written: {error.strerror}",
                     "name a folder with --out that can be written") from error

"""Goes through a capture once and hands every export message in it to its transport session."""
from __future__ import annotations

import struct
from dataclasses import dataclass, field
from pathlib import Path
from typing import Protocol

from once_tools.streams import netflow, sctp, tcp
from once_tools.streams.capture import Frame, Reading, frames_of
from once_tools.streams.fragments import Fragments
from once_tools.streams.messages import begins_message
from once_tools.streams.packets import ICMP, ICMP6, SCTP, TCP, UDP, Fault, Packet, packet_of
from once_tools.streams.session import Cause, Ends, Tally

USUAL_PORTS = (4739, 4740)


class Taker(Protocol):
    """What messages are handed to."""

    def message(self, ends: Ends, octets: bytes, frame: int, stream: int) -> None:
        """Takes an IPFIX message, or octets where one should be."""

    def netflow(self, ends: Ends, version: int, octets: bytes, frame: int) -> None:
        """Takes a NetFlow message of version 5 or 9."""

    def note(self, ends: Ends, cause: Cause, frame: int, amount: int, detail: str) -> None:
        """Notes what happened in a session besides."""


@dataclass
class Connection:
    """One direction of a TCP connection. `is_export` is None until enough of it has been seen."""

    ends: Ends
    octets: tcp.Octets = field(default_factory=tcp.Octets)
    is_export: bool | None = None
    is_in_step: bool = True
    is_closed: bool = False
    frame: int = 0


@dataclass
class Extraction:
    """A way through one capture. What concerns no session is counted here."""

    taker: Taker
    ports: tuple[int, ...] = ()
    fragments: Fragments = field(default_factory=Fragments)
    connections: dict[tuple[str, int, str, int], Connection] = field(default_factory=dict)
    associations: dict[tuple[str, int, str, int, int], sctp.Association] = field(default_factory=dict)
    cut: Tally = field(default_factory=Tally)
    malformed: Tally = field(default_factory=Tally)
    link_types: dict[int, int] = field(default_factory=dict)
    refused: dict[tuple[str, str, int, str, int], Tally] = field(default_factory=dict)
    udp: set[Ends] = field(default_factory=set)
    strange: dict[Ends, Tally] = field(default_factory=dict)

    def run(self, path: Path, reading: Reading) -> None:
        """Reads a whole capture."""
        for frame in frames_of(path, reading):
            self._frame(frame)
        for connection in self.connections.values():
            self._end(connection)
        self._associations()

    def _frame(self, frame: Frame) -> None:
        packet = packet_of(frame)
        if isinstance(packet, Fault):
            if packet is Fault.LINK_TYPE:
                self.link_types[frame.link] = self.link_types.get(frame.link, 0) + 1
            else:
                (self.cut if packet is Fault.CUT else self.malformed).add(frame.number)
            return
        if packet and packet.is_fragment:
            packet = self.fragments.whole(packet)
        if packet:
            self._packet(packet)

    def _packet(self, packet: Packet) -> None:
        if packet.protocol == UDP:
            self._datagram(packet)
        elif packet.protocol == TCP:
            self._segment(packet)
        elif packet.protocol == SCTP:
            self._chunks(packet)
        elif packet.protocol in (ICMP, ICMP6):
            self._error(packet)

    def _is_wanted(self, port: int) -> bool:
        return not self.ports or port in self.ports

    def _datagram(self, packet: Packet) -> None:
        if len(packet.payload) < 8:
            return
        source, destination, length = struct.unpack_from(">HHH", packet.payload)
        if not self._is_wanted(destination):
            return
        ends = Ends("udp", packet.source, source, packet.destination, destination)
        payload = packet.payload[8:length] if 8 <= length <= len(packet.payload) else packet.payload[8:]
        version = netflow.version_of(payload)
        if version:
            self.taker.netflow(ends, version, payload, packet.frame)
        elif len(payload) >= 16 and payload[:2] == b"\0\x0a" and int.from_bytes(payload[2:4], "big") == len(payload):
            self.udp.add(ends)
            self.taker.message(ends, payload, packet.frame, 0)
        elif destination in self.ports or destination in USUAL_PORTS or ends in self.udp:
            self.strange.setdefault(ends, Tally()).add(packet.frame)

    def _segment(self, packet: Packet) -> None:
        segment = tcp.segment_of(packet.payload)
        if segment is None or not self._is_wanted(segment.destination_port):
            return
        key = (packet.source, segment.source_port, packet.destination, segment.destination_port)
        connection = self.connections.get(key)
        is_new = bool(segment.flags & tcp.SYN) and connection is not None and connection.is_closed
        if connection is None or is_new:
            if connection:
                self._end(connection)
            number = connection.ends.number + 1 if connection else 1
            connection = self.connections[key] = Connection(Ends("tcp", *key, number))
        connection.frame = packet.frame
        connection.octets.take(segment)
        connection.is_closed = connection.is_closed or bool(segment.flags & (tcp.FIN | tcp.RST))
        self._read(connection)
        while connection.octets.pending_octets > tcp.MOST_PENDING:
            self._skip(connection)

    def _read(self, connection: Connection, is_end: bool = False) -> None:
        """Hands over the whole messages that a connection has."""
        ready = connection.octets.ready
        if connection.is_export is None:
            if len(ready) < 20 and not is_end:
                return
            connection.is_export = begins_message(ready) or (
                connection.ends.destination_port in (*self.ports, *USUAL_PORTS) and bool(ready))
            connection.is_in_step = begins_message(ready)
        if not connection.is_export:
            ready.clear()
            return
        while len(ready) >= 4 and (connection.is_in_step or self._find_step(connection, is_end)):
            length = int.from_bytes(ready[2:4], "big")
            if ready[:2] != b"\0\x0a" or length < 16:
                connection.is_in_step = False
                continue
            if len(ready) < length:
                return
            self.taker.message(connection.ends, bytes(ready[:length]), connection.frame, 0)
            del ready[:length]

    def _find_step(self, connection: Connection, is_end: bool) -> bool:
        """Drops octets up to where a message begins; returns whether there is one."""
        ready = connection.octets.ready
        for at in range(len(ready) - 19):
            if ready[at:at + 2] == b"\0\x0a" and begins_message(ready, at):
                after = at + int.from_bytes(ready[at + 2:at + 4], "big")
                if begins_message(ready, after) or after == len(ready):
                    self._lose(connection, at)
                    del ready[:at]
                    connection.is_in_step = True
                    return True
        if is_end or len(ready) > 1 << 18:
            self._lose(connection, len(ready))
            ready.clear()
        return False

    def _lose(self, connection: Connection, octets: int) -> None:
        if octets:
            self.taker.note(connection.ends, Cause.LOST_OCTETS, connection.frame, octets, "between messages")

    def _skip(self, connection: Connection) -> bool:
        """Goes on after octets that the capture lacks; the message that they cut is lost."""
        begun = len(connection.octets.ready)
        missing = connection.octets.skip()
        if not missing:
            return False
        del connection.octets.ready[:begun]
        if connection.is_export:
            self.taker.note(connection.ends, Cause.LOST_OCTETS, connection.frame, missing + begun, "missing in the capture")
            connection.is_in_step = begins_message(connection.octets.ready)
        self._read(connection)
        return True

    def _end(self, connection: Connection) -> None:
        while self._skip(connection):
            pass
        self._read(connection, True)
        if connection.is_export:
            self._lose(connection, len(connection.octets.ready))
        connection.octets.ready.clear()

    def _chunks(self, packet: Packet) -> None:
        ports = sctp.ports_of(packet.payload)
        if ports is None or not self._is_wanted(ports[1]):
            return
        key = (packet.source, ports[0], packet.destination, ports[1], ports[2])
        for chunk in sctp.chunks_of(packet.payload, packet.frame):
            self.associations.setdefault(key, sctp.Association()).take(chunk)

    def _associations(self) -> None:
        numbers: dict[tuple[str, int, str, int], int] = {}
        for (source, port, destination, to_port, _), association in self.associations.items():
            messages = list(association.messages())
            if not any(octets and begins_message(octets) for _, octets in messages):
                continue
            key = (source, port, destination, to_port)
            numbers[key] = numbers.get(key, 0) + 1
            ends = Ends("sctp", *key, numbers[key])
            for chunk, octets in messages:
                if octets is None:
                    self.taker.note(ends, Cause.LOST_OCTETS, chunk.frame, len(chunk.data), "of an incomplete message")
                else:
                    self.taker.message(ends, octets, chunk.frame, chunk.stream)

    def _error(self, packet: Packet) -> None:
        """Remembers an ICMP error about a datagram, which it quotes: the quotation is no export."""
        kinds = (3, 4, 5, 11, 12) if packet.protocol == ICMP else (1, 2, 3, 4)
        quoted = packet.payload[8:]
        if len(packet.payload) < 8 or packet.payload[0] not in kinds or len(quoted) < 20:
            return
        link = Frame(packet.frame, 101, quoted, True)
        inner = packet_of(_padded(link))
        if isinstance(inner, Packet) and inner.protocol == UDP and len(inner.payload) >= 8:
            source, destination = struct.unpack_from(">HH", inner.payload)
            key = (packet.source, inner.source, source, inner.destination, destination)
            self.refused.setdefault(key, Tally()).add(packet.frame)


def _padded(frame: Frame) -> Frame:
    """Returns a quoted packet with zeros for what the quotation leaves out, so that its headers can be read."""
    octets = frame.octets
    if octets[0] >> 4 == 4:
        wanted = int.from_bytes(octets[2:4], "big")
    else:
        wanted = 40 + int.from_bytes(octets[4:6], "big")
    return Frame(frame.number, frame.link, octets + bytes(max(0, wanted - len(octets))), frame.is_cut)

"""One transport session of an exporter: which of its messages a stream for `once collect` can hold."""
from __future__ import annotations

import enum
import hashlib
from dataclasses import dataclass, field

from once_tools.streams.elements import name_of
from once_tools.streams.messages import (FIRST_DATA, OPTIONS_TEMPLATES, TEMPLATES, VARIABLE, Malformed, Message, Set,
                                         Template, count_records, read_message, templates_of)

CYCLE = 1 << 32
MOST_FRAMES_NAMED = 6
# The lengths that `once collect` takes for the elements of a report's key, least and greatest.
LENGTHS = {8: (4, 4), 12: (4, 4), 44: (4, 4), 45: (4, 4), 27: (16, 16), 28: (16, 16), 169: (16, 16), 170: (16, 16),
           9: (1, 1), 13: (1, 1), 29: (1, 1), 30: (1, 1), 4: (1, 1), 5: (1, 1), 60: (1, 1), 7: (1, 2), 11: (1, 2)}


class Cause(enum.Enum):
    """Why something of a session is left out, or what is to be known of it."""

    BEFORE_TEMPLATES = "before templates"
    DUPLICATE = "duplicate"
    MALFORMED = "malformed"
    NETFLOW_5 = "NetFlow 5"
    NETFLOW_9 = "NetFlow 9"
    GAP = "gap"
    BACKWARDS = "backwards"
    AHEAD = "template message ahead"
    TEMPLATE_CHANGED = "template changed"
    NARROW_COUNTER = "narrow counter"
    WRONG_LENGTH = "wrong length"
    LOST_OCTETS = "lost octets"
    SCTP_STREAMS = "several SCTP streams"


@dataclass
class Tally:
    """How often something happened, at which frames first, and how many records or octets it concerns."""

    count: int = 0
    amount: int = 0
    frames: list[int] = field(default_factory=list)
    details: list[str] = field(default_factory=list)

    def add(self, frame: int, amount: int = 0, detail: str = "") -> None:
        """Counts it once more."""
        self.count += 1
        self.amount += amount
        if len(self.frames) < MOST_FRAMES_NAMED and frame not in self.frames:
            self.frames.append(frame)
        if detail and detail not in self.details and len(self.details) < MOST_FRAMES_NAMED:
            self.details.append(detail)


@dataclass(frozen=True, order=True)
class Ends:
    """The ends of a transport session: `number` distinguishes connections with the same addresses and ports."""

    transport: str
    source: str
    source_port: int
    destination: str
    destination_port: int
    number: int = 1

    def __str__(self) -> str:
        return (f"{_socket(self.source, self.source_port)} to {_socket(self.destination, self.destination_port)} "
                f"over {self.transport.upper()}{'' if self.number == 1 else f', connection {self.number}'}")


def _socket(address: str, port: int) -> str:
    return f"[{address}]:{port}" if ":" in address else f"{address}:{port}"


@dataclass
class Part:
    """A stream that `once collect` reads from its beginning."""

    octets: bytearray = field(default_factory=bytearray)
    messages: int = 0
    records: int = 0


class Session:
    """Takes the messages of one transport session in turn and makes streams of them."""

    def __init__(self, ends: Ends) -> None:
        self.ends = ends
        self.parts: list[Part] = []
        self.tallies: dict[Cause, Tally] = {}
        self._templates: dict[tuple[int, int], Template] = {}
        self._expected: dict[tuple[int, int], int] = {}
        self._seen: set[bytes] = set()
        self._only_templates: dict[tuple[int, int], bool] = {}

    def tally(self, cause: Cause, frame: int, amount: int = 0, detail: str = "") -> None:
        """Notes that something happened at a frame."""
        self.tallies.setdefault(cause, Tally()).add(frame, amount, detail)

    def offer(self, octets: bytes, frame: int, stream: int = 0) -> None:
        """Takes a message that came in a frame, on an SCTP stream or 0."""
        try:
            message = read_message(octets)
            announced = {at: list(templates_of(one)) for at, one in enumerate(message.sets)
                         if one.number in (TEMPLATES, OPTIONS_TEMPLATES)}
            if self._changes_a_template(message, announced):
                self.tally(Cause.TEMPLATE_CHANGED, frame)
                self._begin_again()
            self._take(message, announced, frame, stream)
        except Malformed as error:
            self.tally(Cause.MALFORMED, frame, 0, str(error))

    def _changes_a_template(self, message: Message, announced: dict[int, list[Template]]) -> bool:
        """Whether a message defines a template that is in use with other fields."""
        withdrawn: set[int] = set()
        here: dict[int, Template] = {}
        for template in (one for found in announced.values() for one in found):
            if not template.fields:
                withdrawn.add(template.number)
                here.pop(template.number, None)
                continue
            if here.setdefault(template.number, template) != template:
                raise Malformed(f"defines template {template.number} in two ways")
        is_all = bool(withdrawn & {TEMPLATES, OPTIONS_TEMPLATES})
        return not is_all and any(self._templates.get((message.domain, number), template) != template
                                  for number, template in here.items() if number not in withdrawn)

    def _begin_again(self) -> None:
        self.parts.append(Part())
        self._templates.clear()
        self._expected.clear()

    def _take(self, message: Message, announced: dict[int, list[Template]], frame: int, stream: int) -> None:
        kept, records, unknown = self._readable(message, announced)
        expected = self._expected.get((message.domain, stream))
        if records and self._is_duplicate(message, expected):
            self.tally(Cause.DUPLICATE, frame, records)
            return
        if unknown:
            self.tally(Cause.BEFORE_TEMPLATES, frame, 0, f"template {', '.join(map(str, sorted(set(unknown))))}")
        if unknown and not kept:
            return
        self._number(message, stream, records, frame, bool(unknown))
        for template in (one for found in announced.values() for one in found):
            self._learn(message.domain, template, frame)
        if not self.parts:
            self.parts.append(Part())
        part = self.parts[-1]
        part.octets += message.with_sets(tuple(kept))
        part.messages += 1
        part.records += records

    def _readable(self, message: Message, announced: dict[int, list[Template]]) -> tuple[list[Set], int, list[int]]:
        """Returns the sets that can be read, how many data records they have, and the templates that aren't known."""
        kept, records, unknown = [], 0, []
        known = {number: template for (domain, number), template in self._templates.items() if domain == message.domain}
        for at, one in enumerate(message.sets):
            if one.number < FIRST_DATA:
                known |= {template.number: template for template in announced[at]}
                kept.append(one)
            elif one.number in known and known[one.number].fields:
                records += count_records(known[one.number], one.body)
                kept.append(one)
            else:
                unknown.append(one.number)
        return kept, records, unknown

    def _is_duplicate(self, message: Message, expected: int | None) -> bool:
        """Whether a datagram came before. TCP and SCTP deliver each message once: there an equal one is another one."""
        if self.ends.transport != "udp":
            return False
        digest = hashlib.blake2b(message.octets, digest_size=16).digest()
        if digest in self._seen and message.sequence != expected:
            return True
        self._seen.add(digest)
        return False

    def _learn(self, domain: int, template: Template, frame: int) -> None:
        if template.fields:
            self._templates[domain, template.number] = template
            if not template.is_options:
                self._look_at_lengths(template, frame)
        elif template.number in (TEMPLATES, OPTIONS_TEMPLATES):
            wanted = template.number == OPTIONS_TEMPLATES
            for key in [key for key, one in self._templates.items() if key[0] == domain and one.is_options == wanted]:
                del self._templates[key]
        else:
            self._templates.pop((domain, template.number), None)

    def _look_at_lengths(self, template: Template, frame: int) -> None:
        """Notes fields for whose lengths `once collect` refuses a stream."""
        for one in template.fields:
            if one.enterprise == 0 and one.element in (1, 2) and one.length not in (0, 8):
                self.tally(Cause.NARROW_COUNTER, frame, 0, f"{name_of(one)} of {one.length} octets in template "
                           f"{template.number}")
            least, most = LENGTHS.get(one.element, (0, VARIABLE)) if one.enterprise == 0 else (0, VARIABLE)
            if not least <= one.length <= most or not one.length:
                length = "a variable length" if one.length == VARIABLE else f"{one.length} octets"
                self.tally(Cause.WRONG_LENGTH, frame, 0, f"{name_of(one)} of {length} in template {template.number}")

    def _number(self, message: Message, stream: int, records: int, frame: int, is_partial: bool) -> None:
        """Compares the sequence number with the one that comes next in its domain."""
        key = (message.domain, stream)
        expected = self._expected.get(key)
        if expected is not None and message.sequence != expected:
            missing = (message.sequence - expected) % CYCLE
            if missing >= CYCLE // 2:
                self.tally(Cause.BACKWARDS, frame)
            elif missing == 1 and self._only_templates.get(key):
                self.tally(Cause.AHEAD, frame)
            else:
                self.tally(Cause.GAP, frame, missing)
        if stream and any(other[1] != stream for other in self._expected):
            self.tallies.setdefault(Cause.SCTP_STREAMS, Tally()).count = 1
        self._expected[key] = (message.sequence + records) % CYCLE
        self._only_templates[key] = not records and not is_partial

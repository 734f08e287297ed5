"""The templates that exporters send, with the records and the values that bear on the count."""
from __future__ import annotations

from dataclasses import dataclass, field

from once_tools.streams import messages, netflow
from once_tools.streams.messages import FIRST_DATA, Malformed, Message, Set, Template
from once_tools.streams.session import Cause, Ends

# Elements whose values say whether and how records are sampled, of which direction and version they are.
WATCHED = (34, 35, 49, 50, 60, 61, 304, 305, 306, 309, 310, 311)
MOST_VALUES = 8


@dataclass
class Use:
    """A template with what is known of its use. `values` are those of watched elements, by number."""

    ends: Ends
    version: int
    domain: int
    template: Template
    frame: int
    records: int = 0
    values: dict[int, set[int]] = field(default_factory=dict)


@dataclass
class Survey:
    """Takes the messages of a capture and collects their templates."""

    uses: list[Use] = field(default_factory=list)
    records_5: dict[Ends, int] = field(default_factory=dict)
    unread: int = 0
    _known: dict[tuple[Ends, int, int], Use] = field(default_factory=dict)

    def message(self, ends: Ends, octets: bytes, frame: int, stream: int) -> None:
        try:
            message: Message = messages.read_message(octets)
            for one in message.sets:
                self._set(ends, 10, message.domain, one, frame)
        except Malformed:
            self.unread += 1

    def netflow(self, ends: Ends, version: int, octets: bytes, frame: int) -> None:
        if version == 5:
            self.records_5[ends] = self.records_5.get(ends, 0) + int.from_bytes(octets[2:4], "big")
            return
        try:
            for one in netflow.sets_of(octets):
                self._set(ends, 9, netflow.domain_of(octets), one, frame)
        except Malformed:
            self.unread += 1

    def note(self, ends: Ends, cause: Cause, frame: int, amount: int, detail: str) -> None:
        self.unread += 1

    def _set(self, ends: Ends, version: int, domain: int, one: Set, frame: int) -> None:
        if one.number < FIRST_DATA:
            found = messages.templates_of(one) if version == 10 else netflow.templates_of(one)
            for template in found:
                self._learn(ends, version, domain, template, frame)
            return
        use = self._known.get((ends, domain, one.number))
        if use:
            for values in messages.records_of(use.template, one.body):
                use.records += 1
                self._watch(use, values)

    def _learn(self, ends: Ends, version: int, domain: int, template: Template, frame: int) -> None:
        key = (ends, domain, template.number)
        known = self._known.get(key)
        if template.fields and (known is None or known.template != template):
            self._known[key] = Use(ends, version, domain, template, frame)
            self.uses.append(self._known[key])

    def _watch(self, use: Use, values: list[bytes]) -> None:
        for one, value in zip(use.template.fields, values):
            if one.enterprise == 0 and one.element in WATCHED and len(value) <= 8:
                seen = use.values.setdefault(one.element, set())
                if len(seen) < MOST_VALUES:
                    seen.add(int.from_bytes(value, "big"))

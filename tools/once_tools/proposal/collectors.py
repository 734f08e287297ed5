"""The collectors of a proposed project, and the one whose totals the report asks for."""
from __future__ import annotations

import re
from dataclasses import dataclass, field

from once_tools.endpoints import Endpoint, endpoint_of, normal
from once_tools.model import Place
from once_tools.proposal.files import Folder, Found
from once_tools.proposal.toml import comment, listed, one_or_list, quoted
from once_tools.report import printable, where

BILLING = re.compile(r"bill|account(ing|s)?\b|charg", re.I)
ANY = ("*", "0.0.0.0", "::", "")


@dataclass
class Sender:
    """A device that sends to an endpoint, with the exporter's name and the line that says so."""

    device: str
    exporter: str
    place: Place


@dataclass
class Candidate:
    """A collector: with a configuration, or an endpoint that exporters send to. `guessed` are addresses that exporters send
    to at the port at which it listens on all its addresses."""

    name: str
    found: Found | None = None
    listens: list[Endpoint] = field(default_factory=list)
    senders: list[Sender] = field(default_factory=list)
    guessed: list[str] = field(default_factory=list)

    @property
    def is_for_billing(self) -> bool:
        """Whether a name says that it is a collector for billing."""
        texts = [self.name, self.found.path.name if self.found and self.found.path else ""]
        plugins = [name for name, _, _ in self.found.device.proposed_keys] if self.found and self.found.device else []
        return any(BILLING.search(text) for text in [*texts, *plugins, *(one.exporter for one in self.senders)])

    @property
    def only_forwards(self) -> bool:
        """Whether it is an nfacctd that stores nothing and sends on what it receives."""
        device = self.found.device if self.found else None
        return device is not None and device.kind == "nfacctd" and not device.proposed_keys and bool(device.exporters)

    def devices(self) -> list[str]:
        """Returns the devices that send to it."""
        return list(dict.fromkeys(one.device for one in self.senders))


def ends_of(devices: list[Found]) -> dict[Endpoint, list[Sender]]:
    """Returns where exporters send, each with those that do."""
    found: dict[Endpoint, list[Sender]] = {}
    for one in devices:
        for exporter in one.device.exporters if one.device else []:
            for to in exporter.destinations:
                if to.address and endpoint_of(str(Endpoint(to.address, to.port))):
                    found.setdefault(Endpoint(normal(to.address), to.port), []).append(
                        Sender(one.name, exporter.name, to.place))
    return found


def configured(found: Found) -> Candidate:
    """Returns a collector that has a configuration."""
    listeners = found.device.listeners if found.device else []
    return Candidate(found.name, found, [Endpoint(normal(address), port) for one in listeners
                                         for address, port, _ in one.listens])


def candidate_at(end: Endpoint, found: list[Candidate]) -> Candidate | None:
    """Returns the collector that listens at an endpoint; one that listens at all its addresses, if it is the only one at this
    port, is taken to have this address."""
    exact = next((one for one in found if end in one.listens), None)
    anywhere = [one for one in found if any(at.address in ANY and at.port == end.port for at in one.listens)]
    if exact is None and len(anywhere) == 1:
        anywhere[0].guessed += [end.address] if end.address not in anywhere[0].guessed else []
        return anywhere[0]
    return exact


def add_forwarded(found: list[Candidate]) -> None:
    """Gives each collector the senders of those that forward to it. An endpoint that nothing known listens at is a collector of
    its own if what sends there stores nothing itself."""
    for _ in range(len(found)):
        for one in list(found):
            for end in ends_of([one.found]) if one.found else {}:
                other = candidate_at(end, found)
                if other is None and one.only_forwards:
                    other = Candidate("", None, [end])
                    found.append(other)
                if other is not None and other is not one:
                    other.senders += [each for each in one.senders if each not in other.senders]


def candidates_of(folder: Folder) -> list[Candidate]:
    """Returns the collectors: those with configurations, then an endpoint each that nothing of these listens at."""
    found = [configured(one) for one in folder.collectors]
    for end, senders in ends_of(folder.devices).items():
        one = candidate_at(end, found)
        if one is None:
            one = Candidate("", None, [end])
            found.append(one)
        one.senders += senders
    add_forwarded(found)
    return found


def chosen(candidates: list[Candidate]) -> tuple[Candidate | None, str]:
    """Returns the collector to report from, and why it: one for billing, else that of most devices, else the first."""
    def rank(one: Candidate) -> tuple[bool, bool, int, bool]:
        return one.only_forwards, not one.is_for_billing, -len(one.devices()), one.found is None

    if not candidates:
        return None, ""
    best = min(candidates, key=rank)
    alike = [one.name for one in candidates if one is not best and rank(one) == rank(best)]
    if len(candidates) == 1:
        return best, "the only one"
    if alike:
        return best, f"the first one; write {' or '.join(alike[:4])} to ask for other totals"
    return best, "a name says that it is for billing" if best.is_for_billing else "most devices send to it"


def report_lines(best: Candidate | None, why: str) -> list[str]:
    """Returns the table of the report."""
    if best is None:
        return ["[report]", *comment("No file says where records are sent to. Add the collector as [[collectors]] with name and "
                                     "listen = [\"ADDRESS:PORT\"], and write its name here."), "collector = \"?\"",
                'key = "source"']
    lines = ["[report]", f"collector = {quoted(best.name)}  # {why}"]
    keys = best.found.device.proposed_keys if best.found and best.found.device else []
    keys = [one for one in keys if one[1]]
    if len(keys) > 1:
        others = ", ".join(name for name, _, _ in keys[1:])
        lines.append(f"plugin = {quoted(keys[0][0])}  # or one of: {others}, with the key that it stores by")
    if keys:
        key = [name if length is None else f"{name}/{length}" for name, length in keys[0][1]]
        return [*lines, f"key = {listed(key)}  # what it stores by ({where(keys[0][2])})"]
    return [*lines, 'key = "source"  # or "destination", or elements']


def sent_by(one: Candidate) -> str:
    """Returns in words who sends to a collector, with the lines that say so."""
    places: dict[str, dict[str, None]] = {}
    for each in one.senders:
        places.setdefault(each.device, {})[where(each.place)] = None
    texts = [f"{device} ({', '.join(list(lines)[:4])})" for device, lines in places.items()]
    shown = ", ".join(texts[:6]) + (f" and {len(texts) - 6} more" if len(texts) > 6 else "")
    return f"{shown} send{'s' if len(texts) == 1 else ''} here"


def collector_lines(one: Candidate, folder: Folder, guess: bool) -> list[str]:
    """Returns the table of a collector."""
    if one.found is None:
        return [*comment(f"{sent_by(one)}. Is this yours? If not, remove it."), "[[collectors]]",
                f"name = {quoted(one.name)}", f"listen = {listed([str(end) for end in one.listens])}", ""]
    lines = comment(f"{sent_by(one)}.") if one.senders else comment("No device of this folder sends here.")
    files = [folder.spelled(path) for path in [*([one.found.path] if one.found.path else []), *one.found.named]]
    lines += ["[[collectors]]", f"name = {quoted(one.name)}", folder.kind_of(one.found, guess),
              f"config = {one_or_list(files)}" + (f"  # {printable(one.found.trouble)}" if one.found.trouble else "")]
    if one.guessed:
        lines += [*comment("It listens at all its addresses, and exporters send to these at its port. Are they its own?"),
                  f"addresses = {listed(one.guessed)}"]
    return [*lines, ""]


def collectors_of(folder: Folder, guess: bool) -> tuple[list[str], list[str]]:
    """Returns the table of the report, and the tables of the collectors."""
    candidates = candidates_of(folder)
    taken = {one.name for one in [*folder.devices, *folder.collectors]}
    for number, one in enumerate([each for each in candidates if each.found is None], 1):
        one.name = f"collector-{number}"
        while one.name in taken:
            one.name += "-2"
        taken.add(one.name)
    best, why = chosen(candidates)
    return report_lines(best, why), [line for one in candidates for line in collector_lines(one, folder, guess)]

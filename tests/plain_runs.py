"""Makes the steps of the run of a refutation over the documents, for tests: what each step passes, and where the records end.

It is written from docs/FORMATS.md, and shares nothing with the program. Names are those of the documents.
"""
from dataclasses import dataclass, field
from typing import Dict, List, Optional, Sequence, Set, Tuple

from plain_walk import AXES, Holder, Layout, Network, Object, Occurrence, axis_of, lacks, overlap, range_of, value_of

# An exporting process, one of its destinations, and the collecting process and the device that it is linked to, if it is.
Sending = Tuple[str, str, Optional[Tuple[str, str]]]
# The aggregation that does not take in a record, and why: what the key lacks, or the word of the axis of a match.
Untaken = Tuple[str, str, str]
# What a key lacks: the element, and the prefix length where one is meant.
Lacked = Tuple[str, Optional[int]]


@dataclass
class Record:
    """A record on a link or in a holder: the holder that it is in or left last, the step that made it, and where it was metered."""

    holder: Holder
    made: int
    metered: Set[Occurrence]
    packets: int
    octets: int


@dataclass
class Step:
    """What a step passes, by name, and what becomes of its record there."""

    kind: str
    names: Tuple[object, ...]
    # At a crossing the observation points, selection processes and caches that meter the packet, and those that don't.
    metered: List[Tuple[str, ...]] = field(default_factory=list)
    passed: List[Tuple[str, ...]] = field(default_factory=list)
    sent: List[Sending] = field(default_factory=list)
    taken: List[str] = field(default_factory=list)
    untaken: List[Untaken] = field(default_factory=list)
    ends: List[str] = field(default_factory=list)
    lacked: Optional[Lacked] = None
    # The step that made the record that this one handles.
    after: Optional[int] = None
    is_reported: bool = False


def part_named(at: int, bits: int) -> Lacked:
    """Returns a part of a key by its element, with its prefix length if not all bits are meant."""
    return (AXES[at].element, None) if bits == AXES[at].bits else (AXES[at].prefix, bits)


class Run:
    """A run of one packet, step by step."""

    def __init__(self, network: Network, traffic: Object, lines: Sequence[str]) -> None:
        self.network = network
        words = lines[1].split()
        self.target = int(words[1]), int(words[2])
        self.one = traffic["classes"][self.target[0] - 1]
        self.path: List[Object] = self.one["paths"][self.target[1] - 1]
        self.values = tuple(value_of(axis, word) for axis, word in zip(AXES, words[3:12]))
        self.point = tuple((value, value) for value in self.values)
        self.octets = int(words[12])
        self.to_come = set(range(1, len(self.path) + 1))
        self.held: Dict[Holder, List[Record]] = {}
        self.carried: Dict[int, List[Record]] = {}
        self.totals: Dict[Tuple[int, ...], List[int]] = {}
        self.unassigned = 0
        self.reported: List[Holder] = []
        self.counting: Set[Occurrence] = set()
        self.sightings: List[Occurrence] = []
        self.steps: List[Step] = []
        for line in lines[2:-1]:
            self.make(line.split())

    def make(self, words: List[str]) -> None:
        """Makes a step of the run's text."""
        if words[0] == "cross":
            self.cross(int(words[2]))
        elif words[0] == "arrive":
            self.arrive(int(words[1]), int(words[2]), words[3:])
        elif words[1] == "cache":
            self.expire(Holder(int(words[2]), 0, int(words[3])), int(words[4]), words[5:])
        else:
            self.expire(Holder(*map(int, words[2:5])), int(words[5]), words[6:])

    def cross(self, number: int) -> None:
        """Makes a crossing: each selection process that selects the packet makes a record of it in its cache."""
        self.to_come.remove(number)
        crossing, step = self.path[number - 1], Step("cross", (number,))
        for it in self.network.occurrences(self.path):
            if it.crossing != number:
                continue
            selects = overlap(self.point, it.region) == "all"
            if selects and it.cache is not None:
                step.metered.append((it.point_name, it.process_name, it.cache))
                self.sightings.append(it)
                self.take_in(self.network.cache(it.device, it.cache), Record(Holder(0, 0, 0), len(self.steps), {it}, 1, self.octets))
            else:
                why = "none" if it.region is None else "no cache" if selects else "outside"
                step.passed.append((it.point_name, it.process_name, why))
        step.names = (crossing["device"], crossing["interface"], crossing["direction"])
        self.steps.append(step)

    def take_in(self, holder: Holder, record: Record) -> None:
        """Adds a record's counts to a holder, in a record of its own: runs of refutations join none."""
        self.held.setdefault(holder, []).append(Record(holder, len(self.steps), record.metered, record.packets, record.octets))

    def send(self, step: Step, device: int, exporters: Sequence[str], choices: List[str], record: Record) -> None:
        """Sends a record to the destinations of exporting processes, of some to the one that is chosen."""
        for exporter in exporters:
            ways = self.network.ways(device, exporter)
            chosen = [ways[int(choices.pop(0)) - 1]] if self.network.chooses(device, exporter) else ways
            for _, destination, link in chosen:
                end = None
                if link is None:
                    step.ends.append(f"lost: {destination} of {exporter} of {self.network.name(device)} has no link")
                else:
                    end = self.network.links[link - 1]["toProcess"], self.network.links[link - 1]["toDevice"]
                    self.carried.setdefault(link, []).append(
                        Record(record.holder, len(self.steps), record.metered, record.packets, record.octets))
                step.sent.append((exporter, destination, end))

    def expire(self, holder: Holder, position: int, choices: List[str]) -> None:
        """Lets a record leave its cache or aggregation."""
        record, entry = self.held[holder].pop(position - 1), self.network.holder(holder)
        process = self.network.process((holder.device, holder.process))["name"] if holder.process else ""
        step = Step("expire", (holder.kind, entry["name"], process, self.network.name(holder.device)), after=record.made)
        self.send(step, holder.device, entry.get("exportingProcess", []), choices, record)
        if not step.sent:
            step.ends.append("lost: no exporting process")
        self.steps.append(step)

    def arrive(self, number: int, position: int, choices: List[str]) -> None:
        """Lets a record on a link reach its collecting process."""
        record, link = self.carried[number].pop(position - 1), self.network.links[number - 1]
        end = self.network.end_of(number)
        names = (link["destination"], link["exportingProcess"], link["device"], link["toProcess"], link["toDevice"])
        step = Step("arrive", names, after=record.made, is_reported=end == self.network.report)
        self.send(step, end[0], self.network.process(end).get("exportingProcess", []), choices, record)
        for aggregation in self.network.aggregations(end):
            self.offer(step, aggregation, record)
        if step.is_reported:
            self.tally(step, record)
        if not (step.sent or step.taken or step.is_reported):
            step.ends.append("lost: nothing takes it")
        self.steps.append(step)

    def offer(self, step: Step, aggregation: Holder, record: Record) -> None:
        """Offers a record to an aggregation, which takes it in if it can read its key and its matches hold."""
        why, name = self.untaken(aggregation, self.network.layout(record.holder)), self.network.holder(aggregation)["name"]
        if why:
            step.untaken.append((name, *why))
            return
        step.taken.append(name)
        self.take_in(aggregation, record)

    def untaken(self, aggregation: Holder, layout: Layout) -> Optional[Tuple[str, str]]:
        """Returns why an aggregation does not take in records of a layout, or None if it does."""
        own = self.network.layout(aggregation)
        for at in lacks(layout, own):
            return "lacks", str(part_named(at, own[at]))
        matches = [(axis_of(it), *range_of(AXES[axis_of(it)], it["value"])) for it in self.network.holder(aggregation).get("match", [])]
        for at, _, bits in matches:
            if layout.get(at, 0) < bits:
                return "unread", AXES[at].word
        for at, (low, high), _ in matches:
            if not low <= self.values[at] <= high:
                return "fails", AXES[at].word
        return None

    def tally(self, step: Step, record: Record) -> None:
        """Counts a record at the report, or notes what its key lacks."""
        needed = self.network.report_layout
        missing = lacks(self.network.layout(record.holder), needed)
        self.reported.append(record.holder)
        self.counting |= record.metered
        step.ends.append("unassigned" if missing else "counted")
        if missing:
            step.lacked = part_named(missing[0], needed[missing[0]])
            self.unassigned += 1
            return
        counts = self.totals.setdefault(self.key(), [0, 0])
        counts[0] += record.packets
        counts[1] += record.octets

    def key(self) -> Tuple[int, ...]:
        """Returns the packet's values of the report's key, in the order of the axes."""
        needed = self.network.report_layout
        return tuple(self.values[at] >> (AXES[at].bits - needed[at]) << (AXES[at].bits - needed[at]) for at in sorted(needed))

    def counted(self) -> int:
        return sum(packets for packets, _ in self.totals.values())

    def verdict(self) -> str:
        """Returns how the packet is counted that must not be counted so."""
        if "exempt" in self.one:
            return "exempt" if self.totals else "exempt and unassigned"
        if self.counted() > 1:
            return f"counted {self.counted()}"
        if self.unassigned:
            return "unassigned"
        return "lost" if self.sightings else "not metered"

    def is_complete(self) -> bool:
        """Returns whether all crossings are made, and nothing is held or on a link."""
        return not self.to_come and not any(self.held.values()) and not any(self.carried.values())

    def parting(self) -> Optional[int]:
        """Returns the number of the first step after which the record goes on to the report in more than one way."""
        leads = [int(step.is_reported) for step in self.steps]
        for at in range(len(self.steps) - 1, -1, -1):
            after = self.steps[at].after
            if leads[at] and after is not None:
                leads[after] += 1
        return next((at + 1 for at, step in enumerate(self.steps) if step.kind != "cross" and leads[at] > 1), None)

#!/usr/bin/env python3
"""Compares what `--format json` says of generated networks with a plain walk over their documents.

usage: json_facts.py PROGRAM [--networks N] [--first N] [--seed S] [--jobs N]

N small networks with their traffic, half of generated_networks.py and half of mistaken_networks.py, each drawn from the seed and its
number. `audit` answers about each. Certificates that the walk (plain_walk.py) or `audit` has written are checked, many with a mistake of
mistaken_certificates.py; refutations are confirmed, whole or without their last steps. Of what the answers state, in facts and in sentences
(stated_facts.py reads them), this must be what the walk finds in the documents:

- of a refused certificate the number and the line, the fact about it (class, path, crossings, region, depth), and, where the number is
  about packets, what each selection process at each crossing selects of the region, where its records are sent, which collecting
  processes they reach, and what these do with them;
- of a refutation the fact about it, the verdict, the occurrences that what to do names, by each step the devices, processes,
  destinations and links that the packet or a record passes, and where each record ends: counted, unassigned, lost or, of a run that
  is cut short, held; the totals, too.

A fact with a member that the walk does not compute is a fault. Prints each fault with the seed, the network and both values, and how many
cases there were of each kind; too few of a kind in LEAST are a fault. The last line is `N passed, M failed`. For 2,000 networks the program
runs 6,000 times, and the walk takes 22 s: less than a minute of CPU time together if a run takes 5 ms (docs/SPEED.md has 2 ms). A run of
the program of packaging/build_unproved.py takes 60 to 90 ms: give `--networks 200` with that, which has a tenth of the cases.
"""
import argparse
import collections
import concurrent.futures
import json
import os
import random
import re
import sys
import tempfile
from typing import Any, Collection, Counter, Dict, Iterator, List, Optional, Sequence, Tuple

import generated_networks
import mistaken_certificates
import mistaken_networks
from plain_runs import Run, Sending, Step, part_named
from plain_walk import (
    AXES, Certificate, Holder, Network, Object, Occurrence, Refused, Region, Walk, axis_of, certificate_of, form_of, lacks, overlap,
    range_of, sees, shown,
)
from program import run
from stated_facts import CROSSING, QUOTED, SIGHTING, LeafNames, Story, lacked_in, leaf_names_in, step_in, story_in, undone_in
from verdict import report_named

NETWORKS, SEED = 2_000, 56
# The least number of cases of each kind for NETWORKS networks.
LEAST = {
    "no 406": 50, "no 407": 50, "no 408": 50, "no 409": 50, "no 410": 50, "no 411": 20, "no 412": 10, "no 413": 50, "no 415": 50,
    "certificate": 50, "exempt": 50, "counted": 50, "unassigned": 50, "lost": 50, "not metered": 50, "refuted": 50, "no 504": 50,
}
# The numbers that are about the packets of a leaf.
OF_PACKETS = {406, 407, 408, 409, 410, 413, 415}
Fault = Tuple[str, Any, Any]


def value_stated(at: int, value: int) -> Any:
    """Returns a value of an axis as a fact has it."""
    return shown(at, value) if AXES[at].prefix else value


def region_stated(region: Region) -> Object:
    """Returns a region as a fact has it: the axes that it restricts."""
    parts = [(at, axis, region[at]) for at, axis in enumerate(AXES) if region[at] != (0, axis.top)]
    return {axis.element: {"low": value_stated(at, low), "high": value_stated(at, high)} for at, axis, (low, high) in parts}


def target_stated(traffic: Object, target: Tuple[int, int]) -> Object:
    one = traffic["classes"][target[0] - 1]
    return {"class": {"number": target[0], "name": one["name"]}, "path": target[1], "crossings": one["paths"][target[1] - 1]}


def line_stated(traffic: Object, refused: Refused, lines: Sequence[str]) -> Object:
    """Returns the fact about the line of a refused certificate."""
    fact: Object = {"about": "certificate line", "due": refused.due}
    if refused.line <= len(lines):
        fact.update({"line": refused.line, "text": lines[refused.line - 1]})
    if refused.target is not None:
        fact.update(target_stated(traffic, refused.target))
    if refused.region is not None:
        fact.update({"region": region_stated(refused.region), "depth": refused.depth})
    return fact


def run_stated(traffic: Object, made: Run) -> Object:
    """Returns the fact about a refuting run."""
    fields = {axis.element: value_stated(at, made.values[at]) for at, axis in enumerate(AXES)}
    fact = {"about": "refuting run", "fields": fields, "octets": made.octets, "steps": len(made.steps)}
    return {**fact, **target_stated(traffic, made.target)}


# ---- what is due of the packets of a leaf

def sent_by(network: Network, device: int, exporters: Sequence[str]) -> Tuple[Sending, ...]:
    """Returns where exporting processes of a device can send a record."""
    ways = [way for exporter in exporters for way in network.ways(device, exporter)]
    return tuple((exporter, destination, ends_at(network, link)) for exporter, destination, link in ways)


def ends_at(network: Network, link: Optional[int]) -> Optional[Tuple[str, str]]:
    return None if link is None else (network.links[link - 1]["toProcess"], network.links[link - 1]["toDevice"])


def holder_named(network: Network, holder: Holder) -> Tuple[str, str, str]:
    return holder.kind, network.holder(holder)["name"], network.name(holder.device)


def crossing_named(path: Sequence[Object], number: int) -> Tuple[object, ...]:
    crossing = path[number - 1]
    return number, crossing["device"], crossing["interface"], crossing["direction"]


def watched(network: Network, path: Sequence[Object], region: Region, it: Occurrence) -> Tuple[object, ...]:
    """Returns what a selection process does with the packets of a region, by name."""
    how: Tuple[object, ...] = (it.point_name, it.process_name, overlap(region, it.region), it.cache, ())
    if it.cache is not None:
        exporters = network.holder(network.cache(it.device, it.cache)).get("exportingProcess", [])
        how = (*how[:4], sent_by(network, it.device, exporters))
    return (*crossing_named(path, it.crossing), *how)


def forwarded(network: Network, process: Tuple[int, int]) -> Tuple[object, ...]:
    """Returns a collecting process by name, and where it and its aggregations send records."""
    entry, sent = network.process(process), []
    if entry.get("exportingProcess"):
        sent.append(("", sent_by(network, process[0], entry["exportingProcess"])))
    for aggregation in entry.get("once-audit:aggregation", []):
        sent.append((aggregation["name"], sent_by(network, process[0], aggregation.get("exportingProcess", []))))
    return entry["name"], network.name(process[0]), process == network.report, tuple(sent)


def leaf_named(network: Network, path: Sequence[Object], words: List[str]) -> Optional[Tuple[object, ...]]:
    """Returns what a line `L CROSSING POINT PROCESS` names, if all of it is there."""
    numbers = tuple(map(int, words))
    if not 0 < numbers[0] <= len(path):
        return None
    device = network.numbers[path[numbers[0] - 1]["device"]]
    points = network.entries(device, "observationPoint")
    if not 0 < numbers[1] <= len(points):
        return None
    named = points[numbers[1] - 1].get("selectionProcess", [])
    if not 0 < numbers[2] <= len(named):
        return None
    process = network.named(device, "selectionProcess", named[numbers[2] - 1])[1]
    return (*crossing_named(path, numbers[0]), points[numbers[1] - 1]["name"], process["name"], process.get("cache"))


def leaf_names_due(network: Network, path: Sequence[Object], region: Region, words: List[str]) -> LeafNames:
    """Returns what must be named about the packets of a region on a path, where a leaf has these words."""
    walk, due = Walk(network, region), LeafNames()
    walk.path(path)
    met = list(network.occurrences(path))
    due.watched = [watched(network, path, region, it) for it in met]
    due.unwatched = [crossing_named(path, at) for at, _ in enumerate(path, 1) if at not in {it.crossing for it in met}]
    due.leaf = leaf_named(network, path, words) if words else None
    for process, holder in walk.arrivals:
        due.reached.append(forwarded(network, process))
        layout = network.layout(holder)
        if process == network.report:
            for at in lacks(layout, network.report_layout)[:1]:
                due.stays.append((*holder_named(network, holder), part_named(at, network.report_layout[at])))
        for aggregation in network.aggregations(process):
            add_untaken(due, network, walk.region, aggregation, holder)
    return due


def add_untaken(due: LeafNames, network: Network, region: Region, aggregation: Holder, holder: Holder) -> None:
    """Adds why an aggregation does not take in all of a holder's records."""
    entry, process = network.holder(aggregation), network.process((aggregation.device, aggregation.process))
    names = (entry["name"], process["name"], network.name(aggregation.device))
    layout, own = network.layout(holder), network.layout(aggregation)
    unread = [("lacks", str(part_named(at, own[at]))) for at in lacks(layout, own)]
    tests = [(axis_of(it), range_of(AXES[axis_of(it)], it["value"])) for it in entry.get("match", [])]
    unread += [("unread", AXES[at].word) for at, (_, bits) in tests if layout.get(at, 0) < bits]
    if unread:
        due.unread.append((*names, *holder_named(network, holder), *unread[0]))
        return
    for at, (values, _) in tests:
        how = overlap((region[at],), (values,))
        if how != "all":
            due.matched.append((*names, AXES[at].word, how))


def compared(what: str, stated: Any, due: Any) -> Iterator[Fault]:
    if stated != due:
        yield what, stated, due


def leaf_faults(network: Network, stated: LeafNames, due: LeafNames) -> Iterator[Fault]:
    """Yields what the sentences about a leaf name and should not, or the other way round."""
    yield from compared("selection processes", stated.watched, due.watched)
    yield from compared("crossings that nothing sees", stated.unwatched, due.unwatched)
    yield from compared("the leaf", stated.leaf, due.leaf)
    for what in ("reached", "matched"):
        yield from compared(what, sorted(set(getattr(stated, what)), key=str), sorted(set(getattr(due, what)), key=str))
    for what in ("unread", "stays"):
        yield from compared(what, by_key(network, getattr(stated, what), what), by_key(network, getattr(due, what), what))
    twice = [name for name, count in collections.Counter(it[:2] for it in stated.reached).items() if count > 1]
    yield from compared("collecting processes named twice", twice, [])


def by_key(network: Network, named: Sequence[Tuple[Any, ...]], what: str) -> List[str]:
    """Returns what is named, with a holder's layout instead of its name: of several with one layout the program names the first."""
    found = set()
    for it in named:
        at = 3 if what == "unread" else 0
        kind, name, device = it[at:at + 3]
        found.add(str((*it[:at], *it[at + 3:], sorted(layout_named(network, kind, name, device).items()))))
    return sorted(found)


def layout_named(network: Network, kind: str, name: str, device: str) -> Dict[int, int]:
    """Returns the layout of a cache or an aggregation of this name of a device."""
    number = network.numbers[device]
    if kind == "cache":
        return network.layout(network.cache(number, name))
    holders = [it for at, _ in enumerate(network.entries(number, "collectingProcess"), 1) for it in network.aggregations((number, at))]
    return network.layout(next(it for it in holders if network.holder(it)["name"] == name))


# ---- what is due of a run

def step_faults(at: int, stated: Step, due: Step) -> Iterator[Fault]:
    """Yields what the sentences of a step name and should not, or the other way round."""
    for what in ("kind", "names", "metered", "sent", "taken", "untaken", "lacked", "is_reported", "ends"):
        yield from compared(f"step {at}: {what}", getattr(stated, what), getattr(due, what))
    if not due.metered:
        yield from compared(f"step {at}: passed over", stated.passed, due.passed)


# What the verdict on a packet says, in this order: the first of these that it has.
VERDICTS = (
    ("exempt and unassigned", re.compile(r"exempt.*unassigned|unassigned.*exempt")),
    ("exempt", re.compile(r"is counted, and its class is exempt")),
    ("unassigned", re.compile(r"unassigned")),
    ("counted", re.compile(r"is counted (\d+) times instead of once")),
    ("not metered", re.compile(r"nothing meters it on its path")),
    ("lost", re.compile(r"its records don't reach the report")),
)


def kind_of(verdict: str) -> str:
    """Returns the kind of a verdict; of a packet that is counted more than once with the number of times."""
    for kind, form in VERDICTS:
        if it := form.search(verdict):
            return f"{kind} {it[1]}" if form.groups else kind
    return verdict


def story_faults(made: Run, story: Story) -> Iterator[Fault]:
    """Yields what the sentences about the run of a refutation say and should not, or the other way round."""
    yield from compared("how many steps", len(story.steps), len(made.steps))
    for at, (stated, due) in enumerate(zip(story.steps, made.steps), 1):
        yield from step_faults(at, stated, due)
    yield from compared("reports", story.reported, [at for at, step in enumerate(made.steps, 1) if step.is_reported])


def verdict_faults(made: Run, story: Story) -> Iterator[Fault]:
    """Yields what is wrong with the verdict of a refutation and what to do about it."""
    stated = (*story.verdict[:3], kind_of(str(story.verdict[-1:])))
    yield from compared("the verdict", stated, (made.target[0], made.one["name"], made.target[1], made.verdict()))
    kind, advice = made.verdict().split(" ")[0], story.advice
    if kind == "exempt" or (kind == "counted" and len(made.counting) > 1):
        due = [sighting_named(made, it) for it in made.sightings if it in made.counting]
        yield from compared("occurrences to remove", sightings_in(advice), due)
    elif kind == "counted":
        yield from parting_faults(made, advice)
    elif kind == "unassigned":
        yield from key_faults(made, advice)
    elif kind == "lost":
        yield from end_faults(made, advice)
    else:
        yield from compared("what sees the crossings", watchers_in(advice), watchers_due(made))


def sightings_in(advice: str) -> List[Tuple[object, ...]]:
    return [(int(it[2]), *it.group(3, 4, 5, 1, 6, 7)) for it in SIGHTING.finditer(advice)]


def sighting_named(made: Run, it: Occurrence) -> Tuple[object, ...]:
    return (*crossing_named(made.path, it.crossing), it.point_name, it.process_name, it.cache)


def step_at_end(advice: str) -> Step:
    """Returns the step in whose words an advice ends."""
    return step_in(advice[max(advice.rfind("a record leaves "), advice.rfind("a record on the link ")):])


def looks(step: Step) -> Tuple[object, ...]:
    return step.kind, step.names, tuple(step.sent)


def parting_faults(made: Run, advice: str) -> Iterator[Fault]:
    at = made.parting()
    due = looks(made.steps[at - 1]) if at else None
    yield from compared("where a record goes on in more than one way", looks(step_at_end(advice)), due)


def key_faults(made: Run, advice: str) -> Iterator[Fault]:
    """Yields what is wrong with the field that an advice asks to keep, and with the holder whose records lack it."""
    network, needed = made.network, made.network.report_layout
    parts = {str(part_named(at, needed[at])) for holder in made.reported for at in lacks(network.layout(holder), needed)}
    if it := re.search(r"IPv[46] packets have no (\w+)(?: of prefixLength (\d+))?", advice):
        yield from among("a field of the other version", str(lacked_in(it[1], it[2])), parts)
        return
    it = re.match(r"what to do: Keep (\w+)(?: of prefixLength (\d+))?", advice)
    stated = (str(lacked_in(it[1], it[2])) if it else advice, step_at_end(advice).names)
    due = [(str(part_named(at, needed[at])), leaving_named(network, holder))
           for holder in made.reported for at in lacks(network.layout(holder), needed)[:1]]
    yield from among("the field to keep, and where", stated, due)


def leaving_named(network: Network, holder: Holder) -> Tuple[object, ...]:
    kind, name, device = holder_named(network, holder)
    return kind, name, network.process((holder.device, holder.process))["name"] if holder.process else "", device


def among(what: str, stated: object, due: Collection[object]) -> Iterator[Fault]:
    if stated not in due:
        yield what, stated, f"one of {sorted(map(str, due))}"


def end_faults(made: Run, advice: str) -> Iterator[Fault]:
    """Yields what is wrong with the place to mend: a record of the packet must end there."""
    ends = {end for step in made.steps for end in step.ends}
    place = rf"what to do: Link destination {QUOTED} of exporting process {QUOTED} of ([^\s,]+)"
    lost = [step for step in made.steps if step.kind != "cross" and any(end.startswith("lost") for end in step.ends)]
    if it := re.match(rf"{place}, which has no link", advice):
        yield from among("the destination to link", f"lost: {it[1]} of {it[2]} of {it[3]} has no link", ends)
    elif it := re.match(rf"{place} to collecting process {QUOTED} of ([^\s,]+), .* it is linked to {QUOTED}", advice):
        yield from among("the link to mend", (*it.group(1, 2, 3, 6, 5),), [step.names for step in lost])
    else:
        yield from among("where a record ends", looks(step_at_end(advice)), [looks(step) for step in lost])


def watchers_in(advice: str) -> List[Tuple[object, ...]]:
    """Returns the crossings of an advice, each with the observation points that see it."""
    parts = re.split(rf"{CROSSING}: ", advice)[1:]
    return [(int(parts[at]), *parts[at + 1:at + 4], re.findall(QUOTED, parts[at + 4])) for at in range(0, len(parts), 5)]


def watchers_due(made: Run) -> List[Tuple[object, ...]]:
    found: List[Tuple[object, ...]] = []
    for at, crossing in enumerate(made.path, 1):
        points = made.network.entries(made.network.numbers[crossing["device"]], "observationPoint")
        found.append((*crossing_named(made.path, at), [it["name"] for it in points if sees(it, crossing)]))
    return found


# ---- what is due of a refutation that is confirmed

def totals_stated(made: Run, counts: Dict[Tuple[int, ...], List[int]], unassigned: int) -> Object:
    """Returns totals as an answer has them."""
    needed, keys = made.network.report_layout, []
    for values, (packets, octets) in sorted(counts.items()):
        key: Object = {}
        for at, value in zip(sorted(needed), values):
            name, length = part_named(at, needed[at])
            key[name] = f"{shown(at, value)}/{length}" if length else value_stated(at, value)
        keys.append({"key": key, "packets": packets, "octets": octets})
    return {"keys": keys, "unassigned": unassigned}


def confirmed_faults(made: Run, answer: Object) -> Iterator[Fault]:
    plain = {} if "exempt" in made.one else {made.key(): [1, made.octets]}
    yield from compared("totals", answer["totals"], totals_stated(made, made.totals, made.unassigned))
    yield from compared("plain sums", answer["plain"], totals_stated(made, plain, 0))


def undone_faults(made: Run, sentences: Sequence[str]) -> Iterator[Fault]:
    """Yields what is wrong with what a run leaves undone."""
    network, stated = made.network, undone_in(sentences)
    held = [holder_left(network, holder, len(records)) for holder, records in made.held.items() if records]
    carried = [(at, network.links[at - 1]["toProcess"], network.links[at - 1]["toDevice"], len(records))
               for at, records in made.carried.items() if records]
    yield from compared("held", sorted(stated["held"]), sorted(held))
    yield from compared("carried", sorted(stated["carried"]), sorted(carried))
    yield from compared("to come", stated["to come"], [crossing_named(made.path, at) for at in sorted(made.to_come)])


def holder_left(network: Network, holder: Holder, count: int) -> Tuple[object, ...]:
    """Returns a holder that still has records: by name, also of its collecting process or device, and by its numbers."""
    kind, name, device = holder_named(network, holder)
    if holder.process:
        return kind, name, network.process((holder.device, holder.process))["name"], count, (holder.device, holder.process, holder.number)
    return kind, name, device, count, (holder.device, holder.number)


# ---- cases

FILES = ("network.json", "traffic.json")


class Case:
    """A network with its traffic in a folder, and what the program answers about them."""

    def __init__(self, program: str, folder: str, documents: Tuple[Object, Object], draw: random.Random) -> None:
        self.program, self.folder, self.draw = program, folder, draw
        self.network, self.traffic = Network(documents[0]), documents[1]
        self.kinds: Counter[str] = collections.Counter()
        for name, document in zip(FILES, documents):
            self.write(name, json.dumps(document))

    def write(self, name: str, text: str) -> None:
        with open(os.path.join(self.folder, name), "w", encoding="utf-8") as file:
            file.write(text)

    def asked(self, command: str, *more: str) -> Object:
        """Returns the answer to a command, whose last file is this text."""
        for text in more:
            self.write("text", text)
        ran = run([self.program, command, *FILES, *(["text"] if more else []), "--format", "json"], self.folder)
        answer: Object = json.loads(ran.stdout)
        return answer

    def faults(self) -> Iterator[Fault]:
        """Yields what is wrong with the answers."""
        answer, own = self.asked("audit"), "\n".join(certificate_of(self.network, self.traffic)) + "\n"
        refused = Certificate(self.network, self.traffic, own).refusal()
        yield from compared("audit", answer["answer"], "refutation" if refused else "certificate")
        if answer["answer"] == "refutation":
            yield from self.refuted("audit", answer, answer["output"])
            lines = answer["output"].splitlines()
            if len(lines) > 3 and self.draw.random() < 0.5:
                lines[2 + self.draw.randrange(len(lines) - 3):] = ["end"]
            text = "\n".join(lines) + "\n"
            yield from self.refuted("confirm", self.asked("confirm", text), text)
        else:
            self.kinds[answer["answer"]] += 1
            yield from compared("the audit's certificate", Certificate(self.network, self.traffic, answer["output"]).refusal(), None)
            yield from compared("facts", answer["facts"], [])
        yield from self.checked(answer, own)

    def refuted(self, command: str, answer: Object, text: str) -> Iterator[Fault]:
        """Yields what is wrong with the answer about a refutation."""
        made, story = Run(self.network, self.traffic, text.splitlines()), story_in(answer["explanation"])
        is_whole = answer["number"] != 504
        self.kinds[made.verdict().rstrip(" 0123456789") if command == "audit" else "refuted" if is_whole else "no 504"] += 1
        faults = [*story_faults(made, story), *compared("facts", answer["facts"], [run_stated(self.traffic, made)] * is_whole)]
        if is_whole:
            faults += [*verdict_faults(made, story), *compared("what is left", made.is_complete(), True)]
        else:
            faults += undone_faults(made, answer["explanation"])
        if command == "confirm" and is_whole:
            faults += confirmed_faults(made, answer)
        yield from ((f"{command}: {what}", stated, due) for what, stated, due in faults)

    def checked(self, answer: Object, own: str) -> Iterator[Fault]:
        """Yields what is wrong with the answers about certificates: that of the audit and the walk's own, with mistakes or as they are."""
        has_one = answer["answer"] == "certificate"
        for text in [str(answer["output"]), own] if has_one else [own]:
            if has_one or self.draw.random() < 0.3:
                text = mistaken_certificates.mistaken(self.draw, text.splitlines())
            name = text if len(text) < 400 else f"{text[:200]} .. {text[-100:]}"
            yield from ((f"check of {name!r}: {what}", stated, due) for what, stated, due in self.checked_faults(text))

    def checked_faults(self, text: str) -> Iterator[Fault]:
        """Yields what is wrong with the answer about the text of a certificate."""
        refused, answer = Certificate(self.network, self.traffic, text).refusal(), self.asked("check", text)
        self.kinds[f"no {answer['number']}" if answer["number"] else answer["answer"]] += 1
        if refused is None:
            yield from compared("answer and facts", (answer["answer"], answer["facts"]), ("yes", []))
            return
        place = (answer["number"], answer["place"] and answer["place"]["line"])
        yield from compared("number and line", place, (refused.number, refused.line))
        lines = text.split("\n")
        yield from compared("facts", answer["facts"], [line_stated(self.traffic, refused, lines if lines[-1] else lines[:-1])])
        if refused.number in OF_PACKETS and refused.target and refused.region:
            path = self.traffic["classes"][refused.target[0] - 1]["paths"][refused.target[1] - 1]
            kind, words = form_of(lines[refused.line - 1]) or ("", [])
            due = leaf_names_due(self.network, path, refused.region, words if kind == "L" else [])
            yield from leaf_faults(self.network, leaf_names_in(answer["explanation"]), due)


def documents_of(draw: random.Random, number: int) -> Tuple[Object, Object]:
    """Returns the network of this number and its traffic."""
    if number % 2:
        made = mistaken_networks.documents(draw)
    else:
        network = generated_networks.network(draw)
        made = network, generated_networks.traffic(draw, [it["name"] for it in network["devices"] if it["name"].startswith("m")])
    return json.loads(json.dumps(made[0])), json.loads(json.dumps(made[1]))


def tried(program: str, seed: int, number: int) -> Tuple[str, Counter[str], List[str]]:
    """Tries the network of this number: returns its name, which kinds of cases it had, and their faults."""
    draw = random.Random(f"{seed} {number}")
    with tempfile.TemporaryDirectory() as folder:
        case = Case(program, folder, documents_of(draw, number), draw)
        try:
            faults = [f"{what}: stated {stated!r}, due {due!r}" for what, stated, due in case.faults()]
        except (AttributeError, LookupError, TypeError, ValueError) as error:
            faults = [f"what is stated can't be read: {type(error).__name__}: {error}"]
    return f"seed {seed}, network {number}", case.kinds, faults


def too_few(kinds: Counter[str], networks: int) -> Iterator[str]:
    """Yields the kinds of which there were too few cases."""
    for kind, least in LEAST.items():
        due = least * networks // NETWORKS
        if kinds[kind] < due:
            yield f"{kind}: {kinds[kind]} cases, fewer than {due}"


def main(arguments: List[str]) -> int:
    parser = argparse.ArgumentParser(usage=(__doc__ or "").split("usage: ")[1].split("\n")[0])
    parser.add_argument("program")
    parser.add_argument("--networks", type=int, default=NETWORKS)
    parser.add_argument("--first", type=int, default=0)
    parser.add_argument("--seed", type=int, default=SEED)
    parser.add_argument("--jobs", type=int, default=os.cpu_count())
    given = parser.parse_args(arguments)
    kinds: Counter[str] = collections.Counter()
    found: List[Tuple[str, List[str]]] = []
    numbers = range(given.first, given.first + given.networks)
    with concurrent.futures.ThreadPoolExecutor(given.jobs) as pool:
        for name, own, faults in pool.map(lambda number: tried(os.path.abspath(given.program), given.seed, number), numbers):
            kinds += own
            found.append((name, faults))
    print(", ".join(f"{kind}: {count}" for kind, count in sorted(kinds.items())))
    return report_named([*found, ("all networks", list(too_few(kinds, given.networks)))])


if __name__ == "__main__":
    sys.exit(main(sys.argv[1:]))

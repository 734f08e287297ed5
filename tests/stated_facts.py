"""Reads what the sentences of an answer's `explanation` name: what sees packets where, the ways of records, and where they end.

Only names, numbers and how things end are read, not the rest of the wording. Names in quotes may have blanks, those of devices and
interfaces may not.
"""
import re
from dataclasses import dataclass, field
from typing import Dict, List, Optional, Sequence, Tuple

from plain_runs import Lacked, Sending, Step

QUOTED = r'"([^"]*)"'
CROSSING = r"crossing (\d+) \((\S+) (\S+) (ingress|egress)\)"
WATCHED = re.compile(
    rf"{CROSSING}: observation point {QUOTED}, selection process {QUOTED} selects (all|some|none) of these packets"
    r"(?: and not all)?(.*)")
UNWATCHED = re.compile(rf"{CROSSING}: no observation point with a selection process sees it")
SENDING = re.compile(
    rf"exporting process {QUOTED} sends to destination {QUOTED}, which "
    rf"(?:is linked to collecting process {QUOTED} of ([^\s;]+)|has no link)")
REACHED = re.compile(rf"collecting process {QUOTED} of ([^\s;]+)( is the report's)?(;.*)?")
UNREAD = re.compile(
    rf"aggregation {QUOTED} of collecting process {QUOTED} of (\S+) doesn't take in the records of (\w+) {QUOTED} of ([^\s:]+): (.*)")
MATCHED = re.compile(
    rf"aggregation {QUOTED} of collecting process {QUOTED} of ([^\s:]+): its match on (\w+) .* holds for (none|some) of .*")
PART = r"(\w+)(?: of prefixLength (\d+))?"
STAYS = re.compile(rf"the records of (\w+) {QUOTED} of (\S+) stay unassigned there: the record's key lacks {PART}.*")
LEAF = re.compile(
    rf"the leaf names {CROSSING}, observation point {QUOTED}, selection process {QUOTED}(?:, cache {QUOTED}|, which has no cache)")


def sendings(text: str) -> List[Sending]:
    """Returns the destinations to which a text says that exporting processes send."""
    return [(it[1], it[2], (it[3], it[4]) if it[3] is not None else None) for it in SENDING.finditer(text)]


@dataclass
class LeafNames:
    """What the sentences about a certificate's leaf name."""

    watched: List[Tuple[object, ...]] = field(default_factory=list)
    unwatched: List[Tuple[object, ...]] = field(default_factory=list)
    reached: List[Tuple[object, ...]] = field(default_factory=list)
    unread: List[Tuple[object, ...]] = field(default_factory=list)
    matched: List[Tuple[object, ...]] = field(default_factory=list)
    stays: List[Tuple[object, ...]] = field(default_factory=list)
    leaf: Optional[Tuple[object, ...]] = None

    def read(self, sentence: str) -> None:
        """Reads a sentence, if it is one of those that name something."""
        if it := WATCHED.fullmatch(sentence):
            self.watched.append((int(it[1]), *it.group(2, 3, 4, 5, 6, 7), *cache_in(it[8])))
        elif it := UNWATCHED.fullmatch(sentence):
            self.unwatched.append((int(it[1]), *it.group(2, 3, 4)))
        elif it := REACHED.fullmatch(sentence):
            self.reached.append((it[1], it[2], bool(it[3]), tuple(forwarded_in(it[4] or ""))))
        elif it := UNREAD.fullmatch(sentence):
            self.unread.append(it.group(1, 2, 3, 4, 5, 6) + why_in(it[7]))
        elif it := MATCHED.fullmatch(sentence):
            self.matched.append(it.groups())
        elif it := STAYS.fullmatch(sentence):
            self.stays.append((*it.group(1, 2, 3), lacked_in(it[4], it[5])))
        elif it := LEAF.fullmatch(sentence):
            self.leaf = (int(it[1]), *it.group(2, 3, 4, 5, 6, 7))


def lacked_in(element: str, length: Optional[str]) -> Lacked:
    return element, int(length) if length else None


def cache_in(text: str) -> Tuple[Optional[str], Tuple[Sending, ...]]:
    """Returns the cache of a selection process, and where its records are sent."""
    found = re.match(rf", cache {QUOTED}: ", text)
    return (found[1], tuple(sendings(text))) if found else (None, ())


def forwarded_in(text: str) -> List[Tuple[str, Tuple[Sending, ...]]]:
    """Returns what a collecting process sends itself, under no name, and what each of its aggregations sends."""
    parts = re.split(r"; (?=it forwards: |aggregation )", text)
    found = []
    for part in parts[1:]:
        name = re.match(rf"aggregation {QUOTED}: ", part)
        found.append((name[1] if name else "", tuple(sendings(part))))
    return found


def why_in(text: str) -> Tuple[str, str]:
    """Returns why an aggregation does not take in a record."""
    if it := re.match(rf"the record's key lacks {PART}", text):
        return "lacks", str(lacked_in(it[1], it[2]))
    it = re.match(r"its match is on (\w+) (.*)", text)
    return ("unread" if it and "can't be read" in it[2] else "fails"), it[1] if it else text


# ---- the run of a refutation

NUMBERED = re.compile(r"(\d+)\. (.*)")
CROSSES = re.compile(r"packet 1 crosses (\S+) (\S+) (ingress|egress)(.*)")
METERED = re.compile(rf"observation point {QUOTED}, selection process {QUOTED}: cache {QUOTED} holds a record of it")
SEES = re.compile(
    rf"observation point {QUOTED} sees it|selection process {QUOTED} (selects no packet|selects it and has no|doesn't select it)")
LEAVES = re.compile(rf"a record leaves (cache|aggregation) {QUOTED}(?: of collecting process {QUOTED})? of ([^\s:]+): (.*)")
ARRIVES = re.compile(
    rf"a record on the link from destination {QUOTED} of exporting process {QUOTED} of (\S+) reaches "
    rf"collecting process {QUOTED} of ([^\s;]+)(.*)")
TAKES = re.compile(rf"; aggregation {QUOTED} (?:takes|may take) it in")
UNTAKEN = re.compile(rf"aggregation {QUOTED} doesn't take it in: (.*)")
LACKS = re.compile(rf"the record stays unassigned: its key lacks {PART}.*")
REPORTED = re.compile(r"a record reaches the report at step (\d+)((?:, and at step \d+)*)")
WHY = {"selects no packet": "none", "selects it and has no": "no cache", "doesn't select it": "outside"}
VERDICT = re.compile(rf"verdict: a packet of class (\d+) {QUOTED} on path (\d+) (.*)")
SIGHTING = re.compile(rf"observation point {QUOTED} at {CROSSING}, selection process {QUOTED}, cache {QUOTED}")


def seen_in(text: str) -> List[Tuple[str, ...]]:
    """Returns what observation points that see a packet do with it that meter nothing."""
    found: List[Tuple[str, ...]] = []
    point = ""
    for it in SEES.finditer(text):
        if it[1] is not None:
            point = it[1]
        else:
            found.append((point, it[2], WHY[it[3]]))
    return found


def step_in(sentence: str) -> Step:
    """Returns what the sentence of a step says that it passes."""
    if it := CROSSES.match(sentence):
        step = Step("cross", it.group(1, 2, 3))
        step.metered, step.passed = [found.groups() for found in METERED.finditer(it[4])], seen_in(it[4])
    elif it := LEAVES.match(sentence):
        step = Step("expire", (it[1], it[2], it[3] or "", it[4]), sent=sendings(it[5]))
    elif it := ARRIVES.match(sentence):
        step = Step("arrive", it.groups()[:5], sent=sendings(it[6]), taken=[found[1] for found in TAKES.finditer(it[6])])
        step.is_reported = "; it is counted, or unassigned" in it[6]
    else:
        raise ValueError(f"no step: {sentence}")
    return step


def ends_of(step: Step, device: str) -> List[str]:
    """Returns where a step's record ends by what its sentences say."""
    ends = [f"lost: {destination} of {exporter} of {device} has no link" for exporter, destination, end in step.sent if end is None]
    if step.is_reported:
        ends.append("unassigned" if step.lacked else "counted")
    elif step.kind == "expire" and not step.sent:
        ends.append("lost: no exporting process")
    elif step.kind == "arrive" and not step.sent and not step.taken:
        ends.append("lost: nothing takes it")
    return ends


@dataclass
class Story:
    """What the sentences about a refutation say: the verdict, what to do, each step, and where records reach the report."""

    verdict: Tuple[object, ...] = ()
    advice: str = ""
    steps: List[Step] = field(default_factory=list)
    reported: List[int] = field(default_factory=list)

    def read(self, sentence: str) -> None:
        """Reads a sentence, if it is one of those that say so."""
        if it := NUMBERED.fullmatch(sentence):
            if int(it[1]) != len(self.steps) + 1:
                raise ValueError(f"step {it[1]} after {len(self.steps)} steps")
            self.steps.append(step_in(it[2]))
        elif it := UNTAKEN.fullmatch(sentence):
            self.steps[-1].untaken.append((it[1], *why_in(it[2])))
        elif it := LACKS.fullmatch(sentence):
            self.steps[-1].lacked = lacked_in(it[1], it[2])
        elif it := REPORTED.fullmatch(sentence):
            self.reported = [int(it[1]), *map(int, re.findall(r"\d+", it[2]))]
        elif it := VERDICT.fullmatch(sentence):
            self.verdict = (int(it[1]), it[2], int(it[3]), it[4])
        elif sentence.startswith("what to do: "):
            self.advice = sentence

    def finish(self) -> None:
        """Adds what follows from a step's sentences together: which aggregations take its record in, and where it ends."""
        for step in self.steps:
            untaken = {name for name, _, _ in step.untaken}
            step.taken = [name for name in step.taken if name not in untaken]
            device = step.names[3] if step.kind == "expire" else step.names[4] if step.kind == "arrive" else ""
            step.ends = ends_of(step, str(device))


def story_in(sentences: Sequence[str]) -> Story:
    story = Story()
    for sentence in sentences:
        story.read(sentence)
    story.finish()
    return story


def leaf_names_in(sentences: Sequence[str]) -> LeafNames:
    names = LeafNames()
    for sentence in sentences:
        names.read(sentence)
    return names


# ---- what a run leaves undone

HELD = re.compile(rf"(cache|aggregation) {QUOTED} of (?:collecting process {QUOTED}|(\S+)) still holds records: (\d+);.*")
ON_LINK = re.compile(
    rf"on the link to collecting process {QUOTED} of (\S+) are still records: (\d+); the first arrives by a line arrive (\d+) .*")
TO_COME = re.compile(rf"{CROSSING} is still to come")
FIRST = re.compile(r"the first leaves by a line expire (cache|aggregation) (\d+) (\d+)(?: (\d+))? 1 CHOICES")


def undone_in(sentences: Sequence[str]) -> Dict[str, List[Tuple[object, ...]]]:
    """Returns what a run that is not complete leaves: records in holders and on links, and crossings."""
    found: Dict[str, List[Tuple[object, ...]]] = {"held": [], "carried": [], "to come": []}
    for sentence in sentences:
        if it := HELD.fullmatch(sentence):
            first = FIRST.search(sentence)
            numbers = tuple(int(number) for number in first.groups()[1:] if number) if first else ()
            found["held"].append((it[1], it[2], it[3] or it[4], int(it[5]), numbers))
        elif it := ON_LINK.fullmatch(sentence):
            found["carried"].append((int(it[4]), it[1], it[2], int(it[3])))
        elif it := TO_COME.fullmatch(sentence):
            found["to come"].append((int(it[1]), *it.group(2, 3, 4)))
    return found

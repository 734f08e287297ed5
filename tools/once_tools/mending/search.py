"""Searches for the fewest changes after which `once` certifies a network; each proposal is audited and checked."""
from __future__ import annotations

import heapq
import itertools
import json
import tempfile
import time
from concurrent.futures import ThreadPoolExecutor
from dataclasses import dataclass
from pathlib import Path
from typing import Iterator

from once_tools.answers import Refutation, fault_in
from once_tools.json_answer import Answer, ask_once
from once_tools.mending.changes import Case, Change
from once_tools.mending.delivery import choices, fewer_ways, more_delivery
from once_tools.mending.keys import declaration, more_keys
from once_tools.mending.metering import less_metering, more_metering
from once_tools.mending.refused import longer_counter, without_sampling
from once_tools.mending.patches import Document, patched
from once_tools.model import Failed, Place


# How many documents are audited at once.
AT_ONCE = 4
# Documents that wait: the number of their changes, the weights of these, a number of their own, the changes, network and traffic.
Node = tuple[int, int, int, tuple[Change, ...], Document, Document]


@dataclass(frozen=True)
class Proposal:
    """Changes after which the network is certified, and the documents that they give."""

    changes: tuple[Change, ...]
    network: Document
    traffic: Document


@dataclass(frozen=True)
class Audited:
    """What `once audit` answers; `is_accepted` says that it is a certificate that `once check` accepts."""

    answer: Answer
    is_accepted: bool = False


@dataclass(frozen=True)
class Limits:
    changes: int
    proposals: int
    seconds: float


class Auditor:
    """Runs `once` over documents, several at a time, each pair in a folder of its own below one."""

    def __init__(self, program: str, folder: Path) -> None:
        self.program, self.folder, self.numbers = program, folder, itertools.count()

    def audit(self, network: Document, traffic: Document) -> Audited:
        """Returns what `once audit` answers, and whether `once check` says yes to it if it is a certificate."""
        folder = self.folder / str(next(self.numbers))
        folder.mkdir()
        files = [folder / name for name in ("network.json", "traffic.json", "certificate.txt")]
        for file, document in zip(files, (network, traffic)):
            file.write_text(json.dumps(document), encoding="utf-8")
        answer = ask_once(self.program, "audit", *files[:2])
        if answer.answer != "certificate":
            return Audited(answer)
        files[2].write_text(answer.output, encoding="utf-8")
        return Audited(answer, ask_once(self.program, "check", *files).answer == "yes")


def candidates(network: Document, traffic: Document, answer: Answer) -> Iterator[Change]:
    """Yields the changes that may mend what an answer of `once audit` is about."""
    fault = fault_in(answer)
    if isinstance(fault, Refutation):
        yield from candidates_for(Case(network, traffic, fault))
    elif fault:
        yield from without_sampling(network, fault)
        yield from longer_counter(network, fault)


def candidates_for(case: Case) -> Iterator[Change]:
    """Yields the changes that may mend a packet's count."""
    if case.is_exempt:
        yield from less_metering(case)
        yield from choices(case)
    elif case.sightings:
        if sum(one.ways for one in case.counted) > 1:
            yield from less_metering(case)
            yield from fewer_ways(case)
        yield from more_delivery(case)
        yield from choices(case)
        yield from more_keys(case)
    else:
        yield from more_metering(case)
    yield from declaration(case)


def sentences(changes: tuple[Change, ...]) -> set[str]:
    return {one.says for one in changes}


class Search:
    """Documents with changes, those with the fewest and most likely ones first."""

    def __init__(self, auditor: Auditor, limits: Limits) -> None:
        self.auditor, self.limits = auditor, limits
        self.numbers, self.seen, self.waiting = itertools.count(), set(), []
        self.ends = time.monotonic() + limits.seconds

    seen: set[str]
    waiting: list[Node]

    def push(self, changes: tuple[Change, ...], weight: int, network: Document, traffic: Document) -> None:
        text = json.dumps([network, traffic])
        if text not in self.seen:
            self.seen.add(text)
            heapq.heappush(self.waiting, (len(changes), weight, next(self.numbers), changes, network, traffic))

    def run(self, network: Document, traffic: Document) -> list[Proposal]:
        """Returns the proposals that were found within the limits, the best first."""
        self.push((), 0, network, traffic)
        found: list[Proposal] = []
        with ThreadPoolExecutor(AT_ONCE) as pool:
            while self.waiting and len(found) < self.limits.proposals and time.monotonic() < self.ends:
                taken = self.take(found)
                for node, audit in zip(taken, pool.map(lambda it: self.auditor.audit(it[4], it[5]), taken)):
                    found += self.look_at(node, audit)
        return found[:self.limits.proposals]

    def take(self, found: list[Proposal]) -> list[Node]:
        """Takes out those that are looked at next, but for those that have all changes of a proposal and more."""
        taken: list[Node] = []
        while self.waiting and len(taken) < AT_ONCE and not (taken and len(taken[0][3]) < len(self.waiting[0][3])):
            node = heapq.heappop(self.waiting)
            if not any(sentences(one.changes) <= sentences(node[3]) for one in found):
                taken.append(node)
        return taken

    def look_at(self, node: Node, audit: Audited) -> list[Proposal]:
        """Returns the proposal that these changes are; else has those wait that have one change more."""
        _, weight, _, changes, network, traffic = node
        if audit.answer.answer == "certificate":
            return [Proposal(changes, network, traffic)] if audit.is_accepted else []
        for change in candidates(network, traffic, audit.answer) if len(changes) < self.limits.changes else []:
            self.push((*changes, change), weight + change.weight, patched(network, change.network), patched(traffic, change.traffic))
        return []


def mend(program: str, network: Document, traffic: Document, limits: Limits) -> list[Proposal]:
    """Returns the proposals for two documents; that of no change if they are certified already. Raises `Failed` if `once` refuses them."""
    with tempfile.TemporaryDirectory(prefix="once-mend-") as folder:
        auditor = Auditor(program, Path(folder))
        answer = auditor.audit(network, traffic).answer
        if answer.answer not in ("certificate", "refutation") and not list(candidates(network, traffic, answer)):
            raise Failed(Place(""), f"once audit answers '{answer.output.strip()}'", "see `once explain` and the number")
        return Search(auditor, limits).run(network, traffic)

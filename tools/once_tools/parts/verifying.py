"""Has a whole and its parts judged, and each certificate checked."""
from __future__ import annotations

from dataclasses import dataclass
from pathlib import Path
from typing import Iterator

from once_tools.model import Unusable
from once_tools.parts.auditing import check_all
from once_tools.parts.judging import Judge, Judged, judged
from once_tools.parts.loading import read_document
from once_tools.parts.manifest import PartEntry, read_manifest
from once_tools.report import line_of


@dataclass(frozen=True)
class Verdict:
    """What is wrong with parts, each in a sentence, and what else is to be said. Without faults the answer is yes."""

    faults: list[str]
    notes: list[str]
    parts: int
    classes: int


def part_of(part: PartEntry, whole: Judged) -> Judged:
    """Returns a part as its documents say."""
    return judged(part.name, read_document(part.network).root, read_document(part.traffic).root, whole.network)


def faults_of_part(judge: Judge, part: PartEntry) -> Iterator[str]:
    """Yields what is wrong with a part's documents."""
    try:
        yield from judge.faults_of(part_of(part, judge.whole))
    except Unusable as why:
        yield f"part {part.name}: {line_of(why.finding)}"


def verify(program: str, folder: Path, network: Path, traffic: Path, jobs: int) -> Verdict:
    """Returns whether parts cover every path of the whole, and `once check` says yes of each. Raises `Unusable` if the whole is malformed."""
    manifest = read_manifest(folder)
    documents = read_document(network), read_document(traffic)
    whole = judged("of the whole", documents[0].root, documents[1].root)
    whole.network.check_order()
    judge = Judge(whole)
    faults = [fault for part in manifest.parts for fault in faults_of_part(judge, part)]
    faults += judge.faults_of_classes()
    faults += [f"part {part.name}: {said}" for part, said in zip(manifest.parts, check_all(program, manifest.parts, jobs)) if said]
    pairs = ((network, documents[0].digest, manifest.network), (traffic, documents[1].digest, manifest.traffic))
    notes = [f"{path} has changed since it was cut (SHA-256 {digest}, then {before}); the answer is about it as it is now"
             for path, digest, before in pairs if digest != before]
    return Verdict(faults, notes, len(manifest.parts), len(whole.classes))

"""Compares what a scenario recorded: the audit, what `once` predicts and collects, what the collectors and tshark sum."""
from __future__ import annotations

import sys
from dataclasses import dataclass, field
from pathlib import Path

from lab import captures, collectors, documents, losses, plan
from lab.documents import Documents, Pair
from lab.programs import TOOLS, LabError, run
from lab.running import Session
from lab.scenario import Scenario
from lab.totals import Answer, Totals, differences, joined, of_keys, read_answer, whole
from lab.verdicts import CERTIFICATE, REFUTATION, Judged, Loss, Measured, judge, shortened, split_keys

# What nfdump prints for a record without a source address, such as Open vSwitch's of ARP.
NO_SOURCE = "0.0.0.0"
ANSWERS = {0: CERTIFICATE, 1: REFUTATION}
VERIFIED = {CERTIFICATE: ("check", "yes"), REFUTATION: ("confirm", "refuted")}


@dataclass
class Result:
    """The outcome of a scenario. `lost_before` has, for each earlier attempt at it, what was lost in it."""

    scenario: Scenario
    measured: Measured
    judged: Judged
    streams: list[Path] = field(default_factory=list)
    gaps: int = 0
    seconds: float = 0.0
    lost_before: list[str] = field(default_factory=list)


def ask(session: Session, *words: str | Path) -> tuple[str, int]:
    """Returns what a command of `once` prints, and its status."""
    said = run([session.lab.once, *map(str, words)], check=False)
    if said.status > 3:
        raise LabError(f"`once {words[0]}` ended with status {said.status}: {(said.output + said.errors).strip()[-300:]}")
    return said.output, said.status


def prepare(session: Session) -> Path:
    """Writes the project of a scenario, while its network is up."""
    declared = session.scenario.declared
    paths = declared.paths(session) if declared.paths else []
    return documents.write_project(session.scenario, session.meters, session.state, session.folder, paths)


def make_documents(session: Session, project: Path) -> Documents:
    """Has once-import write the documents of a project."""
    return documents.import_project(project, session.folder / "documents", session.scenario.declared)


def audit(session: Session, pair: Pair) -> str:
    """Returns what an audit answers, after it was checked or confirmed."""
    text, status = ask(session, "audit", pair.network, pair.traffic)
    answer = ANSWERS.get(status)
    if answer is None:
        raise LabError(f"the audit answers: {text.strip()}")
    path = pair.network.parent / f"{answer}.txt"
    path.write_text(text, encoding="utf-8")
    command, wanted = VERIFIED[answer]
    said, _ = ask(session, command, pair.network, pair.traffic, path)
    if said.split()[:1] != [wanted]:
        raise LabError(f"`once {command}` says of the audit's answer: {said.strip()[:200]}")
    return answer


def audits(session: Session, pairs: list[Pair]) -> str:
    """Returns the answer of all pairs of documents: a certificate if each has one."""
    found = [audit(session, pair) for pair in pairs]
    return CERTIFICATE if set(found) == {CERTIFICATE} else REFUTATION


def predicted(session: Session, pairs: list[Pair], sent: Path) -> Totals:
    """Returns what `once run` totals over the senders' captures."""
    folder = session.folder
    schedule = Path("/dev/null")
    if session.scenario.schedule:
        schedule = folder / "schedule.txt"
        schedule.write_text(session.scenario.schedule(session, pairs[0].traffic, sent), encoding="utf-8")
    tables = []
    for pair in pairs:
        capture = sent
        if len(pairs) > 1:
            capture = folder / f"sent-ipv{pair.version}.pcap"
            captures.only_version(sent, pair.version, capture)
        text, status = ask(session, "run", pair.network, pair.traffic, capture, schedule)
        answer = read_answer(text, status)
        if answer.refusal:
            raise LabError(f"`once run` says: {answer.refusal}")
        tables.append(answer.totals)
    return joined(tables)


def streams_to(session: Session, host: str, port: int) -> tuple[list[Path], list[str]]:
    """Returns the streams of messages that came to a collector, and the lines of once-import's report about them."""
    folder = session.folder
    merged = folder / "wire.pcap"
    if not merged.exists():
        captures.merge([captures.wire(folder, name) for name in session.wires], merged)
    out = folder / f"streams-{host}-{port}"
    words = [sys.executable, "-B", str(TOOLS / "once-import"), "streams", str(merged), "--out", str(out), "--port", str(port)]
    said = run(words, check=False)
    report = (said.output + said.errors).splitlines()
    return sorted(out.glob("*.ipfix")) if out.exists() else [], report


def collected(session: Session, pairs: list[Pair], streams: list[Path]) -> list[Answer]:
    """Returns what `once collect` answers about streams, under the report of each version of IP."""
    found = []
    for stream in streams:
        for pair in pairs:
            found.append(read_answer(*ask(session, "collect", pair.network, stream)))
    return found


def senders(session: Session) -> tuple[Path, Totals]:
    """Returns the merged captures of what all hosts sent, and tshark's sums. What the plan has under its sources must be there."""
    merged = session.folder / "sent.pcap"
    captures.merge(list(session.captures), merged)
    sums = captures.plain_sums(merged)
    for one in shortened(differences(of_keys(sums, plan.sums(session.packets)), plan.sums(session.packets))):
        session.losses.append(Loss("captures of what customers send", f"against the plan: {one}"))
    return merged, sums


def due_of(session: Session, plain: Totals) -> Totals:
    """Returns the plain sums of the packets that must be counted."""
    versions = session.scenario.declared.versions
    exempt = {one for host in session.scenario.exempt_hosts() for version in versions
              for one in session.state.addresses.get((host, version), [])}
    return {key: value for key, value in plain.items() if key not in exempt}


def measure(session: Session, project: Path) -> Result:
    """Returns the outcome of a scenario that has run."""
    scenario = session.scenario
    made = make_documents(session, project)
    session.end_collectors()
    answer = audits(session, made.pairs)
    sent, plain = senders(session)
    wanted = None
    if not made.not_carried_over and scenario.predicts:
        wanted = predicted(session, made.pairs, sent)
    billed = scenario.collector(scenario.billed)
    streams, report = streams_to(session, billed.host, billed.port)
    found: dict[str, Totals] = {"nfacctd": collectors.printed(billed.output(session.folder))}
    answers = collected(session, made.pairs, streams)
    refused = {"once collect": one.refusal for one in answers if one.refusal}
    if not refused:
        found["once collect"] = joined(one.totals for one in answers)
    found["nfcapd"], log = collectors.replay_to_nfcapd(session.group, streams)
    if scenario.switch is not None:
        leave_out_nfcapd(session, billed.port, found)
    gaps = max([0, *(one.notes.get("gaps", 0) for one in answers)])
    session.losses += losses.stream_losses(report) + losses.nfcapd_losses(log) + gap_losses(session, gaps)
    own, others = split_keys(found, set(plain))
    measured = Measured(answer, due_of(session, plain), plain, wanted, own, refused, others, scenario.others_are_wrong,
                        session.losses, [*session.notes, *made.not_carried_over])
    return Result(scenario, measured, judge(measured, scenario.expected, scenario.other_keys), streams, gaps)


def leave_out_nfcapd(session: Session, port: int, found: dict[str, Totals]) -> None:
    """Leaves nfcapd out of the comparison if its totals are sums of the running totals in Open vSwitch's records."""
    sums = captures.running_totals(session.folder / "wire.pcap", port)
    with_source = {key: value for key, value in found["nfcapd"].items() if key != NO_SOURCE}
    if with_source == sums and sums:
        del found["nfcapd"]
        packets, octets = whole(sums)
        session.notes.append(f"nfcapd adds up the running totals of Open vSwitch's records: {packets} / {octets}, as tshark does")


def gap_losses(session: Session, gaps: int) -> list[Loss]:
    """Returns a loss where sequence numbers have more gaps than the exporters make themselves."""
    known = session.scenario.gaps
    return [Loss("sequence numbers", f"{gaps} gaps, and {known} are the exporter's own")] if gaps > known else []

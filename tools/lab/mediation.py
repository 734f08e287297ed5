"""`once` as a mediator of the lab: the octets that `once run --links` puts on the link to the collector are sent to it."""
from __future__ import annotations

import json
from pathlib import Path

from lab import analysis, captures, collectors, losses
from lab.documents import Pair
from lab.programs import LabError, agent, run
from lab.running import Session
from lab.totals import differences
from lab.verdicts import Loss, shortened


def link_to(network: Path, process: str) -> int:
    """Returns the number of the link that leads to a device, from 1."""
    links = json.loads(network.read_text(encoding="utf-8"))["links"]
    found = [number for number, one in enumerate(links, 1) if one["toDevice"] == process]
    if len(found) != 1:
        raise LabError(f"{len(found)} links lead to {process} in {network}, and one was expected")
    return found[0]


def send_aggregates(session: Session) -> None:
    """Runs the network over what the hosts sent, and sends what the mediator exports to the running collector."""
    made = analysis.make_documents(session, analysis.prepare(session))
    pair = made.pairs[0]
    sent = session.folder / "sent-for-mediator.pcap"
    captures.merge(list(session.captures), sent)
    prefix = session.folder / "link"
    run([session.lab.once, "run", str(pair.network), str(pair.traffic), str(sent), "/dev/null", "--links", str(prefix)])
    billed = session.scenario.collector(session.scenario.billed)
    link = Path(f"{prefix}{link_to(pair.network, billed.name)}")
    run(agent("replay", billed.address, str(billed.port), str(link)), "bill")
    compare_received(session, pair, sent)


def compare_received(session: Session, pair: Pair, sent: Path) -> None:
    """Compares what the running exporters sent to the mediator with what was sent: the mediator sums up nothing else."""
    mediator = next(one for one in session.scenario.collectors if one.forwards)
    session.losses += losses.collector_losses(mediator.host, mediator.name, mediator.port)
    session.collectors[mediator.name].end(2)
    received = collectors.printed(mediator.output(session.folder))
    plain = captures.plain_sums(sent)
    own = {key: value for key, value in received.items() if key in plain}
    for one in shortened(differences(own, plain)):
        session.losses.append(Loss("records that came to the mediator", str(one)))
    session.notes.append("nfacctd in the mediator's place has the plain sums of what pmacctd sent to it")

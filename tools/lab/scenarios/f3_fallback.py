"""Two collectors stand in for each other under one address, and both forward to the one that is billed."""
import time

from lab import captures
from lab.collectors import Collector
from lab.exporters import BILLING as TO_BILLING
from lab.exporters import Meter
from lab.networks import VIRTUAL, lead_to, virtual_address
from lab.programs import LabError
from lab.running import Session
from lab.scenario import BILLING, ROUTING, Declared, Scenario, Sent
from lab.verdicts import CERTIFICATE, Expected

RECEIVER = f"{VIRTUAL}:4741"
SENDING = Sent(gap=0.012)


def switch_over(session: Session) -> None:
    """Has the second collector take over in the middle, when the exporter has sent records for some seconds."""
    time.sleep(session.scenario.sent.packets / 2 * session.scenario.sent.gap * 0.6)
    lead_to("med2")


def count_messages(session: Session) -> None:
    """Notes how many messages came to each of the two collectors; both must have some, or nothing was switched over."""
    for host in ("med1", "med2"):
        rows = captures.field_rows(captures.watched(session.folder, host, "mgmt"), "udp.dstport")
        messages = rows.count(["4741"])
        if not messages:
            raise LabError(f"no message came to {host}: the collectors were not switched over")
        session.notes.append(f"{messages} messages came to {host}")


SCENARIO = Scenario(
    "f3-fallback", "a collector fails over to another in the middle; both forward to the one that is billed", Expected(CERTIFICATE),
    meters=(Meter("edge", ("up0",), (RECEIVER,)),),
    collectors=(Collector("first", 4741, "med1", (TO_BILLING,), is_transparent=True, listens_at_all=True),
                Collector("second", 4741, "med2", (TO_BILLING,), is_transparent=True, listens_at_all=True), BILLING),
    sent=SENDING, declared=Declared(aliases=(f'"{RECEIVER}" = ["172.31.0.5:4741", "172.31.0.6:4741"]',)),
    network=virtual_address, during=switch_over,
    watched=(("med1", "mgmt"), ("med2", "mgmt")), after_meters=count_messages, other_keys=ROUTING)

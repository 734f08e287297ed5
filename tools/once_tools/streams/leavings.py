"""What a capture's streams leave out, as findings."""
from __future__ import annotations

from once_tools.model import Finding, Grade, Place
from once_tools.streams.capture import Reading
from once_tools.streams.extract import Extraction
from once_tools.streams.session import Cause, Ends, Session, Tally

# For each cause: the grade, the sentence ({n} times, {amount}, {details}), and what to do.
SENTENCES: dict[Cause, tuple[Grade, str, str]] = {
    Cause.BEFORE_TEMPLATES: (
        Grade.NOT_CARRIED_OVER, "{n} {messages} with data sets whose templates come later or never ({details}): these sets "
        "are left out, and their records are in no total", "begin the capture before the exporter starts, or after it has "
        "sent its templates again"),
    Cause.DUPLICATE: (
        Grade.NOTE, "{n} {messages} that came before, octet for octet ({amount} records): left out, or they would count "
        "twice", ""),
    Cause.MALFORMED: (
        Grade.NOT_CARRIED_OVER, "{n} {messages} that cannot be read ({details}): left out", "look at the frames with tshark"),
    Cause.NETFLOW_5: (
        Grade.NOT_CARRIED_OVER, "{n} {messages} of NetFlow 5 with {amount} records: left out, since `once collect` reads "
        "IPFIX alone (611)", "have the exporter send IPFIX"),
    Cause.NETFLOW_9: (
        Grade.NOT_CARRIED_OVER, "{n} {messages} of NetFlow 9 with {amount} records and templates: left out, since `once "
        "collect` reads IPFIX alone (611)", "have the exporter send IPFIX (Cisco: export-protocol ipfix)"),
    Cause.GAP: (
        Grade.WARNING, "{n} {gaps} in the sequence numbers: {amount} records are missing, and the totals lack them",
        "capture without loss, or find out where messages are lost"),
    Cause.BACKWARDS: (
        Grade.WARNING, "{n} times a sequence number goes back: messages came out of order, or the exporter started again",
        "look at the export times of these frames"),
    Cause.AHEAD: (
        Grade.NOTE, "{n} times the first record after templates has a sequence number that is one too high, as Open vSwitch "
        "sends it: `once collect` counts a gap there, and probably no record is missing", ""),
    Cause.TEMPLATE_CHANGED: (
        Grade.WARNING, "{n} times a template is defined anew with other fields (616): a new stream begins there, and records of "
        "templates that are not repeated after it are left out", "total the parts with `once sum`"),
    Cause.NARROW_COUNTER: (
        Grade.WARNING, "counters that have not 8 octets: {details}. `once collect` refuses the stream (618), because a shorter "
        "counter may have wrapped", "have the exporter send 8 octets"),
    Cause.WRONG_LENGTH: (
        Grade.WARNING, "fields with lengths that their elements cannot have: {details}. `once collect` refuses the stream (614)",
        "look at the template with `once-import template`"),
    Cause.LOST_OCTETS: (
        Grade.NOT_CARRIED_OVER, "{amount} octets ({details}): the messages that they belong to are left out",
        "capture from the beginning of the connection, and without loss"),
    Cause.SCTP_STREAMS: (
        Grade.NOTE, "messages came on several SCTP streams, which number their records apart: `once collect` counts gaps where "
        "nothing is missing", ""),
}


def findings_of(name: str, reading: Reading, extraction: Extraction, sessions: list[Session]) -> list[Finding]:
    """Returns a finding for each kind of thing that is left out, by session and then for the capture as a whole."""
    found = [_finding(name, session.ends, cause, session.tallies[cause])
             for session in sessions for cause in Cause if cause in session.tallies]
    known = {session.ends for session in sessions}
    for ends, tally in extraction.strange.items():
        found.append(Finding(Grade.NOTE, Place(name), f"{ends}: {_count(tally.count, 'datagram')} "
                             f"{_frames(tally)} of something other than IPFIX and NetFlow (encrypted?): left out"))
    return found + _errors(name, extraction, known) + _frames_without(name, reading, extraction)


def _finding(name: str, ends: Ends, cause: Cause, tally: Tally) -> Finding:
    grade, sentence, todo = SENTENCES[cause]
    says = sentence.format(n=tally.count, amount=tally.amount, details=", ".join(tally.details),
                           messages="message" if tally.count == 1 else "messages",
                           gaps="gap" if tally.count == 1 else "gaps")
    at = f" {_frames(tally)}" if tally.frames else ""
    return Finding(grade, Place(name), f"{ends}{at}: {says}", todo)


def _count(count: int, noun: str) -> str:
    return f"{count} {noun}{'' if count == 1 else 's'}"


def _frames(tally: Tally) -> str:
    more = ", .." if tally.count > len(tally.frames) else ""
    return f"(frame{'' if len(tally.frames) == 1 else 's'} {', '.join(map(str, tally.frames))}{more})"


def _errors(name: str, extraction: Extraction, known: set[Ends]) -> list[Finding]:
    """Returns findings for ICMP errors about exports, which quote a message that nobody received."""
    found = []
    for (reporter, source, port, destination, to_port), tally in extraction.refused.items():
        ends = Ends("udp", source, port, destination, to_port)
        if ends in known:
            found.append(Finding(
                Grade.WARNING, Place(name), f"{ends}: {reporter} answers with {_count(tally.count, 'ICMP error')} "
                f"{_frames(tally)}: the collector has not received these messages, and the stream has them",
                "start the collector, or correct the exporter's destination"))
    return found


def _frames_without(name: str, reading: Reading, extraction: Extraction) -> list[Finding]:
    place, found = Place(name), []
    if reading.ends_early:
        found.append(Finding(Grade.NOT_CARRIED_OVER, place, f"{reading.ends_early}: what follows is lost", "capture again"))
    if extraction.cut.count:
        found.append(Finding(Grade.NOT_CARRIED_OVER, place, f"{_count(extraction.cut.count, 'frame')} "
                             f"{_frames(extraction.cut)} cut by the snap length: left out", "capture whole frames (-s 0)"))
    if extraction.malformed.count:
        found.append(Finding(Grade.NOTE, place, f"{_count(extraction.malformed.count, 'frame')} "
                             f"{_frames(extraction.malformed)} with a malformed IP header: left out"))
    for link, count in extraction.link_types.items():
        found.append(Finding(Grade.NOT_CARRIED_OVER, place, f"{_count(count, 'frame')} of link type {link}, which is not "
                             "read: left out", "capture at an Ethernet interface or at any"))
    incomplete = extraction.fragments.incomplete()
    if incomplete or extraction.fragments.forgotten:
        tally = Tally()
        for parts in incomplete:
            tally.add(parts[0].frame)
        tally.count += extraction.fragments.forgotten
        found.append(Finding(Grade.NOT_CARRIED_OVER, place, f"{_count(tally.count, 'packet')} {_frames(tally)} whose IP "
                             "fragments are not all in the capture: left out", "capture where all fragments pass"))
    return found

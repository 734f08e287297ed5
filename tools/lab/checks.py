"""Demands on what a scenario measured, beyond its verdict: exact totals that follow from the plan, or bounds."""
from __future__ import annotations

from typing import Callable

from lab.plan import Packet, sums
from lab.totals import Totals, add, differences, is_within, less, times, whole
from lab.verdicts import Check, Measured, shortened

LINK_MTU = 600


def all_of(*checks: Check) -> Check:
    """Returns a check that demands what several do."""
    return lambda measured: [fault for check in checks for fault in check(measured)]


def exactly(wanted: Callable[[Measured], Totals], what: str) -> Check:
    """Returns a check that every program has these totals."""
    def check(measured: Measured) -> list[str]:
        return [f"{program} against {what}: {one}" for program, table in measured.found.items()
                for one in shortened(differences(table, wanted(measured)))]
    return check


def exactly_in(program: str) -> Check:
    """Returns a check that a program has the totals that `once run` predicts."""
    def check(measured: Measured) -> list[str]:
        if program not in measured.found:
            return [f"{program} has no totals"]
        return [f"{program} against once run: {one}"
                for one in shortened(differences(measured.found[program], measured.predicted or {}))]
    return check


def is_refused(program: str, words: str) -> Check:
    """Returns a check that a program refuses what it reads, in words that begin so."""
    def check(measured: Measured) -> list[str]:
        why = measured.refused.get(program, "")
        return [] if why.startswith(words) else [f"{program} was expected to say `{words}`, and says {why or 'nothing'}"]
    return check


def multiple(factor: int) -> Check:
    """Returns a check that every program counts each packet this number of times."""
    return exactly(lambda measured: times(measured.plain, factor), f"{factor} times the plain sums")


def at_most_due(program: str = "") -> Check:
    """Returns a check that a program, or every one, counts no packet twice."""
    def check(measured: Measured) -> list[str]:
        tables = {name: table for name, table in measured.found.items() if program in ("", name)}
        return [f"{name} has more than is due" for name, table in tables.items() if not is_within(table, measured.due)]
    return check


def packets_between(least: int, most: int, program: str = "") -> Check:
    """Returns a check that a program, or every one, has a number of packets between two bounds."""
    def check(measured: Measured) -> list[str]:
        found = {name: whole(table)[0] for name, table in measured.found.items() if program in ("", name)}
        return [f"{name} has {packets} packets, and {least} to {most} were expected" for name, packets in found.items()
                if not least <= packets <= most]
    return check


def has_lost(word: str) -> Check:
    """Returns a check that what was lost was seen where the scenario expects it."""
    def check(measured: Measured) -> list[str]:
        return [] if any(word in str(one) for one in measured.losses) else [f"no loss names {word}"]
    return check


def without(dying: Callable[[Packet], bool], packets: list[Packet]) -> Check:
    """Returns a check that every program misses exactly these packets of a plan."""
    gone = sums([one for one in packets if dying(one)])
    return exactly(lambda measured: less(measured.due, gone), "the plain sums without the packets that die")


def in_fragments(packets: list[Packet], mtu: int = LINK_MTU) -> Totals:
    """Returns the sums of a plan's packets after a link of this MTU: each fragment is a packet with a header of its own, and
    all but the last carry a multiple of 8 octets (RFC 791, section 3.2)."""
    found: Totals = {}
    most = mtu - 20
    for one in packets:
        payload = one.length - 20
        pieces = 1 if payload <= most else 1 - (most - payload) // (most // 8 * 8)
        add(found, one.source, pieces, payload + 20 * pieces)
    return found

"""What a scenario must come to, and what it came to: agreed, differed, or not measured."""
from __future__ import annotations

import enum
from dataclasses import dataclass, field
from typing import Callable

from lab.totals import Difference, Totals, differences, of_keys

CERTIFICATE, REFUTATION = "certificate", "refutation"


class Verdict(enum.Enum):
    """Agreed: all programs have the predicted totals, and the audit's answer is borne out. Differed: they have not, though
    nothing was seen to be lost. Not measured: a socket, a capture or a log shows that something was lost."""

    AGREED = "agreed"
    DIFFERED = "differed"
    NOT_MEASURED = "not measured"


@dataclass(frozen=True)
class Loss:
    """Something that was lost, and where that is seen."""

    where: str
    what: str

    def __str__(self) -> str:
        return f"{self.where}: {self.what}"


@dataclass
class Measured:
    """What was measured in a scenario. `due` are the plain sums of the packets that must be counted, `predicted` what
    `once run` prints (None where the documents do not say what happens), `found` what each program totals: a table, or why
    it has none. `others` are totals under keys that no declared host has; they are wrong if the documents declare
    their packets as exempt."""

    audit: str
    due: Totals
    plain: Totals
    predicted: Totals | None
    found: dict[str, Totals]
    refused: dict[str, str] = field(default_factory=dict)
    others: dict[str, Totals] = field(default_factory=dict)
    others_are_wrong: bool = False
    losses: list[Loss] = field(default_factory=list)
    notes: list[str] = field(default_factory=list)


# Returns what is wrong with what was measured; nothing if all is as it must be.
Check = Callable[[Measured], list[str]]


@dataclass(frozen=True)
class Expected:
    """What a scenario must come to. `verdicts` has several where chance decides; `premise` is what does not hold where
    the verdict is another than agreed; `check` demands more of the totals. `losses` are words of the losses that belong to the
    scenario: any other is an accident."""

    audit: str
    verdicts: tuple[Verdict, ...] = (Verdict.AGREED,)
    premise: str = ""
    check: Check | None = None
    losses: tuple[str, ...] = ()


@dataclass
class Judged:
    """The verdict, why, and the faults: what is otherwise than expected. `may_repeat` says that a loss was seen that the scenario
    does not expect, and that nothing is wrong that a loss cannot explain."""

    verdict: Verdict
    reasons: list[str]
    faults: list[str]
    borne_out: bool
    may_repeat: bool = False


def is_borne_out(measured: Measured) -> bool:
    """Returns whether the audit's answer is borne out: with a certificate all totals are those due, and with a refutation
    not all of them. (A refutation says that some run goes wrong; that this traffic shows it is more than it promises.)"""
    is_due = all(table == measured.due for table in measured.found.values()) and not measured.refused
    is_due = is_due and not (measured.others_are_wrong and measured.others)
    return is_due if measured.audit == CERTIFICATE else not is_due


def disagreements(measured: Measured) -> list[str]:
    """Returns where programs have other totals than predicted, or than each other where nothing can be predicted."""
    found = [f"{program} reads nothing: {why}" for program, why in measured.refused.items()]
    tables = dict(measured.found)
    wanted, source = measured.predicted, "once run"
    if wanted is None and tables:
        source = next(iter(tables))
        wanted = tables.pop(source)
    for program, table in tables.items():
        found += [f"{program} against {source}: {one}" for one in shortened(differences(table, wanted or {}))]
    return found


def shortened(found: list[Difference], most: int = 3) -> list[str]:
    """Returns the first differences, and how many more there are."""
    rest = [f"{len(found) - most} more keys differ"] if len(found) > most else []
    return [str(one) for one in found[:most]] + rest


def verdict_of(measured: Measured) -> tuple[Verdict, list[str]]:
    """Returns the verdict about what was measured, with the reasons. What was lost goes first: then nothing is compared."""
    if measured.losses:
        return Verdict.NOT_MEASURED, [str(one) for one in measured.losses]
    reasons = disagreements(measured)
    if not is_borne_out(measured):
        reasons.append(f"the {measured.audit} is not borne out: the totals are "
                       f"{'not ' if measured.audit == CERTIFICATE else ''}those due")
    return (Verdict.DIFFERED, reasons) if reasons else (Verdict.AGREED, [])


def unexpected_keys(measured: Measured, allowed: tuple[str, ...]) -> list[str]:
    """Returns a fault for each key of a program that neither a declared host has nor the scenario expects."""
    return [f"{program} has the key {key}, which nobody declared and the scenario does not expect"
            for program, table in measured.others.items() for key in sorted(table) if not is_allowed(key, allowed)]


def is_allowed(key: str, allowed: tuple[str, ...]) -> bool:
    """Returns whether a key is one of those allowed; one that ends in a colon stands for all that begin so."""
    return any(key == one or one.endswith(":") and key.startswith(one) for one in allowed)


def accidents(measured: Measured, expected: Expected) -> list[Loss]:
    """Returns the losses that do not belong to a scenario."""
    return [one for one in measured.losses if not any(words in str(one) for words in expected.losses)]


def judge(measured: Measured, expected: Expected, other_keys: tuple[str, ...]) -> Judged:
    """Returns the verdict, and what is otherwise than expected."""
    verdict, reasons = verdict_of(measured)
    faults = unexpected_keys(measured, other_keys)
    may_repeat = bool(accidents(measured, expected)) and measured.audit == expected.audit and not faults
    if measured.audit != expected.audit:
        faults.append(f"the audit answers {measured.audit}, and {expected.audit} was expected")
    if verdict not in expected.verdicts:
        names = " or ".join(one.value for one in expected.verdicts)
        faults.append(f"the verdict is {verdict.value}, and {names} was expected: " + "; ".join(reasons or ["all totals agree"]))
    may_check = verdict is not Verdict.NOT_MEASURED or Verdict.NOT_MEASURED in expected.verdicts
    if expected.check and may_check:
        faults += expected.check(measured)
    return Judged(verdict, reasons, faults, is_borne_out(measured), may_repeat and bool(faults))


def split_keys(found: dict[str, Totals], declared: set[str]) -> tuple[dict[str, Totals], dict[str, Totals]]:
    """Returns the totals under declared keys, and those under others."""
    own = {program: of_keys(table, declared) for program, table in found.items()}
    others = {program: of_keys(table, set(table) - declared) for program, table in found.items()}
    return own, {program: table for program, table in others.items() if table}

"""Statements of SR OS, RouterOS and VRP that are in force, each on one line that begins with the name of its system."""
from __future__ import annotations

import re
from typing import Iterable, Sequence

from once_tools.readers import mikrotik, nokia_sros
from once_tools.readers.paths_of_words import statements
from once_tools.readers.statements import match
from once_tools.readers.trees import braced_lines, quoted_words
from once_tools.source import Source

Numbered = tuple[int, list[str]]
FILTER = "filter ip-filter|ipv6-filter|mac-filter *"
DEFINED = "traffic behavior|policy *"
UNKNOWN = {"unknown"}
TOLD = {"redirect", "deny", *UNKNOWN}  # what is said of a traffic policy


def line_of(system: str, words: Iterable[str]) -> str:
    """Returns words as one line; spaces within a word become underscores, so that no description looks like a statement."""
    return " ".join([system, *(re.sub(r"\s", "_", word) for word in words)])


def in_force(found: Sequence[Numbered], off: str, on: Sequence[str]) -> list[Numbered]:
    """Returns the statements that are not at or below one that ends in the word `off`; the words `on` after it undo that."""
    shut: set[tuple[str, ...]] = set()
    for _, words in found:
        if words[-len(on):] == list(on):
            shut.discard(tuple(words[:-len(on)]))
        elif words[-1:] == [off] and len(words) > 1:
            shut.add(tuple(words[:-1]))
    lengths = {len(one) for one in shut}
    return [(number, words) for number, words in found if not any(tuple(words[:length]) in shut for length in lengths)]


def _sros_words(words: Sequence[str]) -> list[str]:
    """Returns a statement of SR OS without what its form alone has: `create`, the router Base, a service's customer."""
    found = [word for word in nokia_sros.classic(tuple(words)) if word != "create"]
    if found[:2] == ["router", "Base"]:
        del found[1]
    while found[:1] == ["service"] and found[3:4] in (["customer"], ["name"]) and len(found) > 4:
        del found[3:5]
    return found


def sros(source: Source) -> list[tuple[int, str]]:
    """Returns the statements of SR OS that are not shut down. A filter without a default action gets a line that says
    so."""
    is_braced = nokia_sros.BRACED.search(source.text)
    read = braced_lines(source) if is_braced else statements(source, words_of=quoted_words)
    found = [(one.place.line, _sros_words(one.words)) for one in read]
    kept = [(number, words) for number, words in in_force(found, "shutdown", ("no", "shutdown"))
            if words and ("no" not in words or words[-2:] == ["no", "shutdown"])]
    first: dict[tuple[str, ...], int] = {}
    given = set()
    for number, words in kept:
        rest = match(words, FILTER)
        if rest:
            first.setdefault(tuple(words[:3]), number)
            given |= {tuple(words[:3])} if rest[2:3] == ["default-action"] else set()
    lines = [(number, line_of("sros", words)) for number, words in kept]
    lines += [(number, line_of("sros", (*key, "default-action-not-given")))
              for key, number in first.items() if key not in given]
    return sorted(lines, key=lambda one: one[0])


def routeros(source: Source) -> list[tuple[int, str]]:
    """Returns the commands of RouterOS that are not disabled, with their values in the order of the names. A route whose
    gateway is looked up in another table than its own gets the word `leads-to-another-table`."""
    lines = []
    for one in mikrotik.commands_of(source):
        if one.values.get("disabled") in ("yes", "true"):
            continue
        table = one.values.get("routing-table", one.values.get("routing-mark", "main"))
        tables = {gateway.partition("@")[2] for gateway in one.values.get("gateway", "").split(",") if "@" in gateway}
        values = [f"{key}={value}" for key, value in sorted(one.values.items()) if key != "comment"]
        leak = ["leads-to-another-table"] if tables - {table} else []
        lines.append((one.place.line, line_of("routeros", [*one.menu.split(), one.verb, *values, *leak])))
    return lines


def vrp(source: Source) -> list[tuple[int, str]]:
    """Returns the statements of VRP that are not shut down or disabled. Where a traffic policy is applied, its line gets the
    words `with-redirect` or `with-deny`, or `with-unknown` if the text does not define the policy or its behavior."""
    found = [(one.place.line, list(one.words)) for one in statements(source)]
    kept = in_force(in_force(found, "shutdown", ("undo", "shutdown")), "disable", ("enable",))
    kept = [(number, words) for number, words in kept if "undo" not in words]
    actions: dict[str, set[str]] = {}
    policies: dict[str, set[str]] = {}
    for _, words in kept:
        rest = match(words, DEFINED)
        if rest and rest[0] == "behavior":
            actions.setdefault(rest[1], set()).update(rest[2:3])
        elif rest:
            known = policies.setdefault(rest[1], set())
            known |= {rest[rest.index("behavior") + 1]} if "behavior" in rest[2:-1] else set()
    lines = []
    for number, words in kept:
        at = words.index("traffic-policy") + 1 if "traffic-policy" in words[:-1] else 0
        named = policies.get(words[at]) if at else set()
        does = UNKNOWN if named is None else {each for name in named for each in actions.get(name, UNKNOWN)}
        lines.append((number, line_of("vrp", [*words, *(f"with-{each}" for each in sorted(does & TOLD))])))
    return lines


SYSTEMS = {"nokia-sros": sros, "mikrotik": routeros, "huawei": vrp}

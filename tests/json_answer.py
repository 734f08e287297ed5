"""Reads the JSON object that the program prints with `--format json`, and compares it with what it prints without that.

Nothing here knows how the program makes the object: places, totals, packets and reasons are written back as text, and the text is what is
compared.
"""
import json
import re
from dataclasses import dataclass
from typing import Any, Dict, Iterator, List, Optional, Sequence, Tuple

Object = Dict[str, Any]
# What is compared, what it is, and what it must be.
Comparison = Tuple[str, object, object]

# The elements of keys, in the order of a line of totals.
ELEMENTS = (
    "sourceIPv4Address", "sourceIPv4Prefix", "destinationIPv4Address", "destinationIPv4Prefix", "protocolIdentifier",
    "sourceTransportPort", "destinationTransportPort", "ipClassOfService", "ipVersion", "sourceIPv6Address", "sourceIPv6Prefix",
    "destinationIPv6Address", "destinationIPv6Prefix",
)
# What the files of each command are, in the order of its arguments.
DOCUMENTS = ("network", "traffic")
FILES = {
    "audit": DOCUMENTS, "check": (*DOCUMENTS, "certificate"), "confirm": (*DOCUMENTS, "refutation"), "replay": (*DOCUMENTS, "run"),
    "run": (*DOCUMENTS, "capture", "schedule"), "collect": ("network", "stream"), "sum": ("network", "totals"), "lint": DOCUMENTS,
    "join": (*DOCUMENTS, "parts"),
    "draw": (*DOCUMENTS, "answer"), "explain": (), "": (),
}
# Options that have a value.
VALUED = ("--limit", "--links")
BUNDLED = {it: "standard input, the %s in the bundle" % it for it in DOCUMENTS}
NO_BUNDLE = 801
REFUSED = re.compile(r"(?:refused|no|unknown|memory|device) (\d+)(?: (.*))?\n", re.DOTALL)


@dataclass(frozen=True)
class Expected:
    """What an object must agree with: the arguments and the standard input that it answers, the exit status, what is printed without
    `--format json`, also with `--explain`, and what `once explain` says of the number."""

    words: Sequence[str]
    given: str
    status: int
    output: str
    explained: str
    reason: str
    traffic: Optional[Object]


def ascending(members: List[Tuple[str, Any]]) -> Object:
    """Returns an object of these members, whose names must ascend."""
    names = [name for name, _ in members]
    if names != sorted(set(names)):
        raise ValueError("members that don't ascend: %s" % ", ".join(names))
    return dict(members)


def not_whole(text: str) -> None:
    """Refuses a number that isn't whole."""
    raise ValueError("the number %s" % text)


def object_in(octets: bytes) -> Object:
    """Returns the object in a line. Raises ValueError if the octets are anything else."""
    text = octets.decode()
    if text.find("\n") != len(text) - 1:
        raise ValueError("not one line")
    value = json.loads(text, object_pairs_hook=ascending, parse_float=not_whole, parse_constant=not_whole)
    if not isinstance(value, dict):
        raise ValueError("no object")
    return value


def place_in(text: Optional[str]) -> Optional[Object]:
    """Returns the place that follows a number in a line."""
    if text is None:
        return None
    kind, _, number = text.partition(" ")
    if kind in ("line", "octet"):
        return {"kind": kind, kind: int(number)}
    kind = "text" if text and text[0] != "/" else "pointer"
    return {"kind": kind, kind: text}


def refusal_in(output: str) -> Tuple[Optional[int], Optional[Object]]:
    """Returns the number and the place that a command prints, if it prints no more than that."""
    found = REFUSED.fullmatch(output)
    return (int(found[1]), place_in(found[2])) if found else (None, None)


def command_in(expected: Expected) -> str:
    """Returns the command of arguments, or of a bundle that can be read."""
    if expected.words:
        return next(it for it in expected.words if not it.startswith("--"))
    return "" if refusal_in(expected.output)[0] == NO_BUNDLE else expected.given.partition("\n")[0]


def files_in(words: Sequence[str]) -> Object:
    """Returns the files that arguments name, by what they are."""
    if not words:
        return BUNDLED
    names = [it for before, it in zip(("", *words), words) if not it.startswith("--") and before not in VALUED]
    return dict(zip(FILES[names[0]], names[1:]))


def key_text(key: Object) -> str:
    return " ".join(str(key[it]) for it in ELEMENTS if it in key) or "all"


def totals_text(totals: Object) -> str:
    """Returns totals as text."""
    lines = ["keys %d" % len(totals["keys"])]
    lines += ["%s packets %d octets %d" % (key_text(it["key"]), it["packets"], it["octets"]) for it in totals["keys"]]
    lines += ["unassigned %d" % totals["unassigned"]]
    if "complete" in totals:
        lines += ["complete yes" if totals["complete"] else "complete no"]
    if "skippedFrames" in totals:
        lines += ["skipped other %(other)d malformed %(malformed)d" % totals["skippedFrames"]]
    lines += ["%s %d" % (it, totals[it]) for it in ("gaps", "skipped") if it in totals]
    return "\n".join(lines) + "\n"


def printed_totals(answer: Object) -> str:
    """Returns what a command prints that answers with these totals, for a refutation with the plain sums too."""
    totals = totals_text(answer["totals"])
    return "refuted\nrun\n%splain\n%s" % (totals, totals_text(answer["plain"])) if "plain" in answer else totals


def reason_text(reason: Optional[Object]) -> str:
    """Returns what a number means in general, as text; a line without anything is left out."""
    titles = (("wrong", "wrong"), ("usually", "usually"), ("what to do", "whatToDo"), ("see", "see"))
    return "".join("%s: %s\n" % (title, reason[name]) for title, name in titles if reason[name]) if reason else ""


def packet_text(fact: Object) -> str:
    """Returns the line of a refutation's packet."""
    fields = [fact["fields"][it] for it in ELEMENTS if it in fact["fields"]]
    return " ".join(map(str, ("packet", fact["class"]["number"], fact["path"], *fields, fact["octets"])))


def numbered(entries: Sequence[Any], number: int, otherwise: Any) -> Any:
    """Returns the entry with this number, counted from 1, or what is given otherwise."""
    return entries[number - 1] if 0 < number <= len(entries) else otherwise


def comparisons_of_fact(answer: Object, fact: Object, traffic: Optional[Object]) -> Iterator[Comparison]:
    """Yields what a fact says that the output, the place or the traffic says too."""
    if "line" in fact:
        yield "the line of a fact", {"kind": "line", "line": fact["line"]}, answer["place"]
    if "class" in fact and traffic is not None:
        declared = numbered(traffic["classes"], fact["class"]["number"], {"name": None, "paths": []})
        yield "the class of a fact", fact["class"]["name"], declared["name"]
        yield "the path of a fact", fact["crossings"], numbered(declared["paths"], fact["path"], None)
    if answer["answer"] == "refutation":
        lines = answer["output"].splitlines()
        yield "the packet of a fact", packet_text(fact), lines[1]
        yield "the number of steps of a fact", fact["steps"], len(lines) - 3


def comparisons(answer: Object, expected: Expected) -> Iterator[Comparison]:
    """Yields what an object that is valid says, with what it must be."""
    number, place = refusal_in(expected.output)
    yield "status", answer["status"], expected.status
    yield "command", answer["command"], command_in(expected)
    yield "files", answer["files"], files_in(expected.words)
    yield "output", answer["output"], expected.output
    yield "number", answer["number"], number
    yield "place", answer["place"], place
    yield "reason", reason_text(answer["reason"]), expected.reason
    sentences = expected.explained.removeprefix(expected.output).replace(expected.reason, "", 1)
    yield "explanation with notes", [*answer["explanation"], *answer["notes"]], sentences.split("\n")[:-1]
    if "totals" in answer:
        yield "the text of totals", printed_totals(answer), answer["output"]
    for fact in answer["facts"]:
        yield from comparisons_of_fact(answer, fact, expected.traffic)


def differences(answer: Object, expected: Expected) -> Iterator[str]:
    """Yields what an object that is valid says and should not."""
    for what, found, wanted in comparisons(answer, expected):
        if found != wanted:
            yield "%s is %.300r instead of %.300r" % (what, found, wanted)

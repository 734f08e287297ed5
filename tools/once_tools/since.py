"""What an audit says of each class, and how that differs from an earlier audit."""
from __future__ import annotations

import json
import tempfile
from dataclasses import dataclass, field
from enum import Enum
from pathlib import Path
from typing import Iterator

from once_tools.documents import text_of
from once_tools.json_answer import ask_once
from once_tools.model import Failed, Place
from once_tools.network_view import DeviceView, Json, entries, table, texts


class Verdict(Enum):
    """What an audit of a class alone says of it."""

    ONCE = "counted exactly once"
    EXEMPT = "not counted, as it is exempt"
    WRONG = "not counted as declared"
    UNKNOWN = "not decided"


RIGHT = (Verdict.ONCE, Verdict.EXEMPT)
VERDICTS = {"refutation": Verdict.WRONG, "unknown": Verdict.UNKNOWN}


@dataclass(frozen=True)
class ClassState:
    """The verdict on a class, and the observation points and selection processes that count its packets, by name."""

    verdict: Verdict
    places: frozenset[str] = field(default_factory=frozenset)


def document(file: Path) -> Json:
    """Returns a document of an earlier audit."""
    try:
        return table(json.loads(file.read_text(encoding="utf-8")))
    except OSError as error:
        raise Failed(Place(str(file)), f"it cannot be read: {error.strerror}",
                     "name a folder that `once-import audit --out` wrote") from error
    except ValueError as error:
        raise Failed(Place(str(file)), f"it is not JSON: {error}", "name a folder that `once-import audit --out` wrote") from error


def names_of_leaf(network: Json, device: str, point: int, process: int) -> tuple[str, str]:
    """Returns the names of an observation point of a device and of one of its selection processes, by their numbers from 1."""
    points: list[Json] = next((one.list("observationPoint") for one in map(DeviceView, entries(network.get("devices"))) if one.name == device), [])
    if not 0 < point <= len(points):
        return "", ""
    processes = texts(points[point - 1].get("selectionProcess"))
    return str(points[point - 1].get("name", "")), processes[process - 1] if 0 < process <= len(processes) else ""


def place_of_leaf(network: Json, crossing: Json, point: int, process: int) -> str:
    """Returns the names of an observation point and of one of its selection processes, by their numbers from 1."""
    device = str(crossing.get("device", ""))
    observed, selected = names_of_leaf(network, device, point, process)
    return f"{device}: observation point '{observed}', selection process '{selected}'" if observed else device


@dataclass(frozen=True)
class Leaf:
    """A leaf of a certificate: its class and path, and the crossing, observation point and selection process that count its packets, by
    their numbers from 1; these are 0 if no packet of the leaf is counted."""

    number: int
    path: int
    crossing: int = 0
    point: int = 0
    process: int = 0


def leaves_in(certificate: str) -> Iterator[Leaf]:
    """Yields the leaves of a certificate."""
    number = path = 0
    for line in certificate.split("\n"):
        words = line.split(" ")
        if words[0] == "class" and len(words) == 4:
            number, path = int(words[1]), int(words[3])
        elif words[0] == "L" and len(words) == 4:
            yield Leaf(number, path, int(words[1]), int(words[2]), int(words[3]))
        elif words == ["N"]:
            yield Leaf(number, path)


def crossing_of(traffic: Json, leaf: Leaf) -> Json:
    """Returns the crossing at which the packets of a leaf are counted."""
    paths = entries(traffic.get("classes"))[leaf.number - 1].get("paths")
    path = paths[leaf.path - 1] if isinstance(paths, list) else []
    return entries(path)[leaf.crossing - 1]


def places_in(certificate: str, network: Json, traffic: Json) -> dict[int, set[str]]:
    """Returns by the numbers of classes where a certificate says that their packets are counted."""
    found: dict[int, set[str]] = {}
    for leaf in dict.fromkeys(leaves_in(certificate)):
        places = found.setdefault(leaf.number, set())
        if leaf.crossing:
            places.add(place_of_leaf(network, crossing_of(traffic, leaf), leaf.point, leaf.process))
    return found


def certified(certificate: str, network: Json, traffic: Json) -> dict[str, ClassState]:
    """Returns the states of all classes of a traffic declaration that has a certificate."""
    places = places_in(certificate, network, traffic)
    return {str(one.get("name", "")): ClassState(Verdict.EXEMPT if "exempt" in one else Verdict.ONCE, frozenset(places.get(number, ())))
            for number, one in enumerate(entries(traffic.get("classes")), 1)}


def audited_alone(program: str, network: Json, traffic: Json, one: Json, folder: Path) -> ClassState:
    """Returns the state of a class by an audit of a declaration that has no other."""
    alone: Json = {**traffic, "classes": [one]}
    (folder / "network.json").write_text(text_of(dict(network)), encoding="utf-8")
    (folder / "traffic.json").write_text(text_of(dict(alone)), encoding="utf-8")
    answer = ask_once(program, "audit", folder / "network.json", folder / "traffic.json")
    if answer.answer == "certificate":
        return certified(answer.output, network, alone)[str(one.get("name", ""))]
    if answer.answer not in VERDICTS:
        raise Failed(Place(""), f"`once audit` of class '{one.get('name', '')}' alone ended with status {answer.status}: {answer.output.strip()}",
                     "audit the documents by `once audit`")
    return ClassState(VERDICTS[answer.answer])


def states_of(program: str, folder: Path) -> dict[str, ClassState]:
    """Returns by name the states of the classes of the documents in a folder. Without a certificate there, each class is audited
    alone."""
    network, traffic = document(folder / "network.json"), document(folder / "traffic.json")
    file = folder / "certificate.txt"
    if file.exists():
        return certified(file.read_text(encoding="utf-8"), network, traffic)
    with tempfile.TemporaryDirectory() as made:
        return {str(one.get("name", "")): audited_alone(program, network, traffic, one, Path(made))
                for one in entries(traffic.get("classes"))}


def listed(places: frozenset[str]) -> str:
    return "; ".join(sorted(places)) or "nowhere"


def change(name: str, old: ClassState, new: ClassState) -> str | None:
    """Returns in a line what is different about a class, None if nothing is."""
    if old.verdict != new.verdict:
        word = "newly right: " if new.verdict in RIGHT and old.verdict not in RIGHT else "newly wrong: " if new.verdict == Verdict.WRONG else ""
        return f"class '{name}' is {word}{new.verdict.value}; it was {old.verdict.value}"
    if old.places != new.places:
        return f"class '{name}' is counted elsewhere: at {listed(new.places)}; it was counted at {listed(old.places)}"
    return None


def changes(old: dict[str, ClassState], new: dict[str, ClassState]) -> list[str]:
    """Returns in a line each what is different: in the order of the new declaration, then the classes that are gone."""
    lines = []
    for name, state in new.items():
        if name not in old:
            lines.append(f"class '{name}' is new: {state.verdict.value}")
        else:
            line = change(name, old[name], state)
            lines += [line] if line else []
    return lines + [f"class '{name}' is gone: it was {state.verdict.value}" for name, state in old.items() if name not in new]


def states_before(program: str, old: Path, folders: list[str]) -> dict[str, dict[str, ClassState]]:
    """Returns the states that an earlier audit left, by the folder of each version of IP; those that it does not have are left out."""
    document(old / next((one for one in folders if (old / one).exists()), "") / "network.json")
    return {one: states_of(program, old / one) for one in folders if (old / one / "network.json").exists()}


def compared(before: dict[str, dict[str, ClassState]], program: str, new: Path, folder: str) -> list[str]:
    """Returns in lines how the documents in a folder are judged otherwise than before."""
    version = f" ({folder.replace('ipv', 'IPv')})" if folder else ""
    if folder not in before:
        return [f"since the earlier audit{version}: it had no such documents"]
    found = changes(before[folder], states_of(program, new / folder))
    return [f"since the earlier audit{version}: {line}" for line in found] or [f"since the earlier audit{version}: no class is counted otherwise"]

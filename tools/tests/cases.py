"""Cases in folders: a project with its configurations, and the documents and the answer that must come out."""
from __future__ import annotations

import json
from pathlib import Path

from once_tools.answers import refusal_of
from once_tools.documents import MODULE
from once_tools.importing import Imported, Options, Pair, import_project, write_texts
from once_tools.once_program import run_once
from once_tools.origin import ORIGIN
from once_tools.project import read_project


def value_of(path: Path) -> object:
    """Returns the value of a document."""
    return json.loads(path.read_text(encoding="utf-8"))


def plain(document: object) -> object:
    """Returns a network document as a value of JSON, without the places that it keeps; the order of named entries
    and of interfaces does not count."""
    value = json.loads(json.dumps(document))
    for device in value["devices"]:
        device["config"].pop(ORIGIN, None)
        for entries in device["config"][MODULE].values():
            entries.sort(key=lambda one: str(one["name"]))
            for one in entries:
                one.get("ifName", []).sort()
    value["links"].sort(key=lambda one: (one["device"], one["exportingProcess"], one["destination"]))
    return value


def imported(folder: Path, faithful: bool = False, full: bool = False) -> Imported:
    """Returns the outcome of importing the project of a folder."""
    return import_project(read_project(folder / "project.toml"), Options(faithful, full))


def audited(once: str, pair: Pair, made: Path) -> str:
    """Returns what `once` answers about documents, after `lint`, judged by `check` or `confirm`."""
    write_texts({"network.json": json.dumps(pair.network), "traffic.json": json.dumps(pair.traffic)}, made)
    documents = (made / "network.json", made / "traffic.json")
    answer = run_once(once, "audit", *documents)
    (made / "answer").write_text(answer.output)
    if answer.status == 0:
        assert run_once(once, "check", *documents, made / "answer").output == "yes\n"
    if answer.status == 1:
        assert run_once(once, "confirm", *documents, made / "answer").output.startswith("refuted\n")
    return answer.output or answer.errors


def is_refused(text: str) -> bool:
    """Returns whether an answer is a refusal."""
    return refusal_of(text) is not None

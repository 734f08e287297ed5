"""JSON Patch (RFC 6902): the operations that candidates need, and documents with them applied."""
from __future__ import annotations

import copy
from dataclasses import dataclass

Document = dict[str, object]


@dataclass(frozen=True)
class Operation:
    """An operation at a JSON Pointer (RFC 6901): `add`, `remove` or `replace`, with a value but for `remove`."""

    op: str
    path: str
    value: object = None

    def entry(self) -> Document:
        """Returns the operation as an object of a patch."""
        found: Document = {"op": self.op, "path": self.path}
        return found if self.op == "remove" else {**found, "value": self.value}


def add(path: str, value: object) -> Operation:
    return Operation("add", path, value)


def remove(path: str) -> Operation:
    return Operation("remove", path)


def replace(path: str, value: object) -> Operation:
    return Operation("replace", path, value)


def patched(document: Document, operations: tuple[Operation, ...]) -> Document:
    """Returns a copy of the document with the operations applied in order."""
    made = copy.deepcopy(document)
    for one in operations:
        apply(made, one)
    return made


def apply(document: Document, operation: Operation) -> None:
    """Applies an operation to a document in place; its path leads to a member of an object or an item of a list."""
    *parents, last = [part.replace("~1", "/").replace("~0", "~") for part in operation.path.split("/")[1:]]
    there: object = document
    for part in parents:
        there = there[int(part)] if isinstance(there, list) else there[part] if isinstance(there, dict) else None
    value = copy.deepcopy(operation.value)
    if isinstance(there, list):
        apply_to_list(there, operation.op, last, value)
    elif isinstance(there, dict):
        if operation.op == "remove":
            del there[last]
        else:
            there[last] = value


def apply_to_list(there: list[object], op: str, last: str, value: object) -> None:
    if op == "add":
        there.insert(len(there) if last == "-" else int(last), value)
    elif op == "remove":
        del there[int(last)]
    else:
        there[int(last)] = value

"""Has `once` audit two documents, or verify an answer, for a report."""
from __future__ import annotations

from dataclasses import dataclass
from pathlib import Path

from once_tools.answers import is_certificate
from once_tools.json_answer import Answer, ask_once, unexpected
from once_tools.model import Failed, Place
from once_tools.once_program import run_once
from once_tools.reporting.answer import Status, Story, story_of

# What an audit leaves undone.
UNDONE = {"refused": Status.REFUSED, "unknown": Status.UNDECIDED}


@dataclass(frozen=True)
class Question:
    """What is asked: the documents, and an answer that is given or a limit for the audit."""

    network: Path
    traffic: Path
    answer: Path | None = None
    limit: int | None = None


@dataclass(frozen=True)
class Asked:
    """What `once` answers. `text` is the certificate or refutation, `file` has it."""

    status: Status
    version: str
    text: str = ""
    file: Path | None = None
    story: Story | None = None
    fault: Answer | None = None
    notes: tuple[str, ...] = ()


def argument(path: Path) -> str:
    """Returns a path as an argument that is not read as an option."""
    return f"./{path}" if str(path).startswith("-") else str(path)


def verified(program: str, question: Question, file: Path, version: str, notes: tuple[str, ...]) -> Asked:
    """Returns what `once check` or `once confirm` says of the answer in a file."""
    text = file.read_bytes().decode("utf-8", "replace")
    command = "check" if is_certificate(text) else "confirm"
    found = ask_once(program, command, *map(argument, (question.network, question.traffic, file)))
    if found.answer in ("no", "refused"):
        return Asked(Status.NOT_ACCEPTED, version, fault=found, notes=notes)
    if found.answer == "yes":
        return Asked(Status.ONCE, version, text, file, notes=notes)
    if found.answer == "refuted":
        return Asked(Status.WRONG, version, text, file, story_of(found), notes=notes)
    raise unexpected(found)


def ask(program: str, question: Question, folder: Path) -> Asked:
    """Returns what `once` answers; an answer that it finds is written into a folder."""
    documents = [argument(question.network), argument(question.traffic)]
    version = run_once(program, "--version").output.partition("\n")[0].strip()
    lint = ask_once(program, "lint", *documents)
    if lint.answer == "refused":
        return Asked(Status.REFUSED, version, fault=lint)
    if lint.answer != "ok":
        raise unexpected(lint)
    if question.answer:
        return verified(program, question, question.answer, version, lint.notes)
    audit = ask_once(program, "audit", *([f"--limit={question.limit}"] if question.limit else []), *documents)
    if audit.answer in UNDONE:
        return Asked(UNDONE[audit.answer], version, fault=audit, notes=lint.notes)
    if audit.answer not in ("certificate", "refutation"):
        raise unexpected(audit)
    file = folder / f"{audit.answer}.txt"
    file.write_text(audit.output, encoding="utf-8")
    asked = verified(program, question, file, version, lint.notes)
    if asked.fault:
        raise Failed(Place(""), f"`once` does not accept the answer of its own audit: {asked.fault.first_line}", "report this fault of `once`")
    return asked

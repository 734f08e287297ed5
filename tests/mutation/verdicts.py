"""Reads what a check prints, and judges whether a mutated function is refused for what its body does.

A function is refused for what its body does if a goal stays open: one that has no stored answer, or one that was tried again
without its stored answer. An error in a proof file shows less: the file may name something that the mutant removed (GONE), or
its answer may no longer fit although the goal still holds (MISFIT). Neither of the two refuses a mutant.
"""
import re
from dataclasses import dataclass, field

NOTE = re.compile(r"note: (?:\./)?(\S+\.rt):(\d+):\d+: ")
PROOF = re.compile(r"(?:\./)?proofs/(\S+?)/(Answers|Invariants|Proof)\.antt:(\d+):\d+: error: (.*)")
UNPROVED = re.compile(r"`search` did not prove ((?:`[^`]*`(?:, | and )?)+)")
WAITS = re.compile(r"it calls|it passes|a call of|it waits")
FRONT = re.compile(r"(?m)^(?:\./)?(src/\S+\.rt):(\d+):\d+: error.*")
ENDED = re.compile(r"(?m)^(only=|logic=)")
# An error that only says that a proof file names something that no longer exists. Names in backquotes are removed before these are
# searched for, as any text may be quoted there.
GONE = re.compile(
    r"has no field|is not in scope|has no +(?:that can be named|of its own)|has no *$|was not admitted|were not admitted"
    r"|is no name|cannot find|no module|does not export|has no cycle of calls|has no function|no longer has"
)
QUOTED = re.compile(r"`[^`]*`")
GOAL = re.compile(r"`([^`\s]+)`: ")
# The file in which a check that leaves goals open offers to have them answered, and how it offers one, indented below it.
OFFER = re.compile(r"help: (?:write|add these lines to) (?:\./)?proofs/(\S+?)/Answers\.antt")
OFFERED = re.compile(r"    (?:pub )?([^\s:]+) : goal\.\1$")
# What the tactics say of a goal that they do not prove.
OPEN = re.compile(r"`[^`\s]+`: `(?:search|grind|omega|first_of)`")


@dataclass
class Line:
    """What a check reports of a function: its line, and the notes on its goals, which the check prints before it."""

    symbol: str
    text: str
    notes: list

    @property
    def is_proved(self):
        """Whether the function is proved, maybe over functions that are taken by their contracts."""
        return self.text.startswith(("proved", "no holes", "depends on a hole in"))

    def is_inside(self, path, lines):
        """Returns whether a goal of the function lies in these lines of the file."""
        return any(lies_in(it, path, lines) for it in self.notes)


@dataclass
class AnswerError:
    """An error in a proof file: the file below proofs/, its kind, the line, the goal it answers, and the whole message."""

    folder: list
    file: str
    line: int
    goal: str
    message: str

    @property
    def place(self):
        return self.folder, self.file, self.goal

    @property
    def is_open(self):
        """Whether the error says that a tactic does not prove the goal."""
        return bool(OPEN.match(self.message))

    @property
    def is_gone(self):
        """Whether the error only says that the file names something that no longer exists."""
        return bool(GONE.search(" ".join(QUOTED.sub("", self.message).split())))


@dataclass
class Reasons:
    """Why a function is refused: goals that are open, and errors in its proof files."""

    goals: list = field(default_factory=list)
    named: list = field(default_factory=list)
    gone: list = field(default_factory=list)
    misfits: list = field(default_factory=list)


@dataclass
class Verdict:
    """Whether a mutant is refused, and a sentence on why. `misfits` are the answers to try again without, before it counts;
    `waits` says that the function waits for another one that is not proved; `open` are the goals that were left to the tactics and
    that they do not prove."""

    is_refused: bool
    text: str
    misfits: list = field(default_factory=list)
    waits: bool = False
    open: list = field(default_factory=list)


def lines_of(said):
    """Returns what the check reports of each function."""
    found, notes = [], []
    for line in said.split("\n"):
        if NOTE.match(line):
            notes.append(line)
        elif line.startswith("fn "):
            symbol, _, text = line[len("fn ") :].partition(": ")
            found.append(Line(symbol, text, notes))
            notes = []
    return found


def answer_errors(said):
    """Returns the errors in proof files. The prover breaks a long message after the name of a record or module, so a message
    goes on with the indented lines that follow, up to its sentence's end."""
    rows, found = said.split("\n"), []
    for at, row in enumerate(rows):
        it = PROOF.match(row)
        if not it:
            continue
        message = it[4]
        for more in rows[at + 1 : at + 4]:
            if not more.startswith("  "):
                break
            message += " " + more.strip()
        goal = GOAL.match(it[4])
        found.append(AnswerError(it[1].replace("/+", "/").split("/"), it[2], int(it[3]), goal[1] if goal else "", message))
    return found


def offered_goals(said):
    """Returns the goals without an answer that the check leaves open, each with the names of its arguments, by the folder below
    proofs/ of the function's proof files."""
    found, rows = {}, said.split("\n")
    for at, row in enumerate(rows):
        offer = OFFER.match(row)
        folder = offer[1].replace("/+", "/") if offer else ""
        for name, line in zip(rows[at + 1 :], rows[at + 2 :]) if offer else []:
            if name.strip() and not name.startswith("    "):
                break
            goal = OFFERED.match(name)
            names = re.match(rf"    {re.escape(goal[1])}((?: [\w-]+)*) =", line) if goal else None
            if names:
                found.setdefault(folder, []).append((goal[1], names[1].split()))
    return found


def lies_in(note, path, lines):
    found = NOTE.match(note)
    return bool(found) and found[1] == path and lines[0] <= int(found[2]) <= lines[1]


def reasons_of(said, own, inner=(), path=None, lines=None, anew=()):
    """Returns why the function of the line `own`, and its closures `inner`, are refused; `anew` are the places of the goals that
    were left to the tactics."""
    reasons, errors = Reasons(), answer_errors(said)
    for line in [own, *inner]:
        if line.is_proved:
            continue
        reasons.goals += [NOTE.sub("", it) for it in line.notes if lines is None or lies_in(it, path, lines)]
        unproved = UNPROVED.search(line.text)
        if unproved and not reasons.goals:
            reasons.goals.append(f"`search` did not prove {unproved[1]}")
        at = line.symbol.split("::")[1:]
        for error in errors:
            if error.folder == at and error.place in anew and error.is_open:
                reasons.goals.append(error.message)
                reasons.named.append(error.goal)
            elif error.folder == at:
                (reasons.gone if error.is_gone else reasons.misfits).append(error)
    return reasons


def judged(said, own, inner=(), path=None, lines=None, anew=()):
    """Returns the verdict on the function of the line `own`, with its closures, with the lines of its text if they are known, and
    with the places of the goals that were left to the tactics."""
    if own.is_proved:
        return Verdict(False, f"NOT REFUSED: {own.symbol} is proved with this body")
    reasons, name = reasons_of(said, own, inner, path, lines, anew), own.symbol.partition("::")[2]
    if reasons.goals:
        return Verdict(True, f"refused at {name}: {reasons.goals[0][:170]}", open=reasons.named)
    if reasons.misfits:
        return Verdict(False, f"BAD EDIT: {name} is refused by stored answers alone: {reasons.misfits[0].message[:160]}", reasons.misfits)
    if reasons.gone:
        why = reasons.gone[0].message[:160]
        return Verdict(False, f"BAD EDIT: {name} is refused only because its proof file names what the mutant removed: {why}")
    if WAITS.search(own.text):
        return Verdict(False, f"BAD EDIT: it waits for a function that is not proved: {own.text[:160]}", waits=True)
    return Verdict(False, f"BAD EDIT: {name} is refused by no goal of its own: {own.text[:200]}")


def first_lines(said):
    rows = [it for it in said.split("\n") if it.strip()]
    return " / ".join(rows[:2])[:300] if rows else "nothing was printed"

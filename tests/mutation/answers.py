"""Has goals tried anew: two tactics take the place of the answer that a copy's proof file stores."""
import os
import re

from mutation.edits import read

# The line at which an item of a proof file begins: its signature, whose name is kept, or a line of another kind.
HEAD = re.compile(r"(?m)^(?:(?:abbrev +)?(?:pub +)?([^\s:(){}]+) *:(?=\s|$)|use |--|module |record )")
# Arithmetic with equations and case splits, then backward chaining with the standard lemmas. In the other order a goal that stays open
# takes up to three times as long. The prover would go on to try seven sets of lemmas, which takes most of the time at a goal that stays
# open. A goal that only one of those proves counts as open here.
TACTICS = "first_of (grind arith, search rules)"
LEMMAS, NAMES = "Rattle.std.proofs.Common", ("arith", "rules")
IMPORT = re.compile(rf"(?m)^use {re.escape(LEMMAS)}\.\{{([^}}]*)\}}")


def item_of(text, goal):
    """Returns where the item of this name begins and ends in a proof file's text, or None."""
    heads = [*HEAD.finditer(text)]
    for at, head in enumerate(heads):
        if head[1] == goal:
            return head.start(), heads[at + 1].start() if at + 1 < len(heads) else len(text)
    return None


def is_stored(folder, goal):
    """Returns whether the proof files in this folder have an answer to the goal."""
    return item_of(read(f"{folder}/Answers.antt"), goal) is not None


def with_tactics(text, goal):
    """Returns the text with the tactics in place of the answer to this goal, or None where the answer has more than one case."""
    found = item_of(text, goal)
    if not found:
        return None
    clauses = re.split(rf"(?m)^(?={re.escape(goal)}(?=\s))", text[found[0] : found[1]])
    names = re.match(r"\S+((?:\s+[\w-]+)*)\s*=", clauses[1]) if len(clauses) == 2 else None
    if not names:
        return None
    return imported(f"{text[: found[0]]}{clauses[0]}{goal}{names[1]} = {TACTICS}\n\n{text[found[1] :]}")


def imported(text):
    """Returns the text with the sets of lemmas that the tactics name."""
    known = {it.strip() for names in IMPORT.findall(text) for it in names.split(",")}
    missing = [it for it in NAMES if it not in known]
    return f"use {LEMMAS}.{{{', '.join(missing)}}}\n{text}" if missing else text


def arguments_in(text, goal):
    """Returns the names of the arguments of the stored answer to a goal, or None where it has more than one case or is not there."""
    found = item_of(text, goal)
    clauses = re.split(rf"(?m)^(?={re.escape(goal)}(?=\s))", text[found[0] : found[1]]) if found else []
    names = re.match(r"\S+((?:\s+[\w-]+)*)\s*=", clauses[1]) if len(clauses) == 2 else None
    return names[1].split() if names else None


def without(text, goal):
    """Returns the proof file's text without the answer to this goal, and whether it had one."""
    found = item_of(text, goal)
    return (text[: found[0]] + text[found[1] :], True) if found else (text, False)


def try_anew(room, folder, file, goal):
    """Has a goal of the function whose proof files lie in this folder below proofs/ tried anew: by the tactics where its answer
    can give way to them, and else without the answer, or without the whole file where it proves the function by hand (`Proof`).
    Returns whether there was an answer."""
    for at in (folder, [*folder[:-1], f"+{folder[-1]}"]):
        path = f"{room}/proofs/{'/'.join(at)}/{file}.antt"
        if not os.path.isfile(path):
            continue
        if file == "Proof":
            os.remove(path)
            return True
        text = read(path)
        tried = with_tactics(text, goal) if file == "Answers" else None
        text, found = without(text, goal) if tried is None else (tried, True)
        if found:
            write(path, text)
        return found
    return False


def answer(room, crate, folder, goal, names):
    """Writes the tactics as the answer to a goal that has none, of the function whose proof files lie in this folder below
    proofs/. `names` are those of the goal's arguments."""
    path = f"{room}/proofs/{'/'.join(folder)}/Answers.antt"
    text, goals = read(path), f"use {'.'.join(['Rattle', crate, 'proofs', *folder, 'Goals'])} as goal\n"
    text = text if goals in text else goals + text
    os.makedirs(os.path.dirname(path), exist_ok=True)
    write(path, imported(f"{text.rstrip()}\n\npub {goal} : goal.{goal}\n{' '.join([goal, *names])} = {TACTICS}\n"))


def leave_alone(room, crate, folder, goals):
    """Leaves these goals to the tactics, each with the names of its arguments, and removes every other answer of the function whose
    proof files lie in this folder below proofs/."""
    path = f"{room}/proofs/{'/'.join(folder)}/Answers.antt"
    if os.path.exists(path):
        os.remove(path)
    for goal, names in goals:
        answer(room, crate, folder, goal, names)


def write(path, text):
    with open(path, "w", encoding="utf-8") as it:
        it.write(text)

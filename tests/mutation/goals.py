"""Names in edits a goal that refuses their mutants, so that later trials try that goal alone."""
from mutation.edits import TWIN, Edit, read

# How many of the goals that a mutant leaves open are tried, one check after another.
CANDIDATES = 1


def name_goals(trial, edits, files):
    """Writes a line `goal:` into each refused edit on twins that names none: the first goal that refuses it alone, of those that its
    trial left open. Each edit then has the verdict on the text that its file has."""
    waiting = {place: candidates_of(edit) for place, edit in enumerate(edits) if is_to_name(edit)}
    while places := [place for place, goals in waiting.items() if goals]:
        for place in places:
            verdict, line = edits[place].verdict, waiting[place].pop(0)
            texts = read(files[place]), f"{read(files[place]).rstrip()}\ngoal: {line}\n"
            write(files[place], texts[1])
            edits[place] = Edit(trial.crate.folder, files[place])
            edits[place].before = texts[0], verdict
        left = trial.judge_by_names([part for place in places for part in edits[place].parts])
        for place in places:
            settle(trial, edits, files, place, left, waiting)


def settle(trial, edits, files, place, left, waiting):
    """Keeps the goal of an edit that it refuses alone, and takes it out again otherwise."""
    edit = edits[place]
    if not any(part in left for part in edit.parts):
        edit.verdict = edit.parts[0].verdict
        waiting[place] = []
        return
    write(files[place], edit.before[0])
    edits[place] = Edit(trial.crate.folder, files[place])
    edits[place].verdict = edit.before[1]


def is_to_name(edit):
    return edit.kind == TWIN and edit.verdict.is_refused and not edit.goals


def candidates_of(edit):
    """Returns the goals that may refuse the edit alone, each as a line `goal:` has it: those whose stored answers did not fit, and those
    without an answer that the trial left open, first what the verdict names."""
    stored = [goal for part in edit.parts for _, name, goal in part.without if name == "Answers"]
    offered = [" ".join([goal, *(names if names != ["c"] else [])]) for part in edit.parts for goal, names in part.offered]
    found = list(dict.fromkeys([*stored, *offered]))
    return sorted(found, key=lambda it: f"`{it.split()[0]}`" not in edit.verdict.text)[:CANDIDATES]


def write(file, text):
    with open(file, "w", encoding="utf-8") as it:
        it.write(text)

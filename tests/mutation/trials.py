"""Tries the mutants of one crate on copies of it, over the work that its checks keep."""
import os
import re
import subprocess
import tempfile
import time

from mutation import answers
from mutation.copies import MARK, Copies
from mutation.edits import BAD, CONSTANT, IN_PLACE, TWIN, Part, proof_paths, read, sources
from mutation.texts import functions
from mutation.verdicts import ENDED, FRONT, Verdict, answer_errors, first_lines, judged, lines_of, offered_goals

# How often goals are tried anew, each time without one more stored answer, and the last time without any that does not fit.
ROUNDS = 5
CHECKED = re.compile(r"checked (\S+), \d+ of \d+")


class Trial:
    """A crate's checks. `kept` is the folder of the work that they keep; `proved` are the functions that need not be proved
    again, by their paths below proofs/."""

    def __init__(self, rtlib, crate, kept, proved=(), jobs=1, shown=None):
        self.rtlib, self.crate, self.kept, self.jobs, self.shown = rtlib, crate, kept, jobs, shown
        self.copies = Copies(rtlib, crate, proved)
        self.seconds, self.checks, self.peak, self.anew = 0.0, 0, 0, 0
        # (the errors in proof files that the last checks printed)
        self.errors = []
        # (the seconds by the clock that a check took for each function, by the last of its names)
        self.took = {}

    def judge(self, edits, with_own_bodies=False):
        """Gives each edit its verdict: those on twins in one check, which those in place share where no function has two."""
        twins = [part for it in edits if it.kind == TWIN for part in it.parts]
        first, *others = apart([it for it in edits if it.kind == IN_PLACE], functions_of) or [[]]
        self.judge_parts([*twins, *parts_of(first)], with_own_bodies)
        for it in others:
            self.judge_parts(parts_of(it), with_own_bodies)
        for it in edits:
            if it.kind in (TWIN, IN_PLACE):
                lost = [part.verdict for part in it.parts if not part.verdict.is_refused]
                it.verdict = lost[0] if lost else it.parts[0].verdict
        if not with_own_bodies:
            self.judge_constants([it for it in edits if it.kind == CONSTANT])

    def control(self, edits):
        """Checks each function that an edit changes, on its twin or in place, with its own body, which must be proved."""
        self.judge(edits, with_own_bodies=True)
        for it in edits:
            if it.kind in (TWIN, IN_PLACE):
                lost = [part.verdict.text for part in it.parts if not part.verdict.text.startswith("NOT REFUSED")]
                it.verdict = Verdict(False, lost[0]) if lost else Verdict(True, "with the function's own body it is proved")
            elif it.kind != BAD:
                it.verdict = Verdict(True, "it changes a constant, and has no control")

    def check(self, room, only):
        """Checks the functions of these names in a copy of the crate; returns what is printed and the status. A caller of a function
        that is refused, or that has a hole for a proof, is judged over that function's statement."""
        names = [argument for it in only for argument in ("--only", it)]
        words = self.crate.words(["--jobs", str(self.jobs), "--allow-holes", "--progress", *names], keeps=False)
        how = {"cwd": room, "stdin": subprocess.DEVNULL, "stdout": subprocess.PIPE, "stderr": subprocess.STDOUT}
        whole = [*self.rtlib.guarded(), self.rtlib.RATTLE, "check", *words, "--incremental", self.kept]
        began, lines = time.monotonic(), []
        with subprocess.Popen(whole, **how) as ran:
            for line in ran.stdout:
                lines.append((time.monotonic() - began, line.decode(errors="replace")))
                self.note_checked(lines)
            _, status, used = os.wait4(ran.pid, 0)
            ran.returncode = os.waitstatus_to_exitcode(status)
        self.seconds += used.ru_utime + used.ru_stime
        self.checks, self.peak = self.checks + 1, max(self.peak, used.ru_maxrss // 1024)
        if self.shown:
            with open(self.shown, "a", encoding="utf-8") as it:
                it.write(f"==== {self.crate.name} {' '.join(only)}\n")
                it.writelines("%6.1f %s" % line for line in lines)
        return "".join(text for _, text in lines), ran.returncode

    def note_checked(self, lines):
        """Adds what the last line says of the time that a function took."""
        found = CHECKED.match(lines[-1][1])
        if found:
            last = next((at for at, text in reversed(lines[:-1]) if CHECKED.match(text)), lines[0][0])
            name = re.split(r"::|\.", found[1])[-1]
            self.took[name] = self.took.get(name, 0.0) + lines[-1][0] - last

    def took_for(self, part):
        """Returns the seconds that checks took for the part's twin, or for the function in place."""
        return self.took.get(part.twin_name(MARK) if part.has_twin() else part.function.name, 0.0)

    def judge_parts(self, parts, with_own_bodies=False):
        """Judges these parts in one check, each on a twin of its function or in place: those whose edits name goals by these alone.
        Then once more without those that do not compile, and those that only stored answers refuse, with their goals tried anew."""
        if not with_own_bodies:
            for it in parts:
                it.alone = self.goals_alone(it)
        whole = self.judge_first(parts, with_own_bodies)
        if left := [it for it in parts if it.alone and it.verdict is None]:
            for it in left:
                it.alone = []
            whole += self.judge_first(left, with_own_bodies)
        for round in range(ROUNDS):
            whole = [it for it in whole if it.verdict.misfits and not it.verdict.is_refused]
            if with_own_bodies or not whole:
                return
            self.anew += len(whole)
            for it in whole:
                errors = it.verdict.misfits[:1] if round < ROUNDS - 1 else it.verdict.misfits
                it.without += [error.place for error in errors]
            whole = self.judge_once(whole)

    def judge_first(self, parts, with_own_bodies):
        """Judges these parts in one check, with the functions' own bodies that their goals need beside them; returns those that compile
        and are judged by all their goals. Those that the goals of their edits do not refuse have no verdict."""
        self.errors, whole = [], [it for it in parts if not it.alone]
        for it in whole:
            self.leave_to_tactics(it, with_own_bodies)
        controls = {} if with_own_bodies else self.controls_of(whole)
        own = self.controls_alone([it for it in parts if it.alone])
        compiled = self.judge_once([*parts, *dict.fromkeys(controls.values()), *dict.fromkeys(own.values())], with_own_bodies)
        for it, control in controls.items():
            if not control.verdict.text.startswith("NOT REFUSED"):
                it.unproved = control.verdict.open
                why = f"the tactics do not prove {it.given[0][1]} of the function's own body: {control.verdict.text[:160]}"
                it.verdict = Verdict(False, f"BAD EDIT: {why}")
        for it in compiled:
            if it.alone and it in parts:
                self.judge_alone(it, own.get(it))
        return [it for it in compiled if it in whole]

    def judge_by_names(self, parts):
        """Judges the parts by the goals that their edits name alone; returns those that are not refused so."""
        for it in parts:
            it.alone = self.goals_alone(it)
        self.judge_first([it for it in parts if it.alone], with_own_bodies=False)
        return [it for it in parts if not (it.verdict and it.verdict.is_refused)]

    def controls_alone(self, parts):
        """Returns, for each part with a goal that has no stored answer, one with the function's own body and with all such goals of the
        function's mutants."""
        made, found = {}, {}
        for it in parts:
            if unstored := [goal for goal in it.alone if not self.is_stored(self.own_home(it), goal[0])]:
                key = it.path, it.function.key
                found[it] = made[key] = made.get(key) or self.own_body(it)
                found[it].alone += [goal for goal in unstored if goal not in found[it].alone]
        return found

    def own_body(self, part):
        text = read(f"{self.crate.folder}/{part.path}")
        return Part(part.edit, part.path, part.function, text[part.function.opens : part.function.end])

    def goals_alone(self, part):
        """Returns the goals that the part's edit names, with the names of their arguments, or none if one of them has an answer that
        two tactics cannot take the place of, or the function is proved by hand."""
        home, found = self.own_home(part), []
        folder = f"{self.crate.folder}/proofs"
        for goal, names in part.edit.goals:
            stored = [at for at in part.folders() if self.is_stored(at, goal)]
            if stored and stored != [home]:
                return []
            names = answers.arguments_in(read(f"{folder}/{'/'.join(home)}/Answers.antt"), goal) if stored else names
            if names is None:
                return []
            found.append((goal, names))
        by_hand = any(os.path.exists(f"{folder}/{'/'.join(at)}/Proof.antt") for at in part.folders())
        return [] if by_hand or part.edit.kind != TWIN else found

    def own_home(self, part):
        """Returns the folder below proofs/ of the function's own answers, as a list of names."""
        return [*self.home_of(part.path, part.function)[:-1], part.function.name]

    def judge_alone(self, part, control):
        """Gives the part its verdict if a goal that its edit names is open, and the tactics prove it of the function's own body, or that
        body has no such goal."""
        unproved = {it.goal for it in self.errors if control and it.folder == self.twin_home(control) and not it.is_gone}
        own, names = self.twin_home(part), [goal for goal, _ in part.alone]
        for it in self.errors:
            if it.folder == own and it.goal in names and it.is_open and it.goal not in unproved:
                name = "::".join([*own[:-1], part.function.name])
                part.verdict = Verdict(True, f"refused at {name}: {it.message[:170]}", open=[it.goal])
                return

    def leave_to_tactics(self, part, with_own_bodies):
        """Notes which goals that the part's edit names are left to the tactics: those without a stored answer, and with a wrong body
        those with one, too."""
        stored = {goal for goal, _ in part.edit.goals if any(self.is_stored(at, goal) for at in part.folders())}
        folders = self.proof_folders(part)
        part.without = [] if with_own_bodies else [(it, "Answers", goal) for goal in sorted(stored) for it in folders]
        part.given = [(self.twin_home(part), *it) for it in part.edit.goals if it[0] not in stored]

    def is_stored(self, at, goal):
        folder = f"{self.crate.folder}/proofs"
        return any(answers.is_stored("/".join([folder, *it]), goal) for it in (at, [*at[:-1], f"+{at[-1]}"]))

    def twin_home(self, part):
        """Returns the folder below proofs/ of the proof files of the part's twin, or of its function in place, as a list of names."""
        return [*self.home_of(part.path, part.function)[:-1], self.proof_folders(part)[0][-1]]

    def controls_of(self, parts):
        """Returns a control for each part that leaves goals without a stored answer to the tactics: one for all that leave the same
        goals of one function."""
        made, found = {}, {}
        for it in parts:
            if it.given:
                key = it.path, it.function.key, str(sorted(given[1:] for given in it.given))
                found[it] = made[key] = made.get(key) or self.control_of(it)
        return found

    def control_of(self, part):
        """Returns a twin of the part's function with its own body, and with the same goals left to the tactics."""
        control = self.own_body(part)
        self.leave_to_tactics(control, with_own_bodies=True)
        return control

    def proof_folders(self, part):
        """Returns the folders below proofs/ in which a check looks for proof files of the part."""
        name = part.twin_name(MARK) if part.has_twin() else part.function.name
        return [[*at[:-1], name] for at in part.folders()]

    def judge_once(self, parts, with_own_bodies=False):
        """Judges these parts in one check; returns those that compile."""
        for it in parts:
            it.verdict = None
        while parts:
            with tempfile.TemporaryDirectory(prefix="mutants-") as room:
                self.copies.write(room, parts, [], with_own_bodies)
                for it in parts:
                    if it.alone:
                        answers.leave_alone(room, self.crate.name, self.twin_home(it), it.alone)
                        continue
                    for place in it.without:
                        answers.try_anew(room, *place)
                    for folder, goal, names in it.given:
                        answers.answer(room, self.crate.name, folder, goal, names)
                said, status = self.check(room, [self.symbol_of(it) for it in parts])
            if ENDED.search(said):
                found, offered = lines_of(said), offered_goals(said)
                self.errors += answer_errors(said)
                for it in [it for it in parts if not it.alone]:
                    it.offered = offered.get("/".join(self.twin_home(it)), [])
                    anew = [*it.without, *((folder, "Answers", goal) for folder, goal, _ in it.given)]
                    it.verdict = verdict_on(said, found, it, self.symbol_of(it), anew)
                    # (what was tried anew is not tried so once more)
                    it.verdict.misfits = [error for error in it.verdict.misfits if error.place not in anew]
                return parts
            refuse_unread(said, parts)
            left = [it for it in parts if it.verdict is None]
            if len(left) == len(parts):
                return self.judge_halves(said, status, parts, with_own_bodies)
            parts = left
        return parts

    def judge_halves(self, said, status, parts, with_own_bodies):
        if len(parts) == 1:
            parts[0].verdict = Verdict(False, f"BAD EDIT: the check ended with status {status}: {first_lines(said)}")
            return []
        half = len(parts) // 2
        return [part for it in (parts[:half], parts[half:]) for part in self.judge_once(it, with_own_bodies)]

    def symbol_of(self, part):
        """Returns the name by which a check is asked for the part's function, or for its twin."""
        return part.twin_name(MARK) if part.has_twin() else self.symbol(part.path, part.function)

    def symbol(self, path, function):
        """Returns the function's name as a check prints it."""
        return "::".join([self.crate.name, *self.home_of(path, function)])

    def home_of(self, path, function):
        """Returns the folder below proofs/ of the function's own proof files, as a list of names."""
        paths = proof_paths(self.crate.folder, path, function)
        return next((it for it in paths if it in self.copies.proved), paths[0])

    def judge_constants(self, edits):
        """Judges edits of constants, several in one check if no function that is asked for names constants of two: of each
        edit one function must be refused."""
        changed = {(path, name) for it in edits for path, name, _, _ in it.constants}
        for together in apart(edits, lambda it: self.constants_met(it, changed)):
            removed = []
            for round in range(ROUNDS):
                self.judge_constants_once(together, removed)
                together = [it for it in together if it.verdict.misfits and not it.verdict.is_refused]
                if not together:
                    break
                self.anew += len(together)
                removed += [error.place for it in together for error in it.verdict.misfits]

    def judge_constants_once(self, together, removed):
        found = {it: self.functions_asked(it) for it in together}
        asked = [it for there in found.values() for it in there]
        with tempfile.TemporaryDirectory(prefix="mutants-") as room:
            self.copies.write(room, [], [(path, it.key) for path, it in asked])
            for it in together:
                change_constants(room, it)
            for place in removed:
                answers.try_anew(room, *place)
            said, status = self.check(room, [self.symbol(*it) for it in asked]) if asked else ("", 0)
        for it in together:
            it.verdict = self.verdict_on_constant(said, status, found[it], removed)
            it.verdict.misfits = [error for error in it.verdict.misfits if error.place not in removed]

    def verdict_on_constant(self, said, status, asked, anew):
        if not ENDED.search(said):
            return Verdict(False, f"BAD EDIT: the check ended with status {status}: {first_lines(said)}")
        symbols = {self.symbol(*it) for it in asked}
        verdicts = [judged(said, it, anew=anew) for it in lines_of(said) if it.symbol in symbols and not it.is_proved]
        verdicts = sorted((it for it in verdicts if not it.waits), key=lambda it: (not it.is_refused, not it.misfits))
        return verdicts[0] if verdicts else Verdict(False, "NOT REFUSED: each function that was asked for is proved")

    def functions_asked(self, edit):
        """Returns the functions, with their files, of which an edit of constants wants one to be refused: those that it names,
        or else those of the constants' files that name the constants."""
        if edit.refused:
            names = [it.rpartition("::") for it in edit.refused]
            return [found for found in self.all_functions() if any(found[1].is_in(it[0], it[2]) for it in names)]
        named = {(path, name) for path, name, _, _ in edit.constants}
        return [(path, it) for path, it in self.all_functions() if any(at == path and it.names(name) for at, name in named)]

    def constants_met(self, edit, changed):
        """Returns the constants that the edit changes, and those of the changed ones that its functions name."""
        found = {(path, name) for path, name, _, _ in edit.constants}
        for path, it in self.functions_asked(edit):
            found |= {(at, name) for at, name in changed if it.names(name) and (at == path or (path, name) not in changed)}
        return found

    def all_functions(self):
        folder = self.crate.folder
        return [(path, it) for path in sources(folder) for it in functions(read(f"{folder}/{path}"))]


def change_constants(room, edit):
    for path, _, was, now in edit.constants:
        text = read(f"{room}/{path}").replace(was, now)
        with open(f"{room}/{path}", "w", encoding="utf-8") as it:
            it.write(text)


def functions_of(edit):
    return {(it.path, it.function.key) for it in edit.parts}


def parts_of(edits):
    return [part for it in edits for part in it.parts]


def apart(edits, keys_of):
    """Returns the edits in as few lists as possible, no two edits of one list with a key in common."""
    found = []
    for edit in edits:
        keys = keys_of(edit)
        for there, taken in found:
            if not keys & taken:
                there.append(edit)
                taken |= keys
                break
        else:
            found.append(([edit], set(keys)))
    return [there for there, _ in found]


def verdict_on(said, found, part, symbol, anew):
    """Returns the verdict on a part: on its twin, or on its function in place, with these goals left to the tactics."""
    if part.has_twin():
        own = [it for it in found if it.symbol.endswith(f"::{symbol}")]
        inner = [it for it in found if f"::{symbol}::" in it.symbol]
    else:
        own = [it for it in found if it.symbol == symbol] or [it for it in found if it.is_inside(part.path, part.lines)]
        inner = []
    if not own:
        return Verdict(False, "BAD EDIT: the check printed no line for the changed function")
    verdict = judged(said, own[0], inner, part.path, part.lines, anew)
    if part.has_twin():
        verdict.text = verdict.text.replace(symbol, part.function.name)
    return verdict


def refuse_unread(said, parts):
    """Gives the parts whose lines the front end refuses their verdict."""
    for error in FRONT.finditer(said):
        for it in parts:
            if it.verdict is None and it.path == error[1] and it.lines[0] <= int(error[2]) <= it.lines[1]:
                it.verdict = Verdict(False, f"BAD EDIT: it does not compile: {error[0][:200]}")

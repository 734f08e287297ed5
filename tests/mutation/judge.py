"""Judges some mutants of one crate, over the libraries and the work that are there."""
import os
import shutil
import tempfile

from mutation.copies import proved_in
from mutation.edits import Edit
from mutation.trials import Trial


def trial_of(rt, crate, edits, files, arguments):
    """Gives each edit its verdict and returns the trial, with what it cost. `arguments` has `kept`, `as_built`, `control`,
    `jobs` and `show`, as mutants.py takes them."""
    with tempfile.TemporaryDirectory(prefix="mutants-kept-") as room:
        if arguments.kept and crate.has_kept():
            shutil.copytree(f"{crate.folder}/out/incremental", f"{room}/kept")
        os.makedirs(f"{room}/kept", exist_ok=True)
        proved = proved_in(crate) if arguments.as_built or crate.is_built() else []
        trial = Trial(rt.rtlib, crate, f"{room}/kept", proved, arguments.jobs, arguments.show)
        if arguments.control:
            trial.control(edits)
        else:
            trial.judge(edits)
            judge_again(trial, edits, files)
        return trial


def judge_again(trial, edits, files):
    """Judges once more, with all functions proved, those not refused over contracts alone: a contract that could not stand in
    for its function is not the mutant's fault."""
    lost = [place for place, it in enumerate(edits) if not it.verdict.is_refused]
    if not lost or not trial.copies.proved:
        return
    proved, trial.copies.proved = trial.copies.proved, []
    for place in lost:
        edits[place] = Edit(trial.crate.folder, files[place])
    trial.judge([edits[place] for place in lost])
    trial.copies.proved = proved

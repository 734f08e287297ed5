"""The kit's command `rt` as a Python module: its crates, its checks' arguments and its scheduler of tasks."""
import importlib.machinery
import importlib.util
import os
import shutil


def load_rt():
    """Loads the kit's command as a module."""
    file = os.path.realpath(shutil.which("rt") or "/opt/rattle/bin/rt")
    spec = importlib.util.spec_from_loader("rt", importlib.machinery.SourceFileLoader("rt", file))
    made = importlib.util.module_from_spec(spec)
    spec.loader.exec_module(made)
    return made

"""How the programs end: the statuses that they share, and one line for each error."""
from __future__ import annotations

import argparse
import os
import sys
import traceback
from typing import Callable, NoReturn

from once_tools.model import Failed, Unusable
from once_tools.report import line_of, printable

OUT_OF_MEMORY, FAILED, WRONG_ARGUMENTS = 4, 5, 6


class Parser(argparse.ArgumentParser):
    """A parser whose errors end with the status of `once` for wrong arguments."""

    status = WRONG_ARGUMENTS

    def error(self, message: str) -> NoReturn:
        self.print_usage(sys.stderr)
        self.exit(self.status, f"{self.prog}: {printable(message)}\n")


def fault_of(error: Exception) -> str:
    """Returns what an exception says, and where it was raised."""
    last = traceback.extract_tb(error.__traceback__)[-1]
    return printable(f"{type(error).__name__} at {os.path.basename(last.filename)}:{last.lineno}: {error}")


def exit_status(program: str, run: Callable[[], int], refused: int) -> int:
    """Runs a program; returns its exit status: that of `run`, or after an error, which is printed, `refused` if the input is
    wrong, and otherwise that of what failed."""
    try:
        status = run()
        sys.stdout.flush()
        return status
    except Unusable as why:
        print(line_of(why.finding), file=sys.stderr)
        return FAILED if isinstance(why, Failed) else refused
    except BrokenPipeError:
        os.dup2(os.open(os.devnull, os.O_WRONLY), sys.stdout.fileno())
        return FAILED
    except OSError as error:
        print(f"{printable(str(error.filename or 'a file'))}: {error.strerror}", file=sys.stderr)
        return FAILED
    except MemoryError:
        print("out of memory", file=sys.stderr)
        return OUT_OF_MEMORY
    except Exception as error:  # a fault of this program must not end with the status of an answer
        print(f"{program} has a fault: {fault_of(error)}; please report it", file=sys.stderr)
        return FAILED

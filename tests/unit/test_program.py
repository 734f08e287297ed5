"""How programs are run."""
import sys

import pytest
from program import DidNotEnd, run, start, succeed, timed


def test_a_program_gets_no_input_unless_some_is_given():
    assert run(["cat"]).stdout == b"" and run(["cat"], given=b"some").stdout == b"some"


def test_a_program_that_does_not_end_is_stopped():
    with pytest.raises(DidNotEnd):
        run(["sleep", "60"], seconds=0.1)


def test_a_limit_of_memory_holds():
    wants = [sys.executable, "-c", "x = bytearray(1 << 30); print(len(x))"]
    assert run(wants).returncode == 0 and run(wants, space=256 << 20).returncode != 0


def test_a_program_that_fails_ends_the_script_and_says_why():
    with pytest.raises(SystemExit) as ended:
        succeed(["sh", "-c", "echo why; exit 3"])
    assert "sh ended with status 3" in str(ended.value) and "why" in str(ended.value)


def test_cpu_time_is_of_the_program_alone():
    taken, printed = timed(["sh", "-c", "sleep 0.3; echo done"])
    assert taken < 0.3 and printed == "done\n"


def test_a_started_program_can_be_fed():
    running = start(["cat"], stdin=-1)
    assert running.communicate(b"fed")[0] == b"fed"

"""How long a start takes, and whether a process is still at it."""
import re
import subprocess
import sys
from pathlib import Path

import pytest
from doctor_asked import findings_of
from small_project import make_tables

from bsched_tools import start_times


HOLDER = """
import fcntl, struct, sys, time
file = open(sys.argv[1], "r+b")
lock = struct.pack("hhqqi", fcntl.F_WRLCK, 0, 1 << 30, 512, 0)
fcntl.fcntl(file, fcntl.F_OFD_SETLK, lock)
print(flush=True)
time.sleep(600)
"""


def test_a_start_that_goes_on(tmp_path: Path) -> None:
    """The process has the tables, and listens on no port yet."""
    path = make_tables(tmp_path / "project.db")
    process = subprocess.Popen([sys.executable, "-c", HOLDER, str(path)], stdout=subprocess.PIPE)
    try:
        assert process.stdout is not None and process.stdout.readline() == b"\n"
        (line,) = findings_of(path)
    finally:
        process.kill()
        process.wait()
    assert re.fullmatch(
        rf"process {process.pid} \(python3\S*\) has it, and it has run for \d+ seconds and does not serve yet"
        r"(; a start takes a second or two)?: wait for it, or end it first",
        line,
    )


@pytest.mark.parametrize(
    "rows, seconds", [(50, "a second or two"), (500_000, "some 10 seconds, and two or three times")]
)
def test_how_long_a_start_takes(rows: int, seconds: str, monkeypatch: pytest.MonkeyPatch) -> None:
    monkeypatch.setattr(start_times, "ROWS_A_SECOND", 50_000)
    assert seconds in start_times.start_text(rows)

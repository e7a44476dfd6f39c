"""Commands that make work, as tests run them."""
import sys

import pytest
from small_project import rows_of
from work_project import PLATFORM, WorkProject

from bsched_tools import __main__

NAME = f"count_1_{PLATFORM}.py"


def units(project: WorkProject) -> list[str]:
    """Returns the names of the workunits that a test made."""
    rows = rows_of(project.folder / "project.db", "SELECT name FROM unit ORDER BY id")
    return [name for name, in rows][20:]


def run_here(capsys: pytest.CaptureFixture[str], *words: object) -> tuple[int, str, str]:
    """Runs the tools within this process, where a test may change them."""
    before, sys.argv = sys.argv, ["bsched-tools", *map(str, words)]
    try:
        status = __main__.main()
    finally:
        sys.argv = before
    captured = capsys.readouterr()
    return status, captured.out, captured.err


def is_refused(
    work: WorkProject, outcome: tuple[int, str, str], fault: str, before: dict[str, bytes]
) -> None:
    """Checks that a command ended with one clear line, and changed nothing."""
    status, out, line = outcome
    assert (status, out) == (1, "") and line.count("\n") == 1 and line.startswith("bsched-tools: ")
    assert fault in line
    assert work.state() == before

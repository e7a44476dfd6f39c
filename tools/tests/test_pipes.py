"""Tests that a command ends in silence when nobody reads its output any more."""
import os
import subprocess
import sys
from pathlib import Path

import pytest
from lives import life_of, stored_life
from small_project import END, PACKAGES, rows_of

SIGPIPE_STATUS = 141


@pytest.fixture(scope="module")
def tables(tmp_path_factory: pytest.TempPathFactory) -> Path:
    """Makes tables with some results."""
    return stored_life(life_of(3, calls=150), tmp_path_factory.mktemp("life") / "project.db")


@pytest.mark.parametrize(
    "words",
    ["results", "results --json", "counts", "counts --prometheus", "job NAME", "host 1", "doctor", "--help"],
)
def test_nobody_reads_the_output(tables: Path, words: str) -> None:
    """As `bsched-tools .. | head -n 0`."""
    (name,) = rows_of(tables, "SELECT name FROM unit LIMIT 1")[0]
    command = [sys.executable, "-m", "bsched_tools", *words.replace("NAME", name).split()]
    if words != "--help":
        command[4:4] = ["--tables", str(tables)]
    reading, writing = os.pipe()
    os.close(reading)
    try:
        done = subprocess.run(
            command,
            stdout=writing,
            stderr=subprocess.PIPE,
            text=True,
            timeout=10 * END,
            env={**os.environ, "PYTHONPATH": PACKAGES, "PYTHONDONTWRITEBYTECODE": "1"},
        )
    finally:
        os.close(writing)
    assert (done.returncode, done.stderr) == (SIGPIPE_STATUS, "")

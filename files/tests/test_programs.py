"""Tests how another program is run."""
import sys
from pathlib import Path

import pytest

from bsched_files.faults import Fault
from bsched_files.programs import run


def test_what_a_program_prints() -> None:
    done = run([sys.executable, "-c", "import sys; print(repr(sys.stdin.read())); sys.exit(3)"], 600)
    assert (done.stdout, done.returncode) == ("''\n", 3)


def test_bytes_that_are_no_text() -> None:
    assert (
        run([sys.executable, "-c", r"import sys; sys.stdout.buffer.write(b'a\xff')"], 600).stdout == "a\ufffd"
    )


def test_what_is_not_captured_goes_on(capfd: pytest.CaptureFixture[str]) -> None:
    run(["sh", "-c", "echo here; echo there >&2"], is_captured=False)
    assert capfd.readouterr() == ("here\n", "there\n")


def test_a_program_that_is_not_there(tmp_path: Path) -> None:
    with pytest.raises(Fault, match=f"^{tmp_path}/none: No such file or directory$"):
        run([str(tmp_path / "none")], 600)


def test_a_program_that_does_not_end() -> None:
    with pytest.raises(Fault, match="^sleep: .*timed out after 0.05 seconds"):
        run(["sleep", "600"], 0.05)

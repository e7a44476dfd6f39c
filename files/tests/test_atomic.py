"""Tests files that are written whole or not at all."""
import os
from collections.abc import Iterator
from pathlib import Path

import pytest

from bsched_files.atomic import replace_file, rewrite_file
from bsched_files.faults import Fault


class Ended(BaseException):
    """Raised where a signal ends a run."""


@pytest.mark.parametrize(
    "fault", [Fault("the tables are spoiled"), Ended(), OSError(5, "Input/output error")]
)
def test_a_run_that_ends_meanwhile(tmp_path: Path, fault: BaseException) -> None:
    """The former file stays, and nothing else does."""
    path = tmp_path / "results.csv"
    path.write_text("former")

    def parts() -> Iterator[bytes]:
        yield b"half"
        raise fault

    with pytest.raises(Fault if isinstance(fault, OSError) else type(fault)):
        replace_file(path, parts())
    assert os.listdir(tmp_path) == ["results.csv"] and path.read_text() == "former"


@pytest.mark.parametrize("make", [os.symlink, os.link])
def test_a_link_that_somebody_made(tmp_path: Path, make: object) -> None:
    assert callable(make)
    victim, path = tmp_path / "victim", tmp_path / "results.csv"
    victim.write_text("precious")
    make(victim, tmp_path / ".results.csv.new")
    replace_file(path, [b"new"], mode=0o600)
    assert victim.read_text() == "precious" and path.read_text() == "new" and not path.is_symlink()
    assert path.stat().st_nlink == 1 and path.stat().st_mode & 0o777 == 0o600


def test_what_a_killed_run_left(tmp_path: Path) -> None:
    (tmp_path / ".results.csv.new").write_text("much longer than the new one")
    replace_file(tmp_path / "results.csv", [b"new"])
    assert os.listdir(tmp_path) == ["results.csv"] and (tmp_path / "results.csv").read_text() == "new"


def test_a_folder_that_has_its_name(tmp_path: Path) -> None:
    (tmp_path / ".results.csv.new").mkdir()
    with pytest.raises(Fault, match="results.csv: Is a directory"):
        replace_file(tmp_path / "results.csv", [b"new"])


def test_a_file_that_is_rewritten_keeps_its_mode(tmp_path: Path) -> None:
    path = tmp_path / "settings"
    path.write_text("former")
    path.chmod(0o604)
    rewrite_file(path, b"new")
    assert path.read_text() == "new" and path.stat().st_mode & 0o7777 == 0o604
    with pytest.raises(OSError):
        rewrite_file(tmp_path / "none", b"new")

"""Tests the names of copies, and how a folder keeps the newest ones."""
import io
import os
from pathlib import Path

import pytest
from hypothesis import given
from hypothesis import strategies as st

from bsched_files.copies import (
    COPY_NAME,
    STATE,
    STATE_NAME,
    TABLES,
    copies_in,
    copy_name,
    found_copy,
    keep_newest,
    moment_of,
    remove,
    write_copy,
)
from bsched_files.faults import Fault

NAMES = {TABLES: COPY_NAME, STATE: STATE_NAME}


@given(st.floats(0, 1e11), st.sampled_from([*NAMES]))
def test_the_names_that_are_written_are_read(moment: float, ending: str) -> None:
    name = copy_name("bridge", moment, ending)
    match = NAMES[ending].fullmatch(name)
    assert match is not None and match["stem"] == "bridge"
    assert abs(moment_of(Path(name)) - int(moment)) <= 1


def test_a_moment_that_is_none(tmp_path: Path) -> None:
    """Then the last write counts."""
    path = tmp_path / "project-20260230T250000.000Z.db"
    path.touch()
    os.utime(path, (7, 7))
    assert moment_of(path) == 7


def test_the_names_are_in_the_order_of_time() -> None:
    names = [copy_name("project", moment) for moment in (0.0, 1.0011, 86400.5, 1.8e9)]
    assert names == sorted(names) and names[1] == "project-19700101T000001.001Z.db"


def test_a_folder_of_copies(tmp_path: Path) -> None:
    with pytest.raises(Fault, match="there is no copy in this folder"):
        found_copy(tmp_path)
    names = [copy_name("project", moment) for moment in (1.0, 2.0, 3.0)]
    for name in (*names, "project.db", "notes", copy_name("bridge", 5.0, STATE)):
        (tmp_path / name).touch()
    assert [path.name for path in copies_in(tmp_path)] == names[::-1]
    assert found_copy(tmp_path) == tmp_path / names[-1] and found_copy(tmp_path / "notes").name == "notes"
    (tmp_path / copy_name("other", 9.0)).touch()
    assert len(copies_in(tmp_path, "project")) == 3
    with pytest.raises(Fault, match="copies of several projects"):
        found_copy(tmp_path)


def test_the_newest_copies_are_kept(tmp_path: Path) -> None:
    names = [copy_name("bridge", moment, STATE) for moment in (1.0, 2.0, 3.0)]
    for name in (*names, copy_name("project", 0.0), "bridge-old.state"):
        (tmp_path / name).touch()
    assert keep_newest(tmp_path, STATE_NAME, 1) == [tmp_path / name for name in names[1::-1]]
    assert sorted(os.listdir(tmp_path)) == sorted([names[2], copy_name("project", 0.0), "bridge-old.state"])


def test_a_copy_has_its_name_once_it_is_whole(tmp_path: Path) -> None:
    target = tmp_path / "copy"
    assert write_copy(io.BytesIO(b"12345"), target, tmp_path.stat()) == 5
    assert target.read_bytes() == b"12345" and target.stat().st_mode & 0o777 == 0o600

    class Cut(io.BytesIO):
        """Ends with a fault."""

        def read(self, size: int | None = -1) -> bytes:
            raise OSError(5, "Input/output error")

    with pytest.raises(OSError):
        write_copy(Cut(), tmp_path / "other", tmp_path.stat())
    assert os.listdir(tmp_path) == ["copy"]


def test_what_is_next_to_a_copy_goes_with_it(tmp_path: Path) -> None:
    for name in ("a.db", "a.db-wal", "a.db-shm", "b.db"):
        (tmp_path / name).touch()
    remove([tmp_path / "a.db", tmp_path / "none.db"])
    assert os.listdir(tmp_path) == ["b.db"]

"""How a copy is taken in a stop, and what is done with it."""
import os
import shutil
from pathlib import Path

import pytest
from copies_tried import SEQNOS
from small_project import Twin, rows_of

from bsched_files.copies import give_to
from bsched_tools.copies import copying, taking
from bsched_tools.copies.folder import place, remove_older, work_folder
from bsched_tools.copies.holders import identity_of
from bsched_tools.copies.taking import Source, Taken

MOMENT = 1_000_000.5


@pytest.fixture
def source(project: Path) -> Source:
    """The tables."""
    identity = identity_of(project)
    assert identity is not None
    return Source(project, identity)


@pytest.fixture
def taken(project: Path, tmp_path: Path) -> Taken:
    """A copy of them that has no place yet."""
    (tmp_path / "work").mkdir()
    return Taken(Path(shutil.copy(project, tmp_path / "work" / "taken.db")), MOMENT, None)


def test_a_copy_has_the_time_at_which_it_was_taken(taken: Taken, source: Source, tmp_path: Path) -> None:
    place(taken, source, tmp_path / "copy.db")
    assert (tmp_path / "copy.db").stat().st_mtime == MOMENT


def test_a_copy_is_synced_before_it_has_its_name_and_its_folder_after(
    taken: Taken, source: Source, tmp_path: Path, monkeypatch: pytest.MonkeyPatch
) -> None:
    done: list[object] = []
    rename = os.rename

    def renamed(old: Path, new: Path) -> None:
        rename(old, new)
        done.append("rename")

    monkeypatch.setattr("bsched_tools.copies.folder.sync", done.append)
    monkeypatch.setattr(os, "rename", renamed)
    place(taken, source, tmp_path / "copy.db")
    assert done == [taken.path, "rename", tmp_path]


def test_the_folder_is_synced_after_older_copies_are_removed(
    project: Path, tmp_path: Path, monkeypatch: pytest.MonkeyPatch
) -> None:
    folder = tmp_path / "copies"
    folder.mkdir()
    names = [folder / f"project-20260101T00000{number}.000Z.db" for number in range(3)]
    for name in names:
        shutil.copy(project, name)
    left: list[tuple[object, list[Path]]] = []
    monkeypatch.setattr(
        "bsched_tools.copies.folder.sync", lambda path: left.append((path, sorted(folder.glob("*.db"))))
    )
    assert sorted(remove_older(names[-1], "project", 1)) == names[:-1]
    assert left == [(folder, names[-1:])]


def test_a_work_folder_that_somebody_removed_is_no_fault(tmp_path: Path) -> None:
    with work_folder(tmp_path) as made:
        shutil.rmtree(made)
    assert list(tmp_path.iterdir()) == []


def test_the_owner_is_given_by_a_descriptor_that_is_closed(project: Path) -> None:
    give_to(project, project.stat())
    own = (os.path.realpath(f"/proc/self/fd/{name}") for name in os.listdir("/proc/self/fd"))
    assert str(project.resolve()) not in own


def counted_parts(monkeypatch: pytest.MonkeyPatch) -> list[tuple[int, ...]]:
    """Returns a list that gets an entry each time a file is copied as a whole."""
    parts: list[tuple[int, ...]] = []
    copy_bytes = taking.copy_bytes

    def counted(*files: int) -> None:
        parts.append(files)
        copy_bytes(*files)

    monkeypatch.setattr(taking, "copy_bytes", counted)
    return parts


def test_a_file_that_was_not_written_for_long_is_copied_before_the_stop(
    project: Path,
    twin: Twin,
    copies: Path,
    monkeypatch: pytest.MonkeyPatch,
) -> None:
    twin.call(1, 1)
    parts = counted_parts(monkeypatch)
    first = copying.copy_tables(project, copies)
    assert len(parts) == 1
    twin.call(1, 2)
    second = copying.copy_tables(project, copies)
    assert [dict(rows_of(copied.path, SEQNOS))["k1"] for copied in (first, second)] == [1, 2]


def test_a_file_that_is_written_after_the_early_copy_is_copied_again(
    project: Path,
    twin: Twin,
    copies: Path,
    monkeypatch: pytest.MonkeyPatch,
) -> None:
    early = taking.Work.copy_early

    def written_afterwards(work: taking.Work, descriptor: int) -> tuple[int, ...] | None:
        mark = early(work, descriptor)
        os.utime(project)
        return mark

    monkeypatch.setattr(taking.Work, "copy_early", written_afterwards)
    parts = counted_parts(monkeypatch)
    copying.copy_tables(project, copies)
    assert len(parts) == 2


def test_a_file_that_is_always_written_is_copied_in_the_stop(
    project: Path,
    twin: Twin,
    copies: Path,
    monkeypatch: pytest.MonkeyPatch,
) -> None:
    monkeypatch.setattr(taking, "SETTLE_SECONDS", 0.1)
    monkeypatch.setattr(taking, "FINE_SECONDS", 1000)
    parts = counted_parts(monkeypatch)
    twin.call(1, 1)
    copied = copying.copy_tables(project, copies)
    assert len(parts) == 1 and dict(rows_of(copied.path, SEQNOS)) == {"k1": 1}


def test_a_file_that_is_written_during_the_early_copy_is_copied_again(
    project: Path,
    twin: Twin,
    copies: Path,
    monkeypatch: pytest.MonkeyPatch,
) -> None:
    copy_bytes = taking.copy_bytes
    parts: list[tuple[int, ...]] = []

    def written_meanwhile(*files: int) -> None:
        copy_bytes(*files)
        parts.append(files)
        if len(parts) == 1:
            os.utime(project)

    monkeypatch.setattr(taking, "copy_bytes", written_meanwhile)
    copying.copy_tables(project, copies)
    assert len(parts) == 2


def test_times_of_whole_seconds_are_not_trusted_soon(project: Path) -> None:
    os.utime(project, (1, 1))
    with open(project) as file:
        assert taking.write_mark(file.fileno()) is None

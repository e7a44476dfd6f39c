"""The folder of copies: turns, names, and which copies stay."""
import fcntl
import os
import threading
import time
from pathlib import Path
from typing import Any

import plain_tables
import pytest
from small_project import SETTINGS, make_tables

from bsched_files.copies import copy_name, found_copy, give_to
from bsched_files.faults import Fault
from bsched_tools.copies import copying, taking
from bsched_tools.copies.folder import turn


def test_others_wait_for_a_turn(tmp_path: Path) -> None:
    held, is_refused = threading.Event(), threading.Event()

    def hold() -> None:
        with turn(tmp_path, 0):
            held.set()
            assert is_refused.wait(60)
            time.sleep(0.5)

    thread = threading.Thread(target=hold)
    thread.start()
    assert held.wait(60)
    with pytest.raises(Fault, match="another copy is being made"):
        with turn(tmp_path, 0):
            pass
    is_refused.set()
    with turn(tmp_path, 60):
        thread.join(60)
        assert not thread.is_alive()


def test_copies_of_the_same_tables_take_turns(
    project: Path,
    copies: Path,
    monkeypatch: pytest.MonkeyPatch,
) -> None:
    monkeypatch.setattr(copying, "TURN_SECONDS", 0)
    with open(project) as file:
        fcntl.flock(file, fcntl.LOCK_EX)
        with pytest.raises(Fault, match="another copy is being made"):
            copying.copy_tables(project, copies)


def test_keep_removes_older_copies_of_the_project_alone(project: Path, copies: Path, tmp_path: Path) -> None:
    (tmp_path / "else").mkdir()
    other = make_tables(tmp_path / "else" / "project.db", units=3)
    of_other = copying.copy_tables(other, copies).path
    spoiled = copies / "project-20200101T000000.000Z.db"
    spoiled.write_bytes(b"nothing")
    paths = [copying.copy_tables(project, copies).path for _ in range(4)]
    copied = copying.copy_tables(project, copies, keep=2)
    assert copied.removed == paths[2::-1]
    assert sorted(copies.iterdir()) == sorted([spoiled, of_other, paths[3], copied.path])


def test_keep_leaves_copies_of_a_project_with_other_settings_alone(
    project: Path,
    copies: Path,
    tmp_path: Path,
) -> None:
    (tmp_path / "else").mkdir()
    # the same imports, and another key
    settings: dict[str, Any] = {**SETTINGS, "operator_key": "another-key"}
    other = make_tables(tmp_path / "else" / "project.db", settings=settings)
    of_other = copying.copy_tables(other, copies).path
    first = copying.copy_tables(project, copies).path
    copied = copying.copy_tables(project, copies, keep=1)
    assert copied.removed == [first] and of_other.exists()


def test_a_link_in_the_place_of_a_copy_is_not_followed(tmp_path: Path) -> None:
    target, link = tmp_path / "target", tmp_path / "link"
    target.write_text("x")
    link.symlink_to(target)
    with pytest.raises(OSError):
        give_to(link, target.stat())
    os.link(target, tmp_path / "hard")
    with pytest.raises(Fault, match="somebody else put this file there"):
        give_to(tmp_path / "hard", target.stat())


def test_a_copy_whose_name_lies_in_the_future_is_named(
    project: Path,
    copies: Path,
    capsys: pytest.CaptureFixture[str],
) -> None:
    first = copying.copy_tables(project, copies).path
    assert found_copy(copies) == first and capsys.readouterr().err == ""
    later = copies / "project-29990101T000000.000Z.db"
    os.rename(first, later)
    assert found_copy(copies) == later
    assert "its name lies in the future" in capsys.readouterr().err


def test_keep_removes_copies_of_an_older_schema(project: Path, copies: Path) -> None:
    """As after `bsched upgrade`."""
    older = copies / "project-20200101T000000.000Z.db"
    plain_tables.make_former(str(older), str(project))
    second = copies / "project-20200102T000000.000Z.db"
    plain_tables.make_former(str(second), str(project))
    plain_tables.upgrade(second, 2)
    copied = copying.copy_tables(project, copies, keep=2)
    assert copied.removed == [older] and sorted(copies.iterdir()) == [second, copied.path]


def test_the_newest_good_copy_is_never_removed(project: Path, copies: Path) -> None:
    first = copying.copy_tables(project, copies, keep=1)
    later = copies / "project-29990101T000000.000Z.db"  # as if the clock had been wrong
    os.rename(first.path, later)
    second = copying.copy_tables(project, copies, keep=1)
    assert second.removed == [later] and second.path.exists()


def test_a_name_is_never_used_twice(project: Path, copies: Path) -> None:
    target = copies / "copy.db"
    copying.copy_tables(project, target)
    with pytest.raises(Fault, match="copy.db: it exists"):
        copying.copy_tables(project, target)
    target.unlink()
    (copies / "copy.db-wal").write_bytes(b"of another copy")
    with pytest.raises(Fault, match="copy.db-wal: it exists"):
        copying.copy_tables(project, target)


def test_names_of_copies_are_in_the_order_of_time(project: Path) -> None:
    stem = taking.source_of(project).path.stem
    names = [copy_name(stem, moment) for moment in (0.0, 1.0011, 86400.5, 1.8e9)]
    assert names == sorted(names) and names[1] == "project-19700101T000001.001Z.db"

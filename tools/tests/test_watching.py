"""Tests a screen that stays: when it takes a copy of the tables, how long it waits, and what it says."""
import itertools
import re
import sys
import time
from collections.abc import Iterator
from pathlib import Path
from typing import Any

import pytest
from hypothesis import given
from hypothesis import strategies as st
from made_project import MadeProject
from small_project import END

from bsched_files.faults import Fault
from bsched_tools import __main__, project_access, watching
from bsched_tools.copies.copying import Copied, copy_tables
from bsched_tools.copies.taking import TablesMark, tables_mark
from bsched_tools.projects import Project
from bsched_tools.watching import pause_after, screens

BEGIN = 1_800_000_000  # 08:00


class Clock:
    """A clock that goes on only by pauses and by what copies take."""

    def __init__(self) -> None:
        self.seconds, self.pauses = 0.0, list[float]()

    def monotonic(self) -> float:
        return self.seconds

    def time(self) -> float:
        return BEGIN + self.seconds

    def sleep(self, seconds: float) -> None:
        self.pauses.append(seconds)
        self.seconds += seconds


@pytest.fixture
def clock(monkeypatch: pytest.MonkeyPatch) -> Clock:
    """Replaces the clock of the screen."""
    made = Clock()
    monkeypatch.setattr(watching, "time", made)
    return made


@pytest.fixture
def served(tmp_path: Path) -> Iterator[MadeProject]:
    """Yields a project that is served."""
    made = MadeProject(tmp_path)
    (made.folder / "copies").mkdir()
    made.serve()
    yield made
    made.end()


@pytest.fixture
def copied(monkeypatch: pytest.MonkeyPatch, clock: Clock) -> list[float]:
    """Returns a list of the moments at which copies are taken. Each takes three seconds of the clock."""
    moments: list[float] = []

    def counted(*args: Any) -> Copied:
        moments.append(clock.seconds)
        clock.seconds += 3
        return copy_tables(*args)

    monkeypatch.setattr(project_access, "copy_tables", counted)
    return moments


def settled(path: Path) -> TablesMark:
    """Waits until nobody writes the tables any more, and returns their mark."""
    ends = time.monotonic() + END
    while (mark := tables_mark(path)) is None and time.monotonic() < ends:
        time.sleep(0.02)
    assert mark is not None
    return mark


def test_no_copy_is_taken_while_nobody_writes_the_tables(
    served: MadeProject, clock: Clock, copied: list[float]
) -> None:
    project = Project(served.folder)
    settled(project.tables)
    watched = screens(project, None)
    first, second, third = itertools.islice(watched, 3)
    assert copied == [0] and clock.pauses == [60, 10]
    assert re.fullmatch(r"as of \d{4}-\d\d-\d\d \d\d:\d\d:\d\d UTC; next look at 08:01:03", first[0])
    as_of = first[0].partition(";")[0]
    assert second[0] == f"{as_of}, unchanged at 08:01:03; next look at 08:01:13"
    assert third[0] == f"{as_of}, unchanged at 08:01:13; next look at 08:01:23"
    assert first[1:] == second[1:] == third[1:] and first[1] == "waiting  20"
    served.call(1, 1, work_req_seconds=1)
    settled(project.tables)
    fourth, fifth = itertools.islice(watched, 2)
    assert copied == [0, 83] and clock.pauses == [60, 10, 10, 60]
    assert fourth[1:3] == ["waiting  19", "out      1"] and fifth[1:] == fourth[1:]
    assert "unchanged" not in fourth[0] and ", unchanged at 08:02:26; next look at 08:02:36" in fifth[0]


def test_tables_that_were_written_just_now_are_copied_again(
    served: MadeProject, copied: list[float], monkeypatch: pytest.MonkeyPatch
) -> None:
    """A later write may leave the mark as it is, so there is none."""
    monkeypatch.setattr(watching, "tables_mark", lambda _path: None)
    assert len(list(itertools.islice(screens(Project(served.folder), None), 3))) == len(copied) == 3


def test_a_copy_that_failed_is_tried_again(
    served: MadeProject, clock: Clock, copied: list[float], monkeypatch: pytest.MonkeyPatch
) -> None:
    """Until then the screen has the figures of the newest copy, and why."""
    assert served.tools("copy")[0] == 0
    project, counted = Project(served.folder), getattr(project_access, "copy_tables")
    settled(project.tables)

    def refuse(*_args: object) -> None:
        raise Fault("project.db: the disk is full")

    monkeypatch.setattr(project_access, "copy_tables", refuse)
    watched = screens(project, None)
    for until in ("08:00:10", "08:00:20"):
        line = next(watched)[0]
        why = re.escape("(by the newest copy: project.db: the disk is full)")
        assert re.fullmatch(rf"as of [-0-9]* [:0-9]* UTC {why}; next look at {until}", line)
    monkeypatch.setattr(project_access, "copy_tables", counted)
    assert "newest copy" not in next(watched)[0] and "unchanged" in next(watched)[0]
    assert copied == [20]


@given(st.floats(0, 10**6))
def test_looks_take_at_most_a_twentieth_of_the_time(seconds: float) -> None:
    assert pause_after(seconds) >= max(10, 20 * seconds)


def test_a_mark_changes_with_each_write(tmp_path: Path) -> None:
    """It is that of the file and of its log. The same bytes in another file have another one."""
    path = tmp_path / "tables.db"
    assert tables_mark(path) is None
    log = path.with_name("tables.db-wal")
    marks = []
    for file, data in ((path, b"1"), (path, b"2"), (log, b""), (log, b"3"), (log, b"4")):
        file.write_bytes(data)
        assert settled(path) == settled(path)
        marks.append(settled(path))
    path.rename(tmp_path / "former.db")
    path.write_bytes(b"2")
    assert len({*marks, settled(path)}) == 6
    link = tmp_path / "link.db"
    link.symlink_to(path)
    assert settled(link) == settled(path)


def test_the_screen_of_the_command(
    served: MadeProject,
    clock: Clock,
    copied: list[float],
    capsys: pytest.CaptureFixture[str],
    monkeypatch: pytest.MonkeyPatch,
) -> None:
    """Each look clears the screen. Without --watch there is one look, which is of now."""
    words = ["bsched-tools", "progress", "--project", f"{served.folder}/"]
    monkeypatch.setattr(sys, "argv", words)
    assert __main__.main() == 0
    once = capsys.readouterr().out.splitlines()
    assert re.fullmatch(r"as of \d{4}-\d\d-\d\d \d\d:\d\d:\d\d UTC \(now\)", once[0])

    def sleep(seconds: float) -> None:
        clock.seconds += seconds
        if clock.seconds > 70:
            sys.exit(0)  # as Ctrl-C does

    monkeypatch.setattr(clock, "sleep", sleep)
    monkeypatch.setattr(sys, "argv", [*words, "--watch"])
    settled(served.folder / "project.db")
    with pytest.raises(SystemExit):
        __main__.main()
    _, *looks = capsys.readouterr().out.split("\033[H\033[2J")
    assert len(looks) == 2 and len(copied) == 2  # one of them without --watch
    assert [look.splitlines()[1:] for look in looks] == [once[1:]] * 2

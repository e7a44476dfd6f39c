"""Copies. Each is a stop at one moment, and the process that serves always continues."""
import os
import sqlite3
import threading
from collections.abc import Callable
from pathlib import Path
from typing import Any

import pytest
from copies_tried import SEQNOS, goes_on
from small_project import END, Twin, rows_of, tools

from bsched_files.faults import Fault
from bsched_tools.copies import copying, taking


class Load:
    """Clients that call all the time."""

    def __init__(self, twin: Twin, users: int = 3) -> None:
        self.twin, self.answered, self.is_over = twin, dict.fromkeys(range(1, users + 1), 0), False
        self.threads = [
            threading.Thread(target=self.live, args=(user,), daemon=True) for user in self.answered
        ]
        for thread in self.threads:
            thread.start()

    def live(self, user: int) -> None:
        seqno = 0
        while not self.is_over:
            seqno += 1
            self.twin.call(user, seqno)
            self.answered[user] = seqno

    def end(self) -> None:
        self.is_over = True
        for thread in self.threads:
            thread.join(END)
            assert not thread.is_alive()


def test_copies_under_load_have_what_was_answered(project: Path, twin: Twin, copies: Path) -> None:
    load = Load(twin)
    try:
        for _ in range(15):
            answered = dict(load.answered)
            copied = copying.copy_tables(project, copies)
            sent = {user: seqno + 1 for user, seqno in load.answered.items()}
            heard = {int(auth[1:]): seqno for auth, seqno in rows_of(copied.path, SEQNOS)}
            for user, seqno in answered.items():
                assert seqno <= heard.get(user, 0) <= sent[user]
            assert copied.still_seconds is not None and copied.still_seconds < 1
            assert goes_on(twin)
    finally:
        load.end()
    assert len(list(copies.iterdir())) == 15  # no log, and nothing else, is left next to the copies


def test_a_copy_has_the_owner_of_the_tables(project: Path, copies: Path) -> None:
    try:
        os.chown(project, 1234, 1235)
    except PermissionError:
        pytest.skip("no owner may be set")
    found = copying.copy_tables(project, copies).path.stat()
    assert (found.st_uid, found.st_gid) == (1234, 1235)


def test_tables_that_nobody_has(project: Path, copies: Path) -> None:
    copied = copying.copy_tables(project, copies)
    assert copied.still_seconds is None
    assert rows_of(copied.path, "SELECT count(*) FROM unit") == [(20,)]
    assert copied.path.stat().st_mode & 0o777 == 0o600


def test_nobody_begins_while_a_copy_is_made(
    project: Path,
    copies: Path,
    monkeypatch: pytest.MonkeyPatch,
) -> None:
    rest = taking.Work.copy_rest
    tried: list[bool] = []

    def tries_to_begin(work: taking.Work, *args: Any) -> bytes:
        with pytest.raises(sqlite3.OperationalError, match="locked"):
            sqlite3.connect(project, timeout=0).execute("UPDATE setting SET value = 1")
        with open(project, "rb+") as file:  # as bsched does
            assert not taking.lock(file.fileno())
        tried.append(True)
        return rest(work, *args)

    monkeypatch.setattr(taking.Work, "copy_rest", tries_to_begin)
    copying.copy_tables(project, copies)
    assert tried
    Twin(project).end()


def test_a_bad_copy_removes_nothing_and_gets_no_name(project: Path, copies: Path) -> None:
    first = copying.copy_tables(project, copies).path
    with pytest.raises(Fault, match="the copy was not good, and is not kept"):
        copying.copy_tables(project, copies, keep=1, program=Path("/bin/false"))
    assert list(copies.iterdir()) == [first]


@pytest.mark.parametrize(
    "output, status, is_good",
    [
        ('{"error":"no_such_host","number":19}', 1, True),
        ("result,app\n", 0, True),
        ("", 1, False),
        ("{}", 0, False),
    ],
)
def test_the_program_opens_the_copy(
    project: Path,
    copies: Path,
    tmp_path: Path,
    output: str,
    status: int,
    is_good: bool,
) -> None:
    program = tmp_path / "program"
    test_of_args = 'test "$1 $2 $4 $5" = "statement --tables --host 1" || exit 3'
    program.write_text(f"#!/bin/sh\n{test_of_args}\ntouch $3-wal\nprintf '%s' '{output}'\nexit {status}\n")
    program.chmod(0o755)
    if is_good:
        copied = copying.copy_tables(project, copies, program=program)
        assert list(copies.iterdir()) == [copied.path]
    else:
        with pytest.raises(Fault, match="does not accept it"):
            copying.copy_tables(project, copies, program=program)


def test_what_a_killed_copy_left_is_cleared(project: Path, copies: Path) -> None:
    left, fresh = copies / ".bsched-copy-left", copies / ".bsched-copy-fresh"
    for folder in (left, fresh):
        folder.mkdir()
        (folder / "copy.db").write_bytes(b"half")
    os.utime(left, (0, 0))
    copying.copy_tables(project, copies)
    assert not left.exists() and fresh.exists()


def test_a_full_disk(project: Path, twin: Twin, small_disk: Path) -> None:
    status, output, fault = tools("copy", "--tables", project, "--to", small_disk)
    assert (status, output) == (1, "")
    assert fault == f"bsched-tools: {small_disk}: No space left on device\n"
    assert goes_on(twin) and list(small_disk.iterdir()) == []


@pytest.mark.parametrize(
    "cut, message",
    [
        (lambda whole: whole[:-4096], "it is spoiled or cut off (database disk image is malformed)"),
        (lambda whole: whole[:-100], "SQLite finds: "),
        (lambda whole: whole[:50], "it is spoiled or cut off (database disk image is malformed)"),
        (lambda _whole: b"text\n" * 500, "it is spoiled or cut off (file is not a database)"),
        (lambda _whole: b"", "it has no tables: a log (-wal) that has them is missing"),
    ],
)
def test_tables_that_are_not_whole(
    project: Path,
    copies: Path,
    cut: Callable[[bytes], bytes],
    message: str,
) -> None:
    project.write_bytes(cut(project.read_bytes()))
    status, _, fault = tools("copy", "--tables", project, "--to", copies)
    wanted = f"bsched-tools: {project}: the copy was not good, and is not kept: {message}"
    assert status == 1 and fault.startswith(wanted) and fault.count("\n") == 1
    assert list(copies.iterdir()) == []


def test_tables_of_another_program(tmp_path: Path, copies: Path) -> None:
    other = tmp_path / "other.db"
    connection = sqlite3.connect(other)
    connection.execute("CREATE TABLE message (text TEXT)")
    connection.close()
    for path, fault in (
        (other, "it has no tables of bsched"),
        (tmp_path / "none.db", "no such file"),
        (tmp_path, "it is not a file"),
    ):
        with pytest.raises(Fault, match=fault):
            copying.copy_tables(path, copies)
    assert list(copies.iterdir()) == []


def test_a_journal_that_sqlite_left(project: Path, copies: Path) -> None:
    project.with_name("project.db-journal").write_bytes(b"\xd9")
    with pytest.raises(Fault, match="project.db-journal was left by SQLite"):
        copying.copy_tables(project, copies)


def test_the_command_line(project: Path, copies: Path) -> None:
    status, output, fault = tools("copy", "--tables", project, "--to", copies, "--keep", "1")
    assert (status, fault) == (0, "")
    assert output.endswith(" bytes, nobody had the tables\n")
    none_kept = ["copy", "--tables", project, "--to", copies, "--keep", "0"]
    faulty: list[list[object]] = [["copy"], [], [*none_kept], ["cop"]]
    for args in faulty:
        status, output, fault = tools(*args)
        assert (status, output) == (64, "") and "bsched-tools: " in fault
    assert tools("copy", "--tables", project, "--to", copies / "none" / "x")[0] == 1
    assert tools("copy", "--tables", project, "--to", copies / "x.db", "--keep", "1")[0] == 1

"""The doctor names what bsched refuses: the row, the process, or the key in the settings."""
import os
import sqlite3
from contextlib import closing
from pathlib import Path
from types import SimpleNamespace

import pytest
from doctor_asked import findings_of, short_life, statements_of
from small_project import Twin, make_tables, tools

from bsched_files.bridge_state import STATE
from bsched_tools import doctor


def test_good_tables(tmp_path: Path) -> None:
    assert findings_of(make_tables(tmp_path / "1.db")) == []
    assert findings_of(short_life(tmp_path / "2.db")) == []


@pytest.mark.parametrize("statement", statements_of("OTHERS"))
def test_other_schemas(tmp_path: Path, statement: str) -> None:
    path = short_life(tmp_path / "project.db")
    with closing(sqlite3.connect(path, isolation_level=None)) as connection:
        connection.execute(statement)
    (line,) = findings_of(path)
    assert "its tables are" in line


def test_who_has_the_tables(project: Path, twin: Twin) -> None:
    (line,) = findings_of(project)
    assert line.startswith(f"process {twin.process.pid} (python3")
    assert "has it, so no other program can open it" in line


def test_files(tmp_path: Path) -> None:
    path = make_tables(tmp_path / "project.db")
    (line,) = findings_of(tmp_path / "none.db")
    assert line == "no such file: make it with `bsched create`, or look at the name"
    assert findings_of(tmp_path) == ["it is not a regular file"]
    os.link(path, tmp_path / "second")
    assert findings_of(path) == ["it has 2 names (hard links), and bsched accepts a file with one"]
    os.remove(tmp_path / "second")
    (tmp_path / "project.db-journal").write_bytes(b"\xd9")
    (line,) = findings_of(path)
    assert "was left by SQLite" in line
    os.remove(tmp_path / "project.db-journal")
    os.symlink("elsewhere", tmp_path / "project.db-wal")
    assert findings_of(path) == ["its log: it is not a regular file"]
    os.remove(tmp_path / "project.db-wal")
    assert findings_of(path) == []
    path.write_bytes(path.read_bytes()[:-4096])
    (line,) = findings_of(path)
    assert line.startswith("it is cut off")


@pytest.mark.parametrize("room, wanted", [(2**20, 0), (2**20 - 1, 1)])
def test_a_full_disk(tmp_path: Path, monkeypatch: pytest.MonkeyPatch, room: int, wanted: int) -> None:
    path = make_tables(tmp_path / "project.db")
    monkeypatch.setattr("shutil.disk_usage", lambda _: SimpleNamespace(free=room))
    lines = findings_of(path)
    assert len(lines) == wanted
    assert all(f"its disk has {room} bytes left" in line for line in lines)


def test_the_command_line(tmp_path: Path, project: Path) -> None:
    good = "good: nothing is found that bsched refuses\na start takes a second or two\n"
    assert tools("doctor", "--tables", project) == (0, good, "")
    status, output, fault = tools("doctor", "--tables", tmp_path / "none", "--settings", tmp_path / "none")
    assert (status, fault) == (1, "") and len(output.splitlines()) == 2
    assert tools("doctor")[0] == 64


def made_state(path: Path) -> Path:
    """Makes a state file as the bridge has it."""
    with closing(sqlite3.connect(path, isolation_level=None)) as connection:
        connection.execute("PRAGMA journal_mode = WAL").fetchall()
        STATE.prepare(connection)
    return path


def test_a_state_file(tmp_path: Path) -> None:
    path = made_state(tmp_path / "bridge.db")
    assert tools("doctor", "--state", path) == (0, "good: nothing is found that the bridge refuses\n", "")
    assert os.listdir(tmp_path) == ["bridge.db"]
    with closing(sqlite3.connect(path, isolation_level=None)) as connection:  # as a bridge that serves
        connection.execute("DELETE FROM host")
        assert list(doctor.state_faults(path)) == []


def test_other_files_than_state_files(tmp_path: Path, project: Path) -> None:
    path = made_state(tmp_path / "bridge.db")
    for name, data in (("cut.db", path.read_bytes()[:8192]), ("text.db", b"text"), ("empty.db", b"")):
        (tmp_path / name).write_bytes(data)
    page = bytearray(path.read_bytes())
    page[4096:8192] = b"\xff" * 4096
    (tmp_path / "page.db").write_bytes(page)
    with closing(sqlite3.connect(made_state(tmp_path / "newer.db"))) as connection:
        connection.execute(f"PRAGMA user_version = {STATE.version + 1}")
    faults = {
        "cut.db": "malformed",
        "text.db": "file is not a database",
        "empty.db": "is not the state file of a bridge",
        "page.db": "SQLite finds: ",
        "newer.db": "a newer bridge wrote this file",
        "none.db": "there is no such file",
        "": "there is no such file",
        project.name: "is not the state file of a bridge",
    }
    for name, fault in faults.items():
        status, output, _ = tools("doctor", "--state", tmp_path / name)
        assert status == 1 and output.count("\n") == 1, name
        assert output.startswith(f"{tmp_path / name}: ") and fault in output, output


def test_a_young_file_without_its_log(tmp_path: Path) -> None:
    """What was stored is in the log alone. The file by itself has no tables."""
    path = tmp_path / "project.db"
    with closing(sqlite3.connect(path, isolation_level=None)) as connection:
        connection.execute("PRAGMA journal_mode = WAL").fetchall()
        connection.execute("PRAGMA wal_autocheckpoint = 0").fetchall()
        connection.execute("CREATE TABLE setting (name TEXT, value)")
        (tmp_path / "alone.db").write_bytes(path.read_bytes())
    (line,) = findings_of(tmp_path / "alone.db")
    assert line.startswith("it has no tables, and its log alone.db-wal is not next to it")
    status, output, _ = tools("doctor", "--tables", tmp_path / "alone.db")
    assert status == 1 and "put both here together" in output
    status, _, fault = tools("results", "--tables", tmp_path / "alone.db")
    assert status == 1 and "a log (-wal) that has them is missing" in fault

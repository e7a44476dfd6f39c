"""Tests that whoever opens a SQLite file of the bridge checks its format, and what upgrades make."""
import sqlite3
from contextlib import closing
from pathlib import Path

import pytest

from bsched_files.bridge_state import STATE
from bsched_files.faults import Fault
from bsched_files.schemas import Shape, shape_of
from bsched_files.sqlite_formats import SqliteFormat, statements_of
from bsched_files.uploads import UPLOADS

FORMATS = pytest.mark.parametrize("form", [STATE, UPLOADS])
SMALL = SqliteFormat("a small file", 77, 2, "CREATE TABLE a (b, c);\n", {1: "ALTER TABLE a ADD COLUMN c;\n"})


def made(path: Path, form: SqliteFormat, version: int | None = None) -> Shape:
    """Makes a file, perhaps with another number of its version, and returns its tables."""
    with closing(sqlite3.connect(path, isolation_level=None)) as connection:
        form.prepare(connection)
        if version is not None:
            connection.execute(f"PRAGMA user_version = {version}")
        return shape_of(connection)


@FORMATS
def test_what_is_made_is_read(tmp_path: Path, form: SqliteFormat) -> None:
    path = tmp_path / "file"
    first = made(path, form)
    assert made(path, form) == first  # once more: nothing changes
    with form.opened(path, 1.0) as connection:
        assert form.version_of(connection) == form.version and shape_of(connection) == first
        with pytest.raises(sqlite3.OperationalError, match="readonly"):
            connection.execute("CREATE TABLE more (x)")


@FORMATS
def test_a_file_of_a_newer_version_is_refused(tmp_path: Path, form: SqliteFormat) -> None:
    path = tmp_path / "file"
    made(path, form, form.version + 1)
    numbers = f"format {form.version + 1}, and this bridge knows {form.version}"
    fault = f"a newer bridge wrote this file \\({numbers}\\)"
    with pytest.raises(Fault, match=fault):
        made(path, form)
    with pytest.raises(Fault, match=f"^{path}: {fault}"):
        with form.opened(path, 1.0):
            pass


@FORMATS
def test_a_file_of_another_format_is_refused(tmp_path: Path, form: SqliteFormat) -> None:
    path = tmp_path / "file"
    with closing(sqlite3.connect(path)) as connection:
        connection.execute("CREATE TABLE mine (x)")
    for _ in range(2):
        with pytest.raises(Fault, match=f"is not {form.name}$"):
            made(path, form)
        with pytest.raises(Fault, match=f"^{path}: is not {form.name}$"):
            with form.opened(path, 1.0):
                pass
        with closing(sqlite3.connect(path)) as connection:
            connection.execute("PRAGMA application_id = 5")


def test_an_older_file_is_read_and_upgraded(tmp_path: Path) -> None:
    path = tmp_path / "file"
    with closing(sqlite3.connect(path, isolation_level=None)) as connection:
        connection.execute("CREATE TABLE a (b)")
        connection.execute("PRAGMA application_id = 77")
        connection.execute("PRAGMA user_version = 1")
    with SMALL.opened(path, 1.0) as connection:
        assert SMALL.version_of(connection) == 1
    upgraded = made(path, SMALL)
    assert upgraded == made(tmp_path / "new", SMALL)
    with SMALL.opened(path, 1.0) as connection:
        assert SMALL.version_of(connection) == 2


@FORMATS
def test_each_version_has_its_upgrade(form: SqliteFormat) -> None:
    assert sorted(form.upgrades) == list(range(1, form.version))
    for text in (form.new_file, *form.upgrades.values()):
        assert all(sqlite3.complete_statement(one) for one in statements_of(text))


def test_a_file_that_can_not_be_opened(tmp_path: Path) -> None:
    with pytest.raises(Fault, match="unable to open"):
        with SMALL.opened(tmp_path / "none", 1.0):
            pass
    (tmp_path / "text").write_text("no database, and longer than the header of one would be" * 10)
    with pytest.raises(Fault, match="file is not a database"):
        with SMALL.opened(tmp_path / "text", 1.0):
            pass


def test_statements() -> None:
    text = (
        "CREATE TABLE a (b); -- one; two\nCREATE TRIGGER t AFTER INSERT ON a BEGIN\n"
        "  SELECT 1; END;\nSELECT stop()"
    )
    assert len(list(statements_of(text))) == 3

"""The rows of uploads: an older file is upgraded, and a newer one is refused."""
import sqlite3
from contextlib import closing
from pathlib import Path

import pytest

from bsched_bridge.common.state_file import StateFault
from bsched_bridge.uploads.handed_out import HandedOut
from bsched_bridge.uploads.tables import UploadTables

# the tables of format 1, as the bridge made them
FORMAT_1 = """
CREATE TABLE listing (
  id INTEGER PRIMARY KEY, app TEXT NOT NULL, files TEXT NOT NULL, UNIQUE (app, files)
) STRICT;
CREATE TABLE job (
  result TEXT PRIMARY KEY, authenticator TEXT NOT NULL, host_cpid TEXT NOT NULL,
  listing INTEGER NOT NULL REFERENCES listing, deadline INTEGER NOT NULL, stored_at INTEGER,
  exit_status INTEGER, output TEXT
) STRICT;
CREATE TABLE upload (
  name TEXT PRIMARY KEY, nbytes INTEGER NOT NULL, md5 TEXT NOT NULL, sha256 TEXT NOT NULL,
  received_at INTEGER NOT NULL
) STRICT;
CREATE TABLE file (
  result TEXT NOT NULL, place INTEGER NOT NULL, open_name TEXT NOT NULL, nbytes INTEGER NOT NULL,
  sha256 TEXT NOT NULL, PRIMARY KEY (result, place)
) STRICT, WITHOUT ROWID;
CREATE INDEX file_by_content ON file (sha256);
CREATE TABLE content (sha256 TEXT PRIMARY KEY, nbytes INTEGER NOT NULL) STRICT, WITHOUT ROWID;
CREATE TABLE used (nbytes INTEGER NOT NULL) STRICT;
INSERT INTO used VALUES (0);
CREATE TRIGGER upload_comes AFTER INSERT ON upload BEGIN UPDATE used SET nbytes = nbytes + NEW.nbytes; END;
CREATE TRIGGER upload_goes AFTER DELETE ON upload BEGIN UPDATE used SET nbytes = nbytes - OLD.nbytes; END;
CREATE TRIGGER content_comes AFTER INSERT ON content BEGIN UPDATE used SET nbytes = nbytes + NEW.nbytes; END;
CREATE TRIGGER content_goes AFTER DELETE ON content BEGIN UPDATE used SET nbytes = nbytes - OLD.nbytes; END;
INSERT INTO listing VALUES (1, 'sum', '[]');
INSERT INTO job VALUES ('a..b_0', 'ann-key', 'c1', 1, 5, NULL, NULL, NULL);
INSERT INTO job VALUES ('w_1', 'bob-key', 'c2', 1, 6, 7, 0, 'x');
INSERT INTO upload VALUES ('a.+.b_0_12', 3, 'm', 's', 8), ('gone_4_0', 4, 'n', 't', 9);
PRAGMA application_id = 1651729269;
PRAGMA user_version = 1;
"""


# ---- An older file


def test_a_file_of_format_1_is_upgraded(tmp_path: Path) -> None:
    path = tmp_path / "uploads.db"
    with closing(sqlite3.connect(path)) as connection:
        connection.executescript(FORMAT_1)
    for _ in range(2):
        tables = UploadTables(path)
        rows = tables.rows("SELECT name, result, authenticator, host_cpid FROM upload ORDER BY name")
        assert rows == [("a.+.b_0_12", "a..b_0", "ann-key", "c1"), ("gone_4_0", "gone_4", "", "")]
        assert tables.used() == 7
        assert tables.rows("SELECT result, stored_at, output, ended_at FROM job ORDER BY result") == [
            ("a..b_0", None, None, None),
            ("w_1", 7, "x", None),
        ]
        assert HandedOut(tables).has_without_url() is False  # the listing has no files
        tables.close()
    new = UploadTables(tmp_path / "new.db")
    tables = UploadTables(path)
    with tables.transaction() as connection:
        connection.execute("UPDATE listing SET files = '[1]'")
    assert HandedOut(tables).has_without_url() is True
    tables.close()
    schema = "SELECT name, sql FROM sqlite_schema WHERE sql LIKE 'CREATE INDEX%' ORDER BY name"
    upgraded = UploadTables(path)
    assert upgraded.rows(schema) == new.rows(schema)
    for one in (new, upgraded):
        one.close()


def test_a_file_of_a_newer_bridge_is_refused(tmp_path: Path) -> None:
    path = tmp_path / "uploads.db"
    UploadTables(path).close()
    with closing(sqlite3.connect(path)) as connection:
        connection.execute("PRAGMA user_version = 99")
    with pytest.raises(StateFault, match=r"a newer bridge wrote this file \(format 99, .*: run that bridge"):
        UploadTables(path)

"""The state file: only one bridge has it, older formats are upgraded, and other files are refused."""
import os
import re
import sqlite3
import subprocess
import sys
from collections import Counter
from contextlib import closing
from pathlib import Path
from typing import cast

import pytest
from bridges import ENVIRONMENT, Bridge
from joining import create

from bsched_bridge.common.state_file import StateFault, StateFile
from bsched_bridge.exchange.host_states import HostStates
from bsched_bridge.people.directory import Directory
from bsched_bridge.people.hosts import Hosts, Key
from bsched_bridge.people.members import Members
from bsched_bridge.requests.descriptions import Description
from bsched_files.bridge_state import STATE, UPGRADES

# the tables of version 1, as a bridge of 2026-11-27 made them
VERSION_1 = """
CREATE TABLE host (
  authenticator TEXT NOT NULL, host_cpid TEXT NOT NULL,  -- the key
  hostid INTEGER,             -- bsched's number of the host, once a reply told it
  last_number INTEGER NOT NULL,  -- the rpc_seqno of the last call
  open_call BLOB,             -- its bytes, where no answer came yet
  jobs_in_hand TEXT NOT NULL DEFAULT '[]',  -- as JSON, as replies have them
  user_name TEXT, user_credit INTEGER, host_credit INTEGER, heard_at INTEGER,
  PRIMARY KEY (authenticator, host_cpid)
) STRICT;
CREATE UNIQUE INDEX host_by_number ON host (authenticator, hostid);
CREATE INDEX host_with_open_call ON host (authenticator, host_cpid) WHERE open_call IS NOT NULL;
CREATE INDEX host_heard ON host (heard_at) WHERE hostid IS NOT NULL;
PRAGMA application_id = 1651729250;
PRAGMA user_version = 1;
"""
# what version 2 had besides
VERSION_2 = """
CREATE TABLE member (
  id INTEGER PRIMARY KEY AUTOINCREMENT,  -- the user's number for statistics sites
  authenticator TEXT NOT NULL UNIQUE,
  email TEXT UNIQUE, salt BLOB, secret BLOB, cost TEXT,  -- NULL for an operator's account without a password
  name TEXT NOT NULL,
  batch TEXT UNIQUE,          -- the name of the import that makes the account; NULL for an operator's account
  is_imported INTEGER NOT NULL,  -- 0 until bsched answered that import
  cpid TEXT NOT NULL,         -- a random text, by which statistics sites know a user of several projects
  consent_at INTEGER,         -- when the user agreed to the terms
  is_exported INTEGER NOT NULL DEFAULT 0,  -- whether the user agreed to be shown by statistics sites
  created_at INTEGER NOT NULL
) STRICT;
CREATE INDEX member_open ON member (id) WHERE is_imported = 0;
CREATE INDEX member_created ON member (created_at) WHERE batch IS NOT NULL;
INSERT INTO member (authenticator, name, is_imported, cpid, created_at)
  VALUES ('ann-key', 'Ann', 1, 'x', 100);
PRAGMA user_version = 2;
"""
# the tables of version 4, as a bridge of 2026-11-28 made them
VERSION_4 = """
CREATE TABLE host (
  -- the key; the host_cpid is the one with which the host was made
  authenticator TEXT NOT NULL, host_cpid TEXT NOT NULL,
  hostid INTEGER,             -- the bridge's number of the host, once a client was told it
  -- the client's rpc_seqno in its last request with that number; NULL before the first one
  client_seqno INTEGER,
  copy_of INTEGER,            -- the hostid of the computer that the host is a copy of
  has_former_number INTEGER NOT NULL DEFAULT 0,  -- 1: a former version told a number, which is not known
  scheduler_hostid INTEGER,   -- bsched's number of the host in its tables, by the last reply
  last_number INTEGER NOT NULL,  -- the rpc_seqno of the last call
  open_call BLOB,             -- its bytes, where no answer came yet
  jobs_in_hand TEXT NOT NULL DEFAULT '[]',  -- those that the client may lack, as JSON, as replies have them
  -- as the last reply told them, and when
  user_name TEXT, user_credit INTEGER, host_credit INTEGER, heard_at INTEGER,
  PRIMARY KEY (authenticator, host_cpid)
) STRICT;
CREATE UNIQUE INDEX host_by_number ON host (hostid);
CREATE UNIQUE INDEX host_by_scheduler_number ON host (authenticator, scheduler_hostid);
CREATE INDEX host_of_copy ON host (authenticator, copy_of) WHERE copy_of IS NOT NULL;
CREATE INDEX host_with_open_call ON host (authenticator, host_cpid) WHERE open_call IS NOT NULL;
CREATE INDEX host_of_stranger ON host (authenticator)
  WHERE open_call IS NOT NULL AND scheduler_hostid IS NULL AND hostid IS NULL;
CREATE INDEX host_heard ON host (heard_at) WHERE scheduler_hostid IS NOT NULL;

CREATE TABLE numbers (last_hostid INTEGER NOT NULL) STRICT;
INSERT INTO numbers (last_hostid) VALUES (100000);

CREATE TABLE member (
  id INTEGER PRIMARY KEY AUTOINCREMENT,  -- the user's number for statistics sites
  authenticator TEXT NOT NULL UNIQUE,
  email TEXT UNIQUE, salt BLOB, secret BLOB, cost TEXT,  -- NULL for an operator's account without a password
  name TEXT NOT NULL,
  batch TEXT UNIQUE,          -- the name of the import that makes the account; NULL for an operator's account
  is_imported INTEGER NOT NULL,  -- 0 until bsched answered that import
  cpid TEXT NOT NULL,         -- a random text, by which statistics sites know a user of several projects
  consent_at INTEGER,         -- when the user agreed to the terms
  is_exported INTEGER NOT NULL DEFAULT 0,  -- whether the user agreed to be shown by statistics sites
  created_at INTEGER NOT NULL
) STRICT;
CREATE INDEX member_open ON member (id) WHERE is_imported = 0;
CREATE INDEX member_created ON member (created_at) WHERE batch IS NOT NULL;

CREATE TABLE barred (            -- accounts whose computers are refused
  authenticator TEXT PRIMARY KEY, barred_at INTEGER NOT NULL,
  is_deleted INTEGER NOT NULL    -- 1 if the account was deleted, 0 if the operator barred it
) STRICT, WITHOUT ROWID;
-- a message that was in work when its account was deleted writes nothing of what was forgotten
CREATE TRIGGER host_of_deleted BEFORE INSERT ON host
  WHEN EXISTS (SELECT 1 FROM barred WHERE authenticator = NEW.authenticator AND is_deleted = 1)
  BEGIN SELECT RAISE(IGNORE); END;
CREATE TRIGGER member_of_deleted BEFORE UPDATE ON member
  WHEN EXISTS (SELECT 1 FROM barred WHERE authenticator = NEW.authenticator AND is_deleted = 1)
  BEGIN SELECT RAISE(IGNORE); END;
PRAGMA application_id = 1651729250;
PRAGMA user_version = 4;
INSERT INTO member (authenticator, name, is_imported, cpid, created_at, is_exported)
  VALUES ('ann-key', 'Ann', 1, 'x', 100, 1), ('bob-key', 'Bob', 1, 'y', 100, 0),
    ('new-key', 'New', 1, 'z', 100, 0);
INSERT INTO host (authenticator, host_cpid, hostid, client_seqno, scheduler_hostid, last_number, user_name,
    user_credit, host_credit, heard_at)
  VALUES ('ann-key', 'c1', 100001, 3, 1, 7, 'Ann', 5000, 4000, 300),
    ('ann-key', 'c2', 100002, 0, 2, 9, 'Ann', 6000, 2000, 400),
    ('bob-key', 'c3', 100003, 0, 3, 1, 'Bob', 0, 0, 100),
    ('new-key', 'c4', NULL, NULL, NULL, 1, NULL, NULL, NULL, NULL);
"""
ROWS = [
    ("ann-key", "c1", 1, 7, None, "Ann", 5000, 5000, 200),
    ("ann-key", "c2", 3, 9, b"call 9", "Ann", 4000, 0, 100),
    ("bob-key", "c3", 2, 1, None, "Bob", 0, 0, 100),
    ("eve-key", "c4", None, 1, b"call 1", None, None, None, None),
]


def old_file(path: Path, version: int = 1) -> None:
    """Makes a state file of an older version."""
    connection = sqlite3.connect(path)
    connection.executescript(VERSION_1 if version == 1 else VERSION_1 + VERSION_2)
    connection.executemany(
        "INSERT INTO host (authenticator, host_cpid, hostid, last_number, open_call, user_name, "
        "user_credit, host_credit, "
        "heard_at) VALUES (?, ?, ?, ?, ?, ?, ?, ?, ?)",
        ROWS,
    )
    connection.commit()
    connection.close()


def contents(path: Path) -> tuple[list[str], int]:
    """Returns what a file has."""
    connection = sqlite3.connect(path)
    try:
        return list(connection.iterdump()), connection.execute("PRAGMA user_version").fetchone()[0]
    finally:
        connection.close()


def test_one_bridge_has_the_file(tmp_path: Path) -> None:
    file = StateFile(tmp_path / "state.db")
    with pytest.raises(StateFault, match="no other bridge"):
        StateFile(tmp_path / "state.db")
    file.close()


def test_one_bridge_has_the_file_by_any_name(tmp_path: Path) -> None:
    """A symbolic link leads to the same lock, and a file with a second name is refused."""
    path, link, other = (tmp_path / name for name in ("state.db", "link.db", "other.db"))
    file = StateFile(path)
    link.symlink_to(path)
    with pytest.raises(StateFault, match="no other bridge"):
        StateFile(link)
    other.hardlink_to(path)
    with pytest.raises(StateFault, match=r"other\.db: the file has a second name \(a hard link\): remove"):
        StateFile(other)
    file.close()
    with pytest.raises(StateFault, match="second name"):
        StateFile(path)
    other.unlink()
    StateFile(link).close()
    assert not (tmp_path / "link.db.lock").exists()


def test_a_spoiled_file_is_told_at_the_start(tmp_path: Path) -> None:
    path = tmp_path / "state.db"
    file = StateFile(path)
    states = HostStates(file)
    for number in range(60):
        states.open(states.begin(Key("ann-key", f"c{number}")), lambda number: b"x" * 2000)
    file.close()
    good = path.read_bytes()
    size = int.from_bytes(good[16:18], "big")
    faults = []
    for page in range(1, len(good) // size):
        path.write_bytes(good[: page * size] + bytes(size) + good[(page + 1) * size :])
        try:
            StateFile(path).close()
        except StateFault as fault:
            faults.append(str(fault))
    # pages that only have parts of calls may look good
    assert len(faults) > 20 and all(
        "it is spoiled or no state file: see docs/VOLUNTEERS.md" in one for one in faults
    )
    assert not any("no other bridge" in one for one in faults)
    path.write_bytes(good)
    StateFile(path).close()


READ = "SELECT last_hostid FROM numbers"


def stored(path: Path) -> int:
    """Returns a number in the file, as another process sees it."""
    file = StateFile(path, is_guest=True)
    try:
        return cast(int, file.rows(READ)[0][0])
    finally:
        file.close()


def test_what_somebody_keeps_in_memory_is_written_before_others_use_the_file(tmp_path: Path) -> None:
    path = tmp_path / "state.db"
    file = StateFile(path)
    written = 0

    def write() -> None:
        nonlocal written
        written += 1
        with file.transaction(flushes=False) as connection:
            connection.execute("UPDATE numbers SET last_hostid = ?", (written,))

    file.before_use = write
    assert file.rows(READ, flushes=False) == [(100_000,)]
    assert file.row(READ) == (1,) and file.looked(READ) == [(2,)] and stored(path) == 2
    with file.transaction() as connection:
        assert connection.execute(READ).fetchone() == (3,)
    file.backup(tmp_path / "copy.db")
    assert stored(path) == 4 and contents(tmp_path / "copy.db") == contents(path)
    file.close()
    assert stored(path) == 5


def test_a_transaction_that_can_not_begin_leaves_none_open(tmp_path: Path) -> None:
    file = StateFile(tmp_path / "state.db")

    def fails() -> None:
        raise ZeroDivisionError

    file.before_use = fails
    with pytest.raises(ZeroDivisionError), file.transaction():
        pass
    with file.transaction(is_synced=False, flushes=False):
        pass
    assert file.rows(READ, flushes=False) == [(100_000,)]
    file.before_use = lambda: None
    file.close()


def test_only_the_owner_can_read_a_new_file(tmp_path: Path) -> None:
    mask = os.umask(0)
    try:
        file = StateFile(tmp_path / "state.db")
    finally:
        os.umask(mask)
    modes = {path.name: path.stat().st_mode & 0o777 for path in tmp_path.iterdir()}
    names = "state.db", "state.db-wal", "state.db-shm", "state.db.lock"
    assert modes == dict.fromkeys(names, 0o600)
    file.close()
    (tmp_path / "state.db").chmod(0o640)  # as an operator wants it
    StateFile(tmp_path / "state.db").close()
    assert (tmp_path / "state.db").stat().st_mode & 0o777 == 0o640


def test_another_file_is_refused(tmp_path: Path) -> None:
    connection = sqlite3.connect(tmp_path / "other.db")
    connection.execute("CREATE TABLE host (id)")
    connection.close()
    with pytest.raises(StateFault, match="is not the state file of a bridge"):
        StateFile(tmp_path / "other.db")
    (tmp_path / "text").write_text("no database " * 100)
    with pytest.raises(StateFault):
        StateFile(tmp_path / "text")
    with pytest.raises(StateFault):
        StateFile(tmp_path / "no folder" / "state.db")


def test_a_newer_file_is_refused_and_not_changed(tmp_path: Path) -> None:
    path = tmp_path / "state.db"
    StateFile(path).close()
    connection = sqlite3.connect(path)
    connection.execute(f"PRAGMA user_version = {STATE.version + 1}")
    connection.close()
    before = contents(path)
    with pytest.raises(StateFault) as raised:
        StateFile(path)
    assert str(raised.value) == (
        f"{path}: a newer bridge wrote this file (format 9, and this bridge knows 8): run that bridge"
    )
    assert contents(path) == before


@pytest.mark.parametrize("version", [1, 2])
def test_a_file_of_an_older_version_keeps_its_hosts(tmp_path: Path, version: int) -> None:
    path = tmp_path / "state.db"
    old_file(path, version)
    file = StateFile(path)
    states, hosts = HostStates(file), Hosts(file)
    first, second, third = (states.begin(Key(*row[:2])) for row in (ROWS[0], ROWS[1], ROWS[3]))
    assert [one.in_file.open_call for one in (first, second, third)] == [None, b"call 9", b"call 1"]
    assert states.open(first, lambda number: b"%d" % number).in_file.open_call == b"8"
    # which numbers the clients were told is not known: they may be from earlier tables
    assert [states.of_number("ann-key", number) for number in (1, 2, 3)] == [None] * 3
    assert [host.scheduler_hostid for host in hosts.heard(9)] == [1, 3, 2]
    assert states.give_hostid(Key("ann-key", "c2")) == 100_001
    known = states.of_number("ann-key", 100_001)
    assert known is not None and known.key == Key("ann-key", "c2")
    assert hosts.count() == 3
    file.close()


def test_a_file_of_version_1_gets_accounts(tmp_path: Path) -> None:
    path = tmp_path / "state.db"
    old_file(path)
    file = StateFile(path)
    members = Members(file)
    # the accounts whose hosts had a reply are known, in the order of the first replies; they have no batch
    ann, bob = members.of_key("ann-key"), members.of_key("bob-key")
    assert ann is not None and bob is not None
    assert (ann.name, ann.created_at, ann.email, ann.batch, ann.is_imported) == ("Ann", 100, None, None, True)
    assert (bob.name, bob.id) == ("Bob", 1)
    assert re.fullmatch("[0-9a-f]{32}", ann.cpid) and ann.cpid != bob.cpid
    assert members.of_key("eve-key") is None
    assert list(members.open_ones()) == []
    file.close()
    kept = contents(path)
    StateFile(path).close()  # no upgrade is needed
    assert contents(path) == kept
    assert kept[1] == 8


@pytest.mark.parametrize("version", [1, 2])
def test_an_upgrade_that_is_stopped_changes_nothing(
    tmp_path: Path, monkeypatch: pytest.MonkeyPatch, version: int
) -> None:
    path = tmp_path / "state.db"
    old_file(path, version)
    before = contents(path)
    statements = [part for part in UPGRADES[version].split(";\n") if part.strip()]
    for count in range(len(statements) + 1):
        monkeypatch.setitem(UPGRADES, version, ";\n".join([*statements[:count], "SELECT stop()"]))
        with pytest.raises(StateFault):
            StateFile(path)
        assert contents(path) == before


def test_a_new_file_and_an_upgraded_one_have_the_same_tables(tmp_path: Path) -> None:
    old_file(tmp_path / "1.db")
    old_file(tmp_path / "2.db", 2)
    file_of_version_4(tmp_path / "4.db")
    shapes = []
    for name in ("1.db", "2.db", "4.db", "new.db"):
        file = StateFile(tmp_path / name)
        kept = file.rows("SELECT type, name FROM sqlite_schema WHERE name NOT LIKE 'sqlite_%' ORDER BY name")
        shapes.append([(kind, table, file.rows(f"PRAGMA table_xinfo({table})")) for kind, table in kept])
        file.close()
    assert shapes[0] == shapes[1] == shapes[2] == shapes[3] and len(shapes[0]) == 25


def file_of_version_4(path: Path) -> None:
    """Makes a state file of version 4."""
    connection = sqlite3.connect(path)
    connection.executescript(VERSION_4)
    connection.close()


def test_a_file_of_version_4_gets_what_pages_show(tmp_path: Path) -> None:
    path = tmp_path / "state.db"
    file_of_version_4(path)
    file = StateFile(path)
    people = Directory(file)
    # the credit of the latest reply
    assert [(user.name, user.credit, user.computers) for user in people.users(0, 9)] == [
        ("Ann", 6000, 2),
        ("Bob", 0, 1),
    ]
    assert [computer.number for computer in people.computers(0, 9)] == [100_001, 100_002, 100_003]
    computer, ann = people.computer(100_001), Members(file).of_key("ann-key")
    known = HostStates(file).of_number("ann-key", 100_001)
    assert computer is not None and ann is not None and known is not None
    assert computer.about == Description()
    assert (ann.is_exported, ann.is_anonymous, ann.shown_name) == (True, False, "Ann")
    assert known.client_seqno == 3
    file.close()
    kept = contents(path)
    StateFile(path).close()
    assert contents(path) == kept


def test_a_stopped_upgrade_of_version_4_changes_nothing(
    tmp_path: Path, monkeypatch: pytest.MonkeyPatch
) -> None:
    path = tmp_path / "state.db"
    file_of_version_4(path)
    before = contents(path)
    statements = [part for part in UPGRADES[4].split(";\n") if part.strip()]
    for count in range(len(statements) + 1):
        monkeypatch.setitem(UPGRADES, 4, ";\n".join([*statements[:count], "SELECT stop()"]))
        with pytest.raises(StateFault):
            StateFile(path)
        assert contents(path) == before


VERSION_7 = """
UPDATE host SET open_call = x'7b7d', jobs_in_hand = '[{"name":"u1_0"}]' WHERE host_cpid = 'c2';
INSERT INTO host (authenticator, host_cpid, last_number, open_call) VALUES ('eve-key', 'c5', 1, x'7b7d');
INSERT INTO host (authenticator, host_cpid, hostid, scheduler_hostid, last_number, heard_at, host_credit,
    user_credit, about) VALUES ('bob-key', 'c6', 100004, NULL, 4, 200, 7, 8, '{}');
INSERT INTO host (authenticator, host_cpid, hostid, copy_of, last_number)
  VALUES ('ann-key', 'c0', 100005, 100001, 2);
INSERT INTO member (authenticator, name, is_imported, cpid, created_at)
  VALUES ('wait-key', 'Wait', 0, 'z', 100), ('gone-key', 'deleted', 1, 'z', 100);
INSERT INTO barred (authenticator, barred_at, is_deleted) VALUES ('gone-key', 100, 1), ('bob-key', 100, 0);
INSERT INTO host_day (hostid, day, credit) VALUES (100001, 20000, 5);
"""


def file_of_version_7(path: Path) -> None:
    """Makes a state file of version 7."""
    connection = sqlite3.connect(path)
    connection.executescript(VERSION_4)
    for version in (4, 5, 6):
        connection.executescript(UPGRADES[version])
    connection.executescript(VERSION_7)
    connection.execute("PRAGMA user_version = 7")
    connection.close()


def rows_of(path: Path, query: str) -> list[tuple[object, ...]]:
    """Returns the rows of a query."""
    with closing(sqlite3.connect(path)) as connection:
        return list(connection.execute(query))


FORMER = (
    "SELECT authenticator, host_cpid, hostid, client_seqno, copy_of, has_former_number, scheduler_hostid, "
    "last_number, open_call, jobs_in_hand, user_name, user_credit, host_credit, about FROM "
)


def test_a_file_of_version_7_gets_hosts_in_files(tmp_path: Path) -> None:
    """Nothing of its calls and its jobs in hand is lost, and its hosts stay in their order."""
    path = tmp_path / "state.db"
    file_of_version_7(path)
    before = rows_of(path, f"{FORMER} host ORDER BY rowid")
    StateFile(path).close()
    assert rows_of(path, f"{FORMER} host JOIN host_file ON host = id ORDER BY id") == before
    assert len(before) == 7 and rows_of(path, "SELECT DISTINCT file FROM host_file") == [(1,)]
    query = (
        "SELECT host_cpid, heard_at, credit, jobs, called_at, dry_until FROM host JOIN host_file ON host = id"
    )
    assert rows_of(path, f"{query} ORDER BY id") == [
        ("c1", 300, 4000, "", 0, 0),
        ("c2", 400, 2000, "", 0, 0),
        ("c3", 100, 0, "", 0, 0),
        ("c4", None, 0, "", 0, 0),
        ("c5", None, 0, "", 0, 0),
        ("c6", None, 7, "", 0, 0),  # bsched does not have it any more
        ("c0", None, 0, "", 0, 0),
    ]
    # those of imported accounts that are not deleted
    query = "SELECT authenticator, file, member_file.credit FROM member JOIN member_file ON member = id"
    assert rows_of(path, query) == [("ann-key", 1, 6000), ("bob-key", 1, 0), ("new-key", 1, 0)]
    assert rows_of(path, "SELECT * FROM host_day") == [(100_001, 20_000, 5)]
    file = StateFile(path)
    states, hosts = HostStates(file), Hosts(file)
    assert states.next_open(0) == (2, Key("ann-key", "c2"))
    assert states.next_open(2) == (5, Key("eve-key", "c5")) and states.next_open(5) is None
    known = states.of_number("ann-key", 100_001)
    assert known is not None and known.client_seqno == 3 and known.is_settled
    assert states.open(known, lambda number: b"{}").in_file.last_number == 8
    assert [host.host_cpid for host in hosts.heard(9)] == ["c2", "c1", "c3"]
    assert hosts.key_for_copy("ann-key", 100_001) == Key("ann-key", "c0")
    file.close()


# kills itself before or after the statement with a number, or before or after the commit
KILLED = """
import os, shutil, signal, sqlite3, sys
from pathlib import Path
from bsched_bridge.common import state_file

source, folder = map(Path, sys.argv[1:])


class Connection:
    def __init__(self, connection, at, is_after):
        self.connection, self.at, self.is_after, self.passed = connection, at, is_after, 0

    def execute(self, statement, *values):
        self.passed += 1
        if self.passed == self.at and not self.is_after:
            os.kill(os.getpid(), signal.SIGKILL)
        done = self.connection.execute(statement, *values)
        if self.passed == self.at:
            os.kill(os.getpid(), signal.SIGKILL)
        return done

    def __getattr__(self, name):
        return getattr(self.connection, name)


def upgraded(path, at, is_after):
    connect = sqlite3.connect
    sqlite3.connect = lambda *words, **more: Connection(connect(*words, **more), at, is_after)
    state_file.StateFile(path)


at = 0
while True:
    at += 1
    for is_after in (False, True):
        path = folder / f"{at}-{is_after}.db"
        shutil.copy(source, path)
        child = os.fork()
        if not child:
            try:
                upgraded(path, at, is_after)
            finally:
                os._exit(0)
        if os.waitpid(child, 0)[1] == 0:
            path.unlink()
            sys.exit()
"""


def test_an_upgrade_that_is_killed_leaves_a_file_of_the_one_or_the_other_version(tmp_path: Path) -> None:
    """It is killed before and after each statement. The next start ends it, with the same rows."""
    source, whole, folder = tmp_path / "7.db", tmp_path / "8.db", tmp_path / "killed"
    file_of_version_7(source)
    whole.write_bytes(source.read_bytes())
    StateFile(whole).close()
    folder.mkdir()
    subprocess.run([sys.executable, "-c", KILLED, source, folder], env=ENVIRONMENT, check=True)
    found = Counter[int]()
    for path in folder.glob("*.db"):
        dump, version = contents(path)
        found[version] += 1
        assert dump == contents(source if version == 7 else whole)[0]
        StateFile(path).close()
        assert contents(path) == contents(whole)
    assert found[7] > 60 and found[8] >= 1 and found.keys() == {7, 8}


def test_a_second_bridge_is_refused_while_a_command_works(project: Path, open_bridge: Bridge) -> None:
    guest = StateFile(project / "bridge.db", is_guest=True)
    with pytest.raises(StateFault, match="no other bridge may have it"):
        StateFile(project / "bridge.db")
    guest.close()
    assert create(open_bridge)

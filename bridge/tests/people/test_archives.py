"""Credit from earlier files of the project is added to replies and to pages, and host numbers of such files
name no host of the present one.
"""
import re
import sqlite3
from collections.abc import Callable
from pathlib import Path
from typing import Any

import plain_tables
import pytest
from bridges import Bridge
from messages import FIRST, request, value
from twin import Twin

from bsched_bridge.people.archives import Archives, fold, read_archives
from bsched_bridge.people.barring import Barring
from bsched_bridge.people.hosts import Key
from bsched_files.project_settings import read_settings
from bsched_files.toml_entries import OperatorFault


SETTINGS = {"max_hosts": 100, "operator_key": "change-this-key"}


def archive(path: Path, credits: dict[tuple[str, str], int], first_sent: int = 1000) -> Path:
    """Makes an archive with some credit for each authenticator and host_cpid. Its first job was sent at this
    moment, by which archives of one project differ."""
    plain_tables.create(path, SETTINGS)
    connection = sqlite3.connect(path)
    users = list(dict.fromkeys(user for user, _ in credits))
    for number, user in enumerate(users, 1):
        connection.execute("INSERT INTO account VALUES (?, ?, ?)", (number, user, user))
    for number, ((user, cpid), credit) in enumerate(credits.items(), 1):
        row = (number, users.index(user) + 1, cpid, "x", 1, 1, 1, 1, 0, credit)
        connection.execute(f"INSERT INTO host VALUES ({', '.join('?' * 10)})", row)
    columns = "unit_id, num, host_id, sent, lapse, queued"
    connection.execute(f"INSERT INTO instance ({columns}) VALUES (1, 0, 1, ?, 0, 0)", (first_sent,))
    connection.commit()
    connection.close()
    return path


def test_credit_is_summed_over_archives(tmp_path: Path) -> None:
    first = archive(tmp_path / "1.db", {("k1", "a"): 1000, ("k1", "b"): 500, ("k2", "a"): 7})
    second = archive(tmp_path / "2.db", {("k1", "a"): 30}, first_sent=2000)
    archives = read_archives([first, second])
    assert archives.users == {"k1": 1530, "k2": 7}
    assert archives.hosts == {Key("k1", "a"): 1030, Key("k1", "b"): 500, Key("k2", "a"): 7}
    assert read_archives([]) == Archives()


def test_an_archive_that_is_named_twice(tmp_path: Path) -> None:
    first = archive(tmp_path / "1.db", {("k1", "a"): 1000})
    (tmp_path / "link.db").symlink_to(first)
    (tmp_path / "copy.db").write_bytes(first.read_bytes())
    for name in ("1.db", "link.db", "copy.db"):
        with pytest.raises(OperatorFault, match=f"{name}: .*: it has the same tables as .*1.db: name one"):
            read_archives([first, tmp_path / name])


def test_a_file_that_is_no_archive(tmp_path: Path) -> None:
    path = tmp_path / "1.db"
    for content, what in ((b"", "it is empty"), (b"text" * 1000, "it is not a SQLite database")):
        path.write_bytes(content)
        with pytest.raises(OperatorFault, match=f"1.db: can't be read as an archive: {what}"):
            read_archives([path])


def test_an_archive_of_another_schema(tmp_path: Path) -> None:
    path = archive(tmp_path / "new.db", {("k1", "a"): 1000})
    older = tmp_path / "old.db"
    plain_tables.make_former(older, str(path))
    assert read_archives([older]).users == {"k1": 1000}
    for order, what in (
        ("UPDATE setting SET value = 4 WHERE name = 'schema'", "its tables are of schema 4, a newer one"),
        ("DROP INDEX instance_sent", "its tables are not bsched's"),
    ):
        (tmp_path / "wrong.db").write_bytes(older.read_bytes())
        connection = sqlite3.connect(tmp_path / "wrong.db")
        connection.execute(order)
        connection.commit()
        connection.close()
        with pytest.raises(OperatorFault, match=f"wrong.db: can't be read as an archive: {what}"):
            read_archives([tmp_path / "wrong.db"])


def test_settings(project: Path) -> None:
    path = project / "bridge.toml"
    text = path.read_text()
    assert read_settings(path).archives == ()
    (project / "2026.db").write_bytes(b"")
    path.write_text(f'{text}archives = ["2026.db"]\n')
    assert read_settings(path).archives == (project / "2026.db",)
    for archives, message in (
        ('["none.db"]', "none.db is not a file"),
        ("[1]", "is not an array of texts in quotes"),
        ('"2026.db"', "is not an array of texts in quotes"),
    ):
        path.write_text(f"{text}archives = {archives}\n")
        with pytest.raises(OperatorFault, match=f"line 8: archives.*{message}"):
            read_settings(path)


def test_replies_and_the_page_have_the_credit(project: Path, bridge: Bridge) -> None:
    assert value(bridge.call(request()), "user_total_credit") == "0.000"
    archive(project / "2026.db", {("ann-key", "c1"): 4000, ("ann-key", "other"): 2500})
    with (project / "bridge.toml").open("a") as file:
        file.write('archives = ["2026.db"]\n')
    bridge.restart()
    reply = bridge.call(request(hostid=FIRST))
    assert (value(reply, "user_total_credit"), value(reply, "host_total_credit")) == ("6.500", "4.000")
    # the user's credit in the latest reply; the host's credit by its statement, which is 5.000 in the twin
    assert shown(bridge, "status") == [str(FIRST), "9", *"11111", *"11111"]  # the last are all together
    assert shown(bridge, "users") == ["1", "6.5", "1"]


CLOSED = "SELECT authenticator, host_cpid, credit FROM closed_credit"
IN_FILE = "SELECT host_cpid, credit, host_credit FROM host JOIN host_file ON host = id"
OF_MEMBERS = (
    "SELECT authenticator, member_file.credit, member.credit FROM member JOIN member_file ON member = id"
)


def with_archives(project: Path, *names: str) -> None:
    """Has the settings name some archives."""
    lines = (project / "bridge.toml").read_text().splitlines()
    lines = [line for line in lines if not line.startswith("archives")]
    listed = ", ".join(f'"{name}"' for name in names)
    (project / "bridge.toml").write_text("\n".join([*lines, f"archives = [{listed}]", ""]))


def test_the_state_file_has_the_credit_of_archives_once(project: Path, bridge: Bridge) -> None:
    """It is that of the archives that the settings name now, also if a start was stopped or an older state
    file is restored.
    """
    bridge.call(request())
    with bridge.file.transaction() as connection:
        connection.execute("UPDATE host SET host_credit = 7000, user_credit = 9000")
        connection.execute("UPDATE host_file SET credit = 7000")
        connection.execute("UPDATE member SET credit = 9000")
        connection.execute("UPDATE member_file SET credit = 9000")
    archive(project / "1.db", {("ann-key", "c1"): 4000, ("ann-key", "other"): 2500})
    archive(project / "2.db", {("ann-key", "c1"): 30, ("bob-key", "b"): 0}, first_sent=2000)
    one = [("ann-key", "c1", 4000), ("ann-key", "other", 2500)]
    both = [("ann-key", "c1", 4030), ("ann-key", "other", 2500)]
    cases: list[tuple[list[str], list[tuple[str, str, int]], int, int]] = [
        (["1.db"], one, 3000, 2500),
        (["1.db"], one, 3000, 2500),
        (["1.db", "2.db"], both, 2970, 2470),
        (["2.db"], [("ann-key", "c1", 30)], 6970, 8970),
        ([], [], 7000, 9000),
    ]
    for names, closed, of_host, of_account in cases:
        with_archives(project, *names)
        bridge.restart()
        assert bridge.file.rows(CLOSED) == closed
        assert bridge.file.rows(IN_FILE) == [("c1", of_host, 7000)]
        assert bridge.file.rows(OF_MEMBERS) == [("ann-key", of_account, 9000)]
        assert bridge.file.row("SELECT count(*) FROM folded") == (len(names),)


def test_a_reply_has_the_credit_in_the_file_and_that_of_archives(project: Path, bridge: Bridge) -> None:
    archive(project / "1.db", {("ann-key", "c1"): 4000, ("ann-key", "other"): 2500})
    with_archives(project, "1.db")
    bridge.restart()
    bridge.call(request())
    bridge.call(request(hostid=FIRST, reports=[("u1_0", "42")], seconds=0))
    bridge.call(request(key="bob-key", cpid="b"))
    bridge.call(request(key="bob-key", cpid="b", hostid=FIRST + 1, reports=[("u1_1", "42")], seconds=0))
    reply = bridge.call(request(hostid=FIRST, seconds=0))
    assert (value(reply, "user_total_credit"), value(reply, "host_total_credit")) == ("11.500", "9.000")
    assert bridge.file.rows(f"{IN_FILE} ORDER BY id") == [("c1", 5000, 9000), ("b", 5000, 5000)]
    assert bridge.file.rows(OF_MEMBERS) == [("ann-key", 5000, 11_500), ("bob-key", 5000, 5000)]


class Stopping:
    """A connection that is stopped at one of its statements."""

    def __init__(self, connection: sqlite3.Connection, at: int) -> None:
        self.connection, self.left = connection, at

    def execute(self, statement: str, *values: Any) -> sqlite3.Cursor:
        """Runs a statement."""
        return self._run(self.connection.execute, statement, *values)

    def executemany(self, statement: str, values: Any) -> sqlite3.Cursor:
        """Runs a statement with each of some values."""
        return self._run(self.connection.executemany, statement, values)

    def _run(self, act: Callable[..., sqlite3.Cursor], statement: str, *values: Any) -> sqlite3.Cursor:
        """Runs a statement, unless it is the one at which the connection is stopped."""
        if statement != "ROLLBACK":
            self.left -= 1
            if self.left == 0:
                raise sqlite3.OperationalError("stopped")
        return act(statement, *values)

    def __getattr__(self, name: str) -> Any:
        return getattr(self.connection, name)


def test_a_fold_that_is_stopped_changes_nothing(
    project: Path, bridge: Bridge, monkeypatch: pytest.MonkeyPatch
) -> None:
    """It is stopped at each of its statements, and the next start does all of it."""
    archives, file = read_archives([archive(project / "1.db", {("ann-key", "c1"): 4000})]), bridge.file
    for at in range(1, 30):
        with monkeypatch.context() as patched:
            patched.setattr(file, "_connection", Stopping(file._connection, at))
            try:
                fold(file, archives)
            except sqlite3.OperationalError:
                pass
        closed = file.rows(CLOSED)
        if closed:
            break
        assert file.rows("SELECT * FROM folded") == []
    assert 8 < at < 29 and closed == [("ann-key", "c1", 4000)]


def test_a_deleted_account_has_no_credit_in_archives(project: Path, bridge: Bridge) -> None:
    bridge.call(request())
    archive(project / "1.db", {("ann-key", "c1"): 4000, ("bob-key", "b"): 2500})
    with_archives(project, "1.db")
    bridge.restart()
    assert len(bridge.file.rows(CLOSED)) == 2
    Barring(bridge.file).delete("ann-key", 1000)
    for _ in range(2):
        assert bridge.file.rows(CLOSED) == [("bob-key", "b", 2500)]
        assert bridge.file.rows(OF_MEMBERS) == bridge.file.rows(IN_FILE) == []
        bridge.restart()


def shown(bridge: Bridge, page: str) -> list[str]:
    """Returns the numbers in the tables of a page."""
    text = bridge.got(f"/p/{page}")[2].decode()
    return re.findall('<td class="number(?: less)?"[^>]*>(?:<a [^>]*>)?([^<]*)(?:</a>)?</td>', text)


ANN = "account_finish.php?auth=ann-key"


def test_a_new_file_in_which_another_user_has_the_number_of_a_host(
    project: Path, open_bridge: Bridge, twin: Twin
) -> None:
    open_bridge.call(request())
    archive(project / "2026.db", {("ann-key", "c1"): 4000, ("ann-key", "other"): 2500})
    text = (project / "bridge.toml").read_text()
    (project / "bridge.toml").write_text(f'archives = ["2026.db"]\n{text}')
    open_bridge.restart()
    new = Twin()
    twin.service = new.service
    new.close()
    open_bridge.call(request(key="bob-key", cpid="c2"))
    assert [host.number for host in twin.service.machine.hosts.values()] == [1]
    # Ann's host had the number 1 in the archive: it has its credit from there, and no results
    assert shown(open_bridge, ANN) == [str(FIRST), "4", *"00000"]
    assert "<dt>credit</dt><dd>6.5</dd>" in open_bridge.got(f"/p/{ANN}")[2].decode()
    assert "4" in shown(open_bridge, "status")
    open_bridge.call(request(hostid=FIRST))
    open_bridge.application.statements._accounts.clear()
    assert shown(open_bridge, ANN) == [str(FIRST), "9", *"11111"]
    # 5.000 by the statement of this host, and 6.500 of both hosts in the archive
    assert "<dt>credit</dt><dd>11.5</dd>" in open_bridge.got(f"/p/{ANN}")[2].decode()

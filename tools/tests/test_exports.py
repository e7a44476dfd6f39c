"""The files for statistics sites. Users are sums of hosts, averages are BOINC's, and nobody is named without
consent."""
import gzip
import json
import os
from pathlib import Path
from typing import Any
from xml.etree import ElementTree

import plain_tables
import pytest
from exports_read import read
from lives import life_of, stored_life
from small_project import SETTINGS, make_tables, tools

from bsched_files import atomic as files
from bsched_files.averages import average_after
from bsched_files.faults import Fault
from bsched_tools import exports
from bsched_tools.volunteers import Team

DAY = 86400


def totals(folder: Path) -> dict[str, str | None]:
    """Returns what tables.xml says."""
    return {member.tag: member.text for member in ElementTree.fromstring((folder / "tables.xml").read_text())}


def test_averages_as_worked_out() -> None:
    """10 credits on the first day, 5 a day later, then none for 7 days."""
    first = average_after(None, 0.5, 10)
    second = average_after(first, 1, 5)
    third = average_after(average_after(first, 7, 0), 0, 0)
    assert (first, round(second, 9)) == (10, 9.528618321)
    assert third == 5
    assert round(average_after(second, 7, 0), 9) == 4.764309161
    assert average_after(None, 4, 10) == 2.5
    assert average_after(10, 7, -3) == 5


def test_the_files_of_a_life(tmp_path: Path, folder: Path) -> None:
    lived = life_of(11, calls=600)
    path = stored_life(lived, tmp_path / "project.db")
    os.utime(path, (lived.now, lived.now))
    made = exports.export([path], folder, None)
    machine = lived.service.machine
    accounts = machine.rows["accounts"]
    assert (made.users, made.agreed, made.hosts) == (len(accounts), len(accounts), len(machine.hosts))
    users, hosts = read(folder, "user.gz"), read(folder, "host.gz")
    wanted = {one.name: sum(host.credit for host in one.hosts) / 1000 for one in accounts.values()}
    assert {user["name"]: float(user["total_credit"]) for user in users} == wanted
    for user in users:
        own = [host for host in hosts if host["userid"] == user["id"]]
        for column in ("total_credit", "expavg_credit"):
            assert float(user[column]) == pytest.approx(sum(float(host[column]) for host in own), abs=1e-5)
    assert read(folder, "team.gz") == []
    assert totals(folder) == {
        "update_time": str(lived.now),
        "nusers_total": str(len(users)),
        "nteams_total": "0",
        "nhosts_total": str(len(hosts)),
        "total_credit": f"{sum(wanted.values()):.3f}",
    }
    content = (folder / "user.gz").read_bytes() + (folder / "host.gz").read_bytes()
    assert all(len(user["cpid"]) == 32 for user in users) and b"user0" not in gzip.decompress(content)
    assert len({host["host_cpid"] for host in hosts}) == len(hosts)


def test_averages_over_runs(tmp_path: Path, folder: Path) -> None:
    path = make_tables(tmp_path / "project.db")

    def run(moment: int, millicredits: int, seqno: int) -> tuple[float, int, int]:
        tables = plain_tables.Tables(path, synchronous="OFF")
        tables.put([("host", (1, 1, "c1", "linux", 10**9, 10**9, 10**9, 4, 0, millicredits))])
        tables.put([("kept4", (1, 0, seqno, "{}", "{}"))])
        tables.connection.close()
        os.utime(path, (moment, moment))
        exports.export([path], folder, None)
        (host,) = read(folder, "host.gz")
        return round(float(host["expavg_credit"]), 5), int(host["create_time"]), int(host["rpc_time"])

    assert run(10 * DAY, 10_000, 1) == (10, 10 * DAY, 10 * DAY)
    assert run(11 * DAY, 15_000, 2) == (9.52862, 10 * DAY, 11 * DAY)
    assert run(11 * DAY, 15_000, 2) == (9.52862, 10 * DAY, 11 * DAY)
    assert run(11 * DAY, 25_000, 2) == (
        9.52862,
        10 * DAY,
        11 * DAY,
    )  # of the same moment, so it is left alone
    assert run(18 * DAY, 15_000, 2) == (4.76431, 10 * DAY, 11 * DAY)


def test_teams_have_the_credit_of_their_members(tmp_path: Path, folder: Path) -> None:
    path = stored_life(life_of(11, calls=600), tmp_path / "project.db")
    exports.export([path], folder, None)
    alone = {user["name"]: user for user in read(folder, "user.gz")}
    assert read(folder, "team.gz") == [] and "teamid" not in alone["User 1"]
    teams = (
        Team(3, "Sum <b>mers", 1000, "user1", frozenset({"user1", "user2"})),
        Team(7, "New", 2000, "nobody", frozenset({"nobody"})),
    )
    exports.export([path], folder, frozenset({"user1"}), teams=teams)
    (user,) = read(folder, "user.gz")
    assert (user["name"], user["teamid"]) == ("User 1", "3")
    first, second = read(folder, "team.gz")
    for column in ("total_credit", "expavg_credit"):
        both = float(alone["User 1"][column]) + float(alone["User 2"][column])
        assert float(first.pop(column)) == pytest.approx(both, abs=1e-5)
    assert first == {
        "id": "3",
        "name": "Sum <b>mers",
        "userid": user["id"],
        "expavg_time": user["expavg_time"],
        "nusers": "2",
        "create_time": "1000",
    }
    # no member of the second has an account in the tables
    assert (second["total_credit"], second["nusers"], "userid" in second) == ("0.000", "1", False)
    assert totals(folder)["nteams_total"] == "2"


def test_names_are_text(tmp_path: Path, folder: Path) -> None:
    path = tmp_path / "project.db"
    plain_tables.create(path, SETTINGS)
    tables = plain_tables.Tables(path)
    plain_tables.Service(tables).imported("accounts", "b", 'authenticator,name\nk1,"<b> & \x07""é\n"\n')
    tables.connection.close()
    exports.export([path], folder, None)
    assert [user["name"] for user in read(folder, "user.gz")] == ['<b> & \ufffd"é\n']


def test_no_half_file(tmp_path: Path, folder: Path, monkeypatch: pytest.MonkeyPatch) -> None:
    path = stored_life(life_of(11), tmp_path / "project.db")
    exports.export([path], folder, None)
    before = {one.name: one.read_bytes() for one in folder.iterdir()}
    kept = exports.state_of(folder).read_bytes()

    def full(_descriptor: int) -> None:
        raise OSError(28, "No space left on device")

    monkeypatch.setattr("bsched_files.atomic.os.fsync", full)
    with pytest.raises(Fault, match="written-averages.json: No space left on device"):
        exports.export([path], folder, frozenset())
    assert {one.name: one.read_bytes() for one in folder.iterdir()} == before
    assert exports.state_of(folder).read_bytes() == kept


def test_numbers_are_stored_before_they_are_published(
    tmp_path: Path,
    folder: Path,
    monkeypatch: pytest.MonkeyPatch,
) -> None:
    path = stored_life(life_of(11), tmp_path / "project.db")

    def full_at_the_end(path: Path, *args: Any) -> None:
        if path.name == "tables.xml":
            raise Fault("tables.xml: No space left on device")
        files.replace_file(path, *args)

    monkeypatch.setattr(exports, "replace_file", full_at_the_end)
    with pytest.raises(Fault, match="tables.xml"):
        exports.export([path], folder, None)
    published = read(folder, "user.gz"), read(folder, "host.gz")
    monkeypatch.undo()
    exports.export([path], folder, None)
    assert (read(folder, "user.gz"), read(folder, "host.gz")) == published


def test_what_is_kept(tmp_path: Path, folder: Path) -> None:
    path = stored_life(life_of(11), tmp_path / "project.db")
    exports.export([path], folder, None)
    kept = exports.state_of(folder)
    assert kept.stat().st_mode & 0o777 == 0o600 and "user1" not in kept.read_text()
    other = json.dumps({"format": 1, "salt": "", "users": {}, "hosts": [1]})
    for text in ("", "{}", json.dumps({"format": 2}), other):
        kept.write_text(text)
        with pytest.raises(Fault, match="move it away, or restore a copy"):
            exports.export([path], folder, None)


def test_the_command_line(tmp_path: Path, folder: Path) -> None:
    path = make_tables(tmp_path / "project.db")
    status, output, fault = tools("statistics", "--tables", path, "--to", folder)
    assert (status, fault) == (0, "")
    assert output == f"{folder}: 4 users, 0 of them named, and 0 computers\n"
    assert tools("statistics", "--tables", path, "--to", folder, "--everybody", "--agreed", "x")[0] == 64
    assert tools("statistics", "--tables", path, "--to", folder / "none")[0] == 1

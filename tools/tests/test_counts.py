"""Counts agree with the plain scheduler."""
import json
import os
import re
from collections.abc import Callable
from pathlib import Path

import plain_tables
import pytest
from hypothesis import given, settings, strategies
from lives import Stored, life_of, stored_life
from small_project import Twin, made_anew, make_tables, rows_of, tools

from bsched_tools import counts
from bsched_tools.copies import copying

STATUSES = {
    "open": "open",
    "done": "done",
    "errors": "failed by errors",
    "success": "failed by successes",
    "total": "failed by the total",
}
LATELY = ("hosts with a job of the last day", "users with a job of the last day")
SAMPLE = re.compile(r'bsched_[a-z_]+(\{[a-z]+="[a-z_]+"\})? [0-9.]+')


@settings(max_examples=8, database=None)
@given(seed=strategies.integers(0, 2**32))
def test_counts_are_those_of_the_plain_scheduler(tmp_path_factory: pytest.TempPathFactory, seed: int) -> None:
    lived = life_of(seed)
    path = stored_life(lived, tmp_path_factory.mktemp("life") / "project.db")
    os.utime(path, (lived.now, lived.now))
    machine = lived.service.machine
    counted = counts.counted([path])
    units = machine.places
    every = [one for unit in units for one in unit.instances]
    held = [one for one in every if one.held()]
    assert counted.moment == lived.now
    assert counted.workunits == {
        name: sum(unit.status == status for unit in units) for status, name in STATUSES.items()
    }
    assert counted.instances == {
        "all": len(every),
        "waiting": sum(one.unit.status == "open" and one.host is None for one in every),
        "held": len(held),
        "late": sum((one.deadline or 0) < lived.now for one in held),
        "reported": sum(one.exit_status is not None for one in every),
        "lapsed": sum(one.lapse is not None and one.exit_status is None for one in every),
    }
    lately = {one.host for one in every if one.host is not None and (one.sent or 0) >= lived.now - 86400}
    assert counted.people == {
        "hosts": len(machine.hosts),
        "users": len(machine.rows["accounts"]),
        "hosts with a job of the last day": len(lately),
        "users with a job of the last day": len({host.account for host in lately}),
    }
    assert counted.millicredits == sum(host.credit for host in machine.hosts.values())
    limits = {name: (limit.used, limit.most) for name, limit in counted.limits.items()}
    assert limits == {
        "accounts": (len(machine.rows["accounts"]), 10_000),
        "apps": (3, 100),
        "versions": (8, 1_000),
        "workunits": (len(units), 200_000),
        "hosts": (len(machine.hosts), 100),
    }


def test_who_called_in_the_last_day(project: Path, twin: Twin, copies: Path) -> None:
    twin.call(1, 1)
    twin.call(2, 1)
    older = copying.copy_tables(project, copies).path
    os.rename(older, copies / "project-20200101T000000.000Z.db")
    twin.call(2, 2)
    twin.call(3, 1)
    twin.call(3, 1, host="other")
    copying.copy_tables(project, copies)
    people = counts.counted([copies]).people
    assert people["hosts that called in the last day"] == 3
    assert people["users that called in the last day"] == 2
    assert people["hosts"] == 4


def of_an_older_schema(path: Path, project: Path) -> None:
    plain_tables.make_former(str(path), str(project))


def spoiled(path: Path, project: Path) -> None:
    path.write_bytes(project.read_bytes()[:4096] + b"\xa5" * 8192)


@pytest.mark.parametrize("make", [of_an_older_schema, spoiled])
def test_who_called_is_unknown_if_the_older_copy_is_no_help(
    project: Path,
    copies: Path,
    tmp_path: Path,
    make: Callable[[Path, Path], None],
) -> None:
    make(copies / "project-20200101T000000.000Z.db", project)
    copying.copy_tables(project, copies)
    status, output, fault = tools("counts", "--tables", copies)
    assert (status, fault) == (0, "")
    (unknown,) = [line for line in output.splitlines() if "called in the last day" in line]
    assert re.search(r" unknown: \S*20200101\S* is of another schema, or can't be read$", unknown)
    status, output, _ = tools("counts", "--tables", copies, "--json")
    assert status == 0 and set(json.loads(output)["people"]) == {"hosts", "users", *LATELY}
    status, output, _ = tools("counts", "--tables", copies, "--prometheus")
    assert status == 0 and "bsched_people" in output and "called" not in output
    page = tmp_path / "page"
    page.mkdir()
    assert tools("report", "--tables", copies, "--to", page)[0] == 0
    assert "called in the last day is unknown" in (page / "index.html").read_text()


def test_who_called_is_unknown_without_an_older_copy(project: Path, copies: Path) -> None:
    copying.copy_tables(project, copies)
    output = tools("counts", "--tables", copies)[1]
    (unknown,) = [line for line in output.splitlines() if "called in the last day" in line]
    assert re.search(r" unknown: no copy in the folder of \S*/project-\S* is a day older$", unknown)


def test_several_files_have_each_user_and_host_once(tmp_path: Path) -> None:
    stored = Stored(tmp_path / "1.db")
    stored.answer(life_of(5).lines)
    second = tmp_path / "2.db"
    made_anew(stored.copy(second))
    first = stored.close()
    alone, both = counts.counted([first]), counts.counted([first, second])
    assert both.people == alone.people
    assert both.millicredits == 2 * alone.millicredits
    assert both.workunits["done"] == 2 * alone.workunits["done"]
    assert both.limits == alone.limits


def test_the_forms(tmp_path: Path) -> None:
    path = make_tables(tmp_path / "project.db")
    status, output, fault = tools("counts", "--tables", path, "--json")
    assert (status, fault) == (0, "")
    fields = json.loads(output)
    assert fields["schema"] == 3 and fields["instances"]["waiting"] == 40
    assert fields["limits"]["workunits"] == {"used": 20, "most": 200_000}
    status, output, _ = tools("counts", "--tables", path, "--prometheus")
    lines = output.splitlines()
    assert status == 0 and 'bsched_workunits{status="open"} 20' in lines
    assert all(line.startswith("# ") or SAMPLE.fullmatch(line) for line in lines)
    status, output, _ = tools("counts", "--tables", path)
    assert status == 0 and re.search(r"^workunits used +20 of 200000 \(0 %\)$", output, re.MULTILINE)
    assert tools("counts", "--tables", path, "--json", "--prometheus")[0] == 64


def test_nothing_in_the_tables_changes(tmp_path: Path) -> None:
    path = make_tables(tmp_path / "project.db")
    before = path.read_bytes()
    assert tools("counts", "--tables", path)[0] == 0
    assert path.read_bytes() == before and [one.name for one in tmp_path.iterdir()] == ["project.db"]
    assert rows_of(path, "SELECT count(*) FROM unit") == [(20,)]

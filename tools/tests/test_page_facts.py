"""What the page says of the tables."""
import json
from pathlib import Path
from typing import Any

import plain_tables
from pages_made import DONE, called, lived_in_parts, reported
from small_project import LIMITS, WORKUNITS, make_tables, request


def test_hosts_with_errors(tmp_path: Path, folder: Path) -> None:
    lived, _, read = lived_in_parts(tmp_path, folder)
    wanted: dict[str, list[int]] = {}
    for unit in lived.service.machine.places:
        for one in unit.instances:
            if one.host is not None:
                counted_of = wanted.setdefault(str(one.host.number), [0, 0, 0])
                counted_of[0] += one.exit_status not in (None, 0)
                counted_of[1] += one.verdict is False
                counted_of[2] += one.lapse == "late"
    rows = {row[0]: [int(cell) for cell in row[2:5]] for row in read.rows(("host", "user", "errors"))}
    failed = [host for host in wanted if sum(wanted[host])]
    worst = sorted(failed, key=lambda host: (-sum(wanted[host]), int(host)))
    assert rows == {host: wanted[host] for host in worst[:20]} and list(rows) == worst[:20]


def test_turnaround_is_at_most_what_is_printed(tmp_path: Path, folder: Path) -> None:
    path = tmp_path / "project.db"
    make_tables(path, units=4)

    def run(now: int, call: bytes) -> Any:
        called(path, now, call)
        reported(path, folder, now + 60)
        return json.loads((folder / "history.jsonl").read_text().splitlines()[-1])["turnaround"]

    assert sum(run(10_000, request(1, 1, work_req_seconds=1))) == 0
    assert run(13_000, request(1, 2, results=DONE)) == [1, 0, 0, 0, 0, 0, 0]  # after at most 3,060 seconds
    assert sum(run(13_200, request(1, 3))) == 0


def test_marked_workunits_that_wait_for_good(tmp_path: Path, folder: Path) -> None:
    path = make_tables(tmp_path / "project.db")
    tables = plain_tables.Tables(path)
    service = plain_tables.Service(tables)
    service.imported("workunits", "b2", f"{WORKUNITS},marked\nm1,dock,{LIMITS},1\nm2,dock,{LIMITS},1\n")
    units = [row[0] for row in tables.connection.execute("SELECT id FROM unit WHERE name = 'm1'")]
    tables.put([("unit_mark", (units[0], 1, "old"))])
    tables.connection.close()
    read = reported(path, folder)
    assert read.rows(("class", "open workunits")) == [["none yet", "1", "2"], ["old", "1", "2"]]
    assert read.rows(("workunit", "class")) == [["m1", "old"]]

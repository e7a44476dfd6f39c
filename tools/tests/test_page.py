"""The page says what the tables have."""
from pathlib import Path

import plain_tables
import pytest
from pages_made import lived_in_parts, reported
from small_project import LIMITS, SETTINGS, WORKUNITS, make_tables, request, tools

from bsched_files.faults import Fault
from bsched_tools import page
from bsched_tools.counts import counted


def test_the_page_has_the_counts(tmp_path: Path, folder: Path) -> None:
    lived, copy, read = lived_in_parts(tmp_path, folder)
    counts = counted([copy])
    rows = {row[0]: int(row[1]) for row in read.rows(("what", "number"))}
    assert rows["workunits done"] == counts.workunits["done"] > 0
    assert rows["instances waiting"] == counts.instances["waiting"]
    assert rows["hosts"] == len(lived.service.machine.hosts)
    users = {row[0]: row[1] for row in read.rows(("user", "credit", "hosts"))}
    accounts = lived.service.machine.rows["accounts"].values()
    wanted = {one.name: sum(host.credit for host in one.hosts) for one in accounts if one.hosts}
    assert users == {name: f"{credit // 1000}.{credit % 1000:03}" for name, credit in wanted.items()}


def test_a_narrow_screen_breaks_no_word_of_a_table(tmp_path: Path, folder: Path) -> None:
    """A table that is too wide is moved within its box. Only a word that is wider than a cell is broken."""
    lived_in_parts(tmp_path, folder, 1)
    page = (folder / "index.html").read_text()
    style = page.partition("<style>")[2].partition("</style>")[0]
    assert "overflow-wrap: anywhere" not in style and "overflow-wrap: break-word" in style
    assert page.count('<div class="wide"><table>') == page.count("<table>") > 0


def test_names_are_text(tmp_path: Path, folder: Path) -> None:
    path = tmp_path / "project.db"
    plain_tables.create(path, SETTINGS)
    tables = plain_tables.Tables(path)
    service = plain_tables.Service(tables)
    name = "<script>alert(1)</script> & $x^2$ \x07 \u202e"
    service.imported("accounts", "b", f'authenticator,name\nk1,"{name}"\n')
    service.imported("apps", "b", "name,agreement\ndock,exact\n")
    service.imported("versions", "b", "app,platform,version_num\ndock,linux,1\n")
    service.imported("workunits", "b", f"{WORKUNITS}\nw1,dock,1,1,{LIMITS.partition(',2,')[2]}\n")
    service.scheduler(request(1, 1, work_req_seconds=1), 1000)
    service.scheduler(request(1, 2, results=[{"name": "w1_0", "exit_status": 0, "output": "1"}]), 1001)
    tables.connection.close()
    read = reported(path, folder)
    assert "script" not in [tag for tag, _ in read.tags]
    assert read.rows(("user", "credit"))[0][0] == name.replace("\x07", "\ufffd")


def test_no_half_page(tmp_path: Path, folder: Path, monkeypatch: pytest.MonkeyPatch) -> None:
    path = make_tables(tmp_path / "project.db")
    reported(path, folder)
    before = (folder / "index.html").read_bytes()

    def full(*_args: object) -> None:
        raise Fault("index.html: No space left on device")

    monkeypatch.setattr(page, "replace_file", full)
    with pytest.raises(Fault, match="No space"):
        reported(path, folder)
    assert (folder / "index.html").read_bytes() == before


def test_the_command_line(tmp_path: Path, folder: Path) -> None:
    path = make_tables(tmp_path / "project.db")
    assert tools("report", "--tables", path, "--to", folder) == (0, f"{folder}/index.html\n", "")
    assert tools("report", "--tables", path, "--to", folder / "none")[0] == 1
    assert tools("report", "--tables", path)[0] == 64

"""Results agree with the plain scheduler. With a cursor each result comes once."""
import csv
import io
import json
import sqlite3
from pathlib import Path

import pytest
from hypothesis import given, settings, strategies
from lives import Stored, decided_by, life_of, stored_life
from results_read import lines_of, rows_of
from small_project import TOOLS, WORKUNITS, made_anew, tools
from small_project import rows_of as stored_rows

from bsched_files import tables, workunits
from bsched_files.faults import Fault
from bsched_files.tables import opened
from bsched_files.texts import csv_text
from bsched_tools import results
from bsched_tools.cursors import Cursor, cursor_at, former_mark

NOW, NEXT = "1970-01-01T00:16:40Z", "\n"
REASONS = {"errors": "errors", "success": "successes", "total": "total"}


def verdicts_of(unit: workunits.Workunit) -> dict[str, bool | None]:
    """Returns the verdict of each result of a workunit."""
    return {one.name: one.is_valid for one in unit.results}


@settings(max_examples=10, database=None)
@given(seed=strategies.integers(0, 2**32))
def test_results_are_those_of_the_plain_scheduler(
    tmp_path_factory: pytest.TempPathFactory,
    seed: int,
) -> None:
    lived = life_of(seed)
    path = stored_life(lived, tmp_path_factory.mktemp("life") / "project.db")
    with tables.opened(path) as opened:
        printed = [
            (unit.name, unit.reason, unit.canonical, unit.output, verdicts_of(unit))
            for unit in workunits.decided(opened)
        ]
    wanted = [(name, reason and REASONS[reason], *more) for name, reason, *more in decided_by(lived)]
    assert printed == wanted
    assert wanted  # a life in which nothing was decided would show nothing


def test_both_forms_have_the_hosts_users_and_credits_of_the_plain_scheduler(tmp_path: Path) -> None:
    lived = life_of(7, calls=600)
    path = stored_life(lived, tmp_path / "project.db")
    machine = lived.service.machine
    units = machine.rows["workunits"]
    wanted = {
        one.name(): (unit.app, unit.credit, one.host.number, one.host.account.name, one.verdict)
        for unit in units.values()
        for one in unit.instances
        if one.host is not None and one.verdict is not None
    }
    rows = [row for row in rows_of(path) if row["status"] == "done"]
    assert wanted == {
        row["result"]: (
            row["app"],
            int(row["millicredits"]),
            int(row["host"]),
            row["user"],
            row["verdict"] == "valid",
        )
        for row in rows
    }
    assert wanted == {
        one["result"]: (line["app"], line["millicredits"], one["host"], one["user"], verdict == "valid")
        for line in lines_of(path)
        if line["status"] == "done"
        for verdict in ("valid", "invalid")
        for one in line[verdict]
    }
    assert {False, True} == {row["verdict"] == "valid" for row in rows}


@settings(max_examples=6, database=None)
@given(seed=strategies.integers(0, 2**32), parts=strategies.integers(2, 12))
def test_with_a_cursor_each_result_comes_once(
    tmp_path_factory: pytest.TempPathFactory,
    seed: int,
    parts: int,
) -> None:
    folder = tmp_path_factory.mktemp("cursor")
    lived = life_of(seed)
    stored, cursor = Stored(folder / "project.db"), folder / "cursor"
    came: list[dict[str, str]] = []
    size = len(lived.lines) // parts + 1
    for part in range(parts):
        stored.answer(lived.lines[part * size :][:size])
        copy = stored.copy(folder / f"{part}.db")
        came += rows_of(copy, cursor=cursor)
        assert rows_of(copy, cursor=cursor) == []
    stored.close()
    wanted = rows_of(copy)
    assert len(came) == len(wanted) > 0

    def without_late(rows: list[dict[str, str]]) -> list[tuple[str, ...]]:
        return sorted(tuple(value for name, value in row.items() if name != "late") for row in rows)

    assert without_late(came) == without_late(wanted)
    first = [row["workunit"] for row in came if row["late"] == "0"]
    assert set(first) == {row["workunit"] for row in wanted}


def test_a_result_that_comes_late_is_marked(tmp_path: Path) -> None:
    stored = Stored(tmp_path / "project.db")

    def call(host: str, seqno: int, *reports: tuple[str, str]) -> None:
        fields = {
            "authenticator": host,
            "rpc_seqno": seqno,
            "platform_name": "x",
            "work_req_seconds": 1,
            "host_info": {"host_cpid": "c", "p_fpops": 1, "m_nbytes": 1, "d_free": 1},
            "results": [{"name": name, "exit_status": 0, "output": output} for name, output in reports],
        }
        answers.extend(stored.answer([f"{NOW} scheduler {json.dumps(fields)}".encode()]))

    answers = stored.answer(
        f"{NOW} {line}".encode()
        for line in (
            "account k1",
            "account k2",
            "account k3",
            f"import/apps/b {json.dumps('name,agreement' + NEXT + 'a,exact')}",
            f"import/versions/b {json.dumps('app,platform,version_num' + NEXT + 'a,x,1')}",
            f"import/workunits/b {json.dumps(WORKUNITS + NEXT + 'w,a,2,3,3,5,5,100,1,0,0,5000')}",
        )
    )
    for host in ("k1", "k2", "k3"):
        call(host, 1)
    call("k1", 2, ("w_0", "42"))
    call("k2", 2, ("w_1", "42"))
    assert {status for status, _ in answers} == {200}
    cursor = tmp_path / "cursor"
    first = rows_of(stored.copy(tmp_path / "1.db"), cursor=cursor)
    wanted = [("w_0", "valid", "0"), ("w_1", "valid", "0")]
    assert [(row["result"], row["verdict"], row["late"]) for row in first] == wanted
    assert rows_of(stored.copy(tmp_path / "2.db"), cursor=cursor) == []
    call("k3", 2, ("w_2", "7"))
    (line,) = lines_of(stored.copy(tmp_path / "3.db"), cursor=cursor)
    stored.close()
    assert {status for status, _ in answers} == {200}
    assert line == {
        "workunit": "w",
        "app": "a",
        "late": True,
        "status": "done",
        "millicredits": 5000,
        "canonical": "w_0",
        "output": "42",
        "valid": [],
        "invalid": [{"result": "w_2", "host": 3, "user": "k3"}],
    }


def test_the_worked_example_of_a_quorum() -> None:
    """One of three disagrees: the outputs are 10, 13 and 12, and must agree within 2."""
    good = [
        workunits.Instance(f"w_{number}", number, "u", 1, output, number + 1)
        for number, output in enumerate(("10", "13", "12"))
    ]
    best = workunits.canonical_of(2, 3, good)
    assert best is good[0]
    assert [workunits.agree(2, "10", one.text) for one in good] == [True, False, True]


@pytest.mark.parametrize(
    "agreement, one, other, wanted",
    [
        (None, "1", "1", True),
        (None, "1", "2", False),
        (0, "1", "1.0", False),
        (1, "1", "2", True),
        (1, "1", "3", False),
        (5, "-2", "3", True),
        (5, "01", "1", False),
        (5, "-0", "0", False),
        (5, "", "", True),
        (5, "x", "x", True),
        (9, "1" + "0" * 18, "1" + "0" * 17 + "1", False),
    ],
)
def test_outputs_that_agree(agreement: int | None, one: str, other: str, wanted: bool) -> None:
    assert workunits.agree(agreement, one, other) is wanted


@pytest.mark.parametrize("seed", [5, 6, 7])
def test_the_query_of_the_profile(tmp_path: Path, seed: int) -> None:
    """docs/PROFILE.md has a query for the workunits whose outputs must be equal."""
    path = stored_life(life_of(seed), tmp_path / "project.db")
    page = (TOOLS.parent / "docs" / "PROFILE.md").read_text()
    query = page.partition("-- the canonical result of each workunit that is done")[2].partition(";")[0]
    selected = [tuple(row[:3]) for row in stored_rows(path, query.partition("\n")[2])]
    lines = [line for line in lines_of(path) if line["status"] == "done" and line["app"] != "fold"]
    assert selected == [(line["workunit"], line["canonical"], line["output"]) for line in lines]
    assert len(selected) > 4


def test_after_a_workunit(tmp_path: Path) -> None:
    path = stored_life(life_of(3), tmp_path / "project.db")
    names = list(dict.fromkeys(row["workunit"] for row in rows_of(path)))
    after = list(dict.fromkeys(row["workunit"] for row in rows_of(path, after=names[4])))
    assert after == names[5:]
    with pytest.raises(Fault, match="the workunit nobody of --after is in no file"):
        rows_of(path, after="nobody")


def test_several_files(tmp_path: Path) -> None:
    first = stored_life(life_of(3), tmp_path / "2025.db")
    second = stored_life(life_of(4), tmp_path / "2026.db")
    alone = rows_of(first) + rows_of(second)
    assert rows_of(first, second) == alone
    cursor = tmp_path / "cursor"
    assert rows_of(first, second, cursor=cursor) == alone
    assert rows_of(second, first, cursor=cursor) == []


@pytest.mark.parametrize("kind", ["file", "link", "copy"])
@pytest.mark.parametrize("order", ["results", "counts", "statistics"])
def test_tables_that_are_named_twice_are_refused(tmp_path: Path, kind: str, order: str) -> None:
    first = stored_life(life_of(3), tmp_path / "2025.db")
    second = {"file": first, "link": tmp_path / "link.db", "copy": tmp_path / "copy.db"}[kind]
    if kind == "link":
        second.symlink_to(first)
    if kind == "copy":
        second.write_bytes(first.read_bytes())
    (tmp_path / "out").mkdir()
    target = ["--to", tmp_path / "out", "--everybody"] if order == "statistics" else []
    status, output, fault = tools(order, "--tables", first, second, *target)
    assert (status, output) == (1, "")
    assert fault == f"bsched-tools: {second}: it has the same tables as {first}: name one of them\n"


def test_a_cursor_swallows_no_results_of_a_project_that_is_made_anew(tmp_path: Path) -> None:
    first = stored_life(life_of(3), tmp_path / "2025.db")
    cursor = tmp_path / "cursor"
    alone = rows_of(first, cursor=cursor)
    second = tmp_path / "2026.db"
    second.write_bytes(first.read_bytes())
    assert rows_of(second, cursor=cursor) == []  # a copy of the same project
    assert rows_of(made_anew(second), cursor=cursor) == alone != []
    assert rows_of(first, cursor=cursor) == [] == rows_of(second, cursor=cursor)


def test_another_operators_key_keeps_the_cursor(tmp_path: Path) -> None:
    path = stored_life(life_of(3), tmp_path / "project.db")
    cursor = tmp_path / "cursor"
    assert rows_of(path, cursor=cursor) != []
    connection = sqlite3.connect(path)
    connection.execute("UPDATE setting SET value = 'another-key' WHERE name = 'operator_key'")
    connection.commit()
    connection.close()
    assert rows_of(path, cursor=cursor) == []


def test_a_cursor_of_format_1_is_kept(tmp_path: Path) -> None:
    path = stored_life(life_of(3), tmp_path / "project.db")
    cursor = tmp_path / "cursor"
    assert rows_of(path, cursor=cursor) != []
    fields = json.loads(cursor.read_text())
    with opened(path) as tables:
        former = {former_mark(tables): entry for entry in fields["given"].values()}
    other = stored_life(life_of(4), tmp_path / "other.db")
    cursor.write_text(json.dumps({"format": 1, "given": former}))
    assert rows_of(other, cursor=cursor) != []  # what is not used yet stays
    assert rows_of(path, cursor=cursor) == []
    copy = tmp_path / "copy.db"
    copy.write_bytes(path.read_bytes())
    assert rows_of(made_anew(copy), cursor=cursor) != []  # it counts for one project only


def test_one_run_at_a_time_has_a_cursor(tmp_path: Path) -> None:
    path = stored_life(life_of(3), tmp_path / "project.db")
    cursor = tmp_path / "cursor"
    with cursor_at(cursor):
        with pytest.raises(Fault, match="another run has this cursor"):
            rows_of(path, cursor=cursor)
        assert tools("results", "--tables", path, "--cursor", cursor)[0] == 1
    assert rows_of(path, cursor=cursor) != []


def test_a_cursor_is_written_only_after_the_output(tmp_path: Path) -> None:
    path = stored_life(life_of(3), tmp_path / "project.db")
    cursor = tmp_path / "cursor"

    class Full(io.StringIO):
        def flush(self) -> None:
            raise OSError(28, "No space left on device")

    with pytest.raises(OSError, match="No space"):
        results.write_results([path], cursor=cursor, file=Full())
    assert not cursor.exists()
    assert rows_of(path, cursor=cursor) == rows_of(path)


def test_a_new_file_is_whole_and_is_never_written_over(tmp_path: Path) -> None:
    path = stored_life(life_of(3), tmp_path / "project.db")
    cursor, target = tmp_path / "cursor", tmp_path / "new"
    results.write_results([path], as_lines=True, cursor=cursor, target=target)
    lines = [json.loads(line) for line in target.read_text().splitlines()]
    assert lines == lines_of(path)
    before = cursor.read_text()
    with pytest.raises(Fault, match="new: it exists: process what it has, and remove it"):
        results.write_results([path], cursor=cursor, target=target)
    assert cursor.read_text() == before
    target.unlink()
    results.write_results([path], as_lines=True, cursor=cursor, target=target)
    assert target.read_text() == ""


def test_a_stop_before_the_cursor_is_written(tmp_path: Path, monkeypatch: pytest.MonkeyPatch) -> None:
    """After such a stop the new results come again."""
    path = stored_life(life_of(3), tmp_path / "project.db")
    cursor, target = tmp_path / "cursor", tmp_path / "new"

    def stopped(_cursor: Cursor) -> None:
        raise KeyboardInterrupt

    monkeypatch.setattr(Cursor, "write", stopped)
    with pytest.raises(KeyboardInterrupt):
        results.write_results([path], cursor=cursor, target=target)
    first = target.read_text()
    target.unlink()
    monkeypatch.undo()
    results.write_results([path], cursor=cursor, target=target)
    assert target.read_text() == first and len(first) > 100


def test_what_is_no_cursor(tmp_path: Path) -> None:
    path = stored_life(life_of(3, calls=50), tmp_path / "project.db")
    cursor = tmp_path / "cursor"
    for text in ("", "[]", "{}", '{"format": 3, "given": {}}', '{"format": 1, "given": {"x": 1}}'):
        cursor.write_text(text)
        with pytest.raises(Fault, match="it is not a cursor"):
            rows_of(path, cursor=cursor)
        assert cursor.read_text() == text


def test_the_command_line(tmp_path: Path) -> None:
    path = stored_life(life_of(3), tmp_path / "project.db")
    status, output, fault = tools("results", "--tables", path)
    assert (status, fault) == (0, "")
    assert list(csv.DictReader(io.StringIO(output))) == rows_of(path)
    status, output, fault = tools("results", "--tables", path, "--json", "--cursor", tmp_path / "cursor")
    assert (status, fault) == (0, "") and len(output.splitlines()) == len(lines_of(path))
    status, output, message = tools("results", "--tables", path, "--json", "--cursor", tmp_path / "cursor")
    decided = len(lines_of(path))
    assert (status, output) == (0, "") and message == (
        f"bsched-tools: nothing is new: {tmp_path / 'cursor'} says that the results of all {decided} decided "
        "workunits were given out before\n"
    )
    assert tools("results", "--tables", path, "--cursor", "x", "--after", "y")[0] == 64
    assert tools("results")[0] == 64


def test_a_field_with_a_carriage_return_is_quoted() -> None:
    """Many readers end a row there."""
    rows: list[list[object]] = [["w1", "5\r6"], ["w2", "5\r\n6"], ["w3", 'a "b", c'], ["", 7]]
    text = csv_text(rows)
    assert text == 'w1,"5\r6"\nw2,"5\r\n6"\nw3,"a ""b"", c"\n,7\n'
    read = list(csv.reader(io.StringIO(text, newline="")))
    assert read == [[str(value) for value in row] for row in rows]

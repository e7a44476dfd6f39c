"""Files that are imported: how they are sent, and what is refused."""
import os
import re
import socket
from pathlib import Path

import pytest
from made_project import SETTINGS, TWIN, MadeProject
from served import free_port
from small_project import LIMITS, WORKUNITS, rows_of
from work_project import WorkProject
from work_tried import is_refused, run_here, units

from bsched_tools import imports, project_access, projects
from bsched_tools.import_files import read_import


# ---- Mistakes: each gets one clear line, and changes nothing


def test_a_scheduler_that_gives_no_answer(
    work: WorkProject, monkeypatch: pytest.MonkeyPatch, capsys: pytest.CaptureFixture[str]
) -> None:
    work.make_inputs(1)
    work.end()
    before = work.state()
    monkeypatch.setattr(project_access, "ASK_SECONDS", 0.3)
    words = "submit", "--project", f"{work.folder}/", "--app", "count", "--batch", "run", work.inputs
    with socket.create_server(("127.0.0.1", work.port)):
        is_refused(
            work, run_here(capsys, *words), "the scheduler gives no answer: see `bsched-tools health", before
        )
    monkeypatch.setattr(projects, "PROGRAM", work.folder / "none")
    is_refused(work, run_here(capsys, *words), "no scheduler answers on port", before)


def test_a_scheduler_at_another_port(work: WorkProject) -> None:
    work.make_inputs(1)
    (work.folder / "environment").write_text(f"PORT={free_port()}\nBRIDGE_PORT={free_port()}\n")
    before = work.state()
    is_refused(work, work.submit(work.inputs), "but a program has the tables: correct PORT", before)


def test_a_wrong_key(work: WorkProject) -> None:
    work.make_inputs(1)
    (work.folder / "settings.toml").write_text(SETTINGS.replace("change-this-key", "another-key"))
    before = work.state()
    is_refused(
        work, work.submit(work.inputs), "refuses this operator_key: is it that of another project", before
    )
    is_refused(work, work.app("--platform", "x"), "refuses this operator_key", before)


def test_a_stopped_project_imports_by_the_program(
    work: WorkProject, monkeypatch: pytest.MonkeyPatch, capsys: pytest.CaptureFixture[str]
) -> None:
    from bsched_tools import imports

    work.end()
    work.make_inputs(3)
    monkeypatch.setattr(imports, "PROGRAM", TWIN)
    monkeypatch.setattr(projects, "PROGRAM", TWIN)
    words = "submit", "--project", f"{work.folder}/", "--app", "count", "--batch", "run", work.inputs
    assert "imported   3 workunits" in run_here(capsys, *words)[1]
    assert len(units(work)) == 3


def workunits(path: Path, names: list[str], app: str = "dock") -> Path:
    """Writes a file of workunits."""
    path.write_text(f"{WORKUNITS}\n" + "".join(f"{name},{app},{LIMITS}\n" for name in names))
    return path


def count_of(made_project: MadeProject, table: str) -> int:
    """Returns how many rows a table has."""
    return int(rows_of(made_project.folder / "project.db", f"SELECT count(*) FROM {table}")[0][0])


# ---- Imports


def test_an_import_while_it_serves(made_project: MadeProject, tmp_path: Path) -> None:
    made_project.serve()
    more = workunits(tmp_path / "more.csv", ["x1", "x2"])
    apps = tmp_path / "apps.csv"
    apps.write_text("name,agreement\nsum,exact\n")
    status, output, fault = made_project.tools("import", more, apps)
    assert (status, fault) == (0, "")
    lines = output.splitlines()
    assert re.fullmatch(rf"{apps}: 1 rows of apps, as the batch apps-[0-9a-f]{{16}}", lines[0])
    assert re.fullmatch(rf"{more}: 2 rows of workunits, as the batch more-[0-9a-f]{{16}}", lines[1])
    assert made_project.tools("import", more, apps) == (0, output, "")  # the same batches add nothing
    made_project.end()
    assert (count_of(made_project, "unit"), count_of(made_project, "app")) == (22, 3)


def test_an_import_by_the_program(
    made_project: MadeProject, tmp_path: Path, monkeypatch: pytest.MonkeyPatch
) -> None:
    monkeypatch.setattr(imports, "PROGRAM", TWIN)
    path = workunits(tmp_path / "more.csv", ["x1"])
    file = read_import(path, path.read_bytes())
    assert not isinstance(file, str)
    lines = list(imports.import_file(projects.Project(made_project.folder), file))
    assert len(lines) == 1 and count_of(made_project, "unit") == 21


SHOWN_MODE = """#!/bin/sh
while [ "$1" != --file ]; do shift; done
printf '{"rows": 1, "mode": "%s", "head": "%s"}' "$(stat -c %a "$2")" "$(head -n 1 "$2")"
"""


@pytest.mark.parametrize("owner", [None, 65534])
def test_nobody_else_can_read_a_file_that_the_program_imports(
    made_project: MadeProject, tmp_path: Path, monkeypatch: pytest.MonkeyPatch, owner: int | None
) -> None:
    """A file of accounts has keys. As root the program runs as the user who has the project."""
    program = tmp_path / "program"
    program.write_text(SHOWN_MODE)
    program.chmod(0o755)
    if owner is not None:
        if os.geteuid() != 0:
            pytest.skip("only root can become another user")
        for folder in (tmp_path, *tmp_path.parents[:2]):
            folder.chmod(0o755)
        os.chown(made_project.folder, owner, owner)
    monkeypatch.setattr(imports, "PROGRAM", program)
    batch = imports.Batch("b", b"authenticator,name\nk,Ann\n", [])
    answer = imports.Sender(projects.Project(made_project.folder)).by_program("accounts", batch)
    assert answer == {"rows": 1, "mode": "600", "head": "authenticator,name"}


@pytest.mark.parametrize(
    "names, app, wanted",
    [
        (["x", "w3"], "dock", "line 3: w3 exists already: choose another name"),
        (["x", "y"], "none", "line 2: there is no application none: import it first"),
    ],
)
def test_what_bsched_refuses(
    made_project: MadeProject, tmp_path: Path, names: list[str], app: str, wanted: str
) -> None:
    made_project.serve()
    path = workunits(tmp_path / "more.csv", names, app)
    status, output, fault = made_project.tools("import", path)
    assert (status, output, fault) == (1, "", f"bsched-tools: {path}: {wanted}\n")


def test_a_name_with_a_carriage_return_is_imported(made_project: MadeProject, tmp_path: Path) -> None:
    made_project.serve()
    path = tmp_path / "accounts.csv"
    path.write_bytes(b'authenticator,name\nodd-key,"A\rB"\n')
    assert made_project.tools("import", path)[0] == 0
    made_project.end()
    query = "SELECT name FROM account WHERE auth = 'odd-key'"
    assert rows_of(made_project.folder / "project.db", query) == [("A\rB",)]


def test_a_faulty_file_imports_nothing(made_project: MadeProject, tmp_path: Path) -> None:
    made_project.serve()
    good, bad = workunits(tmp_path / "good.csv", ["x"]), workunits(tmp_path / "bad.csv", ["a b"])
    status, output, fault = made_project.tools("import", good, bad)
    assert (status, fault) == (1, "") and output.startswith(f"{bad}: line 2: name is 'a b'")
    header = tmp_path / "header.csv"
    header.write_text("authenticator,name\n")
    assert made_project.tools("import", header) == (
        0,
        f"{header}: it has no rows, so nothing is imported\n",
        "",
    )
    made_project.end()
    assert count_of(made_project, "unit") == 20 and count_of(made_project, "batch") == 4


def test_a_large_file_is_split(made_project: MadeProject, tmp_path: Path) -> None:
    made_project.serve()
    names = [f"{'n' * 50}{number}" for number in range(6000)]
    path = workunits(tmp_path / "large.csv", names)
    assert path.stat().st_size > 2 * imports.MOST_BATCH
    status, output, fault = made_project.tools("import", "--batch", "big", path)
    assert (status, fault) == (0, "")
    rows = re.findall(rf"^{path}: (\d+) rows of workunits, as the batch (\S+)$", output, re.MULTILINE)
    assert [name for _, name in rows] == [f"big-{number}" for number in range(1, len(rows) + 1)]
    assert sum(int(count) for count, _ in rows) == 6000 and len(rows) > 2
    made_project.end()
    stored = [
        name for name, in rows_of(made_project.folder / "project.db", "SELECT name FROM unit ORDER BY id")
    ]
    assert stored[20:] == names


def test_another_key(made_project: MadeProject, tmp_path: Path) -> None:
    made_project.serve()
    (made_project.folder / "settings.toml").write_text(SETTINGS.replace("change-this-key", "another-key"))
    status, _, fault = made_project.tools("import", workunits(tmp_path / "more.csv", ["x"]))
    assert status == 1 and "another operator_key" in fault and fault.count("\n") == 1


def test_nobody_serves_and_there_is_no_program(made_project: MadeProject, tmp_path: Path) -> None:
    if projects.PROGRAM.exists():
        pytest.skip("a program is installed")
    status, _, fault = made_project.tools("import", workunits(tmp_path / "more.csv", ["x"]))
    assert status == 1 and fault == "bsched-tools: /usr/bin/bsched: No such file or directory\n"

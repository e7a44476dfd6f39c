"""The commands that take a project's folder: new results, copies, pages and counts."""
import json
import os
from pathlib import Path

import pytest
from made_project import TWIN, MadeProject
from small_project import tools

from bsched_tools.copies.folder import turn


# ---- What the units do


def test_the_folder_of_copies_can_be_reached(made_project: MadeProject) -> None:
    """As the unit does it, which runs with a strict umask."""
    target = made_project.folder / "backups" / "bsched" / "sums"
    (made_project.folder / "units.toml").write_text(f'[copy]\nfolder = "{target}"\ncheck = false\n')
    before = os.umask(0o077)
    try:
        assert made_project.tools("copy")[0] == 0
    finally:
        os.umask(before)
    assert target.parent.stat().st_mode & 0o777 == 0o755 and target.stat().st_mode & 0o777 == 0o700


def test_copies_of_a_project(made_project: MadeProject) -> None:
    (made_project.folder / "units.toml").write_text('[copy]\nfolder = "copies"\nkeep = 2\ncheck = false\n')
    for _ in range(3):
        assert made_project.tools("copy")[0] == 0
    copies = made_project.folder / "copies"
    assert len(list(copies.iterdir())) == 2 and copies.stat().st_mode & 0o777 == 0o700


def test_new_results_for_a_program(made_project: MadeProject, tmp_path: Path) -> None:
    """The program fails at first, and gets the same results once more."""
    made_project.serve()
    made_project.tools("copy")
    status, _, fault = made_project.tools("process")
    assert status == 1 and "[results]" in fault
    take, taken = tmp_path / "take", tmp_path / "taken"
    take.write_text(f'#!/bin/sh\ncat "$1" >> {taken}\ntest -e {tmp_path}/good\n')
    take.chmod(0o755)
    units = f'[copy]\nfolder = "copies"\ncheck = false\n[results]\ncommand = ["{take}"]\n'
    (made_project.folder / "units.toml").write_text(units)
    assert made_project.tools("process") == (0, "0 workunits handed on\n", "")
    assert not taken.exists()
    for user in (1, 2):
        made_project.call(user, 1, work_req_seconds=1)
        made_project.call(user, 2, results=[{"name": f"w1_{user - 1}", "exit_status": 0, "output": "7"}])
    made_project.tools("copy")
    status, _, fault = made_project.tools("process")
    assert status == 1 and f"{take}: status 1" in fault
    (tmp_path / "good").touch()
    assert made_project.tools("process") == (0, "1 workunit handed on\n", "")
    assert [json.loads(line)["workunit"] for line in taken.read_text().splitlines()] == ["w1", "w1"]
    assert made_project.tools("process") == (0, "0 workunits handed on\n", "")


def test_page_and_statistics_of_a_project(made_project: MadeProject, tmp_path: Path) -> None:
    """Only what is meant for the web is in its folders."""
    made_project.tools("copy")
    for name in ("report", "stats"):  # root makes no folder outside of its own ones
        (tmp_path / name).mkdir()
    units = f'[copy]\nfolder = "copies"\n[page]\nfolder = "{tmp_path}/report"\n'
    (made_project.folder / "units.toml").write_text(f'{units}[statistics]\nfolder = "{tmp_path}/stats"\n')
    assert made_project.tools("report") == (0, f"{tmp_path}/report/index.html\n", "")
    status, output, _ = made_project.tools("statistics")
    assert (status, output) == (0, f"{tmp_path}/stats: 4 users, 0 of them named, and 0 computers\n")
    assert [path.name for path in (tmp_path / "report").iterdir()] == ["index.html"]
    assert sorted(path.name for path in (tmp_path / "stats").iterdir()) == [
        "host.gz",
        "tables.xml",
        "team.gz",
        "user.gz",
    ]
    assert sorted(path.name for path in (made_project.folder / "units").iterdir()) == [
        "averages.json",
        "counts.json",
        "held.json",
        "history.jsonl",
        "plots",
    ]
    assert (
        made_project.folder / "units" / "plots" / "plots.json"
    ).read_text() == '{"format": 1, "plots": []}'
    assert (made_project.folder / "units").stat().st_mode & 0o777 == 0o700
    assert "<h1>sums: status</h1>" in (tmp_path / "report" / "index.html").read_text()


def test_a_page_with_a_title(made_project: MadeProject, tmp_path: Path) -> None:
    args = "--tables", made_project.folder / "project.db", "--to", tmp_path, "--title", "Sums & more"
    assert tools("report", *args)[0] == 0
    assert "<h1>Sums &amp; more: status</h1>" in (tmp_path / "index.html").read_text()


def test_counts_into_a_file(made_project: MadeProject, tmp_path: Path) -> None:
    target = tmp_path / "counts.json"
    assert tools("counts", "--tables", made_project.folder / "project.db", "--json", "--to", target) == (
        0,
        "",
        "",
    )
    assert json.loads(target.read_text())["workunits"]["open"] == 20


# ---- A project's folder


def test_another_run_is_at_work(made_project: MadeProject, tmp_path: Path) -> None:
    """Each command says what is in its way, and not that a copy is."""
    (made_project.folder / "units.toml").write_text(
        '[copy]\nfolder = "copies"\n[results]\ncommand = ["true"]\n'
    )
    assert made_project.tools("copy", "--to", made_project.folder / "one.db")[0] == 0
    folder = made_project.folder / "units" / "results"
    folder.mkdir(parents=True)
    with turn(folder, 0):
        fault = f"bsched-tools: {folder}: another `process` is at work: try again later\n"
        assert made_project.tools("process") == (1, "", fault)


@pytest.mark.skipif(os.geteuid() != 0, reason="only root can become another user")
def test_as_root_the_files_keep_the_projects_owner(made_project: MadeProject, tmp_path: Path) -> None:
    tmp_path.chmod(0o755)
    for parent in tmp_path.parents[:2]:
        parent.chmod(0o755)
    web = [tmp_path / "web" / name for name in ("report", "stats")]
    for path in web:
        path.mkdir(parents=True)
    for path in (made_project.folder, *made_project.folder.iterdir(), *web):
        os.chown(path, 65534, 65534)
    assert made_project.tools("copy")[0] == 0
    units = f'[copy]\nfolder = "copies"\n[page]\nfolder = "{tmp_path}/web/report"\n'
    (made_project.folder / "units.toml").write_text(f'{units}[statistics]\nfolder = "{tmp_path}/web/stats"\n')
    assert made_project.tools("report")[0] == 0 and made_project.tools("statistics")[0] == 0
    made = [*made_project.folder.rglob("*"), *(tmp_path / "web").rglob("*")]
    assert {path.stat().st_uid for path in made} == {65534} and tmp_path / "web/stats/user.gz" in made


def test_the_version() -> None:
    assert tools("--version")[1] == f"bsched-tools {(TWIN.parents[2] / 'VERSION').read_text()}"

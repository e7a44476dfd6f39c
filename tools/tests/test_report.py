"""Tests that `report` counts each file of a project once, and reads the history once."""
import json
import sys
import time
from collections import Counter
from collections.abc import Callable, Sequence
from dataclasses import asdict
from pathlib import Path
from typing import Any

import pytest
from lives import life_of, stored_life
from work_project import WorkProject

from bsched_files.counts import Counts
from bsched_tools import __main__, counts, history
from bsched_tools.history import Entry, History
from bsched_tools.month_plots import write_month
from bsched_tools.page import write_report
from bsched_tools.projects import Project

DAY = 86_400


@pytest.fixture
def project(tmp_path: Path) -> Project:
    """Makes a project with an earlier file, a copy, and a history of 40 days."""
    made = WorkProject(tmp_path)
    stored_life(life_of(5), tmp_path / "earlier.db")
    settings = made.bridge / "bridge.toml"
    settings.write_text(f'archives = ["../../earlier.db"]\n{settings.read_text()}')
    (made.folder / "copies").mkdir()
    (tmp_path / "page").mkdir()
    units = made.folder / "units.toml"
    units.write_text(f'{units.read_text()}[page]\nfolder = "{tmp_path}/page"\n')
    assert made.tools("copy")[0] == 0
    project, now = Project(made.folder), int(time.time())
    entries = [Entry(now - day * DAY, {"done": 40 - day}, {}, {}, 0, 0) for day in range(40, 0, -1)]
    text = "".join(f"{json.dumps(asdict(entry))}\n" for entry in entries)
    for folder in (project.work, tmp_path / "work"):
        folder.mkdir()
        (folder / "history.jsonl").write_text(text)
    return project


def counted_calls(
    monkeypatch: pytest.MonkeyPatch, owner: object, name: str, calls: Counter[str], said: Callable[..., str]
) -> None:
    """Counts the calls of a function, by what is said of each."""
    function = getattr(owner, name)

    def counted(*args: Any) -> Any:
        calls[f"{name} {said(*args)}"] += 1
        return function(*args)

    monkeypatch.setattr(owner, name, counted)


def files_of(folder: Path) -> dict[str, bytes]:
    """Returns the bytes of all files of a folder."""
    return {str(path.relative_to(folder)): path.read_bytes() for path in folder.rglob("*") if path.is_file()}


def written_apart(project: Project, folder: Path) -> dict[str, bytes]:
    """Writes what a report must write, with counts and a history that are each made anew."""
    copies, work, page = project.units().copies, folder / "work", folder / "apart"
    page.mkdir()
    (work / "counts.json").write_text(f"{counts.counted([*project.archives, copies]).text()}\n")
    write_report(copies, page, project.title, {}, work)
    entries = History(work).entries
    (work / "plots").mkdir()
    write_month(work / "plots", entries, entries[-1].moment)
    return files_of(page) | files_of(work)


def test_a_report_counts_each_file_once(
    project: Project, tmp_path: Path, monkeypatch: pytest.MonkeyPatch
) -> None:
    """What it writes is the same."""
    wanted = written_apart(project, tmp_path)
    calls: Counter[str] = Counter()
    for name in ("rows_of", "people_of"):
        counted_calls(monkeypatch, counts, name, calls, lambda tables: str(tables.path.name))
    counted_calls(monkeypatch, history.History, "__init__", calls, lambda _history, folder: str(folder.name))
    monkeypatch.setattr(sys, "argv", ["bsched-tools", "report", "--project", f"{project.folder}/"])
    assert __main__.main() == 0
    (copy,) = (path.name for path in project.units().copies.glob("*.db"))
    files = [f"{name} {file}" for name in ("rows_of", "people_of") for file in ("earlier.db", copy)]
    assert calls == dict.fromkeys([*files, "__init__ units"], 1)
    found = files_of(tmp_path / "page") | files_of(project.work)
    assert found == wanted and {"counts.json", "index.html", "history.jsonl", "plots/results.svg"} <= set(
        found
    )


@pytest.mark.parametrize("order", [(0, 1), (1, 0), (0,), (1,)])
def test_a_total_is_the_sum_of_files(project: Project, order: Sequence[int]) -> None:
    """People and limits are no sums: who is in both files counts once, and the last file has the limits."""
    files = counts.files_counted([*project.archives, project.units().copies])
    chosen = [files[at] for at in order]
    found: Counts = counts.total(chosen)
    for name in ("out", "stuck", "millicredits", "bytes"):
        assert getattr(found, name) == sum(getattr(one.rows, name) for one in chosen)
    for state in ("workunits", "instances"):
        for key, number in getattr(found, state).items():
            assert number == sum(getattr(one.rows, state)[key] for one in chosen)
    assert found.moment == max(one.rows.moment for one in chosen)
    assert found.limits == chosen[-1].rows.limits
    assert found.people["hosts"] == len({host for one in chosen for host in one.people.hosts})
    assert found.people["users"] == len({user for one in chosen for user in one.people.users})
    assert found.calls_unknown == chosen[-1].people.calls_unknown != ""

"""Tests that a run of `collect` decides each workunit once, and what it writes then."""
import csv
import io
import json
from collections import Counter
from pathlib import Path
from typing import Any

import pytest
from files_uploaded import LATER, expected, files_below, put_files, opens_as_file, spoil
from lives import life_of, stored_life
from work_project import WorkProject

from bsched_files import workunits
from bsched_files.file_names import FIRST
from bsched_files.workunits import Workunit
from bsched_tools import results
from bsched_tools.collecting import Collected, collect_files
from bsched_tools.project_access import Look
from bsched_tools.projects import Project
from bsched_tools.texts import table_text
from bsched_tools.uploaded import UploadFolder, UploadedFile

RESULTS = ("workunit", "input", "result", "credit", "output", "files")
FAILED = ("workunit", "input", "reason")


@pytest.fixture
def project(tmp_path: Path, tables: Path, uploads: Path) -> Project:
    """Makes a project whose bridge has the uploads of the tables."""
    made = WorkProject(tmp_path)
    settings = made.bridge / "bridge.toml"
    settings.write_text(settings.read_text().replace('folder = "uploads"', f'folder = "{uploads}"'))
    return Project(made.folder)


@pytest.fixture
def counted(monkeypatch: pytest.MonkeyPatch) -> Counter[str]:
    """Returns how often each workunit is decided, and how often its files are looked up."""
    counts: Counter[str] = Counter()
    workunit_of, files_of = workunits.workunit_of, UploadFolder.files_of

    def counted_workunit(*args: Any) -> Workunit:
        unit = workunit_of(*args)
        counts[f"{unit.name} decided"] += 1
        return unit

    def counted_files(folder: UploadFolder, unit: Workunit) -> list[UploadedFile]:
        counts[f"{unit.name} looked up"] += 1
        return files_of(folder, unit)

    monkeypatch.setattr(workunits, "workunit_of", counted_workunit)
    monkeypatch.setattr(UploadFolder, "files_of", counted_files)
    return counts


def collected(project: Project, copy: Path, folder: Path) -> Collected:
    """Collects all outputs of a copy."""
    return collect_files(project, Look(copy, True, False), None, folder)


def lines_by_results(copy: Path, folder: Path) -> list[dict[str, Any]]:
    """Returns what `results` says of all workunits of a copy."""
    file = io.StringIO()
    results.write_results([copy], as_lines=True, file=file, uploads=folder)
    return [json.loads(line) for line in file.getvalue().splitlines()]


def written_of(lines: list[dict[str, Any]]) -> tuple[str, str]:
    """Returns what `results.csv` and `failed.csv` must have."""
    done: list[tuple[object, ...]] = [RESULTS]
    failed: list[tuple[object, ...]] = [FAILED]
    for line in lines:
        if line["status"] == "failed":
            failed.append((line["workunit"], "", f"too many {line['reason']}"))
            continue
        files = " ".join(file["name"] for file in line["files"])
        output = "" if files else line["output"]
        credit = f"{line['millicredits'] / 1000:g}"
        done.append((line["workunit"], "", line["canonical"], credit, output, files))
    return table_text(done), table_text(failed)


def test_a_run_decides_each_workunit_once(
    project: Project, tables: Path, uploads: Path, tmp_path: Path, counted: Counter[str]
) -> None:
    lines = lines_by_results(tables, uploads)
    done = [line["workunit"] for line in lines if line["status"] == "done"]
    once = {f"{line['workunit']} decided": 1 for line in lines} | {f"{name} looked up": 1 for name in done}
    to = tmp_path / "out"
    for new in (len(done), 0):
        counted.clear()
        found = collected(project, tables, to)
        assert counted == once and 0 < len(done) < len(lines)
        assert (found.fresh, found.done, len(found.failed)) == (new, len(done), len(lines) - len(done))
        assert ((to / "results.csv").read_text(), (to / "failed.csv").read_text()) == written_of(lines)
    wanted = {f"{line['workunit']}/{file['name']}" for line in lines for file in line.get("files", [])}
    assert wanted == {name for name in files_below(to) if "/" in name}


@pytest.mark.parametrize("file", [FIRST, LATER])
def test_the_files_of_a_later_file_are_collected(
    project: Project,
    tables: Path,
    uploads: Path,
    tmp_path: Path,
    monkeypatch: pytest.MonkeyPatch,
    file: int,
) -> None:
    """The results of two files have the same names in the tables. Folders and rows have those."""
    lines, to = lines_by_results(tables, uploads), tmp_path / "out"
    put_files(uploads, lines, LATER)
    opens_as_file(monkeypatch, file)
    found = collected(project, tables, to)
    assert found.fresh == sum(line["status"] == "done" for line in lines)
    assert files_below(to) == expected(lines, file)
    assert ((to / "results.csv").read_text(), (to / "failed.csv").read_text()) == written_of(lines)


def test_a_spoiled_file_has_no_row_and_comes_again(
    project: Project, tables: Path, uploads: Path, tmp_path: Path
) -> None:
    lines = lines_by_results(tables, uploads)
    bad = next(line for line in lines if line["status"] == "done")
    path, to = Path(bad["files"][0]["path"]), tmp_path / "out"
    good = path.read_bytes()
    spoil(uploads, path)
    others = [line for line in lines if line is not bad]
    for _ in range(2):
        found = collected(project, tables, to)
        assert list(found.spoiled) == [bad["workunit"]]
        assert ((to / "results.csv").read_text(), (to / "failed.csv").read_text()) == written_of(others)
    path.write_bytes(good)
    found = collected(project, tables, to)
    assert (found.fresh, found.spoiled) == (1, {})
    assert (to / "results.csv").read_text() == written_of(lines)[0]


def test_a_result_that_comes_later_changes_no_row(project: Project, uploads: Path, tmp_path: Path) -> None:
    """A workunit that is done gets a further result: it is not new."""
    lived = life_of(7, calls=600)
    half = len(lived.lines) // 2
    first, to = lived.lines[:half], tmp_path / "out"
    whole = stored_life(lived, tmp_path / "whole.db")
    lived.lines = first
    early = stored_life(lived, tmp_path / "early.db")
    before = collected(project, early, to)
    after = collected(project, whole, to)
    lines = lines_by_results(whole, uploads)
    done = sum(line["status"] == "done" for line in lines)
    assert before.fresh == before.done > 0 and after.fresh == done - before.done > 0
    assert ((to / "results.csv").read_text(), (to / "failed.csv").read_text()) == written_of(lines)
    with (to / "open.csv").open() as file:
        assert len(list(csv.DictReader(file))) == len(after.open)

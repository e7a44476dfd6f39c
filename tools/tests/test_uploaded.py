"""Results name the files of their canonical results."""
import csv
import hashlib
import io
import json
import re
import sqlite3
from pathlib import Path
from typing import Any

import pytest
from files_uploaded import LATER, content, content_of, expected, files_below, put_files, opens_as_file, spoil
from results_read import lines_of, rows_of
from small_project import tools

from bsched_files.faults import Fault
from bsched_files.file_names import FIRST, MARK
from bsched_files.tables import opened
from bsched_files.workunits import Workunit, decided
from bsched_tools import uploaded
from bsched_tools.placing import OutputFolder
from bsched_tools.projects import Project
from bsched_tools.results import write_results


def test_the_files_are_named_in_both_forms(tables: Path, uploads: Path) -> None:
    lines = lines_of(tables, uploads=uploads)
    assert any(line["status"] == "done" for line in lines)
    for line in lines:
        if line["status"] == "failed":
            assert "files" not in line
            continue
        assert [file["name"] for file in line["files"]] == ["out", "log"]
        for file in line["files"]:
            data = Path(file["path"]).read_bytes()
            assert (len(data), hashlib.sha256(data).hexdigest()) == (file["nbytes"], file["sha256"])
            assert data == f"{file['name']} of {line['workunit']}\n".encode()
    named = {row["workunit"]: json.loads(row["files"]) for row in rows_of(tables, uploads=uploads)}
    assert named == {line["workunit"]: line.get("files", []) for line in lines}
    assert "files" not in rows_of(tables)[0] and "files" not in lines_of(tables)[0]


@pytest.mark.parametrize("file", [FIRST, LATER])
@pytest.mark.parametrize("as_lines", [True, False])
def test_results_of_two_files_have_their_own_uploads(
    tables: Path, uploads: Path, tmp_path: Path, monkeypatch: pytest.MonkeyPatch, file: int, as_lines: bool
) -> None:
    """They have the same names in the tables, and all that is written has those."""
    target = tmp_path / "files"
    target.mkdir()
    lines = lines_of(tables)
    put_files(uploads, lines, LATER)
    opens_as_file(monkeypatch, file)
    read = lines_of if as_lines else rows_of
    found = read(tables, uploads=uploads, files_to=target)
    assert files_below(target) == expected(lines, file)
    assert MARK not in json.dumps([{**line, "files": None} for line in found])
    assert {line["workunit"] for line in found} == {line["workunit"] for line in lines}


def test_results_of_a_file_without_uploads_name_none(
    tables: Path, uploads: Path, monkeypatch: pytest.MonkeyPatch
) -> None:
    """Those of the first file are not theirs."""
    opens_as_file(monkeypatch, LATER)
    assert {str(line.get("files", [])) for line in lines_of(tables, uploads=uploads)} == {"[]"}


def test_a_workunit_has_the_number_of_its_file(tables: Path) -> None:
    for file in (FIRST, LATER):
        with opened(tables, file=file) as one:
            units = list(decided(one))
        assert {unit.file for unit in units} == {file}
        assert len({unit.reason is None for unit in units}) == 2  # some are done, and some failed


SPOILED = {
    "longer": "more than [0-9]+ bytes in place of",
    "cut": "it has [0-9]+ bytes in place of",
    "empty": "it has 0 bytes in place of",
    "other": "it has other bytes than those that came",
    "gone": "No such file or directory",
    "link": "Too many levels of symbolic links",
}


@pytest.mark.parametrize("how", SPOILED)
@pytest.mark.parametrize("is_linked", [False, True])
def test_a_spoiled_file_is_not_collected(
    tables: Path, uploads: Path, tmp_path: Path, how: str, is_linked: bool
) -> None:
    """The others are. The workunit comes again, and is collected once the file is mended."""
    target, cursor = tmp_path / "files", tmp_path / "cursor"
    target.mkdir()
    lines = lines_of(tables, uploads=uploads)
    unit, file = next((line["workunit"], line["files"][1]) for line in lines if line["status"] == "done")
    path = Path(file["path"])
    good = path.read_bytes()
    spoil(uploads, path, how)
    more: dict[str, Any] = {"uploads": uploads, "files_to": target, "cursor": cursor}
    for is_first in (True, False):
        output = io.StringIO()
        written = write_results([tables], as_lines=True, file=output, is_linked=is_linked, **more)
        named = [json.loads(line)["workunit"] for line in output.getvalue().splitlines()]
        assert named == ([line["workunit"] for line in lines if line["workunit"] != unit] if is_first else [])
        (what,) = written.spoiled
        assert what.startswith(f"{unit}: left out: its file log is spoiled: {path}: ")
        assert re.search(SPOILED[how], what) and written.why_nothing is None
        assert not list(target.glob(".*")) and not (target / unit).exists()
        assert len(files_below(target)) == len(expected(lines)) - 2
    path.unlink(missing_ok=True)
    path.write_bytes(good)
    assert [line["workunit"] for line in lines_of(tables, **more)] == [unit]
    assert files_below(target) == expected(lines)


def test_the_status_says_that_files_are_spoiled(tables: Path, uploads: Path, tmp_path: Path) -> None:
    target = tmp_path / "files"
    target.mkdir()
    for path in (uploads / "store").iterdir():
        spoil(uploads, path)
    done = sum(line["status"] == "done" for line in lines_of(tables))
    words = "--tables", tables, "--uploads", uploads, "--files", target
    status, output, fault = tools("results", *words)
    assert status == 1 and list(target.iterdir()) == []
    rows = list(csv.DictReader(io.StringIO(output)))
    assert {row["status"] for row in rows} <= {"failed"}
    lines = fault.splitlines()
    assert len(lines) == min(done, 21) and done > 21
    assert lines[-1] == f"bsched-tools: .. and {done - 20} further workunits"


def unit_of(output: str, app: str = "app") -> Workunit:
    """Returns a workunit with an output."""
    return Workunit(1, "w", app, 0, None, "w_0", output)


NAMES = {"app": {"out", "log"}, "bare": set[str]()}


def test_an_output_names_files_whose_rows_are_lost(tables: Path, uploads: Path) -> None:
    sha256 = content(uploads, b"data")
    output = f"out sha256:{sha256} 4\nlog sha256:{'0' * 64} 4\nlog absent"
    with uploaded.uploads_in(uploads, NAMES) as opened:
        assert [(file.name, file.nbytes) for file in opened.files_of(unit_of(output))] == [("out", 4)]
        assert opened.files_of(unit_of("5050")) == []


@pytest.mark.parametrize("app", ["bare", "unknown"])
def test_a_volunteer_names_no_files(tables: Path, uploads: Path, app: str) -> None:
    """The output of an application without output files is what the volunteer wrote. It names no file, and
    neither does a name that the catalogue does not have.
    """
    sha256 = content(uploads, b"#!/bin/sh")
    lines = [f"{name} sha256:{sha256} 9" for name in ("run.sh", "results.csv", "out", "log")]
    with uploaded.uploads_in(uploads, NAMES) as opened:
        assert opened.files_of(unit_of("\n".join(lines), app)) == []
        named = opened.files_of(unit_of("\n".join(lines)))
        assert [file.name for file in named] == ["out", "log"]
    with uploaded.uploads_in(uploads) as opened:  # without a catalogue
        assert opened.files_of(unit_of("\n".join(lines))) == []


def test_an_output_that_names_a_file_twice_changes_no_stored_file(
    uploads: Path, tables: Path, tmp_path: Path
) -> None:
    """The first line counts."""
    stored = {data: content(uploads, data) for data in (b"one", b"two")}
    output = "\n".join(f"out sha256:{sha256} 3" for sha256 in stored.values())
    with uploaded.uploads_in(uploads, NAMES) as opened, OutputFolder(tmp_path) as folder:
        folder.place(opened.files_of(unit_of(output)), "w")
    assert (tmp_path / "w" / "out").read_bytes() == b"one"
    for data, sha256 in stored.items():
        assert content_of(uploads, sha256) == data


def test_an_output_with_a_name_that_no_file_can_have_names_none(uploads: Path, tables: Path) -> None:
    sha256 = content(uploads, b"data")
    for name in ("n" * 129, "..", "a/b", ".hidden"):
        with uploaded.uploads_in(uploads, {"app": {name}}) as opened:
            assert opened.files_of(unit_of(f"{name} sha256:{sha256} 4")) == []


def test_faults(tables: Path, uploads: Path, tmp_path: Path) -> None:
    with pytest.raises(Fault, match="not the folder of a bridge's uploads"):
        lines_of(tables, uploads=tmp_path)
    with pytest.raises(Fault, match="make it first"):
        lines_of(tables, uploads=uploads, files_to=tmp_path / "none")
    other = tmp_path / "other"
    other.mkdir()
    sqlite3.connect(other / "uploads.db").execute("CREATE TABLE x (y)")
    with pytest.raises(Fault, match="is not a bridge's file of uploads"):
        lines_of(tables, uploads=other)


def test_a_project_has_the_uploads_of_its_bridge(uploads: Path, tmp_path: Path) -> None:
    project = Project(tmp_path / "sums")
    assert project.uploads is None
    (project.folder / "bridge").mkdir(parents=True)
    for text, folder in (
        ('name = "Sums"\n', None),
        (f'[uploads]\nfolder = "{uploads}"\n', uploads),
        ('[uploads]\nfolder = "../../uploads"\n', project.folder / "bridge" / ".." / ".." / "uploads"),
        ('[uploads]\nfolder = "none"\n', None),
    ):
        project.bridge_file.write_text(text)
        assert project.uploads == folder
    project.bridge_file.write_text('uploads = "x"\n')
    with pytest.raises(Fault, match="line 1: uploads is not a table"):
        assert project.uploads

"""Tests `process`, which hands results and their files to a program, and `results --files` of a project."""
import hashlib
import json
import os
import subprocess
import sys
from collections.abc import Iterator
from pathlib import Path

import pytest
from small_project import END, PACKAGES
from work_project import WorkProject

from bsched_bridge.uploads.tables import UploadTables

DATA = b"the output of w1\n"
SHA256 = hashlib.sha256(DATA).hexdigest()


@pytest.fixture
def project(tmp_path: Path) -> Iterator[WorkProject]:
    """Makes a project two of whose workunits are done. The first one has a file."""
    made = WorkProject(tmp_path)
    made.serve()
    for user in (1, 2):
        made.call(user, 1, work_req_seconds=5000)
        results = [
            {"name": f"{unit}_{user - 1}", "exit_status": 0, "output": "same"} for unit in ("w1", "w2")
        ]
        made.call(user, 2, results=results)
    assert made.tools("copy")[0] == 0
    uploads = made.bridge / "uploads"
    (uploads / "store").mkdir(parents=True)
    opened = UploadTables(uploads / "uploads.db")
    with opened.transaction() as connection:
        connection.execute("INSERT INTO file VALUES ('w1_0', 0, 'out', ?, ?)", (len(DATA), SHA256))
    opened.close()
    stored(made).write_bytes(DATA)
    yield made
    made.end()


def stored(project: WorkProject) -> Path:
    """Returns the path of the stored file."""
    return project.bridge / "uploads" / "store" / SHA256


def with_program(project: WorkProject, folder: Path, status: int = 0) -> Path:
    """Writes a program that takes results, and returns the file that it adds them to."""
    take, taken = folder / "take", folder / "taken"
    take.write_text(f'#!/bin/sh\ncat "$1" >> {taken}\nexit {status}\n')
    take.chmod(0o755)
    units = f'[copy]\nfolder = "copies"\ncheck = false\n[results]\ncommand = ["{take}"]\n'
    (project.folder / "units.toml").write_text(units)
    return taken


def units_in(taken: Path) -> list[str]:
    """Returns the names of the workunits that a program took, in their order."""
    return [json.loads(line)["workunit"] for line in taken.read_text().splitlines()]


def test_a_result_comes_with_its_files(project: WorkProject, tmp_path: Path) -> None:
    taken = with_program(project, tmp_path)
    assert project.tools("process") == (0, "2 workunits handed on\n", "")
    first, second = (json.loads(line) for line in taken.read_text().splitlines())
    file = {"name": "out", "nbytes": len(DATA), "sha256": SHA256, "path": str(stored(project))}
    assert (first["workunit"], first["files"]) == ("w1", [file])
    assert (second["workunit"], second["files"]) == ("w2", [])


@pytest.mark.parametrize("data", [DATA + b"more", b"x" + DATA[1:], None])
def test_a_result_with_a_spoiled_file_is_handed_on_once_the_file_is_good(
    project: WorkProject, tmp_path: Path, data: bytes | None
) -> None:
    """Until then each run names it, and hands on the others, once."""
    taken = with_program(project, tmp_path)
    if data is None:
        stored(project).unlink()
    else:
        stored(project).write_bytes(data)
    for handed in ("1 workunit handed on\n", "0 workunits handed on\n"):
        status, output, fault = project.tools("process")
        assert (status, output) == (1, handed)
        assert fault.startswith(f"bsched-tools: w1: left out: its file out is spoiled: {stored(project)}: ")
        assert len(fault.splitlines()) == 1 and units_in(taken) == ["w2"]
    stored(project).write_bytes(DATA)
    assert project.tools("process") == (0, "1 workunit handed on\n", "")
    assert units_in(taken) == ["w2", "w1"]


def test_a_file_that_is_spoiled_while_the_program_fails_is_compared_again(
    project: WorkProject, tmp_path: Path
) -> None:
    taken = with_program(project, tmp_path, status=3)
    status, output, fault = project.tools("process")
    assert (status, output) == (1, "") and "status 3: the same results come again" in fault
    assert units_in(taken) == ["w1", "w2"]
    taken.unlink()
    with_program(project, tmp_path)
    stored(project).write_bytes(b"")
    assert project.tools("process")[0] == 1
    assert units_in(taken) == ["w2"]
    stored(project).write_bytes(DATA)
    assert project.tools("process")[0] == 0
    assert units_in(taken) == ["w2", "w1"]


def test_files_of_a_project_that_has_none(project: WorkProject, tmp_path: Path) -> None:
    settings = project.bridge / "bridge.toml"
    settings.write_text(settings.read_text().partition("[uploads]")[0])
    status, output, fault = project.tools("results", "--files", tmp_path)
    assert (status, output) == (1, "")
    advice = "`bsched-project --complete sums` adds what a new project has"
    assert fault == f"bsched-tools: {settings}: it has no [uploads], which output files need: {advice}\n"


@pytest.mark.skipif(os.geteuid() != 0, reason="only root can give files away")
def test_results_as_root_give_files_to_the_owner_of_their_folder(
    project: WorkProject, tmp_path: Path
) -> None:
    """The project's own files keep their owner."""
    for parent in (tmp_path, *tmp_path.parents[:2]):
        parent.chmod(0o755)
    project.end()
    for path in (project.folder, *project.folder.rglob("*")):
        os.chown(path, 65534, 65534)
    target = tmp_path / "outputs"
    target.mkdir()
    os.chown(target, 12345, 54321)
    status, output, fault = project.tools("results", "--files", target)
    assert (status, fault) == (0, "") and output
    file = target / "w1" / "out"
    assert file.read_bytes() == DATA and file.stat().st_mode & 0o7777 == 0o644
    for path in (file, file.parent):
        assert (path.stat().st_uid, path.stat().st_gid) == (12345, 54321)
    owners = {path.stat().st_uid for path in (project.folder, *project.folder.rglob("*"))}
    assert owners == {65534}


@pytest.mark.skipif(os.geteuid() != 0, reason="only root can become another user")
def test_a_cursor_that_root_had_can_be_had_by_the_owner_of_the_folder(tmp_path: Path) -> None:
    for parent in tmp_path.parents[:2]:
        parent.chmod(0o755)
    os.chown(tmp_path, 65534, 65534)
    program = """if True:
        import sys
        from pathlib import Path
        from bsched_tools.cursors import cursor_at

        with cursor_at(Path(sys.argv[1])) as cursor:
            cursor.write()
        """
    for owner in (0, 65534):
        subprocess.run(
            [sys.executable, "-c", program, tmp_path / "cursor"],
            user=owner,
            group=owner,
            extra_groups=[],
            env={"PYTHONPATH": PACKAGES, "PYTHONDONTWRITEBYTECODE": "1"},
            timeout=END,
            check=True,
        )
    assert (tmp_path / "cursor").stat().st_uid == 65534

"""A batch of work: its record, its imports, and stops at each step."""
import os
import shutil
from collections.abc import Callable
from pathlib import Path
from typing import Any

import pytest
from small_project import rows_of
from work_project import WorkProject
from work_tried import is_refused, run_here, units

from bsched_files import counts
from bsched_tools import project_access, projects, submitting
from bsched_tools.import_files import KINDS, ImportFile, Row
from bsched_tools.imports import Sender, import_file


# ---- Work


def test_many_workunits_are_several_batches(
    work: WorkProject, monkeypatch: pytest.MonkeyPatch, capsys: pytest.CaptureFixture[str]
) -> None:
    from bsched_tools import imports

    monkeypatch.setattr(imports, "MOST_BATCH", 1000)
    work.make_inputs(30)
    words = "submit", "--project", f"{work.folder}/", "--app", "count", "--batch", "run", work.inputs
    assert run_here(capsys, *words)[0] == 0
    work.end()
    names = [
        name
        for name, in rows_of(work.folder / "project.db", "SELECT name FROM batch WHERE kind = 'workunits'")
    ]
    assert names == ["b1", "run-1", "run-2", "run-3", "run-4"] and len(units(work)) == 30


# ---- Mistakes: each gets one clear line, and changes nothing


def test_links_that_a_member_of_the_group_made(work: WorkProject, tmp_path: Path) -> None:
    """`submit`, which root may run, overwrites no file by a link, and gives none to the group."""
    work.make_inputs(2)
    (work.inputs / "part_00001.txt").chmod(0o600)  # so it is copied
    victim, other = tmp_path / "victim", tmp_path / "other"
    for path in (victim, other):
        path.write_text("precious")
        path.chmod(0o600)
    (work.folder / "submitted").mkdir(exist_ok=True)
    for folder, name in ((work.folder / "submitted", "run.json"), (work.files, "run_part_00001.txt.in")):
        for ending in ("new", "part"):
            (folder / f".{name}.{ending}").symlink_to(victim)
    os.link(other, work.folder / "submitted" / ".other.json.part")
    for batch in ("run", "other"):
        assert work.submit(work.inputs, batch=batch)[0] == 0
    for path in (victim, other):
        assert path.read_text() == "precious" and path.stat().st_mode & 0o777 == 0o600
    record = work.folder / "submitted" / "run.json"
    assert record.stat().st_mode & 0o777 == 0o640 and not record.is_symlink()


def test_a_batch_name_that_was_used(work: WorkProject) -> None:
    work.make_inputs(3)
    assert work.submit(work.inputs)[0] == 0
    work.app("--output", "out:1M", name="other")
    made = work.state()
    path = work.inputs / "part_00002.txt"
    path.write_text("other")
    fault = f"{path}: the batch run was made of other inputs (there {path})"
    is_refused(work, work.submit(work.inputs), fault, made)
    path.unlink()
    is_refused(work, work.submit(work.inputs), "the batch run was made of other inputs", made)
    shutil.copy(work.files / "run_part_00002.txt.in", path)
    more = work.inputs / "part_00004.txt"
    more.write_text("4")
    is_refused(work, work.submit(work.inputs), "was made of 3 inputs, and not of 4", made)
    more.unlink()
    is_refused(work, work.submit("--hours", "3", work.inputs), "was made with other hours, memory", made)
    is_refused(work, work.submit(work.inputs, app="other"), "was made for the application count", made)
    is_refused(
        work, work.submit(work.inputs, batch="b1"), "other workunits were imported as the batch b1", made
    )
    assert "3 were there before" in work.submit(work.inputs)[1]


def test_names_that_are_taken(work: WorkProject) -> None:
    """A workunit has the name already, or a file of downloads."""
    work.make_inputs(2)
    rows = [Row(2, ["run_part_00002.txt", "count", *"1 1 1 1 1 60 1 1 1 1".split()])]
    kind = KINDS["workunits"]
    list(
        import_file(
            projects.Project(work.folder), ImportFile(Path("x"), kind, kind.headers()[0], rows), "by-hand"
        )
    )
    before = work.state()
    fault = "run_part_00002.txt: there is a workunit with this name: choose another --batch"
    is_refused(work, work.submit(work.inputs), fault, before)
    (work.files / "new_part_00001.txt.in").write_text("something else")
    before = work.state()
    fault = "new_part_00001.txt.in: it is there with other bytes: choose another --batch"
    is_refused(work, work.submit(work.inputs, batch="new"), fault, before)


def test_no_room_is_left(
    work: WorkProject, monkeypatch: pytest.MonkeyPatch, capsys: pytest.CaptureFixture[str]
) -> None:
    work.make_inputs(3)
    monkeypatch.setitem(counts.MOST, "unit", 22)
    before = work.state()
    words = "submit", "--project", f"{work.folder}/", "--app", "count", "--batch", "run", work.inputs
    outcome = run_here(capsys, *words)
    is_refused(work, outcome, "there is room for 2 further workunits, and not for 3", before)


# ---- Stops


def test_a_stop_at_each_step(
    work: WorkProject, monkeypatch: pytest.MonkeyPatch, capsys: pytest.CaptureFixture[str]
) -> None:
    """Each step of `submit` fails once. The same command completes the batch, and makes nothing twice."""
    from bsched_tools import imports

    monkeypatch.setattr(imports, "MOST_BATCH", 300)
    work.make_inputs(6)

    class Stop(Exception):
        """Raised in the place of a kill."""

    left = 0

    def steps_before(function: Callable[..., Any]) -> Callable[..., Any]:
        def stepped(*args: Any, **more: Any) -> Any:
            nonlocal left
            if left == 0:
                raise Stop
            left -= 1
            return function(*args, **more)

        return stepped

    for name in ("write_record", "stage", "made_for_group"):
        monkeypatch.setattr(submitting, name, steps_before(getattr(submitting, name)))
    for name in ("rename", "link", "sync", "replace"):
        monkeypatch.setattr(os, name, steps_before(getattr(os, name)))
    monkeypatch.setattr(Sender, "answer", steps_before(Sender.answer))
    stopped = 0
    for number in range(100):
        words = [
            "submit",
            "--project",
            f"{work.folder}/",
            "--app",
            "count",
            "--batch",
            f"s{number}",
            work.inputs,
        ]
        left = number
        try:
            run_here(capsys, *words)
            break
        except Stop:
            stopped += 1
        left = 1000
        assert run_here(capsys, *words)[0] == 0
    assert stopped > 15
    work.end()
    assert sorted(units(work)) == sorted(
        f"s{batch}_part_{number:05}.txt" for batch in range(stopped + 1) for number in range(1, 7)
    )


def test_one_command_at_a_time(bare: WorkProject) -> None:
    with project_access.turn_of(projects.Project(bare.folder)):
        fault = (
            f"bsched-tools: {bare.folder}: another `app` or `submit` is at work: wait until it has ended\n"
        )
        assert bare.app() == (1, "", fault)


def test_a_project_without_a_bridge(bare: WorkProject) -> None:
    (bare.bridge / "bridge.toml").unlink()
    for outcome in (bare.app(), bare.submit(bare.inputs)):
        assert outcome[:2] == (1, "") and "the project has no bridge: make one by" in outcome[2]


# ---- Progress and outputs


def test_a_batch_of_a_former_release_is_completed(work: WorkProject) -> None:
    """It was made with two more errors than its quorum."""
    work.make_inputs(2)
    assert work.submit("--errors", "4", work.inputs)[0] == 0
    assert work.submit(work.inputs)[1].splitlines()[-1] == "imported   0 workunits, and 2 were there before"
    fault = "was made with other hours, memory, disk, quorum, errors or credit"
    is_refused(work, work.submit("--errors", "2", work.inputs), fault, work.state())

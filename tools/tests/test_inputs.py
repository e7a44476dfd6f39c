"""What a batch of work is made of."""
import os
from pathlib import Path
from typing import Any

import pytest
from small_project import rows_of
from work_project import WorkProject
from work_tried import NAME, is_refused, run_here, units

from bsched_tools import submitting


# ---- Work


def test_a_folder_of_inputs(work: WorkProject) -> None:
    """A dry run changes nothing. The second run makes nothing twice."""
    work.make_inputs(5)
    (work.inputs / ".hidden").write_text("x")
    before = work.state()
    status, output, fault = work.submit(
        "--quorum", "3", "--hours", "0.5", "--credit", "2", work.inputs, "--dry-run"
    )
    assert (status, fault) == (0, "")
    assert output.splitlines() == [
        "batch run of the application count: 5 workunits",
        f"  run_part_00001.txt: {work.inputs}/part_00001.txt (20 bytes)",
        f"  run_part_00002.txt: {work.inputs}/part_00002.txt (20 bytes)",
        f"  run_part_00003.txt: {work.inputs}/part_00003.txt (20 bytes)",
        "  .. and 2 more",
        "instances  15: 3 results of each workunit must agree",
        "errors     a workunit fails with more than 3 client errors, each by another user",
        "hours      7.5 of a processor, 0.5 for each instance",
        "credit     30, 2 for each result",
        "limit      a job is ended after 10 times its hours, 5 on a usual PC",
        "inputs     100 bytes, 5 of 5 to be staged",
        "room       199,975 of 200,000 workunits are left afterwards",
        "before     40 jobs of other batches wait, and go out first",
        "nothing was changed: --dry-run",
    ]
    assert work.state() == before
    words = "--quorum", "3", "--hours", "0.5", "--credit", "2", work.inputs
    assert work.submit(*words)[1].splitlines()[-1] == "imported   5 workunits"
    assert (work.files / "run_part_00002.txt.in").read_text() == "2".rjust(20)
    for path in (work.inputs / "part_00002.txt", work.inputs / "part_00003.txt"):
        staged = work.files / f"run_{path.name}.in"
        assert staged.stat().st_nlink == 1 and staged.stat().st_mode & 0o777 == 0o640
    made = work.state()
    assert work.submit(*words)[1].splitlines()[-1] == "imported   0 workunits, and 5 were there before"
    assert work.state() == made
    work.end()
    assert units(work) == [f"run_part_{number:05}.txt" for number in range(1, 6)]
    query = "SELECT DISTINCT min_quorum, target_nresults, max_error_results, max_total_results, "
    query += (
        "max_success_results, delay_bound, rsc_fpops_est, rsc_memory_bound, rsc_disk_bound, credit FROM unit"
    )
    assert rows_of(work.folder / "project.db", query)[1:] == [
        (3, 3, 3, 13, 8, 604800, 1800 * 4 * 10**9, 10**8, 10**9, 2000)
    ]


def test_an_input_that_is_changed_later_is_staged_as_it_was(work: WorkProject) -> None:
    work.make_inputs(2)
    assert work.submit(work.inputs)[0] == 0
    path = work.inputs / "part_00001.txt"
    with path.open("a") as file:
        file.write("more")
    assert (work.files / "run_part_00001.txt.in").read_text() == "1".rjust(20)


def test_an_input_that_changes_meanwhile_is_refused(
    work: WorkProject, monkeypatch: pytest.MonkeyPatch, capsys: pytest.CaptureFixture[str]
) -> None:
    """Nothing of it is left in the bridge's folder, and the same command makes it good."""
    work.make_inputs(2)
    path = work.inputs / "part_00002.txt"
    written = submitting.write_record

    def write_record(*args: Any) -> None:
        written(*args)
        path.write_text("2".rjust(21))

    monkeypatch.setattr(submitting, "write_record", write_record)
    words = "submit", "--project", f"{work.folder}/", "--app", "count", "--batch", "run", work.inputs
    status, _, fault = run_here(capsys, *words)
    assert status == 1 and fault == (
        f"bsched-tools: {path}: it was changed while it was read: run the same command again\n"
    )
    assert [one.name for one in work.files.iterdir()] == [NAME]
    monkeypatch.setattr(submitting, "write_record", written)
    path.write_text("2".rjust(20))
    assert run_here(capsys, *words)[0] == 0


def test_inputs_are_hard_links_on_request(work: WorkProject) -> None:
    """Those that the bridge may not read are copied all the same."""
    work.make_inputs(2)
    (work.inputs / "part_00001.txt").chmod(0o600)
    assert work.submit(work.inputs, "--link")[0] == 0
    linked = work.inputs / "part_00002.txt"
    assert (work.files / "run_part_00002.txt.in").samefile(linked)
    staged = work.files / "run_part_00001.txt.in"
    assert staged.stat().st_ino != (work.inputs / "part_00001.txt").stat().st_ino
    assert staged.stat().st_mode & 0o777 == 0o640 and staged.read_text() == "1".rjust(20)


def test_an_input_that_is_copied_is_never_in_memory_as_a_whole(
    work: WorkProject, monkeypatch: pytest.MonkeyPatch, capsys: pytest.CaptureFixture[str]
) -> None:
    (path,) = work.make_inputs(1).iterdir()
    path.chmod(0o600)
    read = Path.read_bytes

    def read_bytes(one: Path) -> bytes:
        if one == path:
            raise MemoryError
        return read(one)

    monkeypatch.setattr(Path, "read_bytes", read_bytes)
    words = "submit", "--project", f"{work.folder}/", "--app", "count", "--batch", "run", work.inputs
    assert run_here(capsys, *words)[0] == 0
    assert (work.files / "run_part_00001.txt.in").read_text() == "1".rjust(20)


def test_command_lines(bare: WorkProject, tmp_path: Path) -> None:
    assert bare.app("--command-lines", "--command-line=--fast")[0] == 0
    lines = tmp_path / "lines"
    lines.write_text("-x 1\n\n  -y 'a b' \r\n")
    output = bare.submit("--lines", lines)[1]
    assert "  run_1: -x 1\n  run_2: -y 'a b'\n" in output
    assert (bare.bridge / "lines" / "run_2").read_text() == "-y 'a b'\n"
    lines.write_bytes(b"\xef\xbb\xbf-x 1\r\n-x 2\r\n")  # as Windows writes it
    assert "  win_1: -x 1\n  win_2: -x 2\n" in bare.submit("--lines", lines, batch="win")[1]
    sweep = "--sweep", "a=8..11", "--sweep", "size=x,-1..0"
    output = bare.submit(*sweep, batch="all")[1]
    assert (
        "  all_01: -a 8 --size x\n  all_02: -a 8 --size -1\n  all_03: -a 8 --size 0\n  .. and 9 more\n"
        in output
    )
    assert "and 12 were there before" in bare.submit(*sweep, batch="all")[1]
    bare.end()
    assert len(units(bare)) == 16
    for line in ("a=1,2,3 4", "a", "a=", "=3", "a=5..1", "a=1..999999"):
        status, output, fault = bare.submit("--sweep", line, batch="no")
        assert (
            (status, output) == (1, "")
            and fault.startswith("bsched-tools: --sweep")
            and fault.count("\n") == 1
        )


# ---- Mistakes: each gets one clear line, and changes nothing


def test_a_command_line_is_never_replaced(bare: WorkProject) -> None:
    """The record of the batch is lost, and the other line has as many bytes."""
    assert bare.app("--command-lines")[0] == 0
    assert bare.submit("--sweep", "a=1")[0] == 0
    (bare.folder / "submitted" / "run.json").unlink()
    before = bare.state()
    fault = "lines/run_1: it is there with other bytes: choose another --batch"
    is_refused(bare, bare.submit("--sweep", "a=2"), fault, before)
    assert "and 1 were there before" in bare.submit("--sweep", "a=1")[1]


# ---- Stops


def test_a_copy_of_an_input_is_on_the_disk_before_it_has_its_name(
    work: WorkProject, monkeypatch: pytest.MonkeyPatch, capsys: pytest.CaptureFixture[str]
) -> None:
    """Else a power failure leaves an empty file under the name, and the same command refuses it."""
    for path in work.make_inputs(2).iterdir():
        path.chmod(0o600)
    steps: list[object] = []
    renamed, synced = os.rename, os.sync

    def rename(old: Path, new: Path) -> None:
        if new.parent == work.files:
            steps.append(new.name)
        renamed(old, new)

    def sync() -> None:
        steps.append([path.stat().st_size for path in sorted(work.files.glob(".run_*"))])
        synced()

    monkeypatch.setattr(os, "rename", rename)
    monkeypatch.setattr(os, "sync", sync)
    words = "submit", "--project", f"{work.folder}/", "--app", "count", "--batch", "run", work.inputs
    assert run_here(capsys, *words)[0] == 0
    assert steps == [[20, 20], "run_part_00001.txt.in", "run_part_00002.txt.in", []]

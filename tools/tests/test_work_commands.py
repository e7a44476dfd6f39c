"""The way from a program and a folder of inputs to a folder of outputs."""
import csv
import io
import json
import os
import signal
from pathlib import Path
from typing import Any

import pytest
from small_project import tools
from work_project import PLATFORM, WorkProject
from work_tried import run_here

from bsched_tools import project_access


# ---- Work


@pytest.mark.parametrize("number", [signal.SIGINT, signal.SIGTERM])
def test_a_signal_while_the_tables_are_copied_ends_the_command(
    work: WorkProject,
    monkeypatch: pytest.MonkeyPatch,
    capsys: pytest.CaptureFixture[str],
    number: signal.Signals,
) -> None:
    """It is no reason to go on with an older copy."""
    work.make_inputs(2)
    assert work.tools("copy")[0] == 0
    before = work.state()

    def copy(*_args: object) -> Any:
        os.kill(os.getpid(), number)

    monkeypatch.setattr(project_access, "copy_tables", copy)
    words = "submit", "--project", f"{work.folder}/", "--app", "count", "--batch", "run", work.inputs
    ended = run_here(capsys, *words)
    assert ended == (1, "", f"bsched-tools: ended by {number.name}\n")
    assert work.state() == before


# ---- Progress and outputs


def finish(work: WorkProject, user: int, count: int, output: str | None = None, status: int = 0) -> None:
    """Has a host get its jobs, and report them."""
    for seqno in range(1, 100, 2):
        reply = json.loads(
            work.call(user, seqno, f"h{user}", platform_name=PLATFORM, work_req_seconds=10**6)
        )
        jobs = [job["name"] for job in reply["results"]]
        if not jobs:
            return
        reports = [
            {"name": name, "exit_status": status, "output": output or f"of {name[:-2]}"} for name in jobs
        ]
        work.call(user, seqno + 1, f"h{user}", platform_name=PLATFORM, results=reports)


def test_progress_and_collect(bare: WorkProject, tmp_path: Path) -> None:
    """Two users do the work, and outputs are on standard error."""
    assert bare.app()[0] == 0
    bare.make_inputs(6)
    assert bare.submit("--hours", "0.001", "--memory", "1k", "--disk", "100k", bare.inputs)[0] == 0
    lines = bare.tools("progress", "--batch", "run")[1].splitlines()
    assert lines[1:5] == ["waiting  6", "out      0", "done     0 of 6", "failed   0"]
    to = tmp_path / "outputs"
    assert bare.tools("collect", "--to", to, "--batch", "run")[1].endswith(": 0 new of 0 done; 0 failed\n")
    finish(bare, 1, 6)
    lines = bare.tools("progress", "--batch", "run")[1].splitlines()
    assert lines[1:5] == ["waiting  6", "out      0", "done     0 of 6", "failed   0"]
    finish(bare, 2, 6)
    lines = bare.tools("progress")[1].splitlines()
    assert lines[1:5] == ["waiting  20", "out      0", "done     6 of 26", "failed   0"]
    assert bare.tools("collect", "--to", to, "--batch", "run")[1].endswith(": 6 new of 6 done; 0 failed\n")
    rows = list(csv.DictReader(io.StringIO((to / "results.csv").read_text())))
    assert [row["workunit"] for row in rows] == [f"run_part_{number:05}.txt" for number in range(1, 7)]
    assert (
        rows[0]["output"] == "of run_part_00001.txt" and rows[0]["input"] == f"{bare.inputs}/part_00001.txt"
    )
    assert bare.tools("collect", "--to", to, "--batch", "run")[1].endswith(": 0 new of 6 done; 0 failed\n")
    lines = bare.tools("collect", "--to", to)[1].splitlines()
    assert lines[1].endswith(": 6 new of 6 done; 0 failed")
    what = "w1 (no version of dock is for the platform of any computer)"  # the fixture's own workunits
    assert lines[2].startswith(f"stuck: 20 of 20 open (open.csv): {what}, ")
    status, _, fault = bare.tools("collect", "--to", to, "--batch", "none")
    assert (status, fault) == (1, "bsched-tools: --batch none: there is no batch with this name\n")


def test_batches_with_like_names(bare: WorkProject) -> None:
    """A batch has its own workunits, and not those of another one whose name begins like it."""
    assert bare.app()[0] == 0
    bare.make_inputs(2)
    bare.submit(bare.inputs)
    bare.submit(bare.inputs / "part_00001.txt", batch="run-2")
    bare.submit(bare.inputs / "part_00001.txt", batch="run2")
    for batch, count in (("run", 2), ("run-2", 1), ("run2", 1)):
        assert f"done     0 of {count}\n" in bare.tools("progress", "--batch", batch)[1]


def test_failed_workunits(bare: WorkProject, tmp_path: Path) -> None:
    assert bare.app()[0] == 0
    bare.make_inputs(2)
    words = "--quorum", "1", "--hours", "0.001", "--memory", "1k", "--disk", "100k"
    assert bare.submit(*words, "--errors", "3", bare.inputs)[0] == 0
    for user in (1, 2, 3, 4):
        finish(bare, user, 2, "no room\nfor it", 1)
    output = bare.tools("progress", "--batch", "run")[1]
    assert "failed   2: 2 with too many errors\n  8 results said: no room\n" in output
    assert "\nerrors   8, 2 of them by computer 1 of User 1\n" in output
    output = bare.tools("collect", "--batch", "run", "--to", tmp_path / "out")[1]
    assert output.endswith(": 0 new of 0 done; 2 failed\n")
    assert (tmp_path / "out" / "failed.csv").read_text() == (
        "workunit,input,reason\n"
        f"run_part_00001.txt,{bare.inputs}/part_00001.txt,too many errors\n"
        f"run_part_00002.txt,{bare.inputs}/part_00002.txt,too many errors\n"
    )


# ---- The tables of a folder


def rows_in(path: Path) -> list[dict[str, str]]:
    """Returns the rows of a table."""
    return list(csv.DictReader(io.StringIO(path.read_text())))


def test_what_is_open_and_stuck_has_a_row(bare: WorkProject, tmp_path: Path) -> None:
    """One account has all computers. A bad input fails there, and no other user takes it."""
    assert bare.app()[0] == 0
    bare.make_inputs(3)
    words = "--quorum", "1", "--errors", "1", "--hours", "0.001", "--memory", "1k", "--disk", "100k"
    assert bare.submit(*words, bare.inputs)[0] == 0
    reply = json.loads(bare.call(1, 1, "h1", platform_name=PLATFORM, work_req_seconds=1))
    (job,) = reply["results"]
    report = {"name": job["name"], "exit_status": 3, "output": "=bad\x1b input\n"}
    bare.call(1, 2, "h1", platform_name=PLATFORM, results=[report], work_req_seconds=1)
    to = tmp_path / "out"
    text = "run_part_00001.txt (it waits for a computer of a further user; 1 client error, =bad\ufffd input)"
    assert text in bare.tools("progress", "--batch", "run")[1]
    output = bare.tools("collect", "--batch", "run", "--to", to)[1]
    assert output.splitlines()[-1] == f"stuck: 1 of 3 open (open.csv): {text}"
    rows = rows_in(to / "open.csv")
    assert [(row["workunit"], row["state"]) for row in rows] == [
        ("run_part_00001.txt", "stuck"),
        ("run_part_00002.txt", "out"),
        ("run_part_00003.txt", "waiting"),
    ]
    assert rows[0]["last_error"] == "'=bad\ufffd input" and rows[0]["errors"] == "1"
    assert rows[0]["input"] == f"{bare.inputs}/part_00001.txt"
    assert bare.tools("copy")[0] == 0
    assert "bsched-tools: 21 workunits stuck: w1 (no version of dock is for" in bare.tools("results")[2]
    assert "warning   stuck        21 workunits: " in bare.tools("health")[1]
    assert "stuck, of the open ones" in bare.tools("counts")[1]
    output = bare.submit("--memory", "1k", "--disk", "100k", bare.inputs, batch="next")[1]
    assert "before     1 job of other batches waits, and goes out first" in output


def test_a_folder_keeps_the_rows_of_every_batch(bare: WorkProject, tmp_path: Path) -> None:
    """In any order, and also those of workunits that the tables lost."""
    assert bare.app()[0] == 0
    bare.make_inputs(2)
    words = "--quorum", "1", "--hours", "0.001", "--memory", "1k", "--disk", "100k"
    for batch in ("one", "two"):
        assert bare.submit(*words, bare.inputs, batch=batch)[0] == 0
    to = tmp_path / "out"
    names = [f"{batch}_part_0000{number}.txt" for batch in ("one", "two") for number in (1, 2)]
    for batch in ("one", "two", "one"):
        assert bare.tools("collect", "--to", to, "--batch", batch)[0] == 0
    assert sorted(row["workunit"] for row in rows_in(to / "open.csv")) == names
    finish(bare, 1, 4)
    assert bare.tools("collect", "--to", to, "--batch", "two")[0] == 0
    assert [row["workunit"] for row in rows_in(to / "open.csv")] == names[:2]
    assert bare.tools("collect", "--to", to, "--batch", "one")[0] == 0
    assert rows_in(to / "open.csv") == []
    assert [row["workunit"] for row in rows_in(to / "results.csv")] == [*names[2:], *names[:2]]
    before = (to / "results.csv").read_text()
    with (to / "results.csv").open("a") as file:
        file.write("lost,inputs/x,lost_0,1,'=3,\n")
    assert bare.tools("collect", "--to", to)[0] == 0
    rows = rows_in(to / "results.csv")
    assert [row["workunit"] for row in rows] == ["lost", *names] and rows[0]["output"] == "'=3"
    (to / "results.csv").write_text("something else\n")
    status, _, fault = bare.tools("collect", "--to", to)
    assert status == 1 and "results.csv: it is not a table that `collect` wrote: move it" in fault
    (to / "results.csv").write_text(before)
    assert bare.tools("collect", "--to", to)[0] == 0


def test_a_project_that_is_none(tmp_path: Path) -> None:
    for command in ("progress", "collect --to x", "submit --app a --batch b c", "app a --program p"):
        status, _, fault = tools(*command.split(), "--project", f"{tmp_path}/")
        assert status == 1 and "it is no project of bsched-project" in fault

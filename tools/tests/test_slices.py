"""Tests batches that are imported a slice at a time."""
import json
import sys
from collections.abc import Iterator
from pathlib import Path

import pytest
from small_project import rows_of
from work_project import PLATFORM, WorkProject

from bsched_tools import __main__
from bsched_tools.imports import Sender

AMOUNTS = "--quorum", "1", "--hours", "0.001", "--memory", "1k", "--disk", "100k"
PLACE = "by bsched-feed@sums.timer or `bsched-tools feed`"


@pytest.fixture
def work(tmp_path: Path) -> Iterator[WorkProject]:
    """Yields a project with an application, which is served."""
    made = WorkProject(tmp_path)
    made.serve()
    assert made.app()[0] == 0
    made.make_inputs(10)
    yield made
    made.end()


def take_jobs(work: WorkProject, calls: int, seqno: int) -> int:
    """Has a computer get up to four jobs in each call, and report them. Returns how many it got."""
    count = 0
    for number in range(calls):
        reply = json.loads(
            work.call(1, seqno + 2 * number, "h1", platform_name=PLATFORM, work_req_seconds=10**6)
        )
        reports = [{"name": job["name"], "exit_status": 0, "output": "1"} for job in reply["results"]]
        work.call(1, seqno + 2 * number + 1, "h1", platform_name=PLATFORM, results=reports)
        count += len(reports)
    return count


def last_lines(outcome: tuple[int, str, str]) -> list[str]:
    """Returns the lines about the import."""
    status, output, fault = outcome
    assert (status, fault) == (0, "")
    return [line for line in output.splitlines() if line.startswith(("imported", "later"))]


def test_a_batch_in_slices(work: WorkProject) -> None:
    """The same command, and `feed`, import nothing twice, and further ones only as jobs go out."""
    submit = *AMOUNTS, "--slice", "4", work.inputs
    assert last_lines(work.submit(*submit)) == [
        "imported   4 workunits",
        f"later      6 as jobs go out, {PLACE}",
    ]
    assert sorted(path.name for path in work.files.glob("run_*"))[-1] == "run_part_00010.txt.in"
    again = ["imported   0 workunits, and 4 were there before", f"later      6 as jobs go out, {PLACE}"]
    assert last_lines(work.submit(*submit)) == again
    assert work.tools("feed") == (0, "", "")
    output = work.tools("progress", "--batch", "run")[1]
    assert "waiting  4\n" in output and "later    6 are not imported yet (--slice)\n" in output
    assert take_jobs(work, 1, 1) == 4
    assert work.tools("feed") == (0, "run: 4 workunits imported, 2 are left\n", "")
    assert work.tools("feed") == (0, "", "")
    assert take_jobs(work, 1, 3) == 4
    assert last_lines(work.submit(*submit)) == ["imported   2 workunits, and 8 were there before"]
    output = work.tools("progress", "--batch", "run")[1]
    assert "done     8 of 10\n" in output and "later" not in output
    work.end()
    names = [name for name, in rows_of(work.folder / "project.db", "SELECT name FROM unit WHERE id > 20")]
    assert names == [f"run_part_{number:05}.txt" for number in range(1, 11)]


def test_another_size_of_slices_is_refused(work: WorkProject) -> None:
    assert work.submit(*AMOUNTS, "--slice", "4", work.inputs)[0] == 0
    for words in ((), ("--slice", "5")):
        status, output, fault = work.submit(*AMOUNTS, *words, work.inputs)
        assert (status, output) == (1, "") and "was made with --slice 4: give the same" in fault
    assert work.submit("--slice", "0", work.inputs)[0] == 64


def test_a_stop_between_two_imports(
    work: WorkProject, monkeypatch: pytest.MonkeyPatch, capsys: pytest.CaptureFixture[str]
) -> None:
    """The next run continues."""

    class Stop(Exception):
        """Raised in the place of a kill."""

    sent = 0
    answer = Sender.answer

    def stopped(sender: Sender, kind: str, batch: object) -> object:
        nonlocal sent
        sent += 1
        if sent == 2:
            answer(sender, kind, batch)  # type: ignore[arg-type]
            raise Stop
        return answer(sender, kind, batch)  # type: ignore[arg-type]

    assert work.submit(*AMOUNTS, "--slice", "1", work.inputs)[0] == 0
    assert take_jobs(work, 1, 1) == 1
    monkeypatch.setattr(Sender, "answer", stopped)
    monkeypatch.setattr(sys, "argv", ["bsched-tools", "feed", "--project", f"{work.folder}/"])
    assert __main__.main() == 0
    assert take_jobs(work, 1, 3) == 1
    with pytest.raises(Stop):
        __main__.main()
    capsys.readouterr()
    assert __main__.main() == 0 and capsys.readouterr().out == ""
    assert take_jobs(work, 1, 5) == 1
    assert __main__.main() == 0
    assert capsys.readouterr().out == "run: 1 workunit imported, 6 are left\n"

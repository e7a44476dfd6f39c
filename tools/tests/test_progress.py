"""Tests the rate of the work, its end, and what keeps it from its end."""
import json
import re
import sqlite3
from datetime import datetime, timedelta, timezone

import pytest
from work_project import PLATFORM, WorkProject

from bsched_tools.progress import Progress, Trouble, rate_lines
from bsched_tools.stuck import Stuck

NOW = 1_800_000_000  # 08:00
HOUR, DAY = 3600, 86_400
NO_COPY = "rate     unknown: there is no copy of the last day; bsched-copy@ makes one each hour"


def lines(now: Progress, before: Progress | None = None, stuck: int = 0) -> list[str]:
    """Returns the lines about the rate."""
    return list(rate_lines(now, before, stuck))


def work(done: int, waiting: int, sent: int | None, moment: int = NOW) -> Progress:
    """Returns a progress."""
    return Progress(moment, waiting=waiting, done=done, first_sent=sent)


def test_the_rate_counts_from_the_first_job_on() -> None:
    """An older copy, from before the batch, changes nothing."""
    now = work(60, 60, NOW - 600)
    wanted = ["rate     60 workunits in 10 minutes", "end      may be at 2027-01-15 08:10 UTC, at this rate"]
    assert lines(now) == wanted
    assert lines(now, work(0, 120, None, NOW - 20 * HOUR)) == wanted


def test_the_rate_counts_from_an_older_copy_on() -> None:
    now = work(100, 10, NOW - 10 * DAY)
    before = work(90, 20, NOW - 10 * DAY, NOW - 2 * HOUR)
    assert lines(now, before) == [
        "rate     10 workunits in 2.0 hours",
        "end      may be at 2027-01-15 10:00 UTC, at this rate",
    ]


@pytest.mark.parametrize(
    "now, wanted",
    [
        (work(0, 5, None), ["rate     unknown: no job went out yet"]),
        (work(0, 5, NOW - 1), ["rate     unknown yet: the first job went out 1 second ago"]),
        (work(3, 5, NOW - 59), ["rate     unknown yet: the first job went out 59 seconds ago"]),
        (work(3, 5, NOW - 2 * DAY), [NO_COPY]),
        (work(0, 5, NOW - 60), ["rate     0 workunits in 1 minute"]),
        (work(5, 0, NOW - HOUR), ["rate     5 workunits in 1.0 hours"]),
    ],
)
def test_rates_without_an_end(now: Progress, wanted: list[str]) -> None:
    assert lines(now) == wanted


def test_no_end_is_foretold_of_what_is_stuck() -> None:
    now = work(60, 2, NOW - 600)
    assert lines(now, stuck=2) == ["rate     60 workunits in 10 minutes"]
    now = work(60, 62, NOW - 600)
    assert lines(now, stuck=2)[1] == (
        "end      may be at 2027-01-15 08:10 UTC, at this rate without what is stuck"
    )


def test_what_keeps_the_work_from_its_end() -> None:
    stuck = [Stuck("w1", "it waits for a computer of a further user", 1, "exit status 3")]
    trouble = Trouble(stuck, 1138, "computer 4 of Eve", 138, [])
    assert list(trouble.lines) == [
        "errors   1,138, 138 of them by computer 4 of Eve",
        "stuck    1: w1 (it waits for a computer of a further user; 1 client error, exit status 3)",
    ]


# ---- Progress and outputs


def test_the_rate_follows_from_an_older_copy(bare: WorkProject) -> None:
    assert bare.app()[0] == 0
    bare.make_inputs(4)
    words = "--quorum", "1", "--hours", "0.001", "--memory", "1k", "--disk", "100k"
    assert bare.submit(*words, bare.inputs)[0] == 0
    assert bare.tools("copy")[0] == 0
    (copy,) = (bare.folder / "copies").iterdir()
    moment = datetime.now(timezone.utc) - timedelta(hours=2)
    copy.rename(copy.with_name(f"project-{moment:%Y%m%dT%H%M%S}.000Z.db"))
    assert "rate     unknown: no job went out yet\n" in bare.tools("progress")[1]
    reply = json.loads(bare.call(1, 1, platform_name=PLATFORM, work_req_seconds=1))
    reports = [{"name": job["name"], "exit_status": 0, "output": "1"} for job in reply["results"]]
    bare.call(1, 2, platform_name=PLATFORM, results=reports)
    bare.end()
    connection = sqlite3.connect(bare.folder / "project.db")
    connection.execute("UPDATE instance SET sent = sent - 10000 WHERE sent IS NOT NULL")
    connection.commit()
    connection.close()
    output = bare.tools("progress", "--batch", "run")[1]
    assert re.search(r"rate     1 workunit in 2\.[0-9] hours\nend      may be at ", output)

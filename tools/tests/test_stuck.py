"""Which workunits are stuck."""
import json
from pathlib import Path

import pytest
from lives import life_of, stored_life
from stuck_lives import Life

from bsched_files.tables import opened
from bsched_tools.counts import as_json, as_lines, as_metrics, counted
from bsched_tools.stuck import Stuck, named, stuck_in

FURTHER = "it waits for a computer of a further user"


@pytest.mark.parametrize("seed", range(4))
def test_stuck_workunits_are_those_of_the_plain_scheduler(tmp_path: Path, seed: int) -> None:
    """Of it each computer is asked whether it could get the workunit."""
    lived = life_of(seed, calls=150)
    machine = lived.service.machine
    wanted = [
        unit.name
        for unit in machine.places
        if unit.status == "open"
        and not any(one.held() for one in unit.instances)
        and not any(
            unit.name not in host.account.units and machine.fits(host, unit)
            for host in machine.hosts.values()
        )
    ]
    assert machine.hosts
    path = stored_life(lived, tmp_path / "project.db")
    with opened(path) as tables:
        assert [one.name for one in stuck_in(tables)] == wanted
        names = set(wanted[::2])
        assert [one.name for one in stuck_in(tables, names)] == wanted[::2]


def test_a_workunit_that_every_user_had(life: Life) -> None:
    life.work("bad", errors=3)
    assert life.stuck() == []  # no computer has joined
    life.call(1)
    assert life.stuck() == []  # it can have it
    life.call(1, work_req_seconds=10)
    assert life.stuck() == []  # it has it
    life.report(1, "bad_0", "\nexit status 3\x1b[2J\nmore", 3)
    assert life.stuck() == [Stuck("bad", FURTHER, 1, "exit status 3\ufffd[2J")]
    life.call(2)
    assert life.stuck() == []
    life.report(2, "bad_1", "exit status 4", 4)
    (stuck,) = life.stuck()
    assert stuck.text == f"bad ({FURTHER}; 2 client errors, the last: exit status 4)"


def test_a_workunit_that_waits_for_a_second_result(life: Life) -> None:
    life.work("w", quorum=2)
    life.report(1, "w_0", "5")
    assert [one.text for one in life.stuck()] == [f"w ({FURTHER})"]
    life.call(2)
    assert life.stuck() == []


@pytest.mark.parametrize(
    "more, why",
    [
        ({"memory": 10**9 + 1}, "it needs more memory than any computer has"),
        ({"disk": 10**9 + 1}, "it needs more free disk than any computer has"),
        ({"operations": 7201 * 10**9}, "no computer can end it before its deadline"),
        ({"operations": 7200 * 10**9}, None),
        ({"memory": 10**9, "disk": 10**9}, None),
    ],
)
def test_workunits_that_are_too_large(life: Life, more: dict[str, int], why: str | None) -> None:
    life.work("large", **more)
    life.call(1)
    assert [one.why for one in life.stuck()] == ([] if why is None else [why])


def test_no_computer_has_all_that_is_needed(life: Life) -> None:
    """One has the memory, and another one the disk."""
    life.work("large", memory=2 * 10**9, disk=2 * 10**9)
    facts = {"p_fpops": 10**9, "m_nbytes": 10**9, "d_free": 10**9}
    life.call(1, host_info={**facts, "host_cpid": "h1", "m_nbytes": 3 * 10**9})
    life.call(2, host_info={**facts, "host_cpid": "h2", "d_free": 3 * 10**9})
    assert [one.why for one in life.stuck()] == [
        "no computer has the memory, the disk and the speed that it needs"
    ]


def test_no_version_for_any_platform(life: Life) -> None:
    life.work("w")
    life.call(1, platform_name="windows")
    assert [one.why for one in life.stuck()] == ["no version of dock is for the platform of any computer"]
    life.call(1, platform_name="windows", alt_platforms=["linux"])
    assert life.stuck() == []


def test_how_many_are_named(life: Life) -> None:
    for number in range(5):
        life.work(f"w{number}", memory=10**10)
    life.call(1)
    text = named(life.stuck())
    assert text.startswith("w0 (it needs") and text.endswith(", and 2 more") and "w3" not in text


def test_counts_have_the_stuck_ones(life: Life) -> None:
    life.work("small")
    life.work("large", memory=10**10)
    life.call(1)
    counts = counted([life.copy()])
    assert json.loads(counts.text())["open_workunits"] == {"out": 0, "waiting": 2, "stuck": 1}
    assert "bsched_stuck_workunits 1" in list(as_metrics(counts))
    assert any(line.split() == "workunits stuck, of the open ones 1".split() for line in as_lines(counts))
    assert '"stuck": 1' in next(iter(as_json(counts)))

"""Tests that the counts that are written are those that are read."""
import json
from collections import Counter
from pathlib import Path

import pytest

from bsched_files.counts import (
    FORMAT,
    STATUSES,
    Counts,
    KnownCounts,
    Limit,
    UnitCounts,
    counts_in,
    read_counts,
)
from bsched_files.faults import Fault

COUNTS = Counts(
    schema=3,
    moment=1_700_000_000,
    workunits=Counter({**dict.fromkeys(STATUSES.values(), 0), "open": 7, "done": 5}),
    out=3,
    stuck=1,
    instances=Counter({"all": 20}),
    people={"hosts": 2},
    millicredits=1500,
    limits={"hosts": Limit(3, 100), "apps": Limit(100, 100)},
    bytes=4096,
)


def test_what_is_written_is_read(tmp_path: Path) -> None:
    path = tmp_path / "counts.json"
    path.write_text(COUNTS.text())
    found = read_counts(path)
    assert found.units == UnitCounts(dict(COUNTS.workunits), COUNTS.moment, 3, 1)
    assert found.limits == COUNTS.limits and COUNTS.limits["hosts"].left == 97
    members = json.loads(COUNTS.text())
    assert members["format"] == FORMAT
    assert members["open_workunits"] == {"out": 3, "waiting": 4, "stuck": 1}


def test_a_file_of_version_1_2_has_no_number(tmp_path: Path) -> None:
    path = tmp_path / "counts.json"
    members = json.loads(COUNTS.text())
    del members["format"]
    path.write_text(json.dumps(members))
    assert read_counts(path).units == UnitCounts(dict(COUNTS.workunits), COUNTS.moment, 3, 1)


def test_a_file_of_a_newer_version_is_refused(tmp_path: Path) -> None:
    path = tmp_path / "counts.json"
    path.write_text(json.dumps({**json.loads(COUNTS.text()), "format": FORMAT + 1}))
    with pytest.raises(Fault, match=f"it has format {FORMAT + 1}, and this program knows {FORMAT}"):
        read_counts(path)
    assert counts_in(path).value() == KnownCounts()


@pytest.mark.parametrize(
    "opened, out, stuck",
    [
        ({"out": 7, "stuck": 0}, 7, 0),
        ({"out": 8}, None, 0),
        ({"out": 3, "stuck": 5}, 3, 0),
        ({"out": True, "stuck": 1}, None, 0),
        ({"stuck": 1}, None, 0),
        ({}, None, 0),
    ],
)
def test_what_does_not_fit_is_not_known(
    tmp_path: Path, opened: dict[str, object], out: int | None, stuck: int
) -> None:
    path = tmp_path / "counts.json"
    path.write_text(json.dumps({**json.loads(COUNTS.text()), "open_workunits": opened}))
    units = read_counts(path).units
    assert units is not None and (units.out, units.stuck) == (out, stuck)


@pytest.mark.parametrize(
    "text", ["{}", '{"workunits": 5}', '{"workunits": {"open": "x"}}', '{"limits": [1]}']
)
def test_what_is_missing_is_not_known(tmp_path: Path, text: str) -> None:
    path = tmp_path / "counts.json"
    path.write_text(text)
    assert read_counts(path) == KnownCounts()


def test_without_a_moment_that_of_the_file_counts(tmp_path: Path) -> None:
    path = tmp_path / "counts.json"
    path.write_text('{"workunits": {"open": 1}, "moment": -5}')
    units = read_counts(path).units
    assert units is not None and units.counted_at == path.stat().st_mtime

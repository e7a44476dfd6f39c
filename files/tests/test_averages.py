"""Tests that a bridge reads the averages that a run of the tools wrote, and how they decay."""
import json
from pathlib import Path

import pytest
from hypothesis import given
from hypothesis import strategies as st

from bsched_files.averages import (
    FORMAT,
    HALF_LIFE,
    AveragesFile,
    HostAverages,
    Kept,
    average_after,
    decayed,
    digest,
    read_averages,
)
from bsched_files.faults import Fault
from bsched_files.moments import DAY


def kept(path: Path, averages: dict[tuple[str, str], float | None], moment: int) -> AveragesFile:
    """Writes the averages of hosts at a moment."""
    file = AveragesFile(path)
    for number, ((key, cpid), average) in enumerate(averages.items(), 1):
        file.hosts[file.digest(key, cpid)] = Kept(number, 0, [1], average=average, time=moment)
    file.users[file.digest("ann")] = [1, 0]
    file.write()
    return file


def test_what_is_written_is_read(tmp_path: Path) -> None:
    path = tmp_path / "averages.json"
    file = kept(path, {("ann", "c1"): 8.0, ("ann", "c2"): None}, 1000)
    again = AveragesFile(path)
    assert (again.salt, again.users, again.hosts) == (file.salt, file.users, file.hosts)
    read = read_averages(path)
    assert [read.at(1000, "ann", cpid) for cpid in ("c1", "c2", "c3")] == [8.0, 0.0, 0.0]
    assert read.at(1000 + HALF_LIFE, "ann", "c1") == pytest.approx(4)
    assert read.at(0, "ann", "c1") == 8.0  # a clock that went back
    assert "ann" not in path.read_text() and path.stat().st_mode & 0o777 == 0o600


def test_a_digest_stays() -> None:
    """A file of a former version names its hosts so."""
    assert digest("5a17", "ann-key", "c1") == "820891f14140ec8c3bb6af9ce309e7cc"
    assert digest("5a17", "ann-key", "c1") != digest("5a18", "ann-key", "c1") != digest("5a18", "ann-key")


@given(st.floats(0, 1e6), st.floats(0.01, 100), st.floats(0.01, 100))
def test_without_credit_two_spans_are_as_one(average: float, one: float, other: float) -> None:
    twice = average_after(average_after(average, one, 0), other, 0)
    assert twice == pytest.approx(decayed(average, (one + other) * DAY))


@pytest.mark.parametrize(
    "change", [{"format": FORMAT + 1}, {"format": None}, {"hosts": {"a": 3}}, {"hosts": 1}]
)
def test_faults(tmp_path: Path, change: dict[str, object]) -> None:
    path = tmp_path / "averages.json"
    kept(path, {("ann", "c1"): 8.0}, 1000)
    path.write_text(json.dumps({**json.loads(path.read_text()), **change}))
    with pytest.raises(Fault, match=f"^{path}: it has "):
        read_averages(path)
    with pytest.raises(Fault, match="move it away, or restore a copy$"):
        AveragesFile(path)


def test_nothing_is_known() -> None:
    assert HostAverages().at(1000, "ann", "c1") == 0.0

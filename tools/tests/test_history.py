"""What earlier reports counted."""
import json
import os
from collections.abc import Callable
from pathlib import Path
from typing import Any

import pytest
from pages_made import DONE, called, lived_in_parts, reported
from small_project import make_tables, request

from bsched_files.faults import Fault
from bsched_tools import history


def test_the_history(tmp_path: Path, folder: Path) -> None:
    _, copy, _ = lived_in_parts(tmp_path, folder)
    path = folder / "history.jsonl"
    before = path.read_text()
    entries = [json.loads(line) for line in before.splitlines()]
    moments: list[int] = [one["moment"] for one in entries]
    assert len(entries) == 4 and sorted(moments) == moments
    assert sum(sum(one["turnaround"]) for one in entries) > 10
    reported(copy, folder)
    assert path.read_text() == before
    path.write_text(before + '{"moment": 5')
    os.utime(copy, (2**31, 2**31))
    reported(copy, folder)
    lines = path.read_text().splitlines()
    assert len(lines) == 6 and json.loads(lines[-1])["moment"] == 2**31
    assert len(history.History(folder).entries) == 5


@pytest.mark.parametrize("writes", [0, 1])
def test_a_stop_in_a_report_makes_no_result_count_twice(
    tmp_path: Path,
    folder: Path,
    monkeypatch: pytest.MonkeyPatch,
    writes: int,
) -> None:
    path = make_tables(tmp_path / "project.db", units=4)
    called(path, 10_000, request(1, 1, work_req_seconds=1))
    reported(path, folder, 10_060)
    called(path, 13_000, request(1, 2, results=DONE))
    left = [None] * writes

    def stopped_after(write: Callable[..., None]) -> Callable[..., None]:
        def written(*args: Any) -> None:
            if not left:
                raise Fault("a stop")
            left.pop()
            write(*args)

        return written

    for name in ("append_line", "replace_file"):
        monkeypatch.setattr(history, name, stopped_after(getattr(history, name)))
    with pytest.raises(Fault, match="a stop"):
        reported(path, folder, 13_060)
    monkeypatch.undo()
    called(path, 13_100, request(1, 3))
    for moment in (13_160, 13_200):
        reported(path, folder, moment)
    entries = history.History(folder).entries
    moments = [10_060, 13_060, 13_160, 13_200] if writes else [10_060, 13_160, 13_200]
    assert [entry.moment for entry in entries] == moments
    assert sum(sum(entry.turnaround) for entry in entries) == 1

"""What a cursor says: ranges of numbers, the marks of projects, and why a run printed nothing."""
import hashlib
import json
from pathlib import Path

import pytest
from hypothesis import given, strategies as st

from bsched_files import tables
from bsched_files.faults import Fault
from bsched_tools.cursors import Cursor, Given, cursor_at, former_mark, numbers_of, ranges_of


@given(st.sets(st.integers(1, 40)))
def test_ranges_have_the_numbers(numbers: set[int]) -> None:
    ranges = ranges_of(numbers)
    assert numbers_of(ranges) == numbers
    assert all(first <= last for first, last in ranges)
    assert all(before[1] + 1 < after[0] for before, after in zip(ranges, ranges[1:]))


def test_the_mark_of_a_former_cursor(project: Path) -> None:
    """It is of the settings without the operator's key and the schema, and of the first workunit."""
    with tables.opened(project) as opened:
        settings = sorted(
            (name, value)
            for name, value in opened.settings.items()
            if name != "operator_key" and name != "schema"
        )
        (unit,) = opened.rows("SELECT * FROM unit WHERE id = 1")
        text = json.dumps([settings, unit[: len(unit) - 1]])
        assert former_mark(opened) == hashlib.sha256(text.encode()).hexdigest()[:32]
    assert len(former_mark_of(project)) == 32


def former_mark_of(path: Path) -> str:
    """Returns the former mark of tables."""
    with tables.opened(path) as opened:
        return former_mark(opened)


def test_why_a_run_printed_nothing(tmp_path: Path) -> None:
    for printed, left_out, says in ((0, 0, False), (0, 7, True), (2, 7, False), (2, 0, False)):
        cursor = Cursor(tmp_path / "cursor")
        cursor.projects = {"a": Given(printed=printed, left_out=left_out), "b": Given()}
        why = cursor.why_nothing()
        assert (why is not None) == says
        assert why is None or "all 7 decided workunits" in why


def test_cursors_that_can_not_be_used(tmp_path: Path) -> None:
    with pytest.raises(Fault, match="its folder does not exist: make it first"):
        with cursor_at(tmp_path / "none" / "cursor"):
            pass
    with pytest.raises(Fault, match="Is a directory"):
        Cursor(tmp_path)

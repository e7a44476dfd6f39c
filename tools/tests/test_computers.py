"""Computers with many bad results."""
from collections.abc import Callable
from typing import Any

import pytest
from stuck_lives import NOW, Life

from bsched_files.tables import opened
from bsched_tools.computers import bad_computers
from bsched_tools.computers import named as named_computers


@pytest.mark.parametrize(
    "errors, valid, is_bad",
    [(2, 0, False), (3, 0, True), (3, 2, True), (3, 3, False), (4, 3, True), (0, 4, False)],
)
def test_computers_with_many_errors(life: Life, errors: int, valid: int, is_bad: bool) -> None:
    for number in range(errors + valid):
        life.work(f"w{number}")
    life.call(1, work_req_seconds=10**6)
    life.call(1, work_req_seconds=10**6)
    for number in range(errors + valid):
        status = int(number < errors)
        life.call(
            1, [{"name": f"w{number}_0", "exit_status": status, "output": "x"}], work_req_seconds=10**6
        )
    with opened(life.copy()) as tables:
        tables.moment = NOW + 100
        found = bad_computers(tables)
        text = f"computer 1 of User 1 ({errors} errors, 0 invalid of {errors + valid} results)"
        assert named_computers(found) == (text if is_bad else "")
        tables.moment = NOW + 2 * 86_400
        assert bad_computers(tables) == []


def test_computers_with_many_invalid_results(life: Life) -> None:
    """Two honest ones agree, and one writes the same for all."""
    for number in range(4):
        life.work(f"w{number}", quorum=3)
    reports: Callable[[str], list[dict[str, Any]]] = lambda output: [
        {"name": name, "exit_status": 0, "output": output or name.partition("_")[0]} for name in names
    ]
    for user, output in ((1, ""), (2, "UNSAT"), (3, "")):
        life.call(user, work_req_seconds=10**6)
        names = [f"w{number}_{user - 1}" for number in range(4)]
        life.call(user, reports(output))
    with opened(life.copy()) as tables:
        tables.moment = NOW + 100
        (found,) = bad_computers(tables)
    assert (found.host, found.errors, found.invalid, found.results) == (2, 0, 4, 4)

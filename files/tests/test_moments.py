"""Tests moments as text."""
import pytest

from bsched_files.moments import (
    DAY,
    HOUR,
    MINUTE,
    MOST_MOMENT,
    date_text,
    minute_text,
    moment_text,
    time_text,
)


def test_the_parts_of_a_moment() -> None:
    moment = 20_000 * DAY + 13 * HOUR + 5 * MINUTE + 9
    assert moment_text(moment) == "2024-10-04 13:05:09"
    assert (date_text(moment), time_text(moment)) == ("2024-10-04", "13:05")
    assert minute_text(moment) == "2024-10-04 13:05 UTC"


@pytest.mark.parametrize(
    "moment, wanted",
    [
        (None, "never"),
        (0, "1970-01-01 00:00:00"),
        (MOST_MOMENT, "9892-03-08 12:26:40"),
        (1.9, "1970-01-01 00:00:01"),
    ],
)
def test_the_ends(moment: float | None, wanted: str) -> None:
    assert moment_text(moment) == wanted

"""Badges by credit and by years."""
import pytest
from bridges import Bridge
from many_people import people
from pages_seen import page_of

from bsched_bridge.pages.badges import badges_of

YEAR = 365.25 * 86400


@pytest.mark.parametrize(
    "place, count, best",
    [
        (1, 100, "1"),
        (2, 100, "5"),
        (5, 100, "5"),
        (6, 100, "25"),
        (25, 100, "25"),
        (26, 100, None),
        (1, 99, "5"),  # one of 99 users is more than one of a hundred
        (1, 20, "5"),
        (1, 19, "25"),
        (1, 3, None),
        (100, 10_000, "1"),
        (101, 10_000, "5"),
    ],
)
def test_badges_by_credit(place: int, count: int, best: str | None) -> None:
    assert [badge.sign for badge in badges_of(1, place, count, 0, 0)] == ([] if best is None else [best])
    assert not list(badges_of(0, place, count, 0, 0))  # without credit nobody is among the best


def test_badges_by_years() -> None:
    texts = [
        [badge.text for badge in badges_of(0, 9, 9, 0, moment)]
        for moment in (YEAR - 1, YEAR, 2.5 * YEAR, -9.0)
    ]
    assert texts == [[], ["With the project for 1 year"], ["With the project for 2 years"], []]


def test_badges_on_pages(bridge: Bridge, monkeypatch: pytest.MonkeyPatch) -> None:
    years = 56
    monkeypatch.setattr("time.time", lambda: (years + 0.5) * YEAR)
    people(bridge, 200)
    assert "Among the best 1 of 100 users by credit" in page_of(bridge.got("/p/user/200")).text
    page = page_of(bridge.got("/p/user/100"))
    assert "Among the best" not in page.text and f"With the project for {years} years" in page.text
    labels = [
        fields["aria-label"] for tag, fields in page_of(bridge.got("/p/users")).tags if "aria-label" in fields
    ]
    assert labels.count("Among the best 1 of 100 users by credit") == 2 + 1  # one is in the legend
    assert labels.count("Among the best 5 of 100 users by credit") == 8 + 1
    assert labels[-4:] == [
        *(f"Among the best {of} of 100 users by credit" for of in (1, 5, 25)),
        "Years with the project",
    ]

"""A chart of credit by days: where its lines are, and what it says in words."""
from collections.abc import Sequence
from dataclasses import dataclass
from datetime import date, timedelta

from ..common.languages import ENGLISH, Language
from ..common.texts import page_credits
from ..people.credit_days import CreditDay

WIDTH, HEIGHT = 600, 160
MOST_ROWS = 60  # of the table with the same numbers


def date_text(day: int) -> str:
    """Returns a day as text."""
    return (date(1970, 1, 1) + timedelta(days=day)).isoformat()


@dataclass(frozen=True, slots=True)
class Chart:
    """A chart. The points are those of a line in an area of WIDTH times HEIGHT."""

    points: str
    area: str
    first: str
    last: str
    most: str
    text: str
    rows: list[tuple[str, str]]  # days and credit, the latest first


def chart_of(days: Sequence[CreditDay], language: Language = ENGLISH) -> Chart | None:
    """Returns the chart of some days, or None if they are fewer than two."""
    if len(days) < 2:
        return None
    first, span = days[0].day, max(1, days[-1].day - days[0].day)
    most = max(1, max(one.credit for one in days))
    points = " ".join(
        f"{WIDTH * (one.day - first) / span:.1f},{HEIGHT * (1 - one.credit / most):.1f}" for one in days
    )
    dates = [date_text(one.day) for one in days]
    rows = [(shown, language.number(page_credits(one.credit))) for shown, one in zip(dates, days)]
    text = language.gettext(
        "Credit from %(first)s to %(last)s: from %(first_credit)s to %(last_credit)s."
    ) % {"first": dates[0], "last": dates[-1], "first_credit": rows[0][1], "last_credit": rows[-1][1]}
    return Chart(
        points,
        f"0,{HEIGHT} {points} {WIDTH},{HEIGHT}",
        dates[0],
        dates[-1],
        language.number(page_credits(most)),
        text,
        rows[: -MOST_ROWS - 1 : -1],
    )

"""Badges of users: for being among the best by credit, and for years with the project. They cost no row."""
from collections.abc import Iterator
from dataclasses import dataclass

from ..common.languages import ENGLISH, Language

YEAR_SECONDS = 31_557_600  # 365.25 days
# among the best of 100 users, with the colour of the badge
BEST = ((1, "gold"), (5, "silver"), (25, "bronze"))


@dataclass(frozen=True, slots=True)
class Badge:
    """A badge."""

    colour: str  # its name in the style sheet
    sign: str  # what is on it
    text: str


def badge_of_best(of: int, colour: str, language: Language) -> Badge:
    """Returns the badge of those who are among the best of 100 users."""
    text = language.ngettext(
        "Among the best %(count)s of 100 users by credit",
        "Among the best %(count)s of 100 users by credit",
        of,
    )
    return Badge(colour, str(of), text % {"count": of})


def kinds_of_badges(language: Language) -> list[Badge]:
    """Returns one badge of each kind, for a legend."""
    best = [badge_of_best(of, colour, language) for of, colour in BEST]
    return [*best, Badge("years", "1", language.gettext("Years with the project"))]


def badges_of(
    credit: int, place: int, count: int, created_at: int, now: float, language: Language = ENGLISH
) -> Iterator[Badge]:
    """Yields the badges of a user with credit and a place among this many users."""
    best = next(((of, colour) for of, colour in BEST if credit > 0 and 100 * place <= of * count), None)
    if best is not None:
        yield badge_of_best(*best, language)
    years = int((now - created_at) / YEAR_SECONDS)
    if years >= 1:
        text = language.ngettext(
            "With the project for %(count)s year", "With the project for %(count)s years", years
        )
        yield Badge("years", str(years), text % {"count": years})

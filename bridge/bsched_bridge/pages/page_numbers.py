"""Long lists on several pages. A message asks for one of them by its number."""
import re
from collections.abc import Callable, Sequence
from dataclasses import dataclass
from typing import Generic, TypeVar

from werkzeug.wrappers import Request

from ..common.http_messages import query_of

PAGE_NUMBER = re.compile("[1-9][0-9]{0,5}")
Row = TypeVar("Row")


@dataclass(frozen=True, slots=True)
class PageOf(Generic[Row]):
    """One page of a list."""

    rows: Sequence[Row]
    first: int  # how many rows are before it
    number: int
    pages: int
    count: int  # of all rows


def page_of(
    message: Request, count: int, on_a_page: int, read: Callable[[int, int], Sequence[Row]]
) -> PageOf[Row]:
    """Returns the page that a message asks for, or the nearest one. Its rows are read from one on, and at
    most so many.
    """
    pages = max(1, -(-count // on_a_page))
    text = query_of(message).get("page", "")
    number = min(int(text), pages) if PAGE_NUMBER.fullmatch(text) else 1
    first = (number - 1) * on_a_page
    return PageOf(read(first, on_a_page), first, number, pages, count)

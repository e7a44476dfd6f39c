"""How far the work is, once or on a screen that stays.

Each copy of the tables stops the scheduler for a moment, and SQLite checks the whole copy. So a screen takes
no copy while the tables are as they were. After a look it waits twenty times as long as the look took, and
never less than ten seconds.
"""
import time
from collections.abc import Iterator
from dataclasses import dataclass

from bsched_files.moments import moment_text
from bsched_files.tables import Tables

from .copies.taking import TablesMark, tables_mark
from .progress import earlier, names_in_batch, progress_lines, progress_of, trouble_in
from .project_access import tables_of
from .projects import Project
from .slices import left_in

LEAST_PAUSE = 10.0  # seconds
PAUSE_FACTOR = 20  # a pause lasts at least so many times as long as the look before it


@dataclass(frozen=True, slots=True)
class Seen:
    """What a look at a copy of the tables found."""

    as_of: str  # of when the copy is
    lines: list[str]
    mark: TablesMark | None  # of the tables before the copy; None if the next look takes a copy anyway


def lines_now(project: Project, tables: Tables, batch: str | None) -> list[str]:
    """Returns how far a batch is, or all work, by a copy of the tables."""
    names = None if batch is None else names_in_batch(tables, batch)
    now = progress_of(tables, names)
    before = earlier(project.units().copies, now, names)
    later = left_in(project, tables, batch)
    return list(progress_lines(now, before, trouble_in(tables, names), later))


def seen_now(project: Project, batch: str | None, mark: TablesMark | None) -> Seen:
    """Looks at a new copy of the tables. Before it they had this mark."""
    with tables_of(project) as (look, tables):
        lines = lines_now(project, tables, batch)
        return Seen(look.as_of, lines, mark if look.is_fresh else None)


def pause_after(seconds: float) -> float:
    """Returns how many seconds to wait after a look that took this many."""
    return max(LEAST_PAUSE, PAUSE_FACTOR * seconds)


def time_of_day(moment: float) -> str:
    """Returns the time of the day with its seconds."""
    return moment_text(moment).partition(" ")[2]


def screens(project: Project, batch: str | None) -> Iterator[list[str]]:
    """Yields the lines of one look after the other, without an end, and waits between them."""
    seen: Seen | None = None
    while True:
        began, unchanged = time.monotonic(), ""
        mark = tables_mark(project.tables)
        if seen is None or mark is None or mark != seen.mark:
            seen = seen_now(project, batch, mark)
        else:
            unchanged = f", unchanged at {time_of_day(time.time())}"
        pause = pause_after(time.monotonic() - began)
        until = time_of_day(time.time() + pause)
        yield [f"{seen.as_of}{unchanged}; next look at {until}", *seen.lines]
        time.sleep(pause)

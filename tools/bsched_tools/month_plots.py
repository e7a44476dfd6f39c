"""The plots of the last month for the project's page, as SVG files that a browser shows as pictures.

A text describes each plot for those who do not see it.
"""
from collections.abc import Iterator, Sequence
from pathlib import Path

from bsched_files.moments import DAY, date_text
from bsched_files.plots import COMPUTERS, CREDIT, RESULTS, Plot, write_plots

from . import plots
from .history import Entry
from .page import clean

DAYS = 31
# a picture has no page around it, so it has the colours of text itself
COLOURS_OF_TEXT = "svg{color:#1a1f25}@media (prefers-color-scheme:dark){svg{color:#e6e9ed}}"
CALLED, WORKED = "hosts that called in the last day", "hosts with a job of the last day"


def last_of_days(entries: Sequence[Entry], moment: int) -> list[Entry]:
    """Returns the last entry of each whole day (UTC) of the last month, and the last one before the month."""
    today = moment // DAY * DAY
    begins = today - DAYS * DAY
    by_day = {max(entry.moment, begins - 1) // DAY: entry for entry in entries if entry.moment < today}
    return [by_day[day] for day in sorted(by_day)]


def results_a_day(days: Sequence[Entry]) -> list[float]:
    """Returns how many results were reported a day until each entry but the first. In a further file of the
    project the count begins again at 0.
    """
    found = []
    for before, after in zip(days, days[1:]):
        new = after.instances.get("reported", 0) - before.instances.get("reported", 0)
        found.append(max(0, new) / max(1, (after.moment - before.moment) / DAY))
    return found


def computers(entry: Entry) -> int:
    """Returns how many hosts called within a day, or, if that is unknown, got a job."""
    return entry.people.get(CALLED, entry.people.get(WORKED, 0))


def standing_alone(svg: str) -> str:
    """Returns a plot of a page as a file of its own."""
    namespace = 'xmlns="http://www.w3.org/2000/svg"'
    head, _, rest = svg.partition(">")
    if namespace not in head:
        head = head.replace("<svg ", f"<svg {namespace} ", 1)
    return f"{head}><style>{COLOURS_OF_TEXT}</style>{rest}"


def new_plot(name: str, title: str, moments: Sequence[int], values: Sequence[float]) -> Plot:
    """Returns a plot of one number by days."""
    what = title[0].lower() + title[1:]
    text = (
        f"{title} from {date_text(moments[0])} to {date_text(moments[-1])}: first {values[0]:,.0f}, "
        f"last {values[-1]:,.0f}, at least {min(values):,.0f}, at most {max(values):,.0f}."
    )
    return Plot(
        f"{name}.svg",
        title,
        text,
        clean(standing_alone(plots.lines(f"month-{name}", text, moments, {what: values}))).encode(),
    )


def plots_of(entries: Sequence[Entry], moment: int) -> Iterator[Plot]:
    """Yields the plots, or none if there are no two days after the first one."""
    days = last_of_days(entries, moment)
    if len(days) < 3:
        return
    moments = [entry.moment for entry in days[1:]]
    yield new_plot("results", RESULTS, moments, results_a_day(days))
    yield new_plot("computers", COMPUTERS, moments, [float(computers(one)) for one in days[1:]])
    yield new_plot("credit", CREDIT, moments, [one.millicredits / 1000 for one in days[1:]])


def write_month(folder: Path, entries: Sequence[Entry], moment: int) -> None:
    """Writes the plots into a folder."""
    write_plots(folder, list(plots_of(entries, moment)))

"""The project's pages for people: the master page and the status page."""
from dataclasses import dataclass

from werkzeug.wrappers import Request, Response

from bsched_files.counts import UnitCounts
from bsched_files.project_settings import Settings

from ..common.languages import gettext_noop, language_of
from ..common.texts import RESULT_WORDS
from ..people.directory import Directory
from .news import NEWEST, News
from .pictures import Pictures
from .statements import Statements
from .templates import Templates

LEADERS = 10
# what volunteers read about workunits: by the names of `bsched-tools counts`, and the parts of all
UNIT_WORDS = {
    "done": gettext_noop("done"),
    "out": gettext_noop("out"),
    "waiting": gettext_noop("waiting for a computer"),
    "stuck": gettext_noop("waiting for a further volunteer"),
    "open": gettext_noop("open"),
    "failed": gettext_noop("failed"),
    "failed by errors": gettext_noop("failed: too many errors"),
    "failed by successes": gettext_noop("failed: results that do not agree"),
    "failed by the total": gettext_noop("failed: too many results in all"),
}
BAR = 1000  # the width of the bar in its own units


@dataclass(frozen=True, slots=True)
class BarPart:
    """A part of the bar that shows how far the work is."""

    name: str  # that of its words
    colour: str
    count: int
    first: float
    width: float


@dataclass(frozen=True, slots=True)
class Progress:
    """How far the work is."""

    parts: list[BarPart]
    total: int
    counted_at: float

    @property
    def percent(self) -> str:
        """How many of a hundred workunits are done. It is 100 only if all are."""
        done = self.parts[0].count
        return f"{min(1000 * done // self.total, 1000) / 10:.1f}"


def open_parts(units: UnitCounts) -> dict[str, int]:
    """Returns how many of the workunits that are not decided are out, and how many wait, if that is known."""
    opened = units.by_status.get("open", 0)
    if units.out is None:
        return {"open": opened}
    parts = {"out": units.out, "waiting": opened - units.out - units.stuck}
    return {**parts, "stuck": units.stuck} if units.stuck else parts


def progress_of(units: UnitCounts | None) -> Progress | None:
    """Returns how far the work is, or None if it is not known or there is no work."""
    if units is None or not (total := sum(units.by_status.values())):
        return None
    counts = {"done": units.by_status.get("done", 0), **open_parts(units)}
    if failed := total - sum(counts.values()):
        counts["failed"] = failed
    parts, first = [], 0.0
    for name, count in counts.items():
        width = BAR * count / total
        colour = "waiting" if name in ("open", "stuck") else name
        parts.append(BarPart(name, colour, count, round(first, 2), round(width, 2)))
        first += width
    return Progress(parts, total, units.counted_at)


def unit_rows(units: UnitCounts) -> dict[str, int]:
    """Returns how many workunits have each status: the open ones as the bar has them, and why others
    failed.
    """
    others = {name: count for name, count in units.by_status.items() if name not in ("done", "open")}
    return {"done": units.by_status.get("done", 0), **open_parts(units), **others}


class Pages:
    """Answers people who ask about the project."""

    def __init__(
        self,
        settings: Settings,
        templates: Templates,
        statements: Statements,
        pictures: Pictures,
        directory: Directory,
        news: News,
    ) -> None:
        self.settings, self.templates, self.statements = settings, templates, statements
        self.pictures, self.directory, self.news = pictures, directory, news

    def project(self, message: Request) -> Response:
        """Returns the page at the master URL. The client reads the scheduler's URL there, in one of two
        forms. Each is on a line of its own.
        """
        return self.templates.page(
            "project.html",
            language=language_of(message),
            scheduler=f"{self.settings.url}cgi",
            url=self.settings.url,
            welcome=self.settings.welcome,
            contact=self.settings.contact,
            picture=self.pictures.own,
            plots=self.pictures.plots(),
            progress=progress_of(self.statements.counts.value().units),
            unit_words=UNIT_WORDS,
            silent_since=self.statements.scheduler.silent_since,
            leaders=self.directory.users(0, LEADERS),
            news=self.news.shown()[:NEWEST],
        )

    def status(self, message: Request) -> Response:
        """Returns the status page: workunits, and the hosts that called last with their results."""
        status = self.statements.status()
        return self.templates.page(
            "status.html",
            language=language_of(message),
            status=status,
            unit_rows=None if status.units is None else unit_rows(status.units),
            unit_words=UNIT_WORDS,
            count_of_users=self.directory.count_users(),
            count_of_hosts=self.directory.count_computers(),
            result_words=RESULT_WORDS,
        )

    def help(self, message: Request) -> Response:
        """Returns the page with answers to what volunteers ask."""
        return self.templates.page("help.html", language=language_of(message), contact=self.settings.contact)

    def not_found(self, message: Request) -> Response:
        """Returns the page for a URL of the project that does not exist."""
        return self.templates.page("not_found.html", language=language_of(message), http_status=404)

    def no_passwords(self, message: Request) -> Response:
        """Returns the page for a volunteer without a key, if only the operator makes accounts."""
        return self.templates.page("no_passwords.html", language=language_of(message))

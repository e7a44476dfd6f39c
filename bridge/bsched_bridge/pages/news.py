"""The operator's news: pages, and the newest on the project's page. The folder is read again after each
change.

BOINC's client learns of them by a feed, which replies name (`feeds`). So the Manager shows them as notices.
"""
import logging
import threading
import time
from collections.abc import Callable, Sequence
from pathlib import Path

from werkzeug.wrappers import Request, Response

from bsched_files.news import NewsItem, files_in, read_news
from bsched_files.faults import Fault
from bsched_files.toml_entries import Mark, mark_of

from ..common.languages import language_of
from .page_numbers import page_of
from .templates import Templates

NEWEST, ON_A_PAGE = 3, 20  # on the project's page, and on a page of all

log = logging.getLogger(__name__)


def marks_in(folder: Path) -> dict[int, Mark | None]:
    """Returns the marks of the files with news. They change with each change of a file."""
    try:
        return {number: mark_of(path) for number, path in files_in(folder).items()}
    except Fault:
        return {}


class News:
    """The news of a project."""

    def __init__(self, folder: Path, clock: Callable[[], float] = time.time) -> None:
        self.folder, self._clock = folder, clock
        self._marks: dict[int, Mark | None] = {}
        self._items: list[NewsItem] = []
        self._lock = threading.Lock()

    def is_used(self) -> bool:
        """Returns whether the project has or had news."""
        return self.folder.is_dir()

    def shown(self) -> list[NewsItem]:
        """Returns what is shown now, the newest first."""
        now = self._clock()
        return [item for item in self._current() if item.moment <= now]

    def _current(self) -> list[NewsItem]:
        """Returns all news as the files are now. A fault gets a line in the log after each change."""
        marks = marks_in(self.folder)
        with self._lock:
            if marks != self._marks:
                found = read_news(self.folder)
                self._marks, self._items = marks, found.items
                for fault in found.faults:
                    log.warning("this news is not shown: %s", fault)
            return self._items


class NewsPages:
    """Answers people who ask for news."""

    def __init__(self, templates: Templates, news: News) -> None:
        self.templates, self.news = templates, news

    def all(self, message: Request) -> Response:
        """Lists all news, the newest first."""
        items = self.news.shown()

        def read(first: int, most: int) -> Sequence[NewsItem]:
            return items[first : first + most]

        page = page_of(message, len(items), ON_A_PAGE, read)
        return self.templates.page("news.html", language=language_of(message), page=page)

    def one(self, message: Request, number: int) -> Response:
        """Returns the page of one piece of news."""
        language = language_of(message)
        for item in self.news.shown():
            if item.number == number:
                return self.templates.page("news_item.html", language=language, item=item)
        return self.templates.page("not_found.html", language=language, http_status=404)

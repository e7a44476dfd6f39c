"""The news of a project: how it is added, listed and withdrawn. The bridge shows it."""
import fcntl
import os
from collections.abc import Iterable, Iterator
from contextlib import contextmanager
from pathlib import Path

from bsched_files.atomic import sync
from bsched_files.faults import Fault
from bsched_files.moments import minute_text
from bsched_files.news import MOST_NEWS, WITHDRAWN, NewsItem, files_in, next_number, read_item

from .catalogue_file import made_for_group, write_file
from .projects import Project


@contextmanager
def changed_alone(folder: Path) -> Iterator[None]:
    """Lets one command at a time change a folder of news. Each takes some milliseconds, so others wait."""
    descriptor = os.open(folder, os.O_RDONLY | os.O_DIRECTORY)
    try:
        fcntl.flock(descriptor, fcntl.LOCK_EX)
        yield
    finally:
        os.close(descriptor)


def add_news(project: Project, path: Path, now: int) -> Iterator[str]:
    """Adds a text to the news of a project. Yields what was done."""
    item = read_item(path, now)
    folder = project.news
    project.become_owner()  # after the file was read, which may be root's own
    with changed_alone(made_for_group(project, folder)):
        if len(files_in(folder)) >= MOST_NEWS:
            raise Fault(f"{folder}: it has {MOST_NEWS} pieces of news: withdraw old ones first")
        number = next_number(folder)
        write_file(project, folder / f"{number}.txt", item.written().encode())
    when = "now" if item.moment <= now else f"from {minute_text(item.moment)} on"
    yield f"news {number}: {item.title}"
    yield f"{project.url}news/{number} shows it {when}"


def withdraw_news(project: Project, number: int) -> Iterator[str]:
    """Withdraws a piece of news, and keeps its text. Yields what was done."""
    folder = project.news
    project.become_owner()
    if number not in files_in(folder):
        advice = f"`bsched-tools news list --project {project.name}` lists what there is"
        raise Fault(f"{folder}: there is no news {number}: {advice}")
    with changed_alone(folder):
        kept = made_for_group(project, folder / WITHDRAWN) / f"{number}.txt"
        os.replace(folder / kept.name, kept)
        sync(kept.parent)
        sync(folder)
    yield f"news {number} is withdrawn; {kept} keeps its text"


def news_lines(items: Iterable[NewsItem], now: float) -> Iterator[str]:
    """Yields a line for each piece of news."""
    for item in items:
        waits = "" if item.moment <= now else " (shown from then on)"
        yield f"{item.number:5}  {minute_text(item.moment)}  {item.title}{waits}"

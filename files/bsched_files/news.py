"""The news of a project: a folder with a text for each, which the operator writes for volunteers.

The first line of a file is the title. The second line is the moment from which the news is shown, in UTC:
`2026-12-01` or `2026-12-01 18:30`. After an empty line the text follows. All of it is plain text.

The name of a file is a number and `.txt`. The number is in the URL of the news, and by that URL BOINC's
client and readers of feeds know it. So no number is used twice: what is withdrawn stays in the folder
`withdrawn`.
"""
import re
from dataclasses import dataclass, field
from datetime import datetime, timezone
from pathlib import Path

from .faults import Fault
from .moments import MINUTE, date_text, moment_text
from .texts import NO_XML

FOLDER, WITHDRAWN = "news", "withdrawn"  # next to bridge.toml, and within
MOST_TITLE, MOST_TEXT = 100, 10_000  # characters
MOST_NEWS = 500  # files that are read: those with the greatest numbers
MOST_FILE = 65_536  # bytes
FILE_NAME = re.compile(r"([1-9][0-9]{0,5})\.txt")
LIKE_A_DATE = re.compile(r"[0-9]{4}-[0-9]+-[0-9]+( .*)?")
DATE_FORMS = "%Y-%m-%d", "%Y-%m-%d %H:%M"
FIRST_YEAR = 1970


@dataclass(frozen=True, slots=True)
class NewsItem:
    """A piece of news."""

    title: str
    moment: int  # from which it is shown
    text: str
    number: int = 0  # 0 if it has none yet

    def written(self) -> str:
        """Returns it as its file has it."""
        minute = moment_text(self.moment).rpartition(":")[0]
        date = minute.removesuffix(" 00:00")
        return f"{self.title}\n{date}\n\n{self.text}\n"

    @property
    def date(self) -> str:
        """The day from which it is shown."""
        return date_text(self.moment)


@dataclass(frozen=True, slots=True)
class NewsFound:
    """What a folder has."""

    items: list[NewsItem] = field(default_factory=list)  # the newest first
    faults: list[Fault] = field(default_factory=list)  # of files that can't be read


def moment_in(line: str, where: str) -> int:
    """Returns the moment that a line gives."""
    for form in DATE_FORMS:
        try:
            found = datetime.strptime(line, form).replace(tzinfo=timezone.utc)
        except ValueError:
            continue
        if found.year >= FIRST_YEAR:
            return int(found.timestamp())
    raise Fault(f"{where}: line 2: {line!r} is no date: write it as 2026-12-01 or 2026-12-01 18:30, in UTC")


def item_in(text: str, where: str, now: int | None = None, number: int = 0) -> NewsItem:
    """Returns the news in a text. Without a date it is of now, if now is given; else that is a fault."""
    if found := NO_XML.search(text):
        line = text.count("\n", 0, found.start()) + 1
        raise Fault(f"{where}: line {line}: it has a character that no page can show")
    lines = text.removeprefix("\ufeff").replace("\r\n", "\n").split("\n")
    title, second = " ".join(lines[0].split()), lines[1].strip() if len(lines) > 1 else ""
    if not title or not title.isprintable() or len(title) > MOST_TITLE:
        raise Fault(f"{where}: line 1: the title is not one line of 1 to {MOST_TITLE} characters")
    if now is None or LIKE_A_DATE.fullmatch(second):
        moment, rest = moment_in(second, where), lines[2:]
    else:
        moment, rest = now - now % MINUTE, lines[1:]
    body = "\n".join(line.rstrip() for line in rest).strip("\n")
    if len(body) > MOST_TEXT:
        raise Fault(f"{where}: the text has {len(body):,} characters, and may have {MOST_TEXT:,}")
    return NewsItem(title, moment, body, number)


def read_item(path: Path, now: int | None = None, number: int = 0) -> NewsItem:
    """Reads the news in a file."""
    try:
        with path.open("rb") as file:
            data = file.read(MOST_FILE + 1)
        if len(data) > MOST_FILE:
            raise Fault(f"{path}: it has more than {MOST_FILE:,} bytes")
        return item_in(data.decode(), str(path), now, number)
    except OSError as error:
        raise Fault(f"{path}: {error.strerror}") from None
    except UnicodeDecodeError as error:
        line = error.object.count(b"\n", 0, error.start) + 1
        raise Fault(f"{path}: line {line}: it is not UTF-8") from None


def files_in(folder: Path) -> dict[int, Path]:
    """Returns the files of a folder that have numbers, by these. Without the folder there are none."""
    try:
        found = {
            int(match[1]): path for path in folder.iterdir() if (match := FILE_NAME.fullmatch(path.name))
        }
    except FileNotFoundError:
        return {}
    except OSError as error:
        raise Fault(f"{folder}: {error.strerror}") from None
    return found


def read_news(folder: Path) -> NewsFound:
    """Reads the news in a folder. A file that can't be read leaves the others as they are."""
    try:
        files = files_in(folder)
    except Fault as fault:
        return NewsFound(faults=[fault])
    found = NewsFound()
    for number in sorted(files, reverse=True)[:MOST_NEWS]:
        try:
            found.items.append(read_item(files[number], number=number))
        except Fault as fault:
            found.faults.append(fault)
    found.items.sort(key=lambda one: (one.moment, one.number), reverse=True)
    return found


def next_number(folder: Path) -> int:
    """Returns a number that no news of a folder has or had."""
    return max([0, *files_in(folder), *files_in(folder / WITHDRAWN)]) + 1

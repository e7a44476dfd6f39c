"""Pages of reports, as tests make and read them."""
import os
from collections.abc import Sequence
from html.parser import HTMLParser
from pathlib import Path

import plain_tables
from lives import Stored, life_of
from project import Project

from bsched_tools import page

Attributes = list[tuple[str, str | None]]
VOID = {"meta", "br"}
DONE = [{"name": "w1_0", "exit_status": 0, "output": "42"}]


class Read(HTMLParser):
    """Reads a page. Each element must end. The cells of each table are kept."""

    def __init__(self, text: str) -> None:
        super().__init__()
        self.open: list[str] = []
        self.tags: list[tuple[str, dict[str, str | None]]] = []
        self.tables: list[list[list[str]]] = []
        self.cell: str | None = None
        self.feed(text)
        self.close()
        assert self.open == []

    def handle_starttag(self, tag: str, attrs: Attributes) -> None:
        self.tags.append((tag, dict(attrs)))
        if tag not in VOID:
            self.open.append(tag)
        if tag == "table":
            self.tables.append([])
        if tag == "tr":
            self.tables[-1].append([])
        if tag in ("td", "th"):
            self.cell = ""

    def handle_startendtag(self, tag: str, attrs: Attributes) -> None:
        self.tags.append((tag, dict(attrs)))

    def handle_endtag(self, tag: str) -> None:
        assert self.open.pop() == tag
        if tag in ("td", "th"):
            self.tables[-1][-1].append(self.cell or "")
            self.cell = None

    def handle_data(self, data: str) -> None:
        if self.cell is not None:
            self.cell += data

    def rows(self, header: Sequence[str]) -> list[list[str]]:
        """Returns the rows of the table whose header begins with these cells."""
        (found,) = [table[1:] for table in self.tables if table[0][: len(header)] == list(header)]
        return found


def reported(path: Path, folder: Path, moment: float | None = None) -> Read:
    """Writes the page of a copy, and reads it."""
    if moment is not None:
        os.utime(path, (moment, moment))
    return Read(page.write_report(path, folder).path.read_text())


def called(path: Path, now: int, call: bytes) -> None:
    """Has a host call at a moment."""
    tables = plain_tables.Tables(path, synchronous="OFF")
    plain_tables.Service(tables).scheduler(call, now)
    tables.connection.close()


def lived_in_parts(tmp_path: Path, folder: Path, parts: int = 4) -> tuple[Project, Path, Read]:
    """Reports several times over a life. Returns the life, the last copy and the last page."""
    lived = life_of(21, calls=600)
    stored, size = Stored(tmp_path / "project.db"), len(lived.lines) // parts + 1
    for part in range(parts):
        stored.answer(lived.lines[part * size :][:size])
        moment = lived.now - (parts - part - 1) * 40_000
        copy = stored.copy(tmp_path / f"{part}.db")
        read = reported(copy, folder, moment)
    stored.close()
    return lived, copy, read

"""TOML files that an operator writes: each member is taken once, and one that is left over is a fault.

Each fault is reported with its line.
"""
import difflib
import math
import re
import stat
import tomllib
from bisect import bisect_right
from pathlib import Path
from typing import Any, NoReturn, cast

from .faults import Fault
from .texts import is_word

LEAST_LIKENESS = 0.75  # of two names, if one may be meant as the other
MOST_TEXT = 65_536  # characters of a file whose text is shown on a page
TABLE = re.compile(r"[ \t]*\[\[?[ \t]*([A-Za-z0-9_-]+)[ \t]*\]\]?")


Mark = tuple[int, ...]  # it changes when a file is written or replaced
Marks = dict[Path, Mark | None]


def mark_of(path: Path) -> Mark | None:
    """Returns the mark of a file, or None if it can't be looked at. That of a folder stays while files come
    and go in it."""
    try:
        status = path.stat()
    except OSError:
        return None
    if stat.S_ISDIR(status.st_mode):
        return (status.st_ino,)
    return status.st_mtime_ns, status.st_size, status.st_ino


class OperatorFault(Fault):
    """Raised for a fault in a file that an operator wrote."""

    def __init__(self, path: Path, line: int | None, what: str) -> None:
        where = f"{path}: " if line is None else f"{path}: line {line}: "
        super().__init__(where + what)


class Entry:
    """A table of such a file. Its members are taken one after the other, and a member that is left over is a
    fault.
    """

    def __init__(
        self, path: Path, members: dict[str, Any], lines: list[str], first: int, last: int, marks: Marks
    ) -> None:
        self.path, self.members, self.untaken = path, members, set(members)
        self._known = set[str]()  # the members that were asked for
        self._lines, self._first, self._last = lines, first, last
        self.marks = marks  # of the file, and of files that it names

    def note(self, path: Path) -> None:
        """Notes the mark of a file that is read next."""
        self.marks.setdefault(path, mark_of(path))

    def line(self, member: str | None = None) -> int:
        """Returns the line on which a member is, or the one on which the entry begins."""
        if member is not None:
            begins = re.compile(rf"[ \t]*[\"']?{re.escape(member)}[\"']?[ \t]*=")
            for number in range(self._first, self._last + 1):
                if begins.match(self._lines[number - 1]):
                    return number
        return self._first

    def fault(self, what: str, member: str | None = None) -> NoReturn:
        """Raises a fault of a member, or of the whole entry."""
        raise OperatorFault(self.path, self.line(member), what)

    def taken(self, member: str, kind: type, kind_name: str, default: Any = ...) -> Any:
        """Returns the value of a member, which must be of a kind. Without a default the member must exist."""
        self.note_taken(member)
        value = self.members.get(member, default)
        if value is ...:
            self.fault_missing(member)
        if value is not default and type(value) is not kind:
            self.fault(f"{member} is not {kind_name}", member)
        return value

    def note_taken(self, member: str) -> None:
        """Notes that a member is known here."""
        self.untaken.discard(member)
        self._known.add(member)

    def has(self, member: str) -> bool:
        """Returns whether there is a member, which need not be there."""
        self._known.add(member)
        return member in self.members

    def fault_missing(self, member: str) -> NoReturn:
        """Raises the fault of a member that is missing. If another one has nearly its name, it is named."""
        close = difflib.get_close_matches(member, sorted(self.untaken), 1, LEAST_LIKENESS)
        if close:
            self.fault(f"{close[0]} is not known here: is {member} meant, which is missing?", close[0])
        self.fault(f"{member} is missing")

    def text(self, member: str, default: Any = ...) -> str:
        """Returns a text."""
        return cast(str, self.taken(member, str, "a text in quotes", default))

    def word(self, member: str) -> str:
        """Returns a word: 1 to 64 letters, digits, `_`, `-` and `.`."""
        value = self.text(member)
        if not is_word(value):
            self.fault(f"{member} is not 1 to 64 letters, digits, '_', '-' and '.'", member)
        return value

    def whole(self, member: str, least: int, most: int, default: Any = ...) -> int:
        """Returns a whole number within a range."""
        value = self.taken(member, int, "a whole number", default)
        if value is not default and not least <= value <= most:
            self.fault(f"{member} is not within {least} to {most}", member)
        return cast(int, value)

    def number(self, member: str, least: float, most: float, default: Any = ...) -> float:
        """Returns a number within a range."""
        if isinstance(self.members.get(member), int):
            return float(self.whole(member, math.ceil(least), int(most)))
        value = self.taken(member, float, "a number", default)
        if value is not default and not least <= value <= most:
            self.fault(f"{member} is not within {least} to {most}", member)
        return cast(float, value)

    def flag(self, member: str, default: bool = False) -> bool:
        """Returns true or false."""
        return cast(bool, self.taken(member, bool, "true or false", default))

    def words(self, member: str) -> frozenset[str]:
        """Returns a list of words, which may be absent."""
        value = self.taken(member, list, "a list of words", [])
        for item in value:
            if not is_word(item):
                self.fault(f"{member}: {item!r} is not 1 to 64 letters, digits, '_', '-' and '.'", member)
        return frozenset(value)

    def texts(self, member: str) -> list[str]:
        """Returns a list of texts, which may be absent."""
        value = self.taken(member, list, "a list of texts", [])
        if not all(isinstance(item, str) for item in value):
            self.fault(f"{member} is not a list of texts", member)
        return cast(list[str], value)

    def entries(self, member: str, default: Any = ...) -> list["Entry"]:
        """Returns the tables of an array that is in one member."""
        value = self.taken(member, list, "an array", default)
        if not all(isinstance(item, dict) for item in value):
            self.fault(f"{member} is not an array of tables {{ .. }}", member)
        line = self.line(member)
        return [Entry(self.path, item, self._lines, line, line, self.marks) for item in value]

    def existing(self, member: str, default: Any = ...) -> Path:
        """Returns a path that must exist. It is relative to the folder of this file."""
        path = self.path.parent / self.text(member, default)
        self.note(path)
        if not path.exists():
            self.fault(f"{member}: {path} does not exist", member if member in self.members else None)
        return path

    def short_text(self, member: str) -> str | None:
        """Returns the text of the file that a member names, for pages, or None if the member is absent."""
        if not self.has(member):
            return None
        path = self.existing(member)
        try:
            text = path.read_text(encoding="utf-8")
        except OSError as error:
            self.fault(f"{member}: {path}: {error.strerror or 'can not be read'}", member)
        except UnicodeDecodeError:
            self.fault(f"{member}: {path} is not UTF-8", member)
        if len(text) > MOST_TEXT:
            self.fault(f"{member}: {path} is longer than {MOST_TEXT} characters", member)
        return text

    def end(self) -> None:
        """Refuses any further members. If one has nearly the name of a known one, that is named."""
        if self.untaken:
            member = min(self.untaken, key=self.line)
            close = difflib.get_close_matches(member, sorted(self._known), 1, LEAST_LIKENESS)
            advice = f": is {close[0]} meant?" if close else ""
            self.fault(f"{member} is not known here{advice}", member)


class OperatorFile(Entry):
    """The whole file. The members before the first table are its own. If a text is given, the file is not
    read."""

    def __init__(self, path: Path, marks: Marks | None = None, text: str | None = None) -> None:
        marks = {} if marks is None else marks
        marks[path] = mark_of(path)
        try:
            text = path.read_text(encoding="utf-8") if text is None else text
            members = tomllib.loads(text)
        except OSError as error:
            raise OperatorFault(path, None, error.strerror or "can't be read") from None
        except UnicodeDecodeError as error:
            line = error.object.count(b"\n", 0, error.start) + 1
            raise OperatorFault(path, line, "is not UTF-8") from None
        except tomllib.TOMLDecodeError as error:
            raise OperatorFault(path, None, f"is not TOML: {error}") from None  # it has line and column
        lines = text.split("\n")
        self._tables = [
            (match[1], number) for number, line in enumerate(lines, 1) if (match := TABLE.match(line))
        ]
        own = self._tables[0][1] - 1 if self._tables else len(lines)
        super().__init__(path, members, lines, 1, max(own, 1), marks)

    def line(self, member: str | None = None) -> int:
        """Returns the line on which a member is, even if the member is a table."""
        return next((line for name, line in self._tables if name == member), super().line(member))

    def table(self, name: str) -> Entry | None:
        """Returns the table under the header `[name]`, if there is one."""
        self.note_taken(name)
        if name not in self.members:
            return None
        members = self.members[name]
        if not isinstance(members, dict):
            self.fault(f"{name} is not a table [{name}]", name)
        first = self.line(name)
        following = [line for _, line in self._tables if line > first]
        last = min([*following, len(self._lines) + 1]) - 1
        return Entry(self.path, members, self._lines, first, last, self.marks)

    def part(self, name: str) -> Entry:
        """Returns the table under the header `[name]`. If there is none, it has no members."""
        return self.table(name) or Entry(self.path, {}, self._lines, 1, 1, self.marks)

    def tables(self, name: str) -> list[Entry]:
        """Returns the tables under the headers `[[name]]`, each with its lines."""
        self.note_taken(name)
        found = self.members.get(name, [])
        if not isinstance(found, list) or not all(isinstance(item, dict) for item in found):
            self.fault(f"{name} is not an array of tables [[{name}]]", name)
        begins = [line for table, line in self._tables if table == name]
        if len(begins) != len(found):  # written in another way, such as one array of tables
            begins = [self.line(name)] * len(found)
        headers = [line for _, line in self._tables] + [len(self._lines) + 1]
        return [
            Entry(
                self.path, members, self._lines, first, headers[bisect_right(headers, first)] - 1, self.marks
            )
            for members, first in zip(found, begins)
        ]

"""JSON files that one program writes and another one reads, each an object.

Its member `format` is the number of the file's format. A reader refuses a file whose number is greater than
that of its own format, which a newer version wrote. Version 1.2 wrote the counts and the findings without a
number; they have the members of format 1, and are read as such.
"""
import json
import logging
import threading
from collections.abc import Callable, Mapping
from pathlib import Path
from typing import Any, Generic, TypeVar

from .faults import Fault
from .toml_entries import Mark, mark_of

NUMBER = "format"
MOST_BYTES = 1_048_576  # of a file, unless its format has another limit

log = logging.getLogger(__name__)
T = TypeVar("T")


def file_text(number: int, members: Mapping[str, object]) -> str:
    """Returns the text of a file of a format."""
    return json.dumps({NUMBER: number, **members})


def read_members(
    path: Path, number: int, most: int = MOST_BYTES, takes_unnumbered: bool = False
) -> dict[str, Any]:
    """Returns the members of a file of this format or of an older one. Raises Fault if it can't be read, or
    if a newer version wrote it.
    """
    try:
        with path.open("rb") as file:
            data = file.read(most + 1)
    except OSError as error:
        raise Fault(f"{path}: {error.strerror}") from None
    if len(data) > most:
        raise Fault(f"{path}: it has more than {most} bytes")
    return members_in(data, str(path), number, takes_unnumbered)


def members_in(data: bytes, where: str, number: int, takes_unnumbered: bool = False) -> dict[str, Any]:
    """Returns the members of JSON of this format or of an older one. A fault begins with where it is."""
    try:
        members = json.loads(data)
    except (ValueError, RecursionError):
        raise Fault(f"{where}: it is no JSON") from None
    if not isinstance(members, dict):
        raise Fault(f"{where}: it is no JSON object")
    found = members.get(NUMBER, 1 if takes_unnumbered else None)
    if type(found) is not int or found < 1:
        raise Fault(f"{where}: it has no number of its format")
    if found > number:
        raise Fault(f"{where}: it has format {found}, and this program knows {number}: upgrade the program")
    return members


class WatchedFile(Generic[T]):
    """What a file says, which is read again after each change. A fault gets one line in the log, which says
    what is so meanwhile.
    """

    def __init__(
        self,
        path: Path | None,
        read: Callable[[Path], T],
        nothing: T,
        meanwhile: str,
        keeps_former: bool = False,
    ) -> None:
        self.path, self._read, self._nothing, self._value = path, read, nothing, nothing
        self._meanwhile = meanwhile
        self._keeps_former = keeps_former  # whether what a good file said stays while there is none
        self._mark: Mark | None = None
        self._lock = threading.Lock()

    def value(self) -> T:
        """Returns what the file says now, or nothing if there is no such file or it can't be read."""
        if self.path is None:
            return self._nothing
        with self._lock:
            mark = mark_of(self.path)
            if mark != self._mark:
                self._mark, former = mark, self._value
                self._value = former if self._keeps_former else self._nothing
                if mark is not None:
                    self._look(self.path)
            return self._value

    def _look(self, path: Path) -> None:
        """Reads the file."""
        try:
            self._value = self._read(path)
        except Fault as fault:
            log.warning("%s: %s", self._meanwhile, fault)

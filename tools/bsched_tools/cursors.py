"""Which results were given out before, in a file.

For each file of tables it has the workunits that no further result can come of, as ranges of their numbers.
For other workunits it has the place of the last result that was given out.
"""
import fcntl
import hashlib
import json
import os
from collections.abc import Iterator
from contextlib import contextmanager
from dataclasses import dataclass, field
from pathlib import Path
from typing import Any

from bsched_files.atomic import replace_file
from bsched_files.faults import Fault
from bsched_files.tables import Tables, project_mark


FORMAT, FORMER = 2, 1


@dataclass(slots=True)
class Given:
    """What was given out from one file of tables."""

    closed: set[int] = field(default_factory=set)
    places: dict[int, int] = field(default_factory=dict)
    printed: int = 0  # workunits with new results in this run
    left_out: int = 0  # decided workunits, all of whose results were given out before

    def take_back(self, unit: int) -> None:
        """Forgets that a workunit was given out in this run, for the first time."""
        self.closed.discard(unit)
        self.places.pop(unit, None)
        self.printed -= 1


def ranges_of(numbers: set[int]) -> list[list[int]]:
    """Returns numbers as ranges, each with its first and its last number."""
    ranges: list[list[int]] = []
    for number in sorted(numbers):
        if ranges and ranges[-1][1] == number - 1:
            ranges[-1][1] = number
        else:
            ranges.append([number, number])
    return ranges


def numbers_of(ranges: list[list[int]]) -> set[int]:
    """Returns the numbers in ranges."""
    return {number for first, last in ranges for number in range(first, last + 1)}


def former_mark(tables: Tables) -> str:
    """Returns the mark that cursors of format 1 have. A project that is made anew from the same files has the
    same one."""
    unit = next(tables.rows("SELECT * FROM unit WHERE id = 1"), None)
    left_out = ("schema", "operator_key")
    settings = sorted(item for item in tables.settings.items() if item[0] not in left_out)
    text = json.dumps([settings, unit[:-1] if unit else None])
    return hashlib.sha256(text.encode()).hexdigest()[:32]


def written(projects: dict[str, Given]) -> dict[str, object]:
    """Returns what was given out as the file has it."""
    return {
        mark: {"closed": ranges_of(given.closed), "places": given.places} for mark, given in projects.items()
    }


class Cursor:
    """The cursor file, and what it says."""

    def __init__(self, path: Path) -> None:
        self.path = path
        self.projects: dict[str, Given] = {}
        self.former: dict[str, Given] = {}  # those of a cursor of format 1, by their former marks
        if path.exists():
            self._read()

    def _read(self) -> None:
        """Reads the file."""
        try:
            fields: dict[str, Any] = json.loads(self.path.read_text())
            if fields["format"] not in (FORMAT, FORMER):
                raise ValueError
            given = self.projects if fields["format"] == FORMAT else self.former
            for mark, entry in fields["given"].items():
                places = {int(unit): int(place) for unit, place in entry["places"].items()}
                given[mark] = Given(numbers_of(entry["closed"]), places)
            for mark, entry in fields.get("former", {}).items():
                places = {int(unit): int(place) for unit, place in entry["places"].items()}
                self.former[mark] = Given(numbers_of(entry["closed"]), places)
        except OSError as error:
            raise Fault(f"{self.path}: {error.strerror}") from None
        except (ValueError, KeyError, TypeError, AttributeError):
            raise Fault(f"{self.path}: it is not a cursor: name another file, or a new one") from None

    def given(self, tables: Tables) -> Given:
        """Returns what was given out from some tables. The first tables that fit a former mark have what a
        cursor of format 1 says."""
        mark = project_mark(tables)
        if mark not in self.projects:
            self.projects[mark] = self.former.pop(former_mark(tables), Given())
        return self.projects[mark]

    def write(self) -> None:
        """Writes the file, whole or not at all."""
        fields = {"format": FORMAT, "given": written(self.projects), "former": written(self.former)}
        replace_file(self.path, [json.dumps(fields).encode()])

    def why_nothing(self) -> str | None:
        """Returns why a run printed nothing, if it left results out."""
        given = self.projects.values()
        left_out = sum(one.left_out for one in given)
        if not left_out or any(one.printed for one in given):
            return None
        return (
            f"nothing is new: {self.path} says that the results of all {left_out} decided workunits were "
            "given out before"
        )


@contextmanager
def cursor_at(path: Path) -> Iterator[Cursor]:
    """Yields the cursor in a file, for one run at a time. Root's lock can be taken by others, too."""
    if not path.parent.is_dir():
        raise Fault(f"{path}: its folder does not exist: make it first")
    name = path.with_name(f"{path.name}.lock")
    with open(os.open(name, os.O_RDONLY | os.O_CREAT | os.O_NOFOLLOW, 0o644)) as lock:
        try:
            fcntl.flock(lock, fcntl.LOCK_EX | fcntl.LOCK_NB)
        except BlockingIOError:
            raise Fault(f"{path}: another run has this cursor: wait until it has ended") from None
        yield Cursor(path)

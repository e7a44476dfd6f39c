"""The copies in a folder, as an operator sees them: of when, of what, and how large."""
import json
import stat
from collections.abc import Iterator
from dataclasses import dataclass
from enum import StrEnum
from pathlib import Path

from bsched_files.copies import COPY_NAME, STATE_NAME, moment_of, names_in
from bsched_files.faults import Fault
from bsched_files.moments import MOST_MOMENT, moment_text


class Kind(StrEnum):
    """What a copy is of: the tables, or the bridge's state file."""

    TABLES = "tables"
    STATE = "state"


@dataclass(frozen=True, slots=True)
class KeptCopy:
    """A copy, and its moment in seconds since 1970."""

    moment: int
    kind: Kind
    nbytes: int
    path: Path

    @property
    def line(self) -> str:
        """The copy for a person."""
        return f"{moment_text(self.moment)} UTC  {self.kind:<6}  {self.nbytes:>14,} bytes  {self.path}"

    @property
    def json(self) -> str:
        """The copy as a line of JSON."""
        members = {"moment": self.moment, "kind": self.kind, "bytes": self.nbytes, "path": str(self.path)}
        return json.dumps(members)


def shown_moment(path: Path) -> int:
    """Returns the moment of a copy. Whoever owns a file can give it any time: one that no date has is cut."""
    return max(0, min(moment_of(path), MOST_MOMENT))


def kept_copy(path: Path) -> KeptCopy:
    """Returns the copy in a file, whose name says of what it is. Any other name means the tables."""
    if not path.is_file():
        raise Fault(f"{path} is no copy: there is no such file")
    kind = Kind.STATE if STATE_NAME.fullmatch(path.name) else Kind.TABLES
    return KeptCopy(shown_moment(path), kind, path.stat().st_size, path)


def copies_of_kind(folder: Path, kind: Kind, stem: str) -> Iterator[KeptCopy]:
    """Yields the copies of one kind in a folder, the newest first: those of the tables with a name, or those
    of a state file. A link is no copy: by one, whoever may write into the folder could lead root elsewhere.
    """
    names = names_in(folder, COPY_NAME, stem) if kind is Kind.TABLES else names_in(folder, STATE_NAME)
    for path in (folder / name for name in names):
        try:
            status = path.lstat()
            if stat.S_ISREG(status.st_mode):
                yield KeptCopy(shown_moment(path), kind, status.st_size, path)
        except FileNotFoundError:  # another copy was made, and this one removed
            continue


def kept_copies(folder: Path, stem: str) -> list[KeptCopy]:
    """Returns all copies in a folder, the newest first. Without the folder there is none."""
    if not folder.exists():
        return []
    copies = [copy for kind in Kind for copy in copies_of_kind(folder, kind, stem)]
    return sorted(copies, key=lambda copy: copy.moment, reverse=True)


def newest_copy(folder: Path, kind: Kind, stem: str) -> KeptCopy:
    """Returns the newest copy of one kind in a folder."""
    newest = next(copies_of_kind(folder, kind, stem), None) if folder.exists() else None
    if newest is None:
        what = "the tables" if kind is Kind.TABLES else "the bridge's state file"
        raise Fault(f"there is no copy of {what} in {folder}")
    return newest

"""The output files of canonical results, in the bridge's folder of uploads (`bridge/README.md`, "Output
files").

`uploads.db` there says which files a result has, and `store/` has their contents under their SHA-256.
"""
import sqlite3
from collections.abc import Iterator, Mapping, Set
from contextlib import contextmanager
from dataclasses import dataclass
from pathlib import Path

from bsched_files.faults import Fault
from bsched_files.file_names import result_in_file
from bsched_files.uploads import DATABASE, FILES_OF_RESULT, UPLOADS, files_in, stored_path
from bsched_files.workunits import Workunit


OutputNames = Mapping[str, Set[str]]  # for each application the names of output files in the catalogue

BUSY_SECONDS = 10.0


@dataclass(frozen=True, slots=True)
class UploadedFile:
    """An output file of a result."""

    name: str  # under which the program wrote it
    nbytes: int
    sha256: str
    path: Path

    def as_member(self) -> dict[str, object]:
        """Returns the file as a member of a line of JSON."""
        return {"name": self.name, "nbytes": self.nbytes, "sha256": self.sha256, "path": str(self.path)}


@dataclass(frozen=True, slots=True)
class UploadFolder:
    """A folder of uploads, opened read-only."""

    folder: Path
    connection: sqlite3.Connection
    output_names: OutputNames

    def files_of(self, unit: Workunit) -> list[UploadedFile]:
        """Returns the files of the canonical result of a workunit, in the order of the catalogue. A result of
        an application without output files has none.
        """
        if unit.canonical is None:
            return []
        try:
            result = result_in_file(unit.canonical, unit.file)
            rows = self.connection.execute(FILES_OF_RESULT, (result,)).fetchall()
        except sqlite3.Error as error:
            raise Fault(f"{self.folder / DATABASE}: {error}") from None
        if not rows:
            # such lines count only for names that the catalogue has: a volunteer can write them, too
            known = self.output_names.get(unit.app, frozenset())
            found = ((name, one) for name, one in files_in(unit.output or "") if name in known)
            named = [(name, one.nbytes, one.sha256) for name, one in found]
            # of two lines with one name the first counts
            first = {row[0]: row for row in reversed(named) if self._path(row[2]).exists()}
            rows = [row for row in named if first.get(row[0]) is row]
        return [UploadedFile(name, nbytes, sha256, self._path(sha256)) for name, nbytes, sha256 in rows]

    def _path(self, sha256: str) -> Path:
        """Returns the path of a content."""
        return stored_path(self.folder, sha256).absolute()


@contextmanager
def uploads_in(folder: Path, output_names: OutputNames | None = None) -> Iterator[UploadFolder]:
    """Yields a folder of uploads. Without the names of output files no output names a file."""
    path = folder / DATABASE
    if not path.is_file():
        raise Fault(f"{folder}: it has no uploads.db, so it is not the folder of a bridge's uploads")
    with UPLOADS.opened(path, BUSY_SECONDS) as connection:
        yield UploadFolder(folder, connection, output_names or {})

"""SQLite files of the bridge: who opens one checks that it is of its format, by `application_id` and
`user_version` in the header of the file.
"""
import sqlite3
from collections.abc import Iterator, Mapping
from contextlib import closing, contextmanager
from dataclasses import dataclass
from pathlib import Path
from urllib.parse import quote

from .copies import log_of
from .faults import Fault


@dataclass(frozen=True, slots=True)
class SqliteFormat:
    """A format of SQLite files."""

    name: str  # of such a file, such as "the state file of a bridge"
    application_id: int
    version: int
    new_file: str  # the statements that make the tables of a new file
    upgrades: Mapping[int, str]  # the statements from each version to the next

    def version_of(self, connection: sqlite3.Connection) -> int:
        """Returns the version of a file. Raises Fault if it is of another format, or if a newer version wrote
        it."""
        identity, version = _header_of(connection)
        if identity != self.application_id:
            raise Fault(f"is not {self.name}")
        if version > self.version:
            raise Fault(
                f"a newer bridge wrote this file (format {version}, and this bridge knows {self.version}): "
                "run that bridge"
            )
        return version

    def prepare(self, connection: sqlite3.Connection, advice: str = "") -> None:
        """Makes the tables in a new file, or upgrades those of an older version, within a transaction. The
        advice is for a file of another format."""
        if _header_of(connection) == (0, 0) and not _has_tables(connection):
            texts = [self.new_file]
        elif _header_of(connection)[0] != self.application_id:
            raise Fault(f"is not {self.name}{advice}")
        else:
            texts = [self.upgrades[older] for older in range(self.version_of(connection), self.version)]
        for statement in (one for text in texts for one in statements_of(text)):
            connection.execute(statement)
        connection.execute(f"PRAGMA application_id = {self.application_id}")
        connection.execute(f"PRAGMA user_version = {self.version}")

    @contextmanager
    def opened(self, path: Path, seconds: float, is_still: bool = False) -> Iterator[sqlite3.Connection]:
        """Yields a connection that only reads a file of this version or of an older one. It waits so long for
        a writer. If nobody writes the file, SQLite takes no lock, and leaves no file next to it."""
        mode = "mode=ro&immutable=1" if is_still else "mode=ro"
        name = f"file:{quote(str(path.absolute()))}?{mode}"
        try:
            with closing(sqlite3.connect(name, uri=True, timeout=seconds)) as connection:
                try:
                    self.version_of(connection)
                except Fault as fault:
                    raise Fault(f"{path}: {fault}") from None
                yield connection
        except sqlite3.Error as error:
            raise Fault(f"{path}: {error}") from None

    def check_whole(self, path: Path, seconds: float) -> None:
        """Has SQLite check all of a file. Raises Fault if it is not whole, or as `opened` does. The bridge
        keeps its files with a log, so nobody writes a file that has none next to it."""
        with self.opened(path, seconds, is_still=not log_of(path).exists()) as connection:
            found = str(connection.execute("PRAGMA quick_check(1)").fetchone()[0])
            if found != "ok":
                raise Fault(f"{path}: SQLite finds: {' '.join(found.split())}")


def _header_of(connection: sqlite3.Connection) -> tuple[int, int]:
    """Returns the application_id and the user_version of a file."""
    identity, version = (
        connection.execute(f"PRAGMA {name}").fetchone()[0] for name in ("application_id", "user_version")
    )
    return identity, version


def _has_tables(connection: sqlite3.Connection) -> bool:
    """Returns whether a file has tables."""
    return bool(connection.execute("SELECT count(*) FROM sqlite_schema").fetchone()[0])


def statements_of(text: str) -> Iterator[str]:
    """Yields the statements in a text, without its comments."""
    statement = ""
    for line in text.strip().splitlines():
        statement += line.partition("--")[0] + "\n"
        if sqlite3.complete_statement(statement):
            yield statement
            statement = ""
    if statement.strip():
        yield statement

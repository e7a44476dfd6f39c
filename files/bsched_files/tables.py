"""The tables of bsched in a copy, opened read-only. `docs/STORED.md` has their columns."""
import hashlib
import json
import os
import sqlite3
from collections.abc import Iterable, Iterator, Mapping
from contextlib import ExitStack, closing, contextmanager
from dataclasses import dataclass, field
from pathlib import Path
from typing import Any
from urllib.parse import quote

from .copies import found_copy, log_of, moment_of
from .faults import Fault
from .file_names import FIRST
from .schemas import FIRST_SCHEMA, SCHEMA, SECOND_SCHEMA, SCHEMA_NUMBER, Shape, shape_of, shape_of_text

HEAD = b"SQLite format 3\0"
BUSY_SECONDS = 1.0
TAKE_ANOTHER = ": take another copy"
EMPTY = "it has no tables: a log (-wal) that has them is missing, or nothing was stored yet"
FIRST_HOST = "SELECT auth, cpid FROM host JOIN account ON account.id = account_id WHERE host.id = 1"
# by the index of each host's jobs, so it takes no time with many jobs
FIRST_SENT = (
    "SELECT min(first) FROM "
    "(SELECT (SELECT min(sent) FROM instance WHERE host_id = host.id) AS first FROM host)"
)


@dataclass(slots=True)
class Tables:
    """The tables of one file, as they were at a moment."""

    path: Path
    connection: sqlite3.Connection
    moment: int  # of the copy
    settings: dict[str, Any] = field(default_factory=dict)
    file: int = FIRST  # the number of the file in its project

    def rows(self, query: str, *values: Any) -> Iterator[tuple[Any, ...]]:
        """Yields the rows of a query."""
        with faults_of(self.path):
            # no `yield from`: it closes the cursor of a generator that nobody reads to its end, and the
            # connection may be closed by then
            for row in self.connection.execute(query, values):
                yield row

    def number(self, query: str, *values: Any) -> int:
        """Returns the one number that a query gives, or 0 if it gives none."""
        row = next(self.rows(query, *values), None)
        return 0 if row is None or row[0] is None else int(row[0])


@contextmanager
def faults_of(path: Path) -> Iterator[None]:
    """Turns what SQLite finds wrong in the block into a fault of the file."""
    try:
        yield
    except sqlite3.Error as error:
        message = str(error)
        if "locked" in message:
            message = (
                f"a program has it: run `bsched-tools copy --tables {path} --to FOLDER`, and read the copy"
            )
        elif "malformed" in message or "not a database" in message:
            message = f"it is spoiled or cut off ({message}){TAKE_ANOTHER}"
        elif "unable to open" in message or "readonly" in message:
            next_step = "check the permissions of the file and its folder"
            message = f"it can't be opened for reading ({message}): {next_step}"
        raise Fault(f"{path}: {message}") from None


def check_file(path: Path) -> None:
    """Checks the bytes of a file: it must be a whole SQLite database."""
    try:
        with path.open("rb") as file:
            head, size = file.read(100), os.fstat(file.fileno()).st_size
    except OSError as error:
        raise Fault(f"{path}: {error.strerror}") from None
    has_log = log_size(path) > 0
    if size == 0 and not has_log:
        raise Fault(f"{path}: it is empty, so it is not a database")
    if not head.startswith(HEAD):
        raise Fault(f"{path}: it is not a SQLite database")
    page = int.from_bytes(head[16:18], "big")
    pages, is_counted = int.from_bytes(head[28:32], "big"), head[24:28] == head[92:96]
    whole = pages * (65536 if page == 1 else page)
    if not has_log and is_counted and size < whole:
        raise Fault(f"{path}: it is cut off: it has {size} of {whole} bytes{TAKE_ANOTHER}")


def journal_fault(path: Path) -> str | None:
    """Returns what is wrong if SQLite left a journal next to a file and would play it back. Otherwise returns
    None."""
    journal = path.with_name(f"{path.name}-journal")
    if journal.exists() and journal.read_bytes()[:1] not in (b"", b"\0"):
        return f"{journal} was left by SQLite: open the file once with `sqlite3`, which repairs it"
    return None


def log_size(path: Path) -> int:
    """Returns the size of a file's log, or 0 if there is none."""
    log = log_of(path)
    return log.stat().st_size if log.exists() else 0


def connected(path: Path) -> sqlite3.Connection:
    """Returns a connection that only reads. Every program that works on tables makes a log next to them, so
    nobody writes a file without a log. Then SQLite takes no lock, and leaves no file next to the tables."""
    mode = "mode=ro" if log_of(path).exists() else "mode=ro&immutable=1"
    name = quote(str(path.absolute()))
    return sqlite3.connect(f"file:{name}?{mode}", uri=True, timeout=BUSY_SECONDS, isolation_level=None)


def schema_fault(connection: sqlite3.Connection, takes_older: bool = False) -> str | None:
    """Returns what is wrong with the schema of a database, or None. An older schema is a fault, unless it is
    taken."""
    shape = shape_of(connection)
    if not shape:
        return EMPTY
    if "setting" not in shape:
        return "it has no tables of bsched"
    row = connection.execute("SELECT value FROM setting WHERE name = 'schema'").fetchone()
    number = row[0] if row else None
    if shape == shape_of_text(SCHEMA) and number == SCHEMA_NUMBER:
        return None
    older: dict[int, Shape] = {1: shape_of_text(FIRST_SCHEMA), 2: shape_of_text(SECOND_SCHEMA)}
    if number in older and shape == older[number]:
        if takes_older:
            return None
        return f"its tables are of schema {number}, an older one: run `bsched upgrade`, then take a copy"
    if isinstance(number, int) and number > SCHEMA_NUMBER:
        return f"its tables are of schema {number}, a newer one: install newer tools"
    return "its tables are not bsched's, or were changed by another program"


@contextmanager
def opened(
    path: Path,
    is_any_schema: bool = False,
    names: Mapping[str, str] | None = None,
    takes_older: bool = False,
    file: int = FIRST,
) -> Iterator[Tables]:
    """Yields the tables of a copy. They must be of the newest schema, unless an older one is taken or any
    schema is right. Names of users can be given by authenticator; the others have those in the tables. The
    tables have the number of their file in the project."""
    path = found_copy(path)
    check_file(path)
    with faults_of(path), closing(connected(path)) as connection:
        shown = names or {}
        connection.create_function("shown_name", 2, lambda auth, name: shown.get(auth, name))
        connection.execute("BEGIN")
        if not is_any_schema and (fault := schema_fault(connection, takes_older)):
            raise Fault(f"{path}: {fault}")
        settings = dict(connection.execute("SELECT name, value FROM setting"))
        yield Tables(path, connection, moment_of(path), settings, file)


def project_mark(tables: Tables) -> str:
    """Returns what distinguishes tables from all others and stays the same while a project lives.

    It is made of the settings without the operator's key, the first workunit, the first host, and the moment
    at which the first job was sent. A project that is made anew from the same files has another such moment.
    Before that moment the tables have no results.
    """
    left_out = ("schema", "operator_key")
    settings = sorted(item for item in tables.settings.items() if item[0] not in left_out)
    unit = next(tables.rows("SELECT * FROM unit WHERE id = 1"), None)
    host = next(tables.rows(FIRST_HOST), None)
    text = json.dumps([settings, unit[:-1] if unit else None, host, tables.number(FIRST_SENT)])
    return hashlib.sha256(text.encode()).hexdigest()[:32]


@contextmanager
def all_opened(
    paths: Iterable[Path], names: Mapping[str, str] | None = None, takes_older: bool = False
) -> Iterator[list[Tables]]:
    """Yields the tables of several copies, which must be of different files. Rows of a file that is named
    twice, or by two copies, would count twice. The bridge opens its archives by this, too."""
    with ExitStack() as stack:
        all_tables = [
            stack.enter_context(opened(path, names=names, takes_older=takes_older)) for path in paths
        ]
        files: dict[object, Path] = {}
        for tables in all_tables:
            status = tables.path.stat()
            for sign in ((status.st_dev, status.st_ino), project_mark(tables)):
                if sign in files:
                    raise Fault(f"{tables.path}: it has the same tables as {files[sign]}: name one of them")
            files |= {(status.st_dev, status.st_ino): tables.path, project_mark(tables): tables.path}
        yield all_tables

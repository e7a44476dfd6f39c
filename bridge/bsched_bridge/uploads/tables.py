"""The tables of uploads, in SQLite: the jobs that went out, the files that came, and those of reported
results.

They are in a file of their own, since the sweep works on them while the bridge serves. Nobody deletes a file
of the folder, or gives one its name, without the turn; so no process deletes a file that another has just put
there.
"""
import fcntl
import os
import sqlite3
import threading
import time
from collections.abc import Iterator
from contextlib import contextmanager
from pathlib import Path

from bsched_files.faults import Fault
from bsched_files.uploads import UPLOADS

from ..common.state_file import StateFault, make_private

SECONDS = 30.0  # that a process waits for another one, whose turns take a part of a second
PAUSE_SECONDS = 0.005


class UploadTables:
    """A connection to the tables. Several processes may have one. Their transactions take turns, and so do
    the threads of each.
    """

    def __init__(self, path: Path) -> None:
        self._lock = threading.RLock()
        self._depth = 0  # how often the thread that has the lock has taken the turn
        try:
            make_private(path)
            self._turns = os.open(path.with_name(f"{path.name}.lock"), os.O_RDWR | os.O_CREAT, 0o600)
        except OSError as error:
            raise StateFault(f"{path}: {error.strerror}") from None
        try:
            self._connection = sqlite3.connect(
                path, isolation_level=None, check_same_thread=False, timeout=SECONDS
            )
            for pragma in ("journal_mode = WAL", "synchronous = FULL"):
                self._connection.execute(f"PRAGMA {pragma}").fetchall()
            with self.turn():
                self._prepare(path)
        except sqlite3.Error as error:
            os.close(self._turns)
            raise StateFault(f"{path}: {error}") from None

    def _prepare(self, path: Path) -> None:
        """Makes the tables in a new file, or upgrades those of an older format."""
        with self._transaction() as connection:
            try:
                UPLOADS.prepare(connection)
            except Fault as fault:
                raise StateFault(f"{path}: {fault}") from None

    @contextmanager
    def turn(self) -> Iterator[None]:
        """Holds the turn for the block: no other thread or process gives a file its name or deletes one."""
        with self._lock:
            if self._depth == 0:
                self._take_turn()
            self._depth += 1
            try:
                yield
            finally:
                self._depth -= 1
                if self._depth == 0:
                    fcntl.flock(self._turns, fcntl.LOCK_UN)

    def _take_turn(self) -> None:
        """Waits until no other process has the turn. Raises TimeoutError if one does not end it."""
        ends = time.monotonic() + SECONDS
        while True:
            try:
                return fcntl.flock(self._turns, fcntl.LOCK_EX | fcntl.LOCK_NB)
            except BlockingIOError:
                if time.monotonic() > ends:
                    raise TimeoutError("another process does not end its turn at the uploads") from None
            time.sleep(PAUSE_SECONDS)

    @contextmanager
    def _transaction(self) -> Iterator[sqlite3.Connection]:
        """Runs the block in a transaction, while the turn is held. It is synced when the block ends."""
        self._connection.execute("BEGIN IMMEDIATE")
        try:
            yield self._connection
            self._connection.execute("COMMIT")
        except BaseException:
            if self._connection.in_transaction:
                self._connection.execute("ROLLBACK")
            raise

    @contextmanager
    def transaction(self, is_synced: bool = True) -> Iterator[sqlite3.Connection]:
        """Runs the block in a transaction. If it ends without an exception, all of it is on the disk;
        otherwise it is undone. It takes the turn if the thread does not hold it yet.

        If is_synced is false, a power failure may undo it, until a later transaction is synced.
        """
        with self.turn():
            if not is_synced:
                self._connection.execute("PRAGMA synchronous = NORMAL")
            try:
                with self._transaction() as connection:
                    yield connection
            finally:
                if not is_synced:
                    self._connection.execute("PRAGMA synchronous = FULL")

    def row(self, statement: str, *values: object) -> tuple[object, ...] | None:
        """Returns the first row of a query."""
        rows = self.rows(statement, *values)
        return rows[0] if rows else None

    def rows(self, statement: str, *values: object) -> list[tuple[object, ...]]:
        """Returns the rows of a query."""
        with self._lock:
            return self._connection.execute(statement, values).fetchall()

    def used(self) -> int:
        """Returns how many bytes the files in pending/ and store/ have."""
        row = self.row("SELECT nbytes FROM used")
        return int(str(row[0])) if row else 0

    def close(self) -> None:
        """Closes the file."""
        with self._lock:
            self._connection.close()
            os.close(self._turns)

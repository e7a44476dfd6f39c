"""The state file: what must outlive a stop of the bridge, in SQLite.

Six modules keep their rows in it: `hosts` and `host_states` the keys of bsched with their numbers and their
calls, `members` the accounts, `barring` those whose computers are refused, `credit_days` credit by days, and
`teams` the teams. Pages read on a connection of their own, so calls don't wait for them.

One bridge has the file: it holds the lock file next to it. Commands of the operator work on the file while
the bridge serves it; each of their transactions takes a part of a second.

What `host_states` keeps in memory for a while is written before somebody else uses the file.
"""
import fcntl
import os
import sqlite3
import threading
from collections.abc import Callable
from pathlib import Path

from bsched_files.bridge_state import STATE
from bsched_files.faults import Fault

BUSY_SECONDS = 10.0  # for a transaction of another process
ADVICE = "; give another name as `state`"  # for a file of another format
SPOILED = 'it is spoiled or no state file: see docs/VOLUNTEERS.md, "The state file"'


class StateFault(Fault):
    """Raised if the state file can't be used."""


def make_private(path: Path) -> None:
    """Makes an empty file that only its owner can read, if there is no file. SQLite gives its log the same
    mode.
    """
    try:
        os.close(os.open(path, os.O_WRONLY | os.O_CREAT | os.O_EXCL, 0o600))
    except FileExistsError:
        pass


def held(path: Path) -> int:
    """Locks the lock file of a state file, and returns its descriptor. The lock ends with the process. It is
    next to the file itself, also if a link leads to the file. A file with two names could have two locks, so
    it is refused.
    """
    path = path.resolve()
    if path.stat().st_nlink > 1:
        raise StateFault(
            f"{path}: the file has a second name (a hard link): remove that one, or copy the file"
        )
    descriptor = os.open(path.with_name(f"{path.name}.lock"), os.O_RDWR | os.O_CREAT | os.O_CLOEXEC, 0o600)
    try:
        fcntl.flock(descriptor, fcntl.LOCK_EX | fcntl.LOCK_NB)
    except BlockingIOError:
        os.close(descriptor)
        raise StateFault(f"{path}: a bridge has it; no other bridge may have it") from None
    return descriptor


class StateFile:
    """A connection to the state file. One bridge has it, and its threads take turns. A guest is a command of
    the operator, which works on the file of a bridge that runs or not.
    """

    def __init__(self, path: Path, is_guest: bool = False) -> None:
        self._lock, self._held = threading.Lock(), None
        self._is_synced: bool | None = None  # whether SQLite syncs a commit now; None: as it does by default
        self._look_lock = threading.Lock()
        self._looking: sqlite3.Connection | None = None
        # writes what somebody keeps in memory, before others use the file
        self.before_use: Callable[[], None] = lambda: None
        try:
            if is_guest:
                path.stat()
            else:
                make_private(path)
                self._held = held(path)
        except OSError as error:
            raise StateFault(f"{path}: {error.strerror}") from None
        try:
            self._connection = sqlite3.connect(
                path, isolation_level=None, check_same_thread=False, timeout=BUSY_SECONDS
            )
        except sqlite3.Error as error:
            self._release()
            raise StateFault(f"{path}: {error}") from None
        try:
            # what is deleted is overwritten: the file has addresses
            for pragma in ("secure_delete = ON", "journal_mode = WAL"):
                self._connection.execute(f"PRAGMA {pragma}").fetchall()
            if is_guest:
                check_version(self._connection)
            else:
                check(self._connection)
                with self.transaction() as connection:
                    STATE.prepare(connection, ADVICE)
            self._looking = sqlite3.connect(
                path, isolation_level=None, check_same_thread=False, timeout=BUSY_SECONDS
            )
            self._looking.execute("PRAGMA query_only = ON").fetchall()
        except Fault as fault:
            self.close()
            raise StateFault(f"{path}: {fault}") from None
        except sqlite3.Error as error:
            self.close()
            is_busy = isinstance(error, sqlite3.OperationalError)
            advice = "no other bridge may have it" if is_busy else SPOILED
            raise StateFault(f"{path}: {error}; {advice}") from None

    def _release(self) -> None:
        """Gives up the lock of a bridge."""
        if self._held is not None:
            os.close(self._held)
            self._held = None

    def transaction(self, is_synced: bool = True, flushes: bool = True) -> "Transaction":
        """Runs the block of a `with` statement in one transaction. If the block ends without an exception, it
        is committed; otherwise it is undone. What somebody keeps in memory is written before, unless flushes
        is false.

        If is_synced is false, a power failure may undo it, until a later transaction is synced.
        """
        if flushes:
            self.before_use()
        return Transaction(self, is_synced)

    def begin(self, is_synced: bool) -> sqlite3.Connection:
        """Begins a transaction, for which this thread has the connection from now on."""
        self._lock.acquire()
        try:
            if is_synced != self._is_synced:
                self._connection.execute(f"PRAGMA synchronous = {'FULL' if is_synced else 'NORMAL'}")
                self._is_synced = is_synced
            self._connection.execute("BEGIN IMMEDIATE")
        except BaseException:
            self._lock.release()
            raise
        return self._connection

    def end(self, is_good: bool) -> None:
        """Commits or undoes the transaction."""
        try:
            if is_good:
                self._connection.execute("COMMIT")
        finally:
            try:
                if self._connection.in_transaction:
                    self._connection.execute("ROLLBACK")
            finally:
                self._lock.release()

    def row(self, statement: str, *values: object) -> tuple[object, ...] | None:
        """Returns the first row of a query."""
        rows = self.rows(statement, *values)
        return rows[0] if rows else None

    def rows(self, statement: str, *values: object, flushes: bool = True) -> list[tuple[object, ...]]:
        """Returns the rows of a query. What somebody keeps in memory is written before, unless flushes is
        false.
        """
        if flushes:
            self.before_use()
        with self._lock:
            return self._connection.execute(statement, values).fetchall()

    def looked(self, statement: str, *values: object) -> list[tuple[object, ...]]:
        """Returns the rows of a query for a page. Calls don't wait for it, even if it takes long."""
        self.before_use()
        with self._look_lock:
            if self._looking is None:
                raise sqlite3.ProgrammingError("the file is closed")
            return self._looking.execute(statement, values).fetchall()

    def close(self) -> None:
        """Closes the file."""
        self.before_use()
        with self._look_lock:
            if self._looking is not None:
                self._looking.close()
                self._looking = None
        with self._lock:
            self._connection.close()
            self._release()

    def wipe_log(self) -> None:
        """Moves the log into the file, and cuts the log off, so that it has nothing that was deleted. If
        another process reads just now, a later commit does it.
        """
        with self._lock:
            self._connection.execute("PRAGMA wal_checkpoint(TRUNCATE)").fetchall()

    def backup(self, target: Path) -> None:
        """Copies the file as it is at one moment into a new file. Others can go on writing meanwhile."""
        self.before_use()
        with self._lock:
            copy = sqlite3.connect(target, isolation_level=None)
            try:
                self._connection.backup(copy)
                copy.execute("PRAGMA journal_mode = DELETE").fetchall()
            finally:
                copy.close()


class Transaction:
    """A transaction of a block."""

    __slots__ = ("_file", "_is_synced")

    def __init__(self, file: StateFile, is_synced: bool) -> None:
        self._file, self._is_synced = file, is_synced

    def __enter__(self) -> sqlite3.Connection:
        return self._file.begin(self._is_synced)

    def __exit__(self, kind: object, *_fault: object) -> None:
        self._file.end(kind is None)


def check_version(connection: sqlite3.Connection) -> None:
    """Checks that a file is one of this bridge's format."""
    version = STATE.version_of(connection)
    if version != STATE.version:
        raise StateFault(f"has format {version}, and this command knows {STATE.version}: restart the bridge")


def check(connection: sqlite3.Connection) -> None:
    """Raises StateFault if a page of the file is spoiled. Without this, calls that need the page would fail
    for good, and nothing would say so at the start.
    """
    found = connection.execute("PRAGMA quick_check(1)").fetchone()[0]
    if found != "ok":
        raise StateFault(f"{str(found).strip().splitlines()[-1]}; {SPOILED}")

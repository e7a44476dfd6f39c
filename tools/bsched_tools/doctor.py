"""Why bsched refuses a file: each reason in a line, with what to do."""
import os
import shutil
import stat
import tomllib
from collections.abc import Iterator
from contextlib import closing
from itertools import islice
from pathlib import Path

from bsched_files.bridge_state import STATE
from bsched_files.copies import log_of, moment_of
from bsched_files.faults import Fault
from bsched_files.tables import (
    BUSY_SECONDS,
    EMPTY,
    TAKE_ANOTHER,
    Tables,
    check_file,
    connected,
    faults_of,
    journal_fault,
    log_size,
    schema_fault,
)

from . import start_times
from .checks import wrong_rows
from .copies import holders
from .settings_file import settings_faults

MOST_ROWS = 50
LEAST_ROOM = 2**20  # bytes: a call and its part of the log need less
OTHER_KEY = (
    "operator_key is not that of the tables, so ticks and imports with it are refused. Each copy of the "
    "tables has the right one: `SELECT value FROM setting WHERE name = 'operator_key'`"
)
RESTORE = 'restore a copy (docs/WHEN_WRONG.md, "Restore a copy")'


def file_faults(path: Path) -> Iterator[str]:
    """Yields what is wrong with a file as a file, or with its log."""
    for one, name in ((path, ""), (log_of(path), "its log: ")):
        try:
            found = one.stat() if one is path else one.lstat()
        except FileNotFoundError:
            if one is path:
                yield "no such file: make it with `bsched create`, or look at the name"
            continue
        except OSError as error:
            yield f"{name}{error.strerror}"
            continue
        if not stat.S_ISREG(found.st_mode):
            yield f"{name}it is not a regular file"
        elif found.st_nlink != 1:
            yield f"{name}it has {found.st_nlink} names (hard links), and bsched accepts a file with one"
        elif not os.access(one, os.R_OK | os.W_OK):
            yield f"{name}this user may not read and write it: run this as the user of bsched"
    if fault := journal_fault(path):
        yield fault


def room_faults(path: Path) -> Iterator[str]:
    """Yields whether the disk has no room for more calls."""
    room = shutil.disk_usage(path.parent).free
    if room < LEAST_ROOM:
        yield (
            f"its disk has {room} bytes left, so answers are unavailable: make room "
            f'(docs/WHEN_WRONG.md, "Unavailable answers")'
        )


def holder_faults(path: Path) -> Iterator[str]:
    """Yields which processes have the file."""
    identity = holders.identity_of(path)
    for one in holders.all_open_files(identity) if identity else []:
        if one.lock == "WRITE" and (opening := start_times.opening_text(one.pid, path)):
            yield f"{one.process} has it, and {opening}: wait for it, or end it first"
        elif one.lock == "WRITE":
            yield (
                f"{one.process} has it, so no other program can open it: end that first; "
                f"or send the message to it by HTTP, or look at a copy (`bsched-tools copy`)"
            )
        elif one.lock:
            yield f"{one.process} reads it: end that first"


def without_log(path: Path) -> str:
    """Returns what to do if a file has no tables at all, and its log is missing. A young project has its
    tables only in the log."""
    log = log_of(path).name
    return (
        f"it has no tables, and its log {log} is not next to it: in a young project the log has everything. "
        f"Look for {log} where the file came from, and put both here together; else {RESTORE}"
    )


def content_faults(path: Path) -> Iterator[str]:
    """Yields what is wrong with the tables in a file."""
    with faults_of(path), closing(connected(path)) as connection:
        connection.execute("BEGIN")
        if fault := schema_fault(connection):
            yield without_log(path) if fault == EMPTY and not log_size(path) else fault
            return
        messages = [row[0] for row in connection.execute("PRAGMA integrity_check(5)")]
        if messages != ["ok"]:
            yield f"SQLite finds: {' '.join('; '.join(messages).split())}: {RESTORE}"
            return
        settings = dict(connection.execute("SELECT name, value FROM setting"))
        found = list(islice(wrong_rows(Tables(path, connection, moment_of(path), settings)), MOST_ROWS))
    yield from (f"{wrong}" for wrong in found)
    if found:
        yield f"no scheduler wrote such rows: {RESTORE}"


def tables_faults(path: Path) -> Iterator[str]:
    """Yields why bsched refuses tables."""
    real = Path(os.path.realpath(path))
    faults = list(file_faults(real)) or list(holder_faults(real))
    yield from faults
    if real.exists():
        yield from room_faults(real)
    if faults:
        return
    try:
        check_file(real)
        yield from content_faults(real)
    except Fault as fault:
        yield str(fault).removeprefix(f"{real}: ").replace(TAKE_ANOTHER, f": {RESTORE}")


def state_faults(path: Path) -> Iterator[str]:
    """Yields why the bridge refuses a state file, or a copy of one."""
    if not path.is_file():
        yield "there is no such file"
        return
    try:
        STATE.check_whole(path, BUSY_SECONDS)
    except Fault as fault:
        yield str(fault).removeprefix(f"{path}: ")


def stored_settings(path: Path) -> dict[str, int | str] | None:
    """Returns the settings in tables, also while a program has them; None if they can't be read."""
    try:
        check_file(path)
        with faults_of(path), closing(connected(path)) as connection:
            if schema_fault(connection) is None:
                return dict(connection.execute("SELECT name, value FROM setting"))
    except (Fault, OSError):
        pass
    return None


def settings_differences(tables: Path, settings: Path) -> Iterator[str]:
    """Yields each setting of a file that is not the one with which the tables were made. The tables count."""
    stored = stored_settings(Path(os.path.realpath(tables)))
    try:
        values = tomllib.loads(settings.read_text(encoding="utf-8"))
    except (OSError, ValueError):
        return
    for name, value in values.items():
        if stored is None or name not in stored or stored[name] == value:
            continue
        if name == "operator_key":
            yield OTHER_KEY
        else:
            yield f"{name} is {value!r}, and the tables were made with {stored[name]}, which counts"


def examined(tables: Path | None, settings: Path | None, state: Path | None = None) -> Iterator[str]:
    """Yields each reason, with the file."""
    if state is not None:
        yield from (f"{state}: {fault}" for fault in state_faults(state))
    if settings is not None:
        yield from (f"{settings}: {fault}" for fault in settings_faults(settings))
    if tables is not None:
        yield from (f"{tables}: {fault}" for fault in tables_faults(tables))
    if tables is not None and settings is not None:
        yield from (f"{settings}: {fault}" for fault in settings_differences(tables, settings))

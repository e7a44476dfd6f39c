"""A copy of the tables, taken while a program serves them.

A copy is one file. The process that has the tables stands still while the file of the tables and its log
(`-wal`) are copied. The bytes are those that a power failure would have left then. Afterwards SQLite moves
the log of the copy into the file of the copy and checks the whole of it. Only then does the file get its
name, by one rename. No name is used twice, so no file is overwritten, and no log of an older copy is ever
next to a newer file.
"""
import json
import sqlite3
from contextlib import ExitStack, closing, suppress
from dataclasses import dataclass
from pathlib import Path

from bsched_files import tables
from bsched_files.copies import copy_name, log_of
from bsched_files.faults import Fault
from bsched_files.programs import run

from .folder import place, remove_older, turn, work_folder
from .taking import Taken, Work, source_of, take

TURN_SECONDS = 60.0  # how long to wait for another copy of the same tables
CHECK_SECONDS = 600.0  # how long the program may take to open the copy


def merge(path: Path) -> None:
    """Moves the log of a copy into the file, and removes the log."""
    with tables.faults_of(path), closing(sqlite3.connect(path, isolation_level=None)) as connection:
        busy, *_ = connection.execute("PRAGMA wal_checkpoint(TRUNCATE)").fetchone()
    if busy or tables.log_size(path):
        raise Fault("its log could not be moved into the file: another program has it")
    log_of(path).unlink(missing_ok=True)


def check_whole(path: Path) -> None:
    """Has SQLite check the whole copy, and checks its schema."""
    with tables.faults_of(path), closing(sqlite3.connect(path, isolation_level=None)) as connection:
        if fault := tables.schema_fault(connection):
            raise Fault(fault)
        (result,), *_ = connection.execute("PRAGMA quick_check(1)").fetchall()
        if result != "ok":
            raise Fault(f"SQLite finds: {' '.join(result.split())}")


def check_by_program(program: Path, path: Path) -> None:
    """Has the program open the copy. It must say what host 1 was given, or that there is no such host."""
    args = [str(program), "statement", "--tables", str(path), "--host", "1"]
    completed = run(args, CHECK_SECONDS)
    if completed.returncode == 0 and completed.stdout.startswith("result,"):
        return
    with suppress(ValueError):
        if completed.returncode == 1 and json.loads(completed.stdout).get("error") == "no_such_host":
            return
    message = (completed.stderr or completed.stdout).strip()
    raise Fault(f"{program} does not accept it: {message} (status {completed.returncode})")


def check(taken: Taken, program: Path | None) -> None:
    """Makes one file of a copy and its log, and checks it."""
    merge(taken.path)
    check_whole(taken.path)
    if program is not None:
        check_by_program(program, taken.path)
        merge(taken.path)


@dataclass(frozen=True, slots=True)
class Copied:
    """What became of a copy."""

    path: Path
    size: int
    still_seconds: float | None  # None if nobody had the tables
    removed: list[Path]


def folder_of(target: Path, keep: int | None) -> Path:
    """Returns the folder into which a copy goes."""
    folder = target if target.is_dir() else target.parent
    if not folder.is_dir():
        raise Fault(f"{folder}: no such folder: make it first")
    if keep is not None and folder != target:
        raise Fault(f"{target}: it is not a folder, and --keep removes older copies from a folder: name one")
    return folder


def copy_tables(path: Path, target: Path, keep: int | None = None, program: Path | None = None) -> Copied:
    """Copies tables into a folder of copies, or to a new file."""
    source, folder = source_of(path), folder_of(target, keep)
    if journal := tables.journal_fault(source.path):
        raise Fault(f"{path}: {journal}")
    try:
        with turn(source.path, TURN_SECONDS), work_folder(folder) as made:
            with ExitStack() as stack:
                taken = take(Work(made, source, stack))
            try:
                check(taken, program)
            except Fault as fault:
                message = str(fault).removeprefix(f"{taken.path}: ").removesuffix(tables.TAKE_ANOTHER)
                raise Fault(f"{path}: the copy was not good, and is not kept: {message}") from None
            with turn(folder, TURN_SECONDS):
                name = target if folder != target else folder / copy_name(source.path.stem, taken.moment)
                place(taken, source, name)
                removed = remove_older(name, source.path.stem, keep) if keep is not None else []
    except OSError as error:
        raise Fault(f"{error.filename or folder}: {error.strerror}") from None
    return Copied(name, name.stat().st_size, taken.still_seconds, removed)

"""Copies of SQLite files, in folders of copies: their names, which have the moment of the copy, and how a
copy gets its owner. A copy is never written over another.
"""
import os
import re
import secrets
import shutil
import sys
import time
from collections.abc import Iterable, Iterator
from contextlib import contextmanager, suppress
from datetime import datetime, timezone
from pathlib import Path
from typing import BinaryIO

from .faults import Fault

TABLES, STATE = ".db", ".state"  # the endings of copies of the tables, and of the bridge's state file
# the name of the copied file, and the moment of the copy in UTC
COPY_NAME = re.compile(r"(?P<stem>.+)-(?P<moment>\d{8}T\d{6}\.\d{3}Z)\.db")
STATE_NAME = re.compile(r"(?P<stem>bridge)-(?P<moment>\d{8}T\d{6}\.\d{3}Z)\.state")
MOMENT = "%Y%m%dT%H%M%S.%fZ"
CLOCK_SECONDS = 60  # clocks of two machines may differ by so much


def copy_name(stem: str, moment: float, ending: str = TABLES) -> str:
    """Returns the name of a copy that was taken at a moment."""
    at = datetime.fromtimestamp(moment, timezone.utc)
    return f"{stem}-{at:%Y%m%dT%H%M%S}.{at.microsecond // 1000:03}Z{ending}"


def moment_of(path: Path) -> int:
    """Returns the moment of a copy: that in its name, else the time of the last write to the file."""
    match = COPY_NAME.fullmatch(path.name) or STATE_NAME.fullmatch(path.name)
    if match is not None:
        with suppress(ValueError):  # no such day or time
            return int(datetime.strptime(match["moment"], MOMENT).replace(tzinfo=timezone.utc).timestamp())
    return int(path.stat().st_mtime)


def copies_in(folder: Path, stem: str | None = None) -> list[Path]:
    """Returns the copies of tables in a folder, the newest first. If a name is given, only copies of the
    tables with that name."""
    return [folder / name for name in names_in(folder, COPY_NAME, stem)]


def names_in(folder: Path | int, form: re.Pattern[str], stem: str | None = None) -> list[str]:
    """Returns the names of copies in a folder, the newest first."""
    named = [(match, name) for name in os.listdir(folder) if (match := form.fullmatch(name))]
    chosen = [(match["moment"], name) for match, name in named if stem in (None, match["stem"])]
    return [name for _, name in sorted(chosen, reverse=True)]


def found_copy(path: Path) -> Path:
    """Returns the file that a path means. A folder means its newest copy."""
    if not path.is_dir():
        return path
    copies = copies_in(path)
    if not copies:
        raise Fault(f"{path}: there is no copy in this folder: make one with `bsched-tools copy --to {path}`")
    stems = {match["stem"] for copy in copies if (match := COPY_NAME.fullmatch(copy.name))}
    if len(stems) > 1:
        raise Fault(f"{path}: there are copies of several projects in this folder: name one of the files")
    if moment_of(copies[0]) > time.time() + CLOCK_SECONDS:
        print(
            f"bsched-tools: {copies[0]}: its name lies in the future, so no newer copy is read: remove it if "
            "the clock was ahead",
            file=sys.stderr,
        )
    return copies[0]


def log_of(path: Path) -> Path:
    """Returns the name of a file's log."""
    return path.with_name(f"{path.name}-wal")


def beside(path: Path) -> list[Path]:
    """Returns the files that SQLite and bsched may leave next to a database."""
    return [path.with_name(f"{path.name}-{end}") for end in ("wal", "shm", "journal")]


def remove(copies: Iterable[Path]) -> None:
    """Removes copies, with what is next to them."""
    for path in copies:
        for one in (path, *beside(path)):
            one.unlink(missing_ok=True)


def give_to(path: Path, owner: os.stat_result) -> None:
    """Gives a file that this process made to the owner of another one. The folder may belong to that owner,
    who could have put a link in the file's place: a link is not followed, and a file of somebody else stays.
    """
    file = os.open(path, os.O_RDONLY | os.O_NOFOLLOW)
    try:
        status = os.fstat(file)
        if status.st_uid != os.geteuid() or status.st_nlink != 1:
            raise Fault(f"{path}: somebody else put this file there: take the copy in another folder")
        with suppress(PermissionError):
            os.fchown(file, owner.st_uid, owner.st_gid)
    finally:
        os.close(file)


@contextmanager
def opened_folder(path: Path) -> Iterator[int]:
    """Opens a folder for the block. Its descriptor is that of one folder, even if the path leads elsewhere
    later.
    """
    descriptor = os.open(path, os.O_RDONLY | os.O_DIRECTORY)
    try:
        yield descriptor
    finally:
        os.close(descriptor)


def write_copy(source: BinaryIO, final: Path, owner: os.stat_result) -> int:
    """Writes the bytes of a copy into a new file of an owner, and returns how many there are. It has its name
    once it is on the disk. No link in the file's folder is followed.
    """
    work = f".{final.name}.{secrets.token_hex(8)}.new"
    with opened_folder(final.parent) as folder:
        descriptor = os.open(work, os.O_WRONLY | os.O_CREAT | os.O_EXCL | os.O_NOFOLLOW, 0o600, dir_fd=folder)
        try:
            with open(descriptor, "wb") as file:
                shutil.copyfileobj(source, file)
                with suppress(PermissionError):
                    os.fchown(descriptor, owner.st_uid, owner.st_gid)
                file.flush()
                os.fsync(descriptor)
                nbytes = file.tell()
            os.rename(work, final.name, src_dir_fd=folder, dst_dir_fd=folder)
        except BaseException:
            with suppress(FileNotFoundError):
                os.unlink(work, dir_fd=folder)
            raise
        os.fsync(folder)
    return nbytes


def keep_newest(copies: Path, form: re.Pattern[str], keep: int) -> list[Path]:
    """Removes older copies from a folder, so that this many are left. Returns the removed ones."""
    with opened_folder(copies) as folder:
        names = names_in(folder, form)[keep:]
        for name in names:
            os.unlink(name, dir_fd=folder)
    return [copies / name for name in names]

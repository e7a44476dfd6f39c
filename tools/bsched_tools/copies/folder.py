"""A folder of copies of tables: whose turn it is, how a copy gets its place, and which older ones go."""
import fcntl
import os
import shutil
import tempfile
import time
from collections.abc import Iterator
from contextlib import contextmanager, suppress
from pathlib import Path

from bsched_files import tables
from bsched_files.atomic import sync
from bsched_files.copies import beside, copies_in, give_to, remove
from bsched_files.faults import Fault

from .taking import Source, Taken

WORK_PREFIX = ".bsched-copy-"
LEFT_SECONDS = 60.0  # a work folder that is older, and that nobody holds, was left by a killed copy
PAUSE_SECONDS = 0.05


@contextmanager
def turn(path: Path, seconds: float, other: str = "another copy is being made") -> Iterator[None]:
    """Holds a file or a folder, so that one process at a time has it. Others wait for this many seconds, and
    then say what the other one does."""
    descriptor = os.open(path, os.O_RDONLY)
    try:
        ends = time.monotonic() + seconds
        while True:
            try:
                fcntl.flock(descriptor, fcntl.LOCK_EX | fcntl.LOCK_NB)
                break
            except BlockingIOError:
                if time.monotonic() > ends:
                    raise Fault(f"{path}: {other}: try again later") from None
            time.sleep(PAUSE_SECONDS)
        yield
    finally:
        os.close(descriptor)


def clear_left(folder: Path) -> None:
    """Removes the work folders of copies that were killed."""
    for left in folder.glob(f"{WORK_PREFIX}*"):
        with suppress(OSError, Fault):
            if time.time() - left.stat().st_mtime > LEFT_SECONDS:
                with turn(left, 0):
                    shutil.rmtree(left)


@contextmanager
def work_folder(folder: Path) -> Iterator[Path]:
    """Makes a new folder in the folder of copies, and removes it at the end."""
    clear_left(folder)
    made = Path(tempfile.mkdtemp(prefix=WORK_PREFIX, dir=folder))
    try:
        with turn(made, 0):
            yield made
    finally:
        shutil.rmtree(made, ignore_errors=True)


def place(taken: Taken, source: Source, target: Path) -> None:
    """Gives a copy the owner of the tables, and by one rename its name, which no file may have yet."""
    for path in (target, *beside(target)):
        if path.exists():
            raise Fault(f"{path}: it exists, and a copy is never written over another: name a new file")
    give_to(taken.path, source.path.stat())
    os.utime(taken.path, (taken.moment, taken.moment), follow_symlinks=False)
    sync(taken.path)
    os.rename(taken.path, target)
    sync(target.parent)


def project_of(path: Path) -> tuple[frozenset[object], frozenset[object]]:
    """Returns what identifies a project among copies: its settings, and its imports, which are only ever
    added to. Both have the same form in each schema, and an upgrade changes neither."""
    with tables.opened(path, is_any_schema=True) as copy:
        settings = {item for item in copy.settings.items() if item[0] != "schema"}
        return frozenset(settings), frozenset(copy.rows("SELECT kind, name, length(text) FROM batch"))


def is_of_project(path: Path, settings: frozenset[object], imports: frozenset[object]) -> bool:
    """Returns whether a file is an older copy of a project. A file that can't be read is none."""
    try:
        its_settings, its_imports = project_of(path)
    except Fault:
        return False
    return its_settings == settings and its_imports <= imports


def remove_older(newest: Path, stem: str, keep: int) -> list[Path]:
    """Removes older copies of the newest copy's project. This many copies are left, the newest one included.
    Returns the removed ones."""
    settings, imports = project_of(newest)
    older = [path for path in copies_in(newest.parent, stem) if path != newest]
    removed = [path for path in older if is_of_project(path, settings, imports)][keep - 1 :]
    remove(removed)
    sync(newest.parent)
    return removed

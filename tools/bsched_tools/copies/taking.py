"""The bytes of the tables at one moment: the file and its log, copied while nobody writes them."""
import errno
import fcntl
import os
import struct
import time
from contextlib import ExitStack, suppress
from dataclasses import dataclass
from pathlib import Path

from bsched_files.atomic import FICLONE
from bsched_files.faults import Fault

from . import holders
from .faults import Retry
from .holders import Identity, OpenFile, identity_of
from .stopping import process_of, stopped

PART = 1 << 24
SEEK_SECONDS = 10.0  # how long to try again when another process is in the way
# If a file was not written for this long, each later write changes its time. The first number holds if the
# file system stores fractions of a second, the second one on every file system.
FINE_SECONDS, SETTLED_SECONDS = 0.1, 3.0
NANOSECONDS = 1_000_000_000
# how often a file is copied early, and how long to wait for a pause in its writes
EARLY_COPIES, SETTLE_SECONDS = 3, 0.5
MOST_IN_MEMORY = 1 << 26
FileMark = tuple[int, ...]  # when a file was written last, and its size
TablesMark = tuple[Identity | FileMark, ...]  # the identity of the tables, their mark, and that of their log
FROM_ANOTHER_FILE_SYSTEM = (errno.EXDEV, errno.EINVAL, errno.ENOSYS, errno.EOPNOTSUPP)


@dataclass(frozen=True, slots=True)
class Source:
    """The tables to copy: the file to which all links lead, and its log."""

    path: Path
    identity: Identity

    @property
    def log(self) -> Path:
        """The file's log."""
        return self.path.with_name(f"{self.path.name}-wal")


@dataclass(frozen=True, slots=True)
class Taken:
    """A copy that was taken: the file, with its log next to it."""

    path: Path
    moment: float
    still_seconds: float | None  # None if nobody had the tables


def source_of(path: Path) -> Source:
    """Returns the tables at a path."""
    real = Path(os.path.realpath(path))
    identity = identity_of(real)
    if identity is None:
        raise Fault(f"{path}: no such file, or it may not be looked at")
    if not real.is_file():
        raise Fault(f"{path}: it is not a file")
    return Source(real, identity)


# ---- Bytes


def copy_bytes(source: int, target: int) -> None:
    """Copies a file: by sharing its blocks if that is possible, or else within the kernel, or else through
    this process."""
    os.ftruncate(target, 0)
    with suppress(OSError):
        fcntl.ioctl(target, FICLONE, source)
        return
    size, at = os.fstat(source).st_size, 0
    while at < size:
        try:
            done = os.copy_file_range(source, target, min(PART, size - at), at, at)
        except OSError as error:
            if error.errno not in FROM_ANOTHER_FILE_SYSTEM:
                raise
            done = os.pwrite(target, os.pread(source, min(PART, size - at), at), at)
        if done == 0:
            raise Retry("the file became shorter while it was copied")
        at += done


def write_mark(file: int | Path) -> FileMark | None:
    """Returns a mark that each write to a file changes, or None if the last write is too recent for that. The
    file is given by a descriptor or by its path."""
    found = os.stat(file)
    is_fine = all(one % NANOSECONDS for one in (found.st_mtime_ns, found.st_ctime_ns))
    age = time.time() - max(found.st_mtime, found.st_ctime)
    if age <= (FINE_SECONDS if is_fine else SETTLED_SECONDS):
        return None
    return found.st_mtime_ns, found.st_ctime_ns, found.st_size


def tables_mark(path: Path) -> TablesMark | None:
    """Returns a mark that each write to the tables at a path and to their log changes, also if another file
    takes their place. It is None if the last write is too recent for that, or if there are no tables. Take it
    before a copy: then the copy has all writes up to the mark."""
    try:
        source = source_of(path)
        marks = [write_mark(file) for file in (source.path, source.log) if file.exists()]
    except (OSError, Fault):
        return None
    known = tuple(mark for mark in marks if mark is not None)
    return (source.identity, *known) if len(known) == len(marks) else None


def settled_mark(descriptor: int) -> FileMark | None:
    """Returns the same mark after a pause in the writes, or None if there is no pause soon."""
    ends = time.monotonic() + SETTLE_SECONDS
    while (mark := write_mark(descriptor)) is None and time.monotonic() < ends:
        time.sleep(0.02)
    return mark


def opened_file(path: Path, flags: int, stack: ExitStack) -> int:
    """Opens a file. It is closed when the stack ends."""
    descriptor = os.open(path, flags, 0o600)
    stack.callback(os.close, descriptor)
    return descriptor


class Work:
    """The two files into which the tables and their log are copied."""

    def __init__(self, folder: Path, source: Source, stack: ExitStack) -> None:
        self.source, self.path = source, folder / "copy.db"
        create = os.O_RDWR | os.O_CREAT | os.O_EXCL
        self.target = opened_file(self.path, create, stack)
        self.target_log = opened_file(folder / "copy.db-wal", create, stack)

    def copy_early(self, descriptor: int) -> FileMark | None:
        """Copies the file before the process stands still. The mark shows later whether the file was written
        since. If it is written meanwhile, it is copied again, a few times."""
        for _ in range(EARLY_COPIES):
            mark = settled_mark(descriptor)
            if mark is None:
                return None
            copy_bytes(descriptor, self.target)
            if write_mark(descriptor) == mark:
                return mark
        return None

    def copy_rest(self, descriptor: int, log: int | None, mark: FileMark | None) -> bytes:
        """Copies what was not copied early, while nobody writes. The bytes of a short log are returned
        instead."""
        if mark is None or mark != write_mark(descriptor):
            copy_bytes(descriptor, self.target)
        os.ftruncate(self.target_log, 0)
        if log is None:
            return b""
        size = os.fstat(log).st_size
        if size <= MOST_IN_MEMORY:
            return os.pread(log, size, 0)
        copy_bytes(log, self.target_log)
        return b""

    def finish(self, log: bytes) -> None:
        """Writes the bytes of a log that copy_rest returned."""
        at = 0
        while at < len(log):
            at += os.pwrite(self.target_log, log[at:], at)


# ---- Tables that nobody has


def lock(descriptor: int) -> bool:
    """Takes the lock of a program that works on the tables. Returns whether it got the lock."""
    start, length = holders.LOCKS_START, holders.LOCKS_LENGTH
    wanted = struct.pack("hhqqi4x", fcntl.F_WRLCK, os.SEEK_SET, start, length, 0)
    try:
        fcntl.fcntl(descriptor, fcntl.F_OFD_SETLK, wanted)
    except (BlockingIOError, PermissionError):
        return False
    return True


def who_reads(found: list[OpenFile]) -> str:
    """Returns what to do about a lock that is in the way and does not belong to a program that serves."""
    reader = next((one for one in found if one.lock), None)
    if reader is None:
        return "a process has it that this user may not look at: run this as root"
    return f"{reader.process} reads it: end that first"


def copy_idle(work: Work, found: list[OpenFile]) -> Taken:
    """Copies tables that nobody has. No program can begin to work on them meanwhile."""
    source = work.source
    with ExitStack() as stack:
        descriptor = opened_file(source.path, os.O_RDWR, stack)
        if not lock(descriptor):
            raise Retry(who_reads(found))
        log = opened_file(source.log, os.O_RDWR, stack) if source.log.exists() else None
        if log is not None and not lock(log):
            raise Retry(f"a process has {source.log}: end that first")
        if identity_of(source.path) != source.identity:
            raise Retry("another file was put in its place: try again")
        moment, rest = time.time(), work.copy_rest(descriptor, log, None)
    work.finish(rest)
    return Taken(work.path, moment, None)


# ---- Tables that a process has


def identity_of_open(descriptor: int) -> Identity:
    """Returns the identity of an open file."""
    found = os.fstat(descriptor)
    return Identity(found.st_dev, found.st_ino)


def log_of(source: Source, holder: OpenFile, stack: ExitStack) -> int | None:
    """Opens the log of tables that a process has. The process must have this very file open."""
    if not source.log.exists():
        return None
    log = opened_file(source.log, os.O_RDONLY, stack)
    if not any(holders.open_files_of(holder.pid, identity_of_open(log))):
        raise Retry(f"{source.log} is not the log that {holder.process} writes: it was moved or replaced")
    return log


def check_holder(source: Source, holder: OpenFile, log: int | None) -> None:
    """Checks that a process that stands still has the tables, as it did when it was found."""
    there = identity_of(f"/proc/{holder.pid}/fd/{holder.descriptor}")
    if there != source.identity or holders.lock_of(holder.pid, holder.descriptor) != "WRITE":
        raise Retry(f"{holder.process} gave up the file")
    if log is None and source.log.exists():
        raise Retry(f"{source.log} was made meanwhile")


def copy_served(work: Work, holder: OpenFile) -> Taken:
    """Copies tables that a process has, while that process stands still."""
    source = work.source
    with ExitStack() as stack:
        process = stack.enter_context(process_of(holder.pid))
        descriptor = opened_file(source.path, os.O_RDONLY, stack)
        log = log_of(source, holder, stack)
        mark = work.copy_early(descriptor)
        with stopped(process) as still:
            check_holder(source, holder, log)
            moment, rest = time.time(), work.copy_rest(descriptor, log, mark)
    work.finish(rest)
    return Taken(work.path, moment, still.seconds)


def take(work: Work) -> Taken:
    """Copies the file and its log as they are at one moment, whether a process has them or not."""
    ends = time.monotonic() + SEEK_SECONDS
    while True:
        found = holders.all_open_files(work.source.identity)
        holder = holders.holder_among(found)
        try:
            return copy_idle(work, found) if holder is None else copy_served(work, holder)
        except Retry as reason:
            if time.monotonic() > ends:
                raise Fault(f"{work.source.path}: {reason}") from None
        time.sleep(0.05)

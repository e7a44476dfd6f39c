"""Which process has the tables, by the files that processes have open and the locks on them.

A program that works on the tables locks the 512 bytes of the file that SQLite uses for its locks. bsched
takes one lock of the kind that belongs to an open file (F_OFD_SETLK). /proc/locks names no process for such a
lock. So this module looks for a process that has the file open, by device and inode, and has the lock
(/proc/PID/fdinfo).
"""
import os
import re
from collections.abc import Iterator
from dataclasses import dataclass
from pathlib import Path

PROC = Path("/proc")
# the bytes that SQLite locks: the pending byte, the reserved byte and the shared range
LOCKS_START, LOCKS_LENGTH = 1 << 30, 512
LOCK = re.compile(r"^lock:\s+\d+:\s+\S+\s+\S+\s+(READ|WRITE)\s+\S+\s+\S+\s+(\d+)\s+(\d+|EOF)$", re.MULTILINE)


@dataclass(frozen=True, slots=True)
class Identity:
    """The identity of a file, which does not depend on its names."""

    device: int
    inode: int


@dataclass(frozen=True, slots=True)
class OpenFile:
    """A file that a process has open."""

    pid: int
    descriptor: str
    lock: str  # on the bytes that SQLite locks: READ, WRITE, or empty

    @property
    def process(self) -> str:
        """The process, as text for people."""
        return f"process {self.pid} ({process_name(self.pid)})"


def identity_of(path: Path | str) -> Identity | None:
    """Returns the identity of a file, or None if it can't be found or looked at."""
    try:
        found = os.stat(path)
    except OSError:
        return None
    return Identity(found.st_dev, found.st_ino)


def process_name(pid: int) -> str:
    """Returns the name of a process."""
    try:
        return (PROC / str(pid) / "comm").read_text().strip()
    except OSError:
        return "ended"


def lock_of(pid: int, descriptor: str) -> str:
    """Returns the lock that an open file has on the bytes that SQLite locks: READ, WRITE, or empty."""
    try:
        text = (PROC / str(pid) / "fdinfo" / descriptor).read_text()
    except OSError:
        return ""
    last = LOCKS_START + LOCKS_LENGTH - 1
    kinds = {
        kind
        for kind, start, end in LOCK.findall(text)
        if int(start) <= last and (end == "EOF" or int(end) >= LOCKS_START)
    }
    return "WRITE" if "WRITE" in kinds else "READ" if kinds else ""


def descriptors_of(pid: int) -> list[str]:
    """Returns the descriptors of a process, if they may be listed."""
    try:
        return os.listdir(PROC / str(pid) / "fd")
    except OSError:
        return []


def open_files_of(pid: int, identity: Identity) -> Iterator[OpenFile]:
    """Yields each descriptor by which a process has a file open."""
    for descriptor in descriptors_of(pid):
        if identity_of(f"/proc/{pid}/fd/{descriptor}") == identity:
            yield OpenFile(pid, descriptor, lock_of(pid, descriptor))


def all_open_files(identity: Identity) -> list[OpenFile]:
    """Returns each descriptor by which another process has a file open."""
    pids = [int(name) for name in os.listdir(PROC) if name.isdecimal() and int(name) != os.getpid()]
    return [found for pid in pids for found in open_files_of(pid, identity)]


def holder_among(found: list[OpenFile]) -> OpenFile | None:
    """Returns the open file whose lock keeps all others out."""
    return next((one for one in found if one.lock == "WRITE"), None)

"""Files that are written whole or not at all."""
import fcntl
import gzip
import hashlib
import os
import stat
from collections.abc import Iterable
from contextlib import suppress
from dataclasses import dataclass
from pathlib import Path
from typing import BinaryIO

from .faults import Fault

FICLONE = 0x40049409  # ioctl: the blocks of one file become those of another, too
PART = 1 << 20  # bytes that are copied at once
BLOCK = 4096  # bytes that a file system gives a file at once


@dataclass(frozen=True, slots=True)
class Copied:
    """What was read from a file."""

    nbytes: int
    sha256: str
    fault: str = ""  # why it could not be read to its end


def copy_bytes(source: int, target: int, most: int) -> Copied:
    """Copies an open file into a new one, up to some bytes more than `most`, and returns what was copied. The
    copy shares the blocks of the file where the file system can.
    """
    try:
        fcntl.ioctl(target, FICLONE, source)
    except OSError:
        return copy_parts(source, target, most)
    with open(f"/proc/self/fd/{target}", "rb") as file:
        return Copied(os.fstat(target).st_size, hashlib.file_digest(file, "sha256").hexdigest())


def copy_parts(source: int, target: int, most: int) -> Copied:
    """Copies an open file a part at a time."""
    sha256, nbytes = hashlib.sha256(), 0
    while nbytes <= most:
        try:
            part = os.read(source, PART)
        except OSError as error:
            return Copied(nbytes, "", error.strerror or "it can't be read")
        if not part:
            break
        sha256.update(part)
        nbytes += len(part)
        left = memoryview(part)
        while left:
            left = left[os.write(target, left) :]
    return Copied(nbytes, sha256.hexdigest())


def sync(path: Path) -> None:
    """Syncs a file or a folder to the disk."""
    descriptor = os.open(path, os.O_RDONLY)
    try:
        os.fsync(descriptor)
    finally:
        os.close(descriptor)


def new_file(path: Path, mode: int) -> BinaryIO:
    """Opens a new file. What has its name is removed first: the file of a run that was killed, or a link of
    somebody who may write into the folder."""
    path.unlink(missing_ok=True)
    return open(os.open(path, os.O_WRONLY | os.O_CREAT | os.O_EXCL, mode), "wb")


def replace_file(
    path: Path,
    parts: Iterable[bytes],
    packed_at: int | None = None,
    mode: int = 0o644,
    owner: os.stat_result | None = None,
) -> None:
    """Writes a file and puts it in its place, by one rename. If packed_at is given, it is compressed, with
    that moment in it. If the owner of another file is given, it gets that owner, its group and its mode."""
    new = path.with_name(f".{path.name}.new")
    try:
        with new_file(new, mode) as file:
            if packed_at is None:
                file.writelines(parts)
            else:
                with gzip.GzipFile(filename="", mode="wb", fileobj=file, mtime=packed_at) as packed:
                    packed.writelines(parts)
            if owner is not None:
                give(file.fileno(), owner)
            file.flush()
            os.fsync(file.fileno())
        os.replace(new, path)
        sync(path.parent)
    except BaseException as error:
        with suppress(OSError):
            new.unlink()
        if isinstance(error, OSError):
            raise Fault(f"{path}: {error.strerror}") from None
        raise


def give(descriptor: int, owner: os.stat_result) -> None:
    """Gives a file the owner, the group and the mode of another one, as far as this process may."""
    with suppress(PermissionError):
        os.fchown(descriptor, owner.st_uid, owner.st_gid)
    os.fchmod(descriptor, stat.S_IMODE(owner.st_mode) & 0o777)


def rewrite_file(path: Path, data: bytes) -> None:
    """Replaces a file that is there. The new one has its owner and its mode."""
    replace_file(path, [data], mode=0o600, owner=path.stat())


def keep_file(path: Path, data: bytes, mode: int) -> None:
    """Replaces a file that must be kept also while the disk is full. Blanks after its text fill its last
    block. If there is no room for a new file, the text is written over the blocks that the file has."""
    padded = data + b" " * (-len(data) % BLOCK)
    try:
        replace_file(path, [padded], mode=mode)
    except Fault:
        try:
            write_over(path, padded)
        except OSError:
            pass
        else:
            return
        raise


def write_over(path: Path, data: bytes) -> None:
    """Writes a file within the room that it has. A stop meanwhile leaves a part of the new text."""
    with open(os.open(path, os.O_WRONLY | os.O_NOFOLLOW), "wb") as file:
        size = os.fstat(file.fileno()).st_size
        if size < len(data):
            raise OSError
        file.write(data.ljust(size))
        file.flush()
        os.fsync(file.fileno())


def append_line(path: Path, line: bytes) -> None:
    """Appends a line to a file. If a stop left the last line half written, the new one begins on a line of
    its own."""
    try:
        with path.open("ab") as file:
            begins = b"\n" if file.tell() and not path.read_bytes().endswith(b"\n") else b""
            file.write(begins + line + b"\n")
            file.flush()
            os.fsync(file.fileno())
    except OSError as error:
        raise Fault(f"{path}: {error.strerror}") from None

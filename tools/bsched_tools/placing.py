"""Puts the output files of workunits into an operator's folder, each workunit's into a folder of its own.

The files are copies, which share their blocks with the bridge's store where the file system can, or on
request hard links. Each is compared with its length and SHA-256 before it has its place. Who has the
folder may change it meanwhile, also while root works in it. So everything is done by descriptors of folders.
"""
import hashlib
import os
import shutil
from collections.abc import Iterator
from contextlib import contextmanager, suppress
from pathlib import Path

from bsched_files.atomic import Copied, copy_bytes
from bsched_files.faults import Fault

from .uploaded import UploadedFile

FILE_MODE, FOLDER_MODE = 0o644, 0o755
NEW_FILE = os.O_WRONLY | os.O_CREAT | os.O_EXCL | os.O_NOFOLLOW


class Spoiled(Exception):
    """Raised if a stored file is not what the host uploaded. The text is one line."""


def folder_name(workunit: str) -> str:
    """Returns the name of the folder for the files of a workunit: its own name. A name that begins with a dot
    gets a plus sign before it, which no name of a workunit has.
    """
    return f"+{workunit}" if workunit.startswith(".") else workunit


class OutputFolder:
    """A folder that gets a folder of files for each workunit."""

    def __init__(self, path: Path, is_linked: bool = False) -> None:
        self.path, self.is_linked = path, is_linked
        self.descriptor = os.open(path, os.O_RDONLY | os.O_DIRECTORY)
        self.owner = os.fstat(self.descriptor)

    def __enter__(self) -> "OutputFolder":
        return self

    def __exit__(self, *_args: object) -> None:
        os.close(self.descriptor)

    def has(self, name: str) -> bool:
        """Returns whether there is something with a name."""
        try:
            os.stat(name, dir_fd=self.descriptor, follow_symlinks=False)
        except FileNotFoundError:
            return False
        return True

    def place(self, files: list[UploadedFile], workunit: str) -> None:
        """Puts the files of a workunit into a folder of its own, whole or not at all. If the folder is there
        already, it stays. Raises Spoiled if a file is wrong.
        """
        name = folder_name(workunit)
        if not files or self.has(name):
            return
        new = f".{name}.new"
        shutil.rmtree(new, ignore_errors=True, dir_fd=self.descriptor)
        try:
            with self.made(new) as folder:
                for file in files:
                    self.put(file, folder, workunit)
                os.fsync(folder)
            os.rename(new, name, src_dir_fd=self.descriptor, dst_dir_fd=self.descriptor)
        except BaseException as error:
            with suppress(OSError):
                shutil.rmtree(new, dir_fd=self.descriptor)
            if isinstance(error, OSError):
                raise Fault(f"{self.path / name}: {error.strerror}") from None
            raise

    @contextmanager
    def made(self, name: str) -> Iterator[int]:
        """Makes a folder, and yields its descriptor."""
        os.mkdir(name, FOLDER_MODE, dir_fd=self.descriptor)
        flags = os.O_RDONLY | os.O_DIRECTORY | os.O_NOFOLLOW
        folder = os.open(name, flags, dir_fd=self.descriptor)
        try:
            if os.fstat(folder).st_uid != os.geteuid():
                raise Fault(f"{self.path / name}: somebody else put this folder there")
            os.fchmod(folder, FOLDER_MODE)
            yield folder
            self.give(folder)
        finally:
            os.close(folder)

    def read(self, name: str) -> bytes | None:
        """Returns the bytes of a file of the folder, or None if there is none."""
        try:
            file = os.open(name, os.O_RDONLY | os.O_NOFOLLOW | os.O_NONBLOCK, dir_fd=self.descriptor)
            with open(file, "rb") as opened:
                return opened.read()
        except FileNotFoundError:
            return None
        except OSError as error:
            raise Fault(f"{self.path / name}: {error.strerror}") from None

    def write(self, name: str, data: bytes) -> None:
        """Replaces a file of the folder, by one rename."""
        new = f".{name}.new"
        try:
            with suppress(FileNotFoundError):
                os.unlink(new, dir_fd=self.descriptor)
            file = os.open(new, NEW_FILE, 0o600, dir_fd=self.descriptor)
            with open(file, "wb") as opened:
                os.fchmod(file, FILE_MODE)
                self.give(file)
                opened.write(data)
                opened.flush()
                os.fsync(file)
            os.rename(new, name, src_dir_fd=self.descriptor, dst_dir_fd=self.descriptor)
            os.fsync(self.descriptor)
        except OSError as error:
            with suppress(OSError):
                os.unlink(new, dir_fd=self.descriptor)
            raise Fault(f"{self.path / name}: {error.strerror}") from None

    def give(self, descriptor: int) -> None:
        """Gives what root made to the owner of the folder."""
        if os.geteuid() == 0:
            os.fchown(descriptor, self.owner.st_uid, self.owner.st_gid)

    def put(self, file: UploadedFile, folder: int, workunit: str) -> None:
        """Puts a file into a new folder."""
        if self.is_linked:
            check_stored(file, workunit)
            try:
                return os.link(file.path, file.name, dst_dir_fd=folder)
            except OSError:
                pass  # it is on another disk, or the system allows no link: a copy will do
        with opened_file(file, workunit) as source:
            target = os.open(file.name, NEW_FILE, 0o600, dir_fd=folder)
            try:
                compare(file, copy_bytes(source, target, file.nbytes), workunit)
                os.fchmod(target, FILE_MODE)
                self.give(target)
                os.fsync(target)
            finally:
                os.close(target)


@contextmanager
def opened_file(file: UploadedFile, workunit: str) -> Iterator[int]:
    """Opens a stored file."""
    try:
        source = os.open(file.path, os.O_RDONLY | os.O_NOFOLLOW)
    except PermissionError as error:
        raise Fault(f"{file.path}: {error.strerror}") from None
    except OSError as error:
        raise Spoiled(spoiled_text(file, workunit, error.strerror or "it can't be opened")) from None
    try:
        yield source
    finally:
        os.close(source)


def check_stored(file: UploadedFile, workunit: str) -> None:
    """Reads a stored file, and compares it with what the host uploaded."""
    with opened_file(file, workunit) as source, open(source, "rb", closefd=False) as opened:
        try:
            digest = hashlib.file_digest(opened, "sha256").hexdigest()
        except OSError as error:
            raise Spoiled(spoiled_text(file, workunit, error.strerror or "it can't be read")) from None
        compare(file, Copied(os.fstat(source).st_size, digest), workunit)


def compare(file: UploadedFile, found: Copied, workunit: str) -> None:
    """Compares what was read with what the host uploaded."""
    if found.fault:
        raise Spoiled(spoiled_text(file, workunit, found.fault))
    if found.nbytes != file.nbytes:
        has = f"more than {file.nbytes}" if found.nbytes > file.nbytes else str(found.nbytes)
        raise Spoiled(spoiled_text(file, workunit, f"it has {has} bytes in place of {file.nbytes}"))
    if found.sha256 != file.sha256:
        raise Spoiled(spoiled_text(file, workunit, "it has other bytes than those that came (SHA-256)"))


def spoiled_text(file: UploadedFile, workunit: str, what: str) -> str:
    """Returns what is wrong with a file, in a line."""
    return f"{workunit}: left out: its file {file.name} is spoiled: {file.path}: {what}"

"""The files that clients upload, in the folder of uploads.

temp/     files that are being received; emptied at the start
pending/  NAME.SHA256: files that were received, whole, and whose results are not reported yet
store/    SHA256: files of reported results, each content once; a file there that an upload would share is
          compared with its name first, and a spoiled one is replaced by the upload
secret    what the tokens are made with (the module `tokens`)
uploads.db  the tables (the module `tables`)

The client deletes a file once it gets a good answer to its upload, and nobody can get the file again. So the
file, its folder and its row are on the disk before that answer. In the same way a file is in store/, on the
disk, before bsched gets the call that reports its result. Strangers send these files: they are never run, and
no address of the web has them.
"""
import errno
import hashlib
import logging
import math
import os
import re
import sqlite3
import time
from collections.abc import Iterable
from dataclasses import dataclass
from pathlib import Path
from typing import cast
from uuid import uuid4

from bsched_files.catalogue import OutputFile
from bsched_files.project_settings import Settings, UploadSettings
from bsched_files.toml_entries import OperatorFault
from bsched_files.uploads import DATABASE, PENDING, STORE, StoredOutput

from ..catalogue.contents import Catalogue
from .owners import Owner
from .room import Coming, NotNow, UploadRoom
from .tables import UploadTables
from .tokens import read_secret, write_secret

FILE_MODE = 0o440  # nobody writes a file any more, and nobody runs it
SHA256 = re.compile("[0-9a-f]{64}")
BLOCK = 256 * 1024  # bytes that are read at once

log = logging.getLogger(__name__)


@dataclass(frozen=True, slots=True)
class AnnouncedFile:
    """What the head of an upload says about its file."""

    name: str
    nbytes: int
    md5: str


@dataclass(frozen=True, slots=True)
class Upload:
    """A file that was received, and whose result is not reported yet."""

    name: str
    nbytes: int
    md5: str
    sha256: str


@dataclass(frozen=True, slots=True)
class StoredFile:
    """What was seen of a file: which one it is, and whether its content is right."""

    mark: tuple[int, ...] | None  # its inode, size and moment of the last change; None if there is none
    is_right: bool = False


def mark_of(path: Path) -> tuple[int, ...] | None:
    """Returns the mark of a file, by which it is known to be the same, unchanged; None if there is none."""
    try:
        status = path.lstat()
    except FileNotFoundError:
        return None
    return status.st_dev, status.st_ino, status.st_size, status.st_mtime_ns


def look_at(path: Path, upload: Upload) -> StoredFile:
    """Reads a file, and compares its length and SHA-256 with those of an upload. One that can't be read is
    not right. It reads no more bytes than the upload has, and one.
    """
    mark = mark_of(path)
    if mark is None:
        return StoredFile(None)
    sha256, left = hashlib.sha256(), upload.nbytes + 1
    try:
        with open(os.open(path, os.O_RDONLY | os.O_NOFOLLOW | os.O_NONBLOCK), "rb") as file:
            while block := file.read(min(left, BLOCK)):
                sha256.update(block)
                left -= len(block)
    except FileNotFoundError:
        return StoredFile(None)
    except OSError as error:
        log.error("%s can't be read: %s", path, error.strerror)
        return StoredFile(mark)
    return StoredFile(mark, left == 1 and sha256.hexdigest() == upload.sha256)


def sync_folder(path: Path) -> None:
    """Syncs a folder: the names in it are then on the disk."""
    descriptor = os.open(path, os.O_RDONLY | os.O_DIRECTORY)
    try:
        os.fsync(descriptor)
    finally:
        os.close(descriptor)


class UploadStore:
    """The folder of uploads."""

    def __init__(self, settings: UploadSettings) -> None:
        """Opens the folder, or makes it. If the secret is gone, the folder is refused: with another secret
        all jobs that are out would be lost.
        """
        self.settings, folder = settings, settings.folder
        self.temp, self.pending, self.store = folder / "temp", folder / PENDING, folder / STORE
        try:
            for path in (folder, self.temp, self.pending, self.store):
                path.mkdir(mode=0o750, exist_ok=True)
            self.secret = secret_in(folder)
            self.tables = UploadTables(folder / DATABASE)
            self.room = UploadRoom(settings, self.tables, self.forget_ended)
            sync_folder(folder)
            sync_folder(folder.parent)
        except OSError as error:
            raise OperatorFault(folder, None, error.strerror or "can't be used") from None

    def delete_left_over(self) -> int:
        """Deletes the files in pending/ that have no row, and returns how many. A stop leaves such a file; no
        client got a good answer to it.
        """
        with self.tables.turn():
            rows = self.tables.rows("SELECT name || '.' || sha256 FROM upload")
            names = {str(row[0]) for row in rows}
            left_over = [path for path in self.pending.iterdir() if path.name not in names]
            for path in left_over:
                path.unlink()
        return len(left_over)

    def empty_temp(self) -> None:
        """Deletes what was being received when the bridge stopped. No other process may receive files."""
        for path in self.temp.iterdir():
            path.unlink()

    def close(self) -> None:
        """Closes the tables."""
        self.tables.close()

    # ---- Receiving

    def receive(self, sent: AnnouncedFile, owner: Owner, blocks: Iterable[bytes]) -> None:
        """Receives a file of an owner. When it returns, the file is on the disk, and a stop does not lose it.
        Raises NotNow if there is no room for it, or if the bytes are not those that the head says.
        """
        with self.room.kept(Coming(sent.name, sent.nbytes, owner)):
            path = self.temp / uuid4().hex
            try:
                sha256 = write_file(path, sent, blocks)
                self._keep(path, Upload(sent.name, sent.nbytes, sent.md5, sha256), owner)
            finally:
                path.unlink(missing_ok=True)

    def _keep(self, path: Path, upload: Upload, owner: Owner) -> None:
        """Gives a received file its name. An older file of that name goes once the new one has its row."""
        with self.tables.turn():
            older, target = self.upload(upload.name), self.path_of(upload)
            is_another = older is None or self.path_of(older) != target
            os.rename(path, target)
            try:
                sync_folder(self.pending)
                self._write_row(upload, owner)
            except BaseException:
                if is_another:
                    target.unlink()
                raise
            if older is not None and is_another:
                self.path_of(older).unlink(missing_ok=True)

    def _write_row(self, upload: Upload, owner: Owner) -> None:
        """Writes the row of a file in pending/."""
        with self.tables.transaction() as connection:
            connection.execute("DELETE FROM upload WHERE name = ?", (upload.name,))
            connection.execute(
                "INSERT INTO upload (name, nbytes, md5, sha256, received_at, result, authenticator, "
                "host_cpid) VALUES (?, ?, ?, ?, ?, ?, ?, ?)",
                (
                    *(upload.name, upload.nbytes, upload.md5, upload.sha256, int(time.time())),
                    *(owner.result, owner.key.authenticator, owner.key.host_cpid),
                ),
            )

    def path_of(self, upload: Upload) -> Path:
        """Returns the path of a file in pending/."""
        return self.pending / f"{upload.name}.{upload.sha256}"

    def upload(self, name: str) -> Upload | None:
        """Returns the received file with a name."""
        row = self.tables.row("SELECT name, nbytes, md5, sha256 FROM upload WHERE name = ?", name)
        return None if row is None else Upload(str(row[0]), int(str(row[1])), str(row[2]), str(row[3]))

    def uploads(self, condition: str, *values: object) -> list[Upload]:
        """Returns the received files whose rows, with those of their jobs, fulfil a condition of SQL."""
        rows = self.tables.rows(
            "SELECT name, nbytes, md5, sha256 FROM upload LEFT JOIN job USING (result) WHERE " + condition,
            *values,
        )
        return [Upload(*cast("tuple[str, int, str, str]", row)) for row in rows]

    def delete_uploads(self, uploads: Iterable[Upload], before: float) -> tuple[int, int]:
        """Deletes received files, unless they came again since a moment. Returns how many, and their
        bytes.
        """
        count = nbytes = 0
        with self.tables.transaction() as connection:
            for upload in uploads:
                gone = connection.execute(
                    "DELETE FROM upload WHERE name = ? AND sha256 = ? AND received_at < ?",
                    (upload.name, upload.sha256, before),
                ).rowcount
                if gone:
                    self.path_of(upload).unlink(missing_ok=True)
                    count, nbytes = count + 1, nbytes + upload.nbytes
        return count, nbytes

    def forget_ended(self, authenticator: str) -> int:
        """Deletes the files of an account's results that were reported and are not stored. Returns how many.
        No upload of such a result comes again.
        """
        condition = "upload.authenticator = ? AND (ended_at IS NOT NULL OR stored_at IS NOT NULL)"
        ended = self.uploads(condition, authenticator)
        return self.delete_uploads(ended, math.inf)[0] if ended else 0

    # ---- Reports

    def store_files(self, result: str, files: list[tuple[OutputFile, Upload]]) -> None:
        """Stores the files of a reported result in the place of those of an earlier report, which no longer
        counts. When it returns, all is on the disk. Raises FileNotFoundError if somebody else removed a file
        or spoiled it.
        """
        uploads = [upload for _, upload in files]
        seen = {one.sha256: look_at(self.store / one.sha256, one) for one in uploads}  # reading takes long
        with self.tables.turn():
            self._link(uploads, seen)
            with self.tables.transaction() as connection:
                former = self.forget_files(connection, result)
                for place, (file, upload) in enumerate(files):
                    connection.execute(
                        "INSERT OR IGNORE INTO content (sha256, nbytes) VALUES (?, ?)",
                        (upload.sha256, upload.nbytes),
                    )
                    connection.execute(
                        "INSERT INTO file (result, place, open_name, nbytes, sha256) VALUES (?, ?, ?, ?, ?)",
                        (result, place, file.open_name, upload.nbytes, upload.sha256),
                    )
                    connection.execute("DELETE FROM upload WHERE name = ?", (upload.name,))
                moment = int(time.time())
                connection.execute("UPDATE job SET stored_at = ? WHERE result = ?", (moment, result))
                self.delete_unused(connection, former)
            for _, upload in files:
                self.path_of(upload).unlink(missing_ok=True)

    def _link(self, uploads: list[Upload], seen: dict[str, StoredFile]) -> None:
        """Gives files their names in store/. What was seen there before counts if the file is still the same.
        If one of the files was removed, the others don't stay there: their bytes would not count.
        """
        linked: list[Path] = []
        try:
            for upload in uploads:
                stored, looked = self.store / upload.sha256, seen[upload.sha256]
                if looked.mark != mark_of(stored):
                    looked = look_at(stored, upload)
                if looked.mark is None:
                    os.link(self.path_of(upload), stored)
                    linked.append(stored)
                elif not looked.is_right:
                    self._replace(stored, upload)
                seen[upload.sha256] = StoredFile(mark_of(stored), True)
        except OSError:
            for stored in linked:
                stored.unlink()
            raise
        sync_folder(self.store)

    def _replace(self, stored: Path, upload: Upload) -> None:
        """Replaces a spoiled file in store/ by the upload with the content that it should have."""
        path, work = self.path_of(upload), self.temp / uuid4().hex
        if not look_at(path, upload).is_right:
            raise FileNotFoundError(errno.ENOENT, "its file and the stored one are spoiled", str(path))
        os.link(path, work)
        try:
            os.rename(work, stored)
        finally:
            work.unlink(missing_ok=True)
        log.error("%s was spoiled, and is made good by the upload of %s", stored, upload.name)

    def forget_files(self, connection: sqlite3.Connection, result: str) -> dict[str, int]:
        """Deletes the rows of a result's files, within a transaction. Returns the size of each content that
        they name.
        """
        query = "DELETE FROM file WHERE result = ? RETURNING sha256, nbytes"
        return dict(connection.execute(query, (result,)).fetchall())

    def delete_unused(self, connection: sqlite3.Connection, contents: Iterable[str]) -> list[str]:
        """Deletes those of some contents that no result has any more, within a transaction, and returns them.
        The files go first: a stop leaves rows of files that nobody needs.
        """
        query = "SELECT 1 FROM file WHERE sha256 = ? LIMIT 1"
        unused = [one for one in contents if connection.execute(query, (one,)).fetchone() is None]
        for sha256 in unused:
            (self.store / sha256).unlink(missing_ok=True)
            connection.execute("DELETE FROM content WHERE sha256 = ?", (sha256,))
        return unused

    def delete_unknown(self, before: float) -> tuple[int, int]:
        """Deletes files in store/ that no row names, and that have been there since before a moment. A stop,
        or a full disk, leaves one between its link and its row. Returns how many, and their bytes.
        """
        query, count, nbytes = "SELECT 1 FROM content WHERE sha256 = ?", 0, 0
        with os.scandir(self.store) as entries:
            names = (entry.name for entry in entries if SHA256.fullmatch(entry.name))
            unknown = [name for name in names if self.tables.row(query, name) is None]
        for name in unknown:
            with self.tables.turn():
                path, is_named = self.store / name, self.tables.row(query, name) is not None
                status = path.lstat() if not is_named and mark_of(path) is not None else None
                if status is not None and status.st_ctime < before:
                    path.unlink()
                    count, nbytes = count + 1, nbytes + status.st_size
        return count, nbytes

    def stored_files(self, result: str) -> dict[str, StoredOutput]:
        """Returns the stored files of a result, by their open_names."""
        query = "SELECT open_name, nbytes, sha256 FROM file WHERE result = ? ORDER BY place"
        rows = self.tables.rows(query, result)
        return {str(row[0]): StoredOutput(int(str(row[1])), str(row[2])) for row in rows}

    def stored_paths(self, result: str) -> dict[str, Path]:
        """Returns the path of each stored file of a result, by its open_name."""
        return {name: self.store / one.sha256 for name, one in self.stored_files(result).items()}


def check_uploads(settings: Settings, catalogue: Catalogue) -> None:
    """Checks that the settings of uploads fit the output files in the catalogue, and that the secret of an
    existing folder is there. It makes nothing.
    """
    if settings.uploads is not None and (settings.uploads.folder / DATABASE).exists():
        secret_in(settings.uploads.folder)
    for app in catalogue.apps.values():
        nbytes = sum(file.max_nbytes for file in app.output_files)
        if app.output_files and settings.uploads is None:
            raise OperatorFault(
                settings.catalogue, None, f"{app.name} has output files, and the settings have no [uploads]"
            )
        if settings.uploads is not None and nbytes > settings.uploads.most_result_bytes:
            raise OperatorFault(
                settings.catalogue,
                None,
                f"the output files of {app.name} have up to {nbytes} bytes, and "
                f"most_result_bytes in [uploads] is {settings.uploads.most_result_bytes}",
            )


def open_store(settings: Settings, catalogue: Catalogue) -> UploadStore | None:
    """Returns the folder of uploads, or None if there is none. What a stopped bridge was receiving is
    deleted.
    """
    check_uploads(settings, catalogue)
    if settings.uploads is None:
        return None
    store = UploadStore(settings.uploads)
    store.empty_temp()
    store.delete_left_over()
    return store


def secret_in(folder: Path) -> bytes:
    """Returns the secret in a folder of uploads. A new folder gets one."""
    path = folder / "secret"
    if not path.exists():
        if (folder / DATABASE).exists():
            raise OperatorFault(
                path,
                None,
                "is missing: restore it, or the jobs that are out are lost. To give them up, "
                f"make a new one: head -c 32 /dev/urandom > {path}",
            )
        write_secret(path)
    return read_secret(path)


def write_file(path: Path, sent: AnnouncedFile, blocks: Iterable[bytes]) -> str:
    """Writes a file and syncs it. Returns its SHA-256. Raises NotNow if it is not the file of the head."""
    md5, sha256, nbytes = hashlib.md5(usedforsecurity=False), hashlib.sha256(), 0
    with open(os.open(path, os.O_WRONLY | os.O_CREAT | os.O_EXCL, FILE_MODE), "wb") as file:
        for block in blocks:
            nbytes += len(block)
            if nbytes > sent.nbytes:
                break
            md5.update(block)
            sha256.update(block)
            file.write(block)
        if nbytes != sent.nbytes:
            raise NotNow("the file is not complete")
        if md5.hexdigest() != sent.md5:
            raise NotNow("the file has another MD5 than the client says")
        file.flush()
        os.fsync(file.fileno())
    return sha256.hexdigest()

"""The room for uploads: on the disk, in the folder, and that of each account and host.

Nobody may fill the folder for others. The files of an account whose results are not reported have at most
`most_account_bytes`, and one result of it always has room. Those of a host have at most what the jobs may
have that it has not reported. If that is too little, the files of results that ended as errors go first.
"""
import logging
import os
import threading
import time
from collections.abc import Callable, Iterator
from contextlib import contextmanager
from dataclasses import dataclass

from bsched_files.project_settings import UploadSettings

from ..common.words import shown_key
from .handed_out import HandedOut
from .owners import Owner
from .tables import UploadTables

LOG_SECONDS = 60  # between two log lines that say that there is no room

log = logging.getLogger(__name__)


class NotNow(Exception):
    """Raised if a file can't be taken now, for a reason that can pass. The text says why."""


@dataclass(frozen=True, slots=True)
class Coming:
    """A file that is being received."""

    name: str
    nbytes: int
    owner: Owner


class UploadRoom:
    """Keeps room for the files that are being received."""

    def __init__(
        self, settings: UploadSettings, tables: UploadTables, forget_ended: Callable[[str], int]
    ) -> None:
        self.settings, self.tables, self.forget_ended = settings, tables, forget_ended
        self.jobs = HandedOut(tables)
        self._lock, self._logged_at = threading.Lock(), 0.0
        self._coming: list[Coming] = []

    @contextmanager
    def kept(self, one: Coming) -> Iterator[None]:
        """Keeps room for a file for the block. Raises NotNow if there is none."""
        with self._lock:
            coming = one.nbytes + sum(other.nbytes for other in self._coming)
            disk = os.statvfs(self.settings.folder)
            if disk.f_bavail * disk.f_frsize < self.settings.free_bytes + coming:
                self._refuse("the disk has too little room for uploads")
            if self.tables.used() + coming > self.settings.most_bytes:
                self._refuse("the folder of uploads has as much as it may have")
            self._check_owner(one)
            self._coming.append(one)
        try:
            yield
        finally:
            with self._lock:
                self._coming.remove(one)

    def _check_owner(self, one: Coming) -> None:
        """Raises NotNow if the account or the host of a file has as much as it may have."""
        owner = one.owner
        who = f"account {shown_key(owner.key.authenticator)}" if owner.is_known else "jobs that nobody knows"
        most = max(self.settings.most_account_bytes, owner.most_nbytes)
        if not self._has_room(one, None, most):
            self._refuse(f"{who}: the files that are not reported have most_account_bytes")
        if owner.is_known and not self._has_room(one, owner.key.host_cpid, self.jobs.most_nbytes(owner.key)):
            self._refuse(f"{who}: the files of a host have as much as its jobs may have")

    def _has_room(self, one: Coming, host_cpid: str | None, most: int) -> bool:
        """Returns whether an account, or one host of it, has room for a file, maybe once the files of errors
        are gone.
        """
        if self._with(one, host_cpid) <= most:
            return True
        return self.forget_ended(one.owner.key.authenticator) > 0 and self._with(one, host_cpid) <= most

    def _with(self, one: Coming, host_cpid: str | None) -> int:
        """Returns how many bytes an account, or one host of it, has with a file that is coming."""
        row = self.tables.row(
            "SELECT coalesce(sum(nbytes), 0) FROM upload WHERE authenticator = ? AND name != ? "
            "AND coalesce(host_cpid = ?, 1)",
            one.owner.key.authenticator,
            one.name,
            host_cpid,
        )
        nbytes = one.nbytes + (int(str(row[0])) if row else 0)
        for other in self._coming:
            is_of_host = host_cpid is None or (
                other.owner.key.host_cpid == host_cpid and other.name != one.name
            )
            if other.owner.key.authenticator == one.owner.key.authenticator and is_of_host:
                nbytes += other.nbytes
        return nbytes

    def _refuse(self, why: str) -> None:
        """Raises NotNow for lack of room, and logs it now and then."""
        now = time.monotonic()
        if not self._logged_at or now > self._logged_at + LOG_SECONDS:
            self._logged_at = now
            log.error("%s: clients are asked to try again later", why)
        raise NotNow(why)

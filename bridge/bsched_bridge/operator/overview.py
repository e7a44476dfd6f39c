"""All that the operator's board and the metrics show of one moment, read from where it is."""
import shutil
import time
from dataclasses import dataclass
from pathlib import Path
from typing import cast

from bsched_files.counts import Limit, counts_in
from bsched_files.findings import Findings, read_findings
from bsched_files.json_files import WatchedFile
from bsched_files.moments import DAY
from bsched_files.project_settings import Settings
from bsched_files.timers import Timer, timers_of

from ..common.state_file import StateFile
from ..people.measurements import Measurements
from ..people.members import MADE_BETWEEN
from ..scheduler.probe import Probe, SchedulerProbe
from ..uploads.current_catalogue import CatalogueFaults
from ..uploads.digest_queue import DigestQueue
from ..uploads.store import UploadStore

OPEN_CALLS = "SELECT count(*) FROM host_file WHERE open_call IS NOT NULL"
OPEN_IMPORTS = "SELECT count(*) FROM member WHERE is_imported = 0"
PENDING = "SELECT count(*) FROM upload"
LARGEST = (
    "SELECT coalesce(max(nbytes), 0) FROM (SELECT sum(nbytes) AS nbytes FROM upload GROUP BY authenticator)"
)


@dataclass(frozen=True, slots=True)
class Disk:
    """The room of the disk of a folder, in bytes."""

    folder: Path
    free: int
    total: int


@dataclass(frozen=True, slots=True)
class UploadFigures:
    """What the folder of uploads has."""

    pending: int  # files whose results are not reported yet
    room: Limit  # bytes of all files
    largest: Limit  # bytes of the account that has most in files whose results are not reported yet


@dataclass(frozen=True, slots=True)
class Overview:
    """What is known at one moment."""

    moment: float
    scheduler: Probe
    silent_since: float | None  # since when bsched gives no answer
    open_calls: int  # that have no answer yet
    open_imports: int  # of accounts, likewise
    disks: dict[str, Disk]  # by what the bridge has there
    uploads: UploadFigures | None  # None without [uploads]
    new_accounts: Limit | None  # in 24 hours; None without [accounts]
    limits: dict[str, Limit]  # of the tables
    findings: Findings | None  # of bsched-tools health
    timers: list[Timer]
    faults: CatalogueFaults
    held_back: int  # computers that get fewer jobs
    digests_waiting: int | None  # results that wait for their digest program; None without [uploads]


def disk_of(folder: Path) -> Disk:
    """Returns the room of a folder's disk."""
    usage = shutil.disk_usage(folder)
    return Disk(folder, usage.free, usage.total)


class Overviews:
    """Reads overviews. Calls don't wait for it: it reads the state file as pages do."""

    def __init__(
        self,
        settings: Settings,
        file: StateFile,
        store: UploadStore | None,
        measurements: Measurements,
        probe: SchedulerProbe,
        faults: CatalogueFaults | None = None,
        digests: DigestQueue | None = None,
    ) -> None:
        self.faults, self.digests = faults or CatalogueFaults(), digests
        self.settings, self.file, self.store = settings, file, store
        self.measurements, self.probe = measurements, probe
        self._counts = counts_in(settings.counts)
        self._findings = WatchedFile(settings.health, read_findings, None, "the board shows no findings")

    def _count(self, query: str, *values: object) -> int:
        """Returns a number of rows."""
        return cast(int, self.file.looked(query, *values)[0][0])

    def read(self) -> Overview:
        """Returns what is known now."""
        settings, now = self.settings, time.time()
        probe = self.probe.latest()
        return Overview(
            now,
            probe,
            self.probe.scheduler.silent_since,
            self._count(OPEN_CALLS),
            self._count(OPEN_IMPORTS),
            self._disks(),
            None if self.store is None else uploads_of(self.store),
            self._new_accounts(int(now)),
            self._counts.value().limits,
            self._findings.value(),
            timers_of(settings.project, now),
            CatalogueFaults(self.faults.edit, dict(self.faults.digests)),
            self.measurements.held_back.count(),
            None if self.digests is None else self.digests.waiting(),
        )

    def _disks(self) -> dict[str, Disk]:
        """Returns the disks that the bridge writes to."""
        disks = {"state": disk_of(self.settings.state.parent)}
        if self.store is not None:
            disks["uploads"] = disk_of(self.store.settings.folder)
        return disks

    def _new_accounts(self, now: int) -> Limit | None:
        """Returns how many accounts volunteers made in 24 hours, and how many they may make."""
        accounts = self.settings.accounts
        if accounts is None:
            return None
        return Limit(self._count(MADE_BETWEEN, now - DAY, now), accounts.most_a_day)


def uploads_of(store: UploadStore) -> UploadFigures:
    """Returns what the folder of uploads has."""
    pending, largest = store.tables.row(PENDING), store.tables.row(LARGEST)
    return UploadFigures(
        cast(int, pending[0]) if pending else 0,
        Limit(store.tables.used(), store.settings.most_bytes),
        Limit(cast(int, largest[0]) if largest else 0, store.settings.most_account_bytes),
    )

"""What the project acknowledged, noted outside of its machines, and what of it is missing later."""
import json
import threading
import time
from collections.abc import Iterable, Iterator
from dataclasses import asdict, dataclass, field
from pathlib import Path
from typing import TextIO


@dataclass(frozen=True, slots=True)
class Account:
    """An account whose key a client got."""

    email: str
    password_hash: str
    key: str


@dataclass(frozen=True, slots=True)
class Upload:
    """A file whose upload had a good answer."""

    name: str
    sha256: str


@dataclass(frozen=True, slots=True)
class Report:
    """A result whose report was acknowledged, with the sum of the output file that is compared."""

    result: str
    sha256: str


@dataclass(slots=True)
class Kept:
    """What the project has: the keys of accounts, the sums of stored files by name, and results with what is
    kept of their output. A file of a reported result has no name any more.
    """

    keys: set[str] = field(default_factory=set)
    named_sums: dict[str, str] = field(default_factory=dict)
    sums: set[str] = field(default_factory=set)
    outputs: dict[str, str] = field(default_factory=dict)


class Notes:
    """The notes of all clients. Each line is in a file before its client continues."""

    def __init__(self, path: Path):
        self._lock = threading.Lock()
        self._file: TextIO = path.open("a", encoding="utf-8")
        self.accounts: list[Account] = []
        self.uploads: list[Upload] = []
        self.reports: list[Report] = []
        self.answers: list[float] = []  # when a client got an answer, by the clock of this process

    def _write(self, note: Account | Upload | Report) -> None:
        line = json.dumps({"at": round(time.time(), 3), type(note).__name__.lower(): asdict(note)})
        self._file.write(f"{line}\n")
        self._file.flush()

    def account(self, note: Account) -> None:
        """Notes an account."""
        with self._lock:
            self.accounts.append(note)
            self._write(note)

    def upload(self, note: Upload) -> None:
        """Notes an upload."""
        with self._lock:
            self.uploads.append(note)
            self._write(note)

    def report(self, note: Report) -> None:
        """Notes a report."""
        with self._lock:
            self.reports.append(note)
            self._write(note)

    def answered(self) -> None:
        """Notes that a client got an answer now."""
        with self._lock:
            self.answers.append(time.monotonic())

    def counts(self) -> str:
        """Returns how much was acknowledged so far."""
        return f"{len(self.accounts)} accounts, {len(self.uploads)} uploads, {len(self.reports)} reports"

    def close(self) -> None:
        """Closes the file."""
        self._file.close()


def missing(notes: Notes, kept: Kept) -> Iterator[str]:
    """Yields what was acknowledged and is not there, or is another one."""
    for account in notes.accounts:
        if account.key not in kept.keys:
            yield f"the account {account.email} is missing"
    for upload in notes.uploads:
        if kept.named_sums.get(upload.name) != upload.sha256 and upload.sha256 not in kept.sums:
            yield f"the file {upload.name} is missing"
    for report in notes.reports:
        if report.result not in kept.outputs:
            yield f"the report of {report.result} is missing"
        elif report.sha256 not in kept.outputs[report.result]:
            yield f"the report of {report.result} has another output"


def longest_pause(answers: Iterable[float], began: float, ended: float) -> float:
    """Returns the longest time without an answer between two moments, in seconds."""
    moments = [began, *sorted(moment for moment in answers if began <= moment <= ended), ended]
    return max(later - earlier for earlier, later in zip(moments, moments[1:]))


def first_after(answers: Iterable[float], moment: float) -> float | None:
    """Returns after how many seconds the first answer came after a moment, or None if there is none."""
    later = [answer for answer in answers if answer > moment]
    return min(later) - moment if later else None

"""Compares what the bridge keeps with what it should be, a part in each run of `health`.

The outputs in the store are compared with their lengths and SHA-256, and the inputs of open workunits with
what `submit` recorded. *units/compared.json* keeps how far a round has come, and what was spoiled. Each run
takes a bounded time, and all files are read in turn. A round begins a day after the former one began.
"""
import fcntl
import hashlib
import json
import sqlite3
import time
from collections.abc import Iterable, Iterator
from contextlib import suppress
from dataclasses import asdict, dataclass, field
from pathlib import Path
from typing import Any

from bsched_files.atomic import keep_file
from bsched_files.catalogue import WORKUNIT, App
from bsched_files.faults import Fault
from bsched_files.moments import DAY
from bsched_files.tables import opened
from bsched_files.uploads import CONTENTS_AFTER, RESULT_WITH, stored_path

from .catalogue_file import ProjectCatalogue
from .projects import Project
from .submitting import read_record
from .uploaded import uploads_in

FORMAT = 1
MOST_BYTES = 200_000_000  # that a run reads of each kind, apart from the last file
MOST_SECONDS = 10.0  # that a run takes for each kind
MOST_SPOILED = 50  # that are kept
TURN_SECONDS = 5.0
PART = 1 << 20


@dataclass(frozen=True, slots=True)
class Stored:
    """A file as it should be."""

    key: str  # files of a kind are read in the order of their keys
    path: Path
    nbytes: int
    sha256: str
    what: str  # what it is, for a person

    def fault(self) -> str | None:
        """Returns what is wrong with the file, or None."""
        try:
            with self.path.open("rb") as file:
                sha256, nbytes = hashlib.sha256(), 0
                while part := file.read(PART):
                    sha256.update(part)
                    nbytes += len(part)
                    if nbytes > self.nbytes:
                        return f"it has more than {self.nbytes} bytes"
        except OSError as error:
            return error.strerror or "it can't be read"
        if nbytes != self.nbytes:
            return f"it has {nbytes} bytes in place of {self.nbytes}"
        return None if sha256.hexdigest() == self.sha256 else "it has other bytes (SHA-256)"


@dataclass(slots=True)
class Round:
    """How far the comparison of one kind of files has come."""

    began: int = 0
    after: str = ""  # the key of the file that was read last
    is_ended: bool = True
    spoiled: dict[str, str] = field(default_factory=dict)  # by key what is wrong


def read_rounds(path: Path) -> dict[str, Round]:
    """Reads the rounds. Without a file, or with one that can't be read, none began."""
    rounds: dict[str, Round] = {}
    with suppress(OSError, ValueError, KeyError, TypeError, AttributeError):
        fields: dict[str, Any] = json.loads(path.read_text())
        if fields["format"] == FORMAT:
            for kind, one in fields["rounds"].items():
                spoiled = {str(key): str(text) for key, text in one["spoiled"].items()}
                rounds[str(kind)] = Round(
                    int(one["began"]), str(one["after"]), bool(one["is_ended"]), spoiled
                )
    return rounds


def keep_rounds(path: Path, rounds: dict[str, Round]) -> None:
    """Writes the rounds."""
    fields = {"format": FORMAT, "rounds": {kind: asdict(one) for kind, one in rounds.items()}}
    with suppress(Fault, OSError):  # the next run then reads the same files again
        keep_file(path, json.dumps(fields).encode(), 0o600)


class Kind:
    """A kind of files."""

    advice = ""

    def after(self, key: str) -> Iterator[Stored]:
        """Yields the files after a key, in the order of their keys."""
        raise NotImplementedError

    def known(self, key: str) -> Stored | None:
        """Returns the file with a key, or None if it is needed no more."""
        return next((one for one in self.after(key[:-1]) if one.key == key), None)

    def is_needed(self, _one: Stored) -> bool:
        """Returns whether a file that is wrong is needed still."""
        return True


class Outputs(Kind):
    """The output files of reported results."""

    advice = 'see "A spoiled file" in docs/WHEN_WRONG.md: restore it, or it is lost'

    def __init__(self, folder: Path, connection: sqlite3.Connection) -> None:
        self.folder, self.connection = folder, connection

    def stored(self, sha256: str, nbytes: int) -> Stored:
        """Returns a file of the store."""
        row = self.connection.execute(RESULT_WITH, (sha256,)).fetchone()
        what = "" if row is None else f"{row[1]} of {row[0]}"
        return Stored(sha256, stored_path(self.folder, sha256), nbytes, sha256, what)

    def after(self, key: str) -> Iterator[Stored]:
        while rows := self.connection.execute(CONTENTS_AFTER, (key,)).fetchall():
            for sha256, nbytes in rows:
                yield self.stored(sha256, nbytes)
            key = rows[-1][0]

    def known(self, key: str) -> Stored | None:
        query = "SELECT sha256, nbytes FROM content WHERE sha256 = ?1"
        row = self.connection.execute(query, (key,)).fetchone()
        return None if row is None else self.stored(*row)

    def is_needed(self, one: Stored) -> bool:
        """A sweep deletes a file before its row, and both in its turn. So this waits for the turn."""
        ends = time.monotonic() + TURN_SECONDS
        with suppress(OSError), (self.folder / "uploads.db.lock").open() as lock:
            while time.monotonic() < ends:
                with suppress(BlockingIOError):
                    fcntl.flock(lock, fcntl.LOCK_SH | fcntl.LOCK_NB)
                    break
                time.sleep(0.05)
        return self.known(one.key) is not None


class Inputs(Kind):
    """The staged inputs of open workunits."""

    advice = "remove it, and run the same `bsched-tools submit` again"

    def __init__(self, project: Project, open_units: frozenset[str] | None) -> None:
        self.project, self.open_units = project, open_units
        self.catalogue = ProjectCatalogue(project)

    def after(self, key: str) -> Iterator[Stored]:
        batch = key.partition("/")[0]
        for path in sorted((self.project.folder / "submitted").glob("*.json"), key=lambda path: path.stem):
            if path.stem >= batch:
                yield from (one for one in self.of_batch(path) if one.key > key)

    def of_batch(self, path: Path) -> list[Stored]:
        """Returns the inputs of a batch that are needed."""
        record = read_record(path)
        app = self.catalogue.app(str(record.get("app")))
        if app is None:
            return []
        found = []
        for workunit, shown, nbytes, sha256 in record["inputs"]:
            if self.open_units is None or workunit in self.open_units:
                found.append(self.stored(path.stem, app, str(workunit), str(shown), nbytes, sha256))
        return sorted(found, key=lambda one: one.key)

    def stored(self, batch: str, app: App, workunit: str, shown: str, nbytes: int, sha256: str) -> Stored:
        """Returns an input in its place. The file of a command line has a line end after it."""
        key, what = f"{batch}/{workunit}", f"the input of {workunit}"
        if app.inputs:
            place = self.catalogue.files / app.inputs[0].replace(WORKUNIT, workunit)
            return Stored(key, place, nbytes, sha256, what)
        line = f"{shown}\n".encode(errors="surrogatepass")
        folder = app.line_folder or self.catalogue.files
        return Stored(key, folder / workunit, len(line), hashlib.sha256(line).hexdigest(), what)


def compare_part(kind: Kind, one: Round, now: int) -> None:
    """Compares a part of the files of a kind, and what was spoiled before."""
    ends, left = time.monotonic() + MOST_SECONDS, MOST_BYTES
    for key in list(one.spoiled):
        stored = kind.known(key)
        fault = None if stored is None else stored.fault()
        if stored is None or fault is None:
            del one.spoiled[key]
        else:
            one.spoiled[key] = spoiled_text(kind, stored, fault)
    if one.is_ended:
        if one.began <= now < one.began + DAY:
            return
        one.began, one.after, one.is_ended = now, "", False
    for stored in kind.after(one.after):
        if left <= 0 or time.monotonic() > ends:
            return
        if (fault := stored.fault()) is not None and kind.is_needed(stored):
            if len(one.spoiled) < MOST_SPOILED:
                one.spoiled[stored.key] = spoiled_text(kind, stored, fault)
        one.after = stored.key
        left -= max(stored.nbytes, 1)
    one.is_ended = True


def spoiled_text(kind: Kind, stored: Stored, fault: str) -> str:
    """Returns what is wrong with a file, and what to do."""
    return f"{stored.path} ({stored.what}): {fault}: {kind.advice}"


def open_in(copy: Path | None) -> frozenset[str] | None:
    """Returns the names of the open workunits in a copy, or None without one."""
    if copy is None:
        return None
    with opened(copy) as tables:
        return frozenset(name for name, in tables.rows("SELECT name FROM unit WHERE status = 0"))


def compared(project: Project, copy: Path | None, now: int) -> Iterable[str]:
    """Compares a part of the project's files. Returns what is known to be spoiled, a line for each file."""
    path = project.work / "compared.json"
    rounds = read_rounds(path)
    if (folder := project.uploads) is not None:
        with uploads_in(folder) as uploads:
            try:
                compare_part(Outputs(folder, uploads.connection), rounds.setdefault("outputs", Round()), now)
            except sqlite3.Error as error:
                raise Fault(f"{folder / 'uploads.db'}: {error}") from None
    if project.bridge_file.exists() and (project.folder / "submitted").is_dir():
        compare_part(Inputs(project, open_in(copy)), rounds.setdefault("inputs", Round()), now)
    if project.work.is_dir() or rounds:
        with suppress(Fault):
            project.made(project.work, 0o700)
        keep_rounds(path, rounds)
    return [text for one in rounds.values() for text in one.spoiled.values()]

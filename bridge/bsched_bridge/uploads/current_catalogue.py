"""The catalogue as it is now: it is read again after each edit of it or of a file that it names, without a
restart.

A digest program that is new or was changed is checked first, in a thread of its own and in the confinement in
which it will run. So no call waits for it, and the former catalogue stays until the check is good. At a start
there is no former one: then a program that fails is a fault of its application alone.
"""
import logging
import threading
import time
from dataclasses import dataclass, field
from pathlib import Path

from bsched_files.catalogue import OutputFile
from bsched_files.project_settings import Settings
from bsched_files.toml_entries import Marks, OperatorFault, mark_of

from ..catalogue.contents import App, Catalogue, read_catalogue
from ..catalogue.digest_programs import DigestFault, DigestProgram, check_digest
from .store import check_uploads

LOOK_SECONDS = 5.0  # between two looks at the files that the catalogue names
WAIT_SECONDS = 2.0  # how long a request waits for a new catalogue before it takes the former one

log = logging.getLogger(__name__)


@dataclass(slots=True)
class CatalogueFaults:
    """What is wrong with the catalogue, for the operator."""

    edit: str | None = None  # why the catalogue stays as it was before the last edit
    digests: dict[str, str] = field(default_factory=dict)  # of digest programs, by their applications


@dataclass(frozen=True, slots=True)
class Digested:
    """A digest program as it is at a moment, with the files that it gets and its example."""

    program: DigestProgram
    files: tuple[OutputFile, ...]
    marks: tuple[object, ...]


def digested(app: App) -> Digested | None:
    """Returns the digest program of an application as it is now, or None if it has none."""
    program = app.digest
    if program is None:
        return None
    paths: list[Path] = [program.path]
    if program.example is not None:
        paths += [program.example / file.open_name for file in app.output_files]
    return Digested(program, app.output_files, tuple(mark_of(path) for path in paths))


def all_digested(catalogue: Catalogue) -> dict[str, Digested]:
    """Returns the digest programs of a catalogue as they are now, by their applications."""
    found = {name: digested(app) for name, app in catalogue.apps.items()}
    return {name: one for name, one in found.items() if one is not None}


class CatalogueReader:
    """Keeps the current catalogue. A faulty one changes nothing, and gets one line in the log."""

    def __init__(self, settings: Settings) -> None:
        self.settings = settings
        self.faults = CatalogueFaults()
        self._lock, self._next_look = threading.Lock(), 0.0
        self._marks: Marks = {}
        self._catalogue = self._newest = self._new(self._marks, None)
        self._guard = threading.Lock()  # for what the thread of checks has, too
        self._used = all_digested(self._catalogue)
        self._is_checking = False
        self._waiting: Catalogue | None = None  # for its check

    def _new(self, marks: Marks, former: Catalogue | None) -> Catalogue:
        """Reads and checks the catalogue."""
        folder = None if former is None else former.folder
        catalogue = read_catalogue(self.settings.catalogue, marks, folder)
        check_uploads(self.settings, catalogue)
        return catalogue

    def current(self) -> Catalogue:
        """Returns the current catalogue. A request that finds it changed reads it. Others wait for that, but
        not long: a large one takes seconds.
        """
        marks = self._marks
        if self._is_changed(marks) and self._lock.acquire(timeout=WAIT_SECONDS):
            try:
                if self._marks is marks:
                    self._read()
            finally:
                self._lock.release()
        return self._catalogue

    def check_digests(self) -> None:
        """Checks the digest programs of the current catalogue. A fault is logged, and changes nothing."""
        for name, app in self._catalogue.apps.items():
            if app.digest is None:
                continue
            try:
                check_digest(app.digest, app.output_files)
            except DigestFault as fault:
                text = f"{app.digest.path}: {fault}"
                log.error("reports of %s wait for its digest program: %s", name, text)
                self.faults.digests[name] = text

    def _is_changed(self, marks: Marks) -> bool:
        """Returns whether the catalogue was edited or, if nobody looked for some seconds, a file that it
        names.
        """
        path, now = self.settings.catalogue, time.monotonic()
        if mark_of(path) != marks.get(path):
            return True
        if now < self._next_look:
            return False
        self._next_look = now + LOOK_SECONDS
        return any(mark_of(path) != mark for path, mark in marks.items())

    def _read(self) -> None:
        """Reads the catalogue. If it is faulty, it stays as it was. If it has other digest programs than the
        current one, they are checked before it counts.
        """
        marks: Marks = {}
        try:
            catalogue = self._new(marks, self._catalogue)
        except (OperatorFault, OSError) as fault:
            self._refuse(str(fault))
        else:
            with self._guard:
                self._newest = catalogue
                if self._unchecked(catalogue):
                    self._wait_for_check(catalogue)
                else:
                    self._take(catalogue)
        self._marks = marks

    def _refuse(self, fault: str) -> None:
        """Keeps the former catalogue."""
        log.error("the catalogue stays as it was: %s", fault)
        self.faults.edit = fault

    def _take(self, catalogue: Catalogue) -> None:
        """Makes a catalogue the current one."""
        self._catalogue, self._used, self.faults.edit = catalogue, all_digested(catalogue), None
        for name in [name for name in self.faults.digests if name not in self._used]:
            del self.faults.digests[name]
        counts = len(catalogue.apps), len(catalogue.versions), len(catalogue.works)
        log.info("the catalogue was read again: %d applications, %d versions, %d workunits", *counts)

    # ---- Checks of digest programs

    def _unchecked(self, catalogue: Catalogue) -> list[str]:
        """Returns the applications whose digest programs are not those of the current catalogue."""
        return [name for name, one in all_digested(catalogue).items() if self._used.get(name) != one]

    def _wait_for_check(self, catalogue: Catalogue) -> None:
        """Has the digest programs of a catalogue checked. One thread checks one catalogue at a time."""
        self._waiting = catalogue
        if not self._is_checking:
            self._is_checking = True
            threading.Thread(target=self._check_waiting, name="catalogue check", daemon=True).start()

    def _check_waiting(self) -> None:
        """Checks the catalogue that waits, and then the one that came meanwhile."""
        while True:
            with self._guard:
                catalogue, self._waiting = self._waiting, None
                if catalogue is None:
                    self._is_checking = False
                    return
                names = self._unchecked(catalogue)
            fault = fault_of_digests(catalogue, names)
            with self._guard:
                if self._newest is not catalogue:
                    continue
                if fault is not None:
                    self._refuse(fault)
                    continue
                for name in names:
                    self.faults.digests.pop(name, None)
                self._take(catalogue)


def fault_of_digests(catalogue: Catalogue, names: list[str]) -> str | None:
    """Returns what is wrong with the digest programs of some applications, or None."""
    for name in names:
        app = catalogue.apps[name]
        if app.digest is None:
            continue
        try:
            check_digest(app.digest, app.output_files)
        except DigestFault as fault:
            return f"{app.digest.path}: {fault}"
        except Exception as fault:
            log.exception("the digest program of %s could not be checked", name)
            return f"{app.digest.path}: {type(fault).__name__}"
    return None

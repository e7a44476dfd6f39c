"""The digest programs of reported results run in threads of their own, and no call waits for one.

The report of a result whose digest is not known is put off. Its program runs when its turn comes, and what it
said is stored with the job, for the next call of the host. Accounts take turns, and the programs of each may
take only so many seconds in an hour.

A program that fails for some files is tried again after a pause, since the machine may have been at fault.
After three failures the result is an error.
"""
import logging
import sqlite3
import threading
import time
from collections import Counter, OrderedDict, deque
from collections.abc import Callable
from dataclasses import dataclass
from pathlib import Path

from bsched_files.moments import MINUTE
from bsched_files.texts import MOST_OUTPUT, cut_to_bytes

from ..catalogue.digest_programs import (
    BadFiles,
    CannotRun,
    DigestFault,
    DigestProgram,
    compared_files,
    digest_of,
)
from ..common.limits import UsedSeconds
from ..people.measurements import WhyPutOff
from .handed_out import HandedJob, HandedOut, Outcome
from .store import UploadStore

MOST_AT_ONCE = 2  # programs
MOST_WAITING, MOST_OF_ACCOUNT = 10_000, 200  # results that wait for their program
# after the first failure for the same files, and after the second; the next one is the last
FAILURE_PAUSES = (600.0, 3600.0)
MOST_FAILED = 10_000  # results whose failures are counted
REST_SECONDS = 60.0  # in which no program is tried if none can run here
MINUTES = 60  # for which the seconds of programs are counted
BAD_FILES_STATUS = 1  # the exit status of a result whose files a digest program refuses

log = logging.getLogger(__name__)

Mark = tuple[Path, int, int]  # of a program; it changes with an edit


class DigestWaits(Exception):
    """Raised if the digest of a result is not known yet. The text says why, and `why` how it is counted."""

    def __init__(self, why: WhyPutOff, text: str) -> None:
        super().__init__(text)
        self.why = why


@dataclass(frozen=True, slots=True)
class Task:
    """A result whose files are stored and whose digest is not known."""

    job: HandedJob
    program: DigestProgram

    @property
    def account(self) -> str:
        """The key of the account that reported it."""
        return self.job.key.authenticator


@dataclass(frozen=True, slots=True)
class Failures:
    """How often a program failed for the files of a result."""

    program: Mark
    count: int
    again_at: float  # when it is tried again
    text: str  # of the last one


def mark_of(program: DigestProgram) -> Mark:
    """Returns the mark of a program."""
    try:
        status = program.path.stat()
    except OSError:
        return program.path, 0, 0
    return program.path, status.st_mtime_ns, status.st_size


class DigestQueue:
    """Runs the digest programs of results whose files are stored. Its threads end if nothing waits."""

    def __init__(
        self,
        store: UploadStore,
        jobs: HandedOut,
        most_seconds: int,
        clock: Callable[[], float] = time.monotonic,
    ) -> None:
        self.store, self.jobs, self.most_seconds, self._clock = store, jobs, most_seconds, clock
        self._lock = threading.Lock()
        self._used = UsedSeconds(clock, MINUTE, MINUTES)
        self._waiting: OrderedDict[str, deque[Task]] = OrderedDict()  # by accounts, whose turn is next first
        self._running: Counter[str] = Counter()  # programs of each account
        self._asked: set[str] = set()  # results that wait or whose program runs
        self._failures: OrderedDict[str, Failures] = OrderedDict()  # by results
        self._rest_until, self._rest_text = 0.0, ""
        self._threads = 0

    def waiting(self) -> int:
        """Returns how many results wait for their program, or have it running."""
        with self._lock:
            return len(self._asked)

    def ask(self, job: HandedJob, program: DigestProgram) -> DigestWaits:
        """Has a program run for a result whose files are stored, unless it is under way or may not run now.
        Returns why its report is put off.
        """
        task, mark = Task(job, program), mark_of(program)
        with self._lock:
            if job.result not in self._asked:
                refused = self._refused(task, mark)
                if refused is not None:
                    return refused
                self._asked.add(job.result)
                self._waiting.setdefault(task.account, deque()).append(task)
            if self._waiting and self._threads < MOST_AT_ONCE:
                self._start_thread()
        return DigestWaits(WhyPutOff.DIGEST_WAITS, "its digest program waits for its turn, or runs")

    def _start_thread(self) -> None:
        """Starts a thread. If the unit may have no more of them, a later report starts it."""
        try:
            threading.Thread(target=self._work, name="digest programs", daemon=True).start()
        except RuntimeError as fault:
            log.error("digest programs wait: %s", fault)
        else:
            self._threads += 1

    def _refused(self, task: Task, mark: Mark) -> DigestWaits | None:
        """Returns why a program may not run now, or None if it may."""
        now = self._clock()
        if now < self._rest_until:
            return DigestWaits(WhyPutOff.DIGEST_CANNOT_RUN, self._rest_text)
        failed = self._failures.get(task.job.result)
        if failed is not None and failed.program == mark and now < failed.again_at:
            text = f"{task.program.path}: {failed.text}; it is tried again in {failed.again_at - now:.0f} s"
            return DigestWaits(WhyPutOff.DIGEST_FAILED, text)
        if self._used.of(task.account) >= self.most_seconds:
            text = f"the digest programs of its account took {self.most_seconds} seconds in the last hour"
            return DigestWaits(WhyPutOff.DIGEST_LIMIT, text)
        of_account = len(self._waiting.get(task.account, ()))
        if of_account >= MOST_OF_ACCOUNT or len(self._asked) >= MOST_WAITING:
            return DigestWaits(WhyPutOff.DIGEST_LIMIT, "too many results wait for their digest program")
        return None

    # ---- The threads

    def _work(self) -> None:
        """Runs one program after the other, until none waits."""
        while (task := self._next()) is not None:
            began = self._clock()
            try:
                self._decide(task)
            except (OSError, sqlite3.Error) as fault:
                log.error("the digest of %s is not stored: %s", task.job.result, fault)
            except Exception:
                log.exception("the digest program of %s could not be run", task.job.result)
            finally:
                self._end(task, self._clock() - began)

    def _next(self) -> Task | None:
        """Returns the task whose turn it is. The account that has the fewest programs running comes first,
        and among those the one whose last turn is the oldest. If there is no task, the thread ends.
        """
        with self._lock:
            while self._waiting:
                account = min(self._waiting, key=lambda one: self._running[one])
                tasks = self._waiting[account]
                task = tasks.popleft()
                self._waiting.move_to_end(account)
                if not tasks:
                    del self._waiting[account]
                if self._clock() >= self._rest_until and self._used.of(account) < self.most_seconds:
                    self._running[account] += 1
                    return task
                self._asked.discard(task.job.result)  # it comes again with its report
            self._threads -= 1
            return None

    def _end(self, task: Task, seconds: float) -> None:
        """Counts the seconds that a program took."""
        with self._lock:
            self._used.add(task.account, seconds)
            self._asked.discard(task.job.result)
            self._running[task.account] -= 1
            if self._running[task.account] <= 0:
                del self._running[task.account]

    def _decide(self, task: Task) -> None:
        """Runs a program, and stores what bsched gets of the result, unless other files took the place of
        these meanwhile.
        """
        result = task.job.result
        stored = self.store.stored_files(result)
        outcome = self._outcome(task)
        if outcome is None:
            return
        with self.store.tables.turn():
            if self.store.stored_files(result) == stored:
                self.jobs.set_outcome(result, outcome)
        with self._lock:
            self._failures.pop(result, None)

    def _outcome(self, task: Task) -> Outcome | None:
        """Returns what bsched gets of a result by its digest program, or None if that is not known yet."""
        result, program, mark = task.job.result, task.program, mark_of(task.program)
        files = compared_files(task.job.files, self.store.stored_paths(result))
        try:
            return Outcome(0, digest_of(program, files))
        except BadFiles as fault:
            log.warning("the files of %s are bad: %r", result, str(fault))
            return Outcome(BAD_FILES_STATUS, str(fault))
        except CannotRun as fault:
            log.error("no digest program runs for %.0f seconds: %s", REST_SECONDS, fault)
            with self._lock:
                self._rest_until, self._rest_text = self._clock() + REST_SECONDS, str(fault)
            return None
        except DigestFault as fault:
            return self._failed(task, mark, str(fault))

    def _failed(self, task: Task, mark: Mark, text: str) -> Outcome | None:
        """Counts a failure of a program. Returns None, or that the result is an error after the last one."""
        result = task.job.result
        with self._lock:
            former = self._failures.pop(result, None)
            count = 1 if former is None or former.program != mark else former.count + 1
            if count <= len(FAILURE_PAUSES):
                again_at = self._clock() + FAILURE_PAUSES[count - 1]
                self._failures[result] = Failures(mark, count, again_at, text)
                if len(self._failures) > MOST_FAILED:
                    self._failures.popitem(last=False)
        log.error("the digest program %s fails for %s (%d): %s", task.program.path, result, count, text)
        if count <= len(FAILURE_PAUSES):
            return None
        why = f"the digest program failed {count} times for these files: {text}"
        return Outcome(BAD_FILES_STATUS, cut_to_bytes(why, MOST_OUTPUT))

"""Whether bsched answers, by a question that changes nothing."""
import threading
import time
from collections.abc import Callable
from dataclasses import dataclass

from bsched_files.counts import NO_HOST

from .messages import NoAnswer, Scheduler

KEPT_SECONDS = 5.0  # for which an answer counts, so that nobody can have bsched asked often


@dataclass(frozen=True, slots=True)
class Probe:
    """What came of the question."""

    is_answered: bool
    seconds: float | None = None  # that the answer took; None if it is not known
    why: str = ""  # no answer came


class SchedulerProbe:
    """Asks bsched, one thread at a time. A thread that comes meanwhile gets what is known."""

    def __init__(
        self,
        scheduler: Scheduler,
        operator_key: str | None,
        clock: Callable[[], float] = time.monotonic,
    ) -> None:
        self.scheduler, self._clock, self._lock = scheduler, clock, threading.Lock()
        self._fields = {} if operator_key is None else {"x-operator-key": operator_key}
        self._kept: tuple[Probe, float] | None = None  # with the moment until which it counts

    def latest(self) -> Probe:
        """Returns whether bsched answers."""
        kept = self._kept
        if kept is not None and self._clock() <= kept[1]:
            return kept[0]
        if not self._lock.acquire(blocking=False):
            return Probe(self.scheduler.silent_since is None)
        try:
            probe = self._ask()
            self._kept = probe, self._clock() + KEPT_SECONDS
            return probe
        finally:
            self._lock.release()

    def _ask(self) -> Probe:
        """Asks for the statement of a host that does not exist. A refusal is an answer, too."""
        began = time.perf_counter()
        try:
            self.scheduler.message("GET", f"/hosts/{NO_HOST}", None, self._fields)
        except NoAnswer as failure:
            return Probe(False, why=str(failure))
        return Probe(True, time.perf_counter() - began)

"""Computers that report errors get fewer jobs, until their results are good again.

bsched lowers a host's quota by one for each error, and a project of short jobs has a quota of many thousands.
So the bridge asks for fewer jobs: a host with an error may have at most half as many in a day as before,
and twice as many after each good result. It gets one job in a call meanwhile. The quota of bsched stays as it
is. All this is in memory, and begins anew at each start.
"""
import threading
import time
from collections import OrderedDict
from collections.abc import Callable, Iterable, Sequence
from dataclasses import dataclass, replace

from bsched_files.moments import DAY

from ..common.languages import Text, ngettext_lazy
from ..requests.client_requests import ClientRequest, Report
from .hosts import Key

# jobs in a day of a host without an error, for what it may have after its first one; with as many after good
# results it is no longer held back
MOST_HELD, LEAST_HELD = 64, 1
MOST_HOSTS = 10_000  # that are held back; further ones take the places of those whose error is the oldest
ONE_JOB = 1  # the seconds of work that are asked for: bsched gives one job for them
# BOINC's statuses of jobs that were not begun in time, or that the project aborted (two forms of it)
NO_ERRORS = frozenset({200, 202, -221})


@dataclass(slots=True)
class Held:
    """A host that is held back."""

    allowed: int  # jobs in a day
    day: int = 0  # on which it got jobs last
    given: int = 0  # jobs on that day
    noticed: int = 0  # the day on which its volunteer read of it last


class HeldBack:
    """The hosts that are held back."""

    def __init__(self, clock: Callable[[], float] = time.time) -> None:
        self._clock, self._lock = clock, threading.Lock()
        self._hosts: OrderedDict[Key, Held] = OrderedDict()

    def count(self) -> int:
        """Returns how many hosts are held back."""
        with self._lock:
            return len(self._hosts)

    def allowed(self, key: Key) -> int | None:
        """Returns how many jobs a host may get in a day, or None if it is not held back."""
        with self._lock:
            host = self._hosts.get(key)
            return None if host is None else host.allowed

    def record(self, key: Key, results: Sequence[Report], acknowledged: Iterable[str]) -> None:
        """Notes the results that a host reported, and that bsched has acknowledged."""
        if not results:
            return
        names = frozenset(acknowledged)
        with self._lock:
            for result in results:
                if result.name in names and result.exit_status not in NO_ERRORS:
                    self._note(key, result.exit_status != 0)

    def _note(self, key: Key, is_error: bool) -> None:
        """Halves or doubles what a host may get."""
        host = self._hosts.get(key)
        if not is_error:
            if host is not None:
                host.allowed *= 2
                if host.allowed >= MOST_HELD:
                    del self._hosts[key]
            return
        if host is None:
            host = self._hosts[key] = Held(MOST_HELD)
            if len(self._hosts) > MOST_HOSTS:
                self._hosts.popitem(last=False)
        self._hosts.move_to_end(key)
        host.allowed = max(LEAST_HELD, host.allowed // 2)

    def limited(self, key: Key, request: ClientRequest) -> ClientRequest:
        """Returns a request of a host, with less work if the host is held back: for one job, or for none if
        it had its jobs of the day.
        """
        with self._lock:
            host = self._hosts.get(key)
            if host is None:
                return request
            most = ONE_JOB if self._left(host) > 0 else 0
        return replace(request, work_req_seconds=min(request.work_req_seconds, most))

    def _left(self, host: Held) -> int:
        """Returns how many jobs a host may still get today."""
        return host.allowed - (host.given if host.day == self._today() else 0)

    def _today(self) -> int:
        """Returns the day, in UTC, since 1970."""
        return int(self._clock()) // DAY

    def gave(self, key: Key, jobs: int) -> None:
        """Notes how many jobs a host got."""
        if not jobs:
            return
        with self._lock:
            host = self._hosts.get(key)
            if host is not None:
                today = self._today()
                host.given = jobs + (host.given if host.day == today else 0)
                host.day = today

    def notice(self, key: Key, request: ClientRequest) -> Text | None:
        """Returns what the volunteer reads of it, once a day, or None. It is for a host that asks for work
        and had its jobs of the day.
        """
        with self._lock:
            host, today = self._hosts.get(key), self._today()
            if host is None or not request.work_req_seconds or self._left(host) > 0 or host.noticed == today:
                return None
            host.noticed = today
            count = host.allowed
        return ngettext_lazy(
            "This computer reported tasks that failed. So it gets at most %(count)s task a day from this "
            "project, and twice as many after each good result.",
            "This computer reported tasks that failed. So it gets at most %(count)s tasks a day from this "
            "project, and twice as many after each good result.",
            count,
        )

"""What the bridge measures of its own work, in memory: how calls end and how long their answers take, what
hosts report, and what uploads bring.

The bridge is one process with several threads, so these numbers are all there are. They begin anew at each
start. The metrics and the operator's board read the same ones. A call costs two short turns at locks, and
nothing in the state file.
"""
import heapq
import threading
import time
from bisect import bisect_left
from collections import Counter, OrderedDict, deque
from collections.abc import Callable, Iterable, Sequence
from dataclasses import dataclass, field
from enum import StrEnum

from bsched_files.moments import HOUR, MINUTE

from ..requests.client_requests import Report
from .held_back import HeldBack
from .hosts import Key

# the upper bounds of the bins of durations, in seconds; a last bin has what is longer
BOUNDS = (0.001, 0.0025, 0.005, 0.01, 0.025, 0.05, 0.1, 0.25, 0.5, 1.0, 2.5, 5.0, 10.0, 30.0)
MINUTES = 60  # that are kept one by one
MOST_HOSTS = 1000  # whose errors are counted
HOURS = 24  # hours for which the errors of hosts are counted


class End(StrEnum):
    """How a call of a client ends: with a reply of bsched, or refused or put off for one of these reasons."""

    ANSWERED = "answered"
    NO_ANSWER = "no_answer"  # of bsched
    BUSY = "busy"  # an earlier call of the host is not answered yet
    TOO_BUSY = "too_busy"  # no thread is free
    UNREADABLE = "unreadable"
    BAD_ACCOUNT = "bad_account"
    BARRED = "barred"
    DELETED = "deleted"
    TOO_MANY_HOSTS = "too_many_hosts"  # of the account
    HOSTS_FULL = "hosts_full"  # bsched takes no more
    UNKNOWN_RESULTS = "unknown_results"  # no known host has what it reports
    TOO_OFTEN = "too_often"  # the calls of the account in vain took long
    COUNT_ENDED = "count_ended"
    BAD_MEMBER = "bad_member"
    BAD_JSON = "bad_json"
    TOO_LARGE = "too_large"
    OTHER = "other"
    FAILED = "failed"  # by a fault of the bridge


class WhyPutOff(StrEnum):
    """Why the report of a result is put off: its client reports it again."""

    DIGEST_WAITS = "digest_waits"  # its digest program did not run yet
    DIGEST_FAILED = "digest_failed"
    DIGEST_LIMIT = "digest_limit"  # the programs of its account took long, or many results wait
    DIGEST_CANNOT_RUN = "digest_cannot_run"  # bubblewrap can't run
    STORAGE = "storage"  # a fault of the disk


class UploadEnd(StrEnum):
    """How an upload ends."""

    RECEIVED = "received"
    PUT_OFF = "put_off"  # the client tries again later
    REFUSED = "refused"  # for good


@dataclass(slots=True)
class Tally:
    """How some calls ended, and how long their answers took."""

    ends: Counter[End] = field(default_factory=Counter)
    bins: list[int] = field(default_factory=lambda: [0] * (len(BOUNDS) + 1))
    seconds: float = 0.0

    @property
    def count(self) -> int:
        """How many calls there were."""
        return sum(self.bins)

    def record(self, end: End, place: int, seconds: float) -> None:
        """Counts a call, whose duration has a place among the bins."""
        self.ends[end] += 1
        self.bins[place] += 1
        self.seconds += seconds

    def add(self, other: "Tally") -> None:
        """Adds what another tally counted."""
        self.ends.update(other.ends)
        self.bins = [one + more for one, more in zip(self.bins, other.bins)]
        self.seconds += other.seconds

    def quantile(self, share: float) -> float | None:
        """Returns the seconds within which this share of the answers was ready, or None without any. Within a
        bin the durations count as evenly spread, as in Prometheus. What is in the last bin counts as its
        lower bound.
        """
        rank, below, lower = share * self.count, 0, 0.0
        if not self.count:
            return None
        for upper, count in zip(BOUNDS, self.bins):
            if count and below + count >= rank:
                return lower + (upper - lower) * (rank - below) / count
            below, lower = below + count, upper
        return lower


class Calls:
    """Counts calls: all since the start, and those of the last hour by minutes."""

    def __init__(self, clock: Callable[[], float] = time.monotonic) -> None:
        self._clock, self._began, self._lock = clock, clock(), threading.Lock()
        self._all = Tally()
        self._minutes: deque[tuple[int, Tally]] = deque(maxlen=MINUTES)

    def record(self, end: End, seconds: float) -> None:
        """Counts a call that took this long."""
        place = bisect_left(BOUNDS, seconds)
        with self._lock:
            minute = int(self._clock() // MINUTE)
            if not self._minutes or self._minutes[-1][0] != minute:
                self._minutes.append((minute, Tally()))
            self._all.record(end, place, seconds)
            self._minutes[-1][1].record(end, place, seconds)

    def all(self) -> Tally:
        """Returns the tally since the start."""
        found = Tally()
        with self._lock:
            found.add(self._all)
        return found

    def latest(self, minutes: int) -> tuple[Tally, float]:
        """Returns the tally of the last minutes, the present one included, and how many minutes went by in
        it. They are at least one, so that a single call after the start is not many a minute.
        """
        found = Tally()
        with self._lock:
            now = self._clock()
            first = int(now // MINUTE) - minutes + 1
            tallies = [tally for minute, tally in self._minutes if minute >= first]
            if tallies:
                found.add(tallies.pop())  # the only one that still changes
        for tally in tallies:
            found.add(tally)
        return found, max(1.0, (now - max(self._began, first * MINUTE)) / MINUTE)


@dataclass(slots=True)
class HostReports:
    """What a host reported since its first error, by hours, for the last day."""

    hours: deque[tuple[int, int, int]] = field(default_factory=lambda: deque(maxlen=HOURS + 1))

    def add(self, hour: int, reports: int, errors: int) -> None:
        """Counts reports, and how many of them are errors."""
        if self.hours and self.hours[-1][0] == hour:
            _, former, former_errors = self.hours.pop()
            reports, errors = former + reports, former_errors + errors
        self.hours.append((hour, reports, errors))

    def of_day(self, hour: int) -> tuple[int, int]:
        """Returns the reports of the last day, and how many of them are errors."""
        lately = [one for one in self.hours if one[0] > hour - HOURS]
        return sum(one[1] for one in lately), sum(one[2] for one in lately)


class Reports:
    """Counts reported results: all of them, and for each host since its first error. Whoever has an account
    can make up hosts, so at most MOST_HOSTS are kept: those whose errors are the latest.
    """

    def __init__(self, clock: Callable[[], float] = time.monotonic) -> None:
        self._lock, self._clock = threading.Lock(), clock
        self._reports = self._errors = 0
        self._hosts: OrderedDict[Key, HostReports] = OrderedDict()

    def record(self, key: Key, results: Sequence[Report], acknowledged: Iterable[str]) -> None:
        """Counts the results that a host reported, and that bsched has acknowledged. A client reports others
        again.
        """
        if not results:
            return
        names = frozenset(acknowledged)
        is_error = [result.exit_status != 0 for result in results if result.name in names]
        reports, errors = len(is_error), sum(is_error)
        with self._lock:
            self._reports += reports
            self._errors += errors
            host = self._hosts.get(key)
            if host is None and errors:
                host = self._hosts[key] = HostReports()
                if len(self._hosts) > MOST_HOSTS:
                    self._hosts.popitem(last=False)
            if host is None:
                return
            if errors:
                self._hosts.move_to_end(key)
            host.add(int(self._clock() // HOUR), reports, errors)

    def totals(self) -> tuple[int, int]:
        """Returns how many results were reported without an error, and how many with one."""
        with self._lock:
            return self._reports - self._errors, self._errors

    def worst(self, most: int) -> list[tuple[Key, int, int]]:
        """Returns the hosts with the most errors of the last day, each with how many it had and of how many
        results.
        """
        with self._lock:
            hour = int(self._clock() // HOUR)
            counted = [(key, one.of_day(hour)) for key, one in self._hosts.items()]
        hosts = [(key, errors, reports) for key, (reports, errors) in counted if errors]
        return heapq.nlargest(most, hosts, key=lambda host: host[1])


class PutOffs:
    """Counts the reports that are put off since the start, and has the latest reason that is a fault."""

    def __init__(self) -> None:
        self._lock = threading.Lock()
        self._counts: Counter[WhyPutOff] = Counter()
        self._fault: tuple[float, str] | None = None

    def record(self, why: WhyPutOff, text: str) -> None:
        """Counts a report."""
        with self._lock:
            self._counts[why] += 1
            if why is not WhyPutOff.DIGEST_WAITS:
                self._fault = time.time(), text

    def totals(self) -> dict[WhyPutOff, int]:
        """Returns how many reports were put off for each reason."""
        with self._lock:
            return {why: self._counts[why] for why in WhyPutOff}

    def latest_fault(self) -> tuple[float, str] | None:
        """Returns when a report was put off last for another reason than the turn of its program, and why."""
        with self._lock:
            return self._fault


class UploadCounts:
    """Counts uploads since the start."""

    def __init__(self) -> None:
        self._lock = threading.Lock()
        self._ends: Counter[UploadEnd] = Counter()
        self._bytes = 0

    def record(self, end: UploadEnd, nbytes: int = 0) -> None:
        """Counts an upload, and the bytes of a file that was received."""
        with self._lock:
            self._ends[end] += 1
            self._bytes += nbytes

    def totals(self) -> tuple[dict[UploadEnd, int], int]:
        """Returns how many uploads ended in each way, and the bytes of all received files."""
        with self._lock:
            return {end: self._ends[end] for end in UploadEnd}, self._bytes


class Measurements:
    """All that the bridge measures."""

    def __init__(self) -> None:
        self.started_at = time.time()
        self.calls, self.reports, self.uploads = Calls(), Reports(), UploadCounts()
        self.put_offs, self.held_back = PutOffs(), HeldBack()

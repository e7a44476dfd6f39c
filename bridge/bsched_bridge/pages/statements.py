"""The status of hosts and users, from bsched's statements (docs/PROFILE.md, "The statement of a host"), from
replies, and from archives.
"""
import csv
import io
import threading
import time
from collections import Counter, OrderedDict, deque
from dataclasses import dataclass, replace
from decimal import Decimal, InvalidOperation

from bsched_files.counts import KnownCounts, UnitCounts
from bsched_files.json_files import WatchedFile
from bsched_files.moments import DAY, moment_text

from ..common.languages import gettext_noop
from ..common.limits import NoPlace, Places, RecentCounts
from ..people.archives import Archives
from ..people.directory import Computer
from ..people.hosts import HeardHost
from ..people.hosts import Hosts
from ..people.members import Members
from ..people.recent_credit import RecentCredit
from ..scheduler.messages import NoAnswer, Scheduler

MOST_HOSTS = 50
KEPT_SECONDS = 60  # how long what was read is shown again, so that a page costs bsched nothing
READ_SECONDS = 30.0  # for the statements of a page
WAIT_SECONDS = 0.02  # for which a page waits for them, so that no page takes long
OLD_SECONDS = 600  # after which nobody gets what was read any more
MOST_KEPT = 200  # accounts whose hosts are kept for that time
MOST_RESULTS, MOST_KEPT_RESULTS = 500, 50  # results of a host on its page, and hosts whose results are kept
# Statements that pages of hosts read in KEPT_SECONDS, and at once: bsched has calls to answer, and if it
# hangs, other pages still find a thread.
MOST_READ, MOST_READING = 120, 2
NO_REPLY, SUCCESS, INVALID = "4", "1", "2"


@dataclass(frozen=True, slots=True)
class HostStatus:
    """A host, its credit, and how many of its results are out, waiting, done, late or failed."""

    host: HeardHost
    credit: int  # millicredits
    out: int = 0
    waiting: int = 0
    done: int = 0
    late: int = 0
    failed: int = 0
    invalid: int = 0  # of those that were sent within the last day: others agree on another output


@dataclass(frozen=True, slots=True)
class HostStatuses:
    """The status of some hosts."""

    hosts: list[HostStatus]
    with_results: bool  # whether statements could be read
    read_at: float


@dataclass(frozen=True, slots=True)
class AccountStatus:
    """The status of an account."""

    recent: HostStatuses  # its hosts that called last
    credit: int  # of all its hosts, in millicredits
    average: float | None = None  # its recent average credit; None if the operator has no file of it


@dataclass(frozen=True, slots=True)
class Result:
    """A result of a host."""

    name: str
    app: str
    sent: str
    deadline: str
    state: str  # as in the tables of hosts
    words: str  # the same for people, with the reason if it was not valid
    credit: str


@dataclass(frozen=True, slots=True)
class Status:
    """The status of the project."""

    recent: HostStatuses  # the hosts that called last
    units: UnitCounts | None
    silent_since: float | None  # since when bsched gives no answer
    users: dict[str, tuple[int, str]]  # the number and the name of each host's user


def standing(row: dict[str, str]) -> str:
    """Returns the state of a result, from its line of a statement."""
    state, outcome, verdict = row["server_state"], row["outcome"], row["validate_state"]
    if state == "4":
        return "out"
    if outcome == NO_REPLY:
        return "late"
    if (outcome, verdict) == (SUCCESS, "1"):
        return "done"
    return "waiting" if (outcome, verdict) == (SUCCESS, "0") else "failed"


REASONS = {
    "out": gettext_noop("The computer has it, and has not reported it yet."),
    "waiting": gettext_noop("Reported. Other results of the same work are not there yet."),
    "done": gettext_noop("Valid: it agrees with other results of the same work, or needs none."),
    "late": gettext_noop("No report came before the deadline."),
}


def words_of(row: dict[str, str], state: str) -> str:
    """Returns the state of a result in words, and why it is not valid, in English: results are kept for
    readers of all languages.
    """
    if state != "failed":
        return REASONS[state]
    if row["validate_state"] == INVALID:
        return gettext_noop("Invalid: enough other results of the same work agree, and this one differs.")
    if row["validate_state"] == "3":
        return gettext_noop("Not compared: the work had failed before the report.")
    return gettext_noop("An error: the computer reported that the program failed, or that a file was lost.")


def read_results(text: str) -> list[Result]:
    """Reads the latest results of a statement, the latest first. Its last line is the credit."""
    try:
        rows = deque(csv.DictReader(io.StringIO(text)), MOST_RESULTS + 1)
        rows.pop()
        states = [standing(row) for row in rows]
        return [
            Result(
                row["result"],
                row["app"],
                row["sent"],
                row["deadline"],
                state,
                words_of(row, state),
                row["credit"],
            )
            for row, state in zip(reversed(rows), reversed(states))
        ]
    except (IndexError, KeyError, TypeError, csv.Error):
        raise NoAnswer("the statement of a host can't be read") from None


def read_statement(host: HeardHost, text: str) -> HostStatus:
    """Reads the status of a host from its statement. The last line is the credit, not a result."""
    rows = list(csv.DictReader(io.StringIO(text)))
    yesterday = moment_text(time.time() - DAY)
    try:
        counted = Counter(map(standing, rows[:-1]))
        counted["invalid"] = sum(
            row["validate_state"] == INVALID and row["sent"] >= yesterday for row in rows[:-1]
        )
        credit = int(Decimal(rows[-1]["credit"]) * 1000)
    except (IndexError, KeyError, TypeError, InvalidOperation):
        raise NoAnswer("the statement of a host can't be read") from None
    return HostStatus(host, credit, **counted)


class Statements:
    """Reads the status of hosts, and keeps it for a while."""

    def __init__(
        self,
        hosts: Hosts,
        members: Members,
        scheduler: Scheduler,
        operator_key: str | None,
        counts: WatchedFile[KnownCounts],
        archives: Archives,
        recent: RecentCredit,
    ):
        self.recent = recent
        self.hosts, self.members, self.scheduler, self.operator_key = hosts, members, scheduler, operator_key
        self.counts, self.archives = counts, archives
        self.wait_seconds = WAIT_SECONDS
        self._lock, self._accounts_lock = threading.Lock(), threading.Lock()
        self._kept: tuple[Status, float] | None = None  # with the moment until which it is shown
        self._accounts: OrderedDict[str, tuple[AccountStatus, float]] = OrderedDict()
        self._results: OrderedDict[int, tuple[list[Result], float]] = OrderedDict()
        self._results_lock = threading.Lock()
        self._reads, self._reading = RecentCounts(MOST_READ, KEPT_SECONDS), Places(MOST_READING)

    def status(self) -> Status:
        """Returns the status of the project. What was read a short time ago is shown again. After that a
        thread reads it anew. Meanwhile it is shown once more, unless it is old: then the page waits a little,
        and shows what replies said if the thread is not done.
        """
        kept, now = self._kept, time.monotonic()
        if kept is not None and now <= kept[1]:
            return kept[0]
        reading = self._start_reading()
        if kept is not None and now <= kept[1] + OLD_SECONDS:
            return kept[0]
        if reading is not None:
            reading.join(self.wait_seconds)
        latest = self._kept
        if latest is None or latest is kept:
            return self._read(with_statements=False)
        return latest[0]

    def _start_reading(self) -> threading.Thread | None:
        """Starts a thread that reads the status, unless one does already."""
        if not self._lock.acquire(blocking=False):
            return None
        try:
            reading = threading.Thread(target=self._read_anew, daemon=True)
            reading.start()
            return reading
        except BaseException:
            self._lock.release()
            raise

    def _read_anew(self) -> None:
        """Reads the status of the project, and gives up the lock of the reader."""
        try:
            self._kept = self._read(), time.monotonic() + KEPT_SECONDS
        finally:
            self._lock.release()

    def results_of(self, computer: Computer) -> list[Result] | None:
        """Returns the latest results of a host. What was read a short time ago is shown again. None if bsched
        gives no answer, or was asked by many pages just now, or without the operator's key.
        """
        with self._results_lock:
            kept = self._results.get(computer.number)
        if kept is not None and time.monotonic() <= kept[1]:
            return kept[0]
        if self.operator_key is None or self.scheduler.is_slow or not self._reads.take("results"):
            return None
        try:
            with self._reading.taken():
                results = self._read_results(computer, self.operator_key)
        except (NoAnswer, NoPlace):
            return None
        with self._results_lock:
            self._results[computer.number] = results, time.monotonic() + KEPT_SECONDS
            self._results.move_to_end(computer.number)
            if len(self._results) > MOST_KEPT_RESULTS:
                self._results.popitem(last=False)
        return results

    def _read_results(self, computer: Computer, operator_key: str) -> list[Result]:
        """Reads the results of a host. If its number is that of an earlier file, it has none in this one."""
        number = computer.scheduler_hostid
        if not self.scheduler.has_host(computer.authenticator, computer.host_cpid, number):
            return []
        statement = self.scheduler.statement(number, operator_key)
        if statement is None:
            raise NoAnswer("the statement is refused")
        return read_results(statement)

    def of_account(self, authenticator: str) -> AccountStatus:
        """Returns the status of an account. What was read a short time ago is shown again."""
        with self._accounts_lock:
            kept = self._accounts.get(authenticator)
        if kept is not None and time.monotonic() <= kept[1]:
            return kept[0]
        status = self._read_account(authenticator)
        with self._accounts_lock:
            self._accounts[authenticator] = status, time.monotonic() + KEPT_SECONDS
            self._accounts.move_to_end(authenticator)
            if len(self._accounts) > MOST_KEPT:
                self._accounts.popitem(last=False)
        return status

    def _read_account(self, authenticator: str) -> AccountStatus:
        """Reads the status of an account.

        Its credit is that of the latest reply to one of its hosts. Since then its hosts may have got more, so
        the credit of those that are shown, and of the others in the archives, is summed, too. Credit never
        falls, so the greater number is the later one.
        """
        heard = self.hosts.heard(MOST_HOSTS, authenticator)
        recent = self._hosts(heard)
        shown = sum(one.credit for one in recent.hosts)
        others = self.archives.users[authenticator] - sum(self.archives.hosts[host.key] for host in heard)
        replied = heard[0].user_credit if heard else 0
        average = None if self.recent.path is None else self.average_of(authenticator)
        return AccountStatus(recent, max(replied, shown + others), average)

    def _read(self, with_statements: bool = True) -> Status:
        """Reads the status of the project."""
        heard = self.hosts.heard(MOST_HOSTS)
        return Status(
            self._hosts(heard) if with_statements else self._heard_only(heard),
            self.counts.value().units,
            self.scheduler.silent_since,
            self.members.shown(host.authenticator for host in heard),
        )

    def average_of(self, authenticator: str) -> float:
        """Returns the recent average credit of an account."""
        if self.recent.path is None:
            return 0.0
        cpids = self.hosts.cpids(authenticator).values()
        return self.recent.of_hosts((authenticator, cpid) for cpid in cpids)

    def _hosts(self, heard: list[HeardHost]) -> HostStatuses:
        """Reads the status of hosts. Without an answer, or without the operator's key, only what replies said
        is known.
        """
        if self.operator_key is not None:
            try:
                return HostStatuses(self._with_results(heard, self.operator_key), True, time.time())
            except NoAnswer:
                pass
        return self._heard_only(heard)

    def _heard_only(self, heard: list[HeardHost]) -> HostStatuses:
        """Returns the status of hosts without their results."""
        return HostStatuses([self._without_results(host) for host in heard], False, time.time())

    def _without_results(self, host: HeardHost) -> HostStatus:
        """Returns the status of a host without results in bsched's file, or whose results are not known."""
        return HostStatus(host, max(host.host_credit, self.archives.hosts[host.key]))

    def _with_results(self, heard: list[HeardHost], operator_key: str) -> list[HostStatus]:
        """Reads the status of hosts from their statements, within a time limit."""
        ends = time.monotonic() + READ_SECONDS
        read = []
        for host in heard:
            if time.monotonic() > ends:
                raise NoAnswer("the statements take too long")
            read.append(self._host(host, operator_key))
        return read

    def _host(self, host: HeardHost, operator_key: str) -> HostStatus:
        """Reads the status of a host from its statement.

        The number of the host may be from an earlier file of the project. In the present one another user's
        host may have that number, so bsched is asked first.
        """
        if not self.scheduler.has_host(host.authenticator, host.host_cpid, host.scheduler_hostid):
            return self._without_results(host)
        statement = self.scheduler.statement(host.scheduler_hostid, operator_key)
        if statement is None:
            raise NoAnswer("the statement is refused")
        status = read_statement(host, statement)
        return replace(status, credit=status.credit + self.archives.hosts[host.key])

"""The operator's board: a page that shows whether all is well, with forms for what an operator does often.

There is no cookie: each form sends the operator's key, so another web page can't act with its visitors'
boards. A form does only what the bridge may do anyhow. For the rest the page says the command.
"""
import re
from collections import Counter
from collections.abc import Callable, Iterator
from dataclasses import dataclass, replace

from werkzeug.exceptions import BadRequest, ServiceUnavailable
from werkzeug.wrappers import Request, Response

from bsched_files.counts import Limit
from bsched_files.findings import PUT_OFF_SECONDS
from bsched_files.moments import DAY, HOUR, MINUTE, moment_text
from bsched_files.project_settings import HostRules, Settings
from bsched_files.timers import Timer

from ..common.http_messages import form_of, refuse_other_sites
from ..common.limits import NoPlace, Places
from ..common.texts import bytes_text
from ..common.words import shown_key
from ..pages.statements import Result, Statements
from ..pages.templates import Templates
from ..people.directory import Computer, Directory
from ..people.measurements import BOUNDS, End, Tally
from .key import OperatorKey
from .orders import OrderFault, bar_account, state_of, unbar_account
from .overview import Overview, Overviews

MOST_HOSTS = 20  # with the most errors
MINUTES, HOUR_MINUTES = 5, 60  # the minutes of the two spans for which calls are shown
HEALTH_SECONDS = 30 * 60  # after which the findings of bsched-tools health are too old
NUMBER = re.compile("[1-9][0-9]{0,9}")  # a hostid
ACTIONS = {"bar": bar_account, "unbar": unbar_account}
WHAT_ENDS_MEAN = {
    End.ANSWERED: "answered by the scheduler",
    End.NO_ANSWER: "the scheduler gave no answer",
    End.BUSY: "an earlier call of the computer had no answer yet",
    End.TOO_BUSY: "no thread was free",
    End.UNREADABLE: "no request of a client, or a broken one",
    End.BAD_ACCOUNT: "unknown account key",
    End.BARRED: "barred account",
    End.DELETED: "deleted account",
    End.TOO_MANY_HOSTS: "the account has as many computers as it may have",
    End.HOSTS_FULL: "the project has as many computers as it may have",
    End.UNKNOWN_RESULTS: "no known computer has the reported results",
    End.TOO_OFTEN: "the account called in vain too often",
    End.COUNT_ENDED: "the computer has used its last number",
    End.BAD_MEMBER: "the scheduler can't read what the computer says of itself",
    End.BAD_JSON: "the scheduler can't read the call",
    End.TOO_LARGE: "too large for the scheduler",
    End.OTHER: "refused by the scheduler for another reason",
    End.FAILED: "a fault of the bridge: see its log",
}


@dataclass(frozen=True, slots=True)
class ProjectPart:
    """A part of the project, and whether it works."""

    name: str
    level: str  # as in the findings of the tools
    text: str


@dataclass(frozen=True, slots=True)
class CallEnds:
    """How many calls ended in one way."""

    text: str
    minute: str  # calls a minute in the last minutes
    hour: str  # the same in the last hour
    all: int


@dataclass(frozen=True, slots=True)
class Room:
    """How much is left of a limit."""

    name: str
    used: str
    most: str
    left: str
    percent: int  # that is used


@dataclass(frozen=True, slots=True)
class ErrorHost:
    """A computer that reported errors."""

    computer: Computer
    account: str  # the front of its key
    errors: int  # of the last day, of so many reports; 0 if none was an error
    reports: int
    invalid: int  # results that were sent in the last day, as far as statements were read
    allowed: int | None  # jobs that it may get in a day; None if it is not held back


@dataclass(frozen=True, slots=True)
class Done:
    """What a form did."""

    text: str = ""
    fault: str = ""
    computer: Computer | None = None  # whose results are shown
    results: list[Result] | None = None


def age_text(seconds: float) -> str:
    """Returns how long ago something was."""
    for unit, name in ((DAY, "days"), (HOUR, "hours"), (MINUTE, "minutes")):
        if seconds >= 2 * unit:
            return f"{seconds // unit:.0f} {name} ago"
    return f"{max(0.0, seconds):.0f} seconds ago"


def seconds_text(seconds: float | None) -> str:
    """Returns a duration that was estimated from bins."""
    if seconds is None:
        return "none"
    if seconds >= BOUNDS[-1]:
        return f"more than {BOUNDS[-1]:.0f} s"
    return f"{seconds:.1f} s" if seconds >= 1 else f"{1000 * seconds:.1f} ms"


def room_of(name: str, limit: Limit, is_bytes: bool = False) -> Room:
    """Returns how much is left of a limit."""
    used, most, left = (
        bytes_text(number) if is_bytes else f"{number:,}" for number in (limit.used, limit.most, limit.left)
    )
    return Room(name, used, most, left, 100 * limit.used // limit.most)


class Board:
    """Answers the operator. One message at a time is answered."""

    def __init__(
        self,
        settings: Settings,
        operator_key: OperatorKey,
        templates: Templates,
        overviews: Overviews,
        directory: Directory,
        statements: Statements,
        rules: Callable[[], HostRules],
    ) -> None:
        self.settings, self.templates, self.overviews = settings, templates, overviews
        self.directory, self.statements, self.rules = directory, statements, rules
        self._key, self._places = operator_key, Places(1)

    def answer(self, message: Request) -> Response:
        """Asks for the key, or does what a form says and shows the board."""
        if message.method != "POST":
            return self._entrance()
        refuse_other_sites(message, self.settings.url)
        fields = form_of(message)
        try:
            with self._places.taken():
                fault = self._key.fault(fields.get("key", "").strip())
                return self._entrance(fault, 403) if fault else self._board(self._done(fields))
        except NoPlace:
            raise ServiceUnavailable from None

    def _entrance(self, fault: str = "", status: int = 200) -> Response:
        """Returns the page that asks for the key."""
        return self.templates.page("board_entrance.html", is_kept=False, http_status=status, fault=fault)

    # ---- What forms do

    def _done(self, fields: dict[str, str]) -> Done:
        """Does what a form says."""
        action = fields.get("action", "")
        if action in ACTIONS:
            return self._acted(action, fields.get("account", "").strip())
        if action == "results":
            return self._results(fields.get("computer", "").strip())
        if action:
            raise BadRequest
        return Done()

    def _acted(self, action: str, name: str) -> Done:
        """Bars an account, or ends that."""
        if not name:
            return Done(fault="Give the account.")
        state = state_of(replace(self.settings, host_rules=self.rules()), self.overviews.file)
        try:
            return Done(ACTIONS[action](state, name))
        except OrderFault as fault:
            return Done(fault=str(fault))

    def _results(self, text: str) -> Done:
        """Reads the statement of a computer."""
        computer = self.directory.computer(int(text)) if NUMBER.fullmatch(text) else None
        if computer is None:
            return Done(fault="No computer has this number.")
        results = self.statements.results_of(computer)
        if results is None:
            return Done(fault="The scheduler gives no answer, or was asked too often: try again in a minute.")
        return Done(computer=computer, results=results)

    # ---- The page

    def _board(self, done: Done) -> Response:
        """Returns the board."""
        overview, measurements = self.overviews.read(), self.overviews.measurements
        calls = measurements.calls
        lately, _ = calls.latest(HOUR_MINUTES)
        uploads, nbytes = measurements.uploads.totals()
        return self.templates.page(
            "board.html",
            is_kept=False,
            key=self._key.text,
            done=done,
            overview=overview,
            parts=list(self._parts(overview)),
            ends=list(self._ends()),
            all_calls=calls.all().count,
            median=seconds_text(lately.quantile(0.5)),
            slowest=seconds_text(lately.quantile(0.99)),
            reports=measurements.reports.totals(),
            put_off=sum(measurements.put_offs.totals().values()),
            uploads=uploads,
            upload_bytes=nbytes,
            rooms=list(self._rooms(overview)),
            hosts=list(self._error_hosts()),
            started_at=measurements.started_at,
            unit_name=self.settings.project,
            has_copies=overview.findings is not None and overview.findings.newest_copy is not None,
        )

    def _parts(self, overview: Overview) -> Iterator[ProjectPart]:
        """Yields the parts of the project, as far as the bridge can know them."""
        unit = "" if self.settings.project is None else f": systemctl status bsched@{self.settings.project}"
        probe, since = overview.scheduler, overview.silent_since
        if probe.is_answered:
            took = "" if probe.seconds is None else f" in {1000 * probe.seconds:.1f} ms"
            yield ProjectPart("scheduler", "good", f"answers{took}")
        else:
            when = "" if since is None else f" since {moment_text(since)} UTC"
            yield ProjectPart("scheduler", "critical", f"gives no answer{when} ({probe.why}){unit}")
        started = self.overviews.measurements.started_at
        yield ProjectPart("bridge", "good", f"serves since {moment_text(started)} UTC")
        yield from self._catalogue_parts(overview)
        for timer in overview.timers:
            yield self._timer_part(timer, overview.moment)
        if overview.timers and overview.findings is not None:
            at = overview.findings.moment
            health = Timer("health", at, overview.moment - at > HEALTH_SECONDS)
            yield self._timer_part(health, overview.moment)
        if not overview.timers:
            yield ProjectPart("timers", "unknown", "this bridge is in no folder of bsched-project")

    def _catalogue_parts(self, overview: Overview) -> Iterator[ProjectPart]:
        """Yields what is wrong with the catalogue and its digest programs, and with reports."""
        if overview.faults.edit is None:
            yield ProjectPart("catalogue", "good", "the last edit counts")
        else:
            yield ProjectPart("catalogue", "critical", f"it stays as it was: {overview.faults.edit}")
        for name, text in sorted(overview.faults.digests.items()):
            yield ProjectPart(f"digest program of {name}", "critical", f"its reports wait: {text}")
        fault = self.overviews.measurements.put_offs.latest_fault()
        if fault is not None:
            when, text = fault
            is_new = overview.moment - when < PUT_OFF_SECONDS
            text = f"put off last {age_text(overview.moment - when)}: {text}"
            yield ProjectPart("reports", "warning" if is_new else "good", text)

    def _timer_part(self, timer: Timer, now: float) -> ProjectPart:
        """Returns whether a timer elapses."""
        name, unit = f"timer of {timer.name}", f"bsched-{timer.name}@{self.settings.project}.timer"
        if timer.last is None:
            return ProjectPart(name, "unknown", f"it never elapsed: systemctl enable --now {unit}")
        text = f"elapsed {age_text(now - timer.last)}"
        if timer.is_late:
            return ProjectPart(name, "warning", f"{text}: systemctl status {unit}")
        return ProjectPart(name, "good", text)

    def _ends(self) -> Iterator[CallEnds]:
        """Yields how many calls ended in each way."""
        calls = self.overviews.measurements.calls
        spans: list[tuple[Tally, float]] = [calls.latest(MINUTES), calls.latest(HOUR_MINUTES)]
        all_ends = calls.all().ends
        for end, text in WHAT_ENDS_MEAN.items():
            if all_ends[end] or end is End.ANSWERED:
                minute, hour = (f"{tally.ends[end] / minutes:,.1f}" for tally, minutes in spans)
                yield CallEnds(text, minute, hour, all_ends[end])

    def _rooms(self, overview: Overview) -> Iterator[Room]:
        """Yields how much is left of each limit."""
        for name, limit in overview.limits.items():
            yield room_of(name, limit)
        if overview.new_accounts is not None:
            yield room_of("new accounts in 24 hours", overview.new_accounts)
        if overview.uploads is not None:
            yield room_of("uploaded files", overview.uploads.room, is_bytes=True)
        for disk in overview.disks.values():
            limit = Limit(disk.total - disk.free, disk.total)
            yield room_of(f"disk of {disk.folder.resolve()}", limit, is_bytes=True)

    def _error_hosts(self) -> Iterator[ErrorHost]:
        """Yields the computers with the most errors and invalid results of the last day."""
        measurements, holds_back = self.overviews.measurements, self.rules().holds_back
        failed = {key: (errors, reports) for key, errors, reports in measurements.reports.worst(MOST_HOSTS)}
        hosts = self.statements.status().recent.hosts
        invalid = {one.host.key: one.invalid for one in hosts if one.invalid}
        worst = Counter({key: errors for key, (errors, _) in failed.items()}) + Counter(invalid)
        for key, _ in worst.most_common(MOST_HOSTS):
            errors, reports = failed.get(key, (0, 0))
            computer = self.directory.computer_of_key(key.authenticator, key.host_cpid)
            if computer is not None:
                account, wrong = shown_key(key.authenticator), invalid.get(key, 0)
                allowed = measurements.held_back.allowed(key) if holds_back else None
                yield ErrorHost(computer, account, errors, reports, wrong, allowed)

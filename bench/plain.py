#!/usr/bin/env python3
"""The scheduler in plain Python, over lists and dicts. `bench/run` compares the program with it.

usage: plain.py [SETTING=NUMBER..]
Reads the lines of a replay from standard input and prints the answers. docs/PROFILE.md states the formats and
the rules; this twin is written from them, not from the program. plain_formats.py has the formats. `hosts/ID`
is not supported.
"""
import re
import sys
from bisect import bisect_left
from collections import Counter
from dataclasses import dataclass, field
from typing import Any, Protocol

from plain_formats import (
    KINDS,
    NUMBER,
    Record,
    Refused,
    is_word,
    moment,
    read_json,
    record_of,
    rows_of,
    text,
)

Settings = dict[str, Any]
Version = tuple[int, str, str]  # its number, platform and class

SETTINGS: Settings = {
    "daily_result_quota": 4,
    "max_hosts": 3,
    "max_wus_in_progress": 3,
    "max_wus_to_send": 2,
    "request_delay": 60,
    "resend_lost_results": True,
}


# ---- What the scheduler knows


@dataclass(eq=False, slots=True)
class Account:
    """A user."""

    name: str
    hosts: list["Host"] = field(default_factory=list)
    units: set[str] = field(default_factory=set)  # the workunits that its hosts ever had an instance of


@dataclass(eq=False, slots=True)
class Host:
    """A volunteer's computer."""

    number: int
    account: Account
    quota: int
    facts: dict[str, int] = field(default_factory=dict)
    platforms: list[str] = field(default_factory=list)
    held: list["Instance"] = field(default_factory=list)  # its instances with neither report nor lapse
    sent: Counter[int] = field(default_factory=Counter)  # for each day, how many instances were sent
    credit: int = 0
    # number, canonical text and reply of the latest four calls
    kept: list[tuple[int, str, str]] = field(default_factory=list)


class HasFacts(Protocol):
    """A host, with what it said of its computer."""

    facts: dict[str, int]


class HasOperations(Protocol):
    """A workunit, or its row."""

    @property
    def rsc_fpops_est(self) -> int:
        """The operations that a job of it takes."""


class Unit:
    """A workunit. Its limits and its credit have the names of an import's columns."""

    min_quorum: int
    target_nresults: int
    max_error_results: int
    max_total_results: int
    max_success_results: int
    delay_bound: int
    rsc_fpops_est: int
    rsc_memory_bound: int
    rsc_disk_bound: int
    credit: int

    def __init__(self, place: int, row: list[str]) -> None:
        self.place, self.name, self.app = place, row[0], row[1]
        for column, value in zip(list(KINDS["workunits"][0])[2:], row[2:]):
            setattr(self, column, int(value))
        self.marked = row[12] == "1"
        self.version_class: str | None = None  # if marked: the class of the first granted instance's version
        self.status = "open"  # open, done, errors, success or total; the last three are failures
        self.instances: list[Instance] = []
        self.judged: list[Instance] = []  # the instances with a judged report, in the order of their places
        self.add(self.target_nresults)

    def failed(self) -> bool:
        """Returns whether the workunit failed."""
        return self.status not in ("open", "done")

    def add(self, count: int) -> None:
        """Adds new instances with the next numbers."""
        for _ in range(count):
            self.instances.append(Instance(self, len(self.instances)))

    def unsent(self) -> "Instance | None":
        """Returns the first instance without an owner."""
        return next((instance for instance in self.instances if instance.host is None), None)


@dataclass(eq=False, slots=True)
class Instance:
    """One result of a workunit."""

    unit: Unit
    number: int
    host: Any = None  # its owner: a Host, and in plain_tables.py the number of one
    sent: int | None = None
    deadline: int | None = None
    lapse: str | None = None  # late or dropped
    exit_status: int | None = None  # the report's
    output: str | None = None
    verdict: bool | None = None  # valid or invalid

    def name(self) -> str:
        """Returns the name of the result."""
        return f"{self.unit.name}_{self.number}"

    def place(self) -> tuple[int, int]:
        """Returns its place: the workunit's place and the number of the instance."""
        return self.unit.place, self.number

    def held(self) -> bool:
        """Returns whether it has an owner, and neither a report nor a lapse."""
        return self.host is not None and self.exit_status is None and self.lapse is None

    def due(self) -> int:
        """Returns the deadline that its owner has."""
        assert self.deadline is not None
        return self.deadline


# ---- Counting a workunit


def agree(agreement: str, one: str, other: str) -> bool:
    """Returns whether two outputs agree."""
    if one == other:
        return True
    if agreement == "exact" or not (NUMBER.fullmatch(one) and NUMBER.fullmatch(other)):
        return False
    return abs(int(one) - int(other)) <= int(agreement.removeprefix("within:"))


def same(agreement: str, one: Instance, other: Instance) -> bool:
    """Returns whether the outputs of two reports agree."""
    assert one.output is not None and other.output is not None
    return agree(agreement, one.output, other.output)


def canonical(agreement: str, unit: Unit, good: list[Instance]) -> Instance | None:
    """Returns the canonical result: the first report with enough votes in the shortest front that has one."""
    enough, votes = unit.min_quorum // 2 + 1, list[int]()
    for size, last in enumerate(good, 1):
        near = [same(agreement, one, last) for one in good[:size]]  # the last agrees with itself
        votes = [many + vote for many, vote in zip([*votes, 0], near)]
        votes[-1] = sum(near)
        if size >= unit.min_quorum and max(votes) >= enough:
            return next(one for one, many in zip(good, votes) if many >= enough)
    return None


def status(unit: Unit, good: list[Instance], need: int, best: Instance | None) -> str:
    """Returns the status of a workunit with these good reports, this need and this canonical result."""
    if best is not None:
        return "done"
    if len(unit.judged) - len(good) > unit.max_error_results:
        return "errors"
    if len(good) > unit.max_success_results:
        return "success"
    if len(unit.instances) + need > unit.max_total_results:
        return "total"
    return "open"


def settle(agreement: str, unit: Unit) -> list[Instance]:
    """Counts a workunit anew and adds the instances that it needs. Returns those with a new verdict."""
    good = [instance for instance in unit.judged if instance.exit_status == 0]
    live = sum(instance.host is None or instance.held() for instance in unit.instances)
    want = max(unit.target_nresults, len(good) + 1 if len(good) >= unit.min_quorum else 0)
    need = max(0, want - live - len(good))
    best = canonical(agreement, unit, good)
    unit.status = status(unit, good, need, best)
    if unit.status == "open":
        unit.add(need)
    fresh = [instance for instance in good if unit.status == "done" and instance.verdict is None]
    for instance in fresh:
        instance.verdict = best is not None and same(agreement, best, instance)
    return fresh


def estimate(unit: HasOperations, host: HasFacts) -> int:
    """Returns the seconds that a job takes on a host, rounded up, at least 1."""
    return max(1, -(-unit.rsc_fpops_est // host.facts["p_fpops"]))


# ---- The job machine


class Machine:
    """The world: its rows, and how a call, a tick and an import change them."""

    def __init__(self, settings: Settings) -> None:
        self.settings = settings
        self.hosts: dict[tuple[str, str], Host] = {}  # by account and client
        self.rows: dict[str, dict[str, Any]] = {kind: {} for kind in KINDS}  # what exists, by kind and name
        self.newest: dict[tuple[str, str], tuple[int, str]] = {}  # by app and platform: number and class
        self.places: list[Unit] = []  # the workunits in the order of their places
        self.queued: list[int] = []  # the places of open workunits with an unsent instance, in order

    def add_row(self, kind: str, name: str, row: list[str]) -> None:
        """Adds an account, an application, a version or a workunit."""
        if kind == "accounts":
            self.rows[kind][name] = Account(row[1])
        elif kind == "apps":
            self.rows[kind][name] = row[1]
        elif kind == "versions":
            self.rows[kind][name] = number = int(row[2])
            self.newest[row[0], row[1]] = max((number, row[3]), self.newest.get((row[0], row[1]), (0, "")))
        else:
            self.rows[kind][name] = unit = Unit(len(self.places), row)
            self.places.append(unit)
            self.requeue(unit)

    def requeue(self, unit: Unit) -> None:
        """Puts a workunit into the queue or takes it out, according to its present state."""
        at = bisect_left(self.queued, unit.place)
        stands = at < len(self.queued) and self.queued[at] == unit.place
        waits = unit.status == "open" and unit.unsent() is not None
        if waits and not stands:
            self.queued.insert(at, unit.place)
        if stands and not waits:
            del self.queued[at]

    def instance(self, host: Host, name: str) -> Instance | None:
        """Returns the instance of that name if the host owns it, otherwise None."""
        unit_name, _, number = name.rpartition("_")
        unit = self.rows["workunits"].get(unit_name)
        if unit is None or not re.fullmatch("0|[1-9][0-9]?", number) or int(number) >= len(unit.instances):
            return None
        instance: Instance = unit.instances[int(number)]
        return instance if instance.host is host else None

    def version(self, host: Host, app: str) -> Version | None:
        """Returns number, platform and class of the newest version for the first platform that has one."""
        for platform in host.platforms:
            if (app, platform) in self.newest:
                number, version_class = self.newest[app, platform]
                return number, platform, version_class
        return None

    def fits(self, host: Host, unit: Unit) -> bool:
        """Returns whether the host can run the workunit in time, with a version of its class, if any."""
        version = self.version(host, unit.app)
        return (
            unit.rsc_memory_bound <= host.facts["m_nbytes"]
            and unit.rsc_disk_bound <= host.facts["d_free"]
            and estimate(unit, host) <= unit.delay_bound
            and version is not None
            and unit.version_class in (None, version[2])
        )

    def settle_all(self, touched: list[Unit], charges: Counter[Host]) -> None:
        """Settles touched workunits, then changes credits and quotas. `charges` are those before verdicts."""
        merits: Counter[Host] = Counter()
        for unit in dict.fromkeys(touched):
            for instance in settle(self.rows["apps"][unit.app], unit):
                (merits if instance.verdict else charges)[instance.host] += 1
                instance.host.credit += unit.credit if instance.verdict else 0
            self.requeue(unit)
        for host in {**charges, **merits}:
            quota = max(1, host.quota - charges[host]) * 2 ** merits[host]
            host.quota = min(self.settings["daily_result_quota"], quota)

    def take_reports(self, host: Host, results: list[Record], charges: Counter[Host]) -> list[Unit]:
        """Records the host's reports of its own instances. Returns the workunits that this touches."""
        touched = []
        for report in results:
            instance = self.instance(host, report["name"])
            if instance is None or instance.exit_status is not None:
                continue
            if instance.held():
                host.held.remove(instance)
            instance.exit_status, instance.output = report["exit_status"], report["output"]
            if not instance.unit.failed():
                instance.unit.judged.append(instance)
                charges[host] += instance.exit_status != 0
            touched.append(instance.unit)
        return touched

    def take_lost(self, host: Host, listed: set[str], now: int) -> tuple[list[Instance], list[Unit]]:
        """Sends again or drops what the host holds and does not list. Returns the jobs sent again, and the
        workunits of the dropped ones."""
        resent, touched = [], []
        for instance in [instance for instance in host.held if instance.name() not in listed]:
            unit = instance.unit
            if unit.status == "open" and self.fits(host, unit):
                if now + estimate(unit, host) > instance.due():
                    instance.deadline = now + unit.delay_bound
                resent.append(instance)
            else:
                instance.lapse = "dropped"
                host.held.remove(instance)
                touched.append(unit)
        return sorted(resent, key=Instance.place), touched

    def aborts(self, host: Host, names: list[str]) -> list[str]:
        """Returns the names of results that the host should drop, each once."""
        aborted = []
        for name in dict.fromkeys(names):
            instance = self.instance(host, name)
            if instance is None or instance.exit_status is not None or instance.unit.failed():
                aborted.append(name)
        return aborted

    def choose(self, host: Host, seconds: int, asked: int, now: int) -> tuple[list[Instance], str]:
        """Returns the jobs for the host, ordered by place, and the end word: why there are no more."""
        jobs: list[Instance] = []
        queue = iter(self.queued)
        while True:
            if seconds >= asked:
                return jobs, "enough"
            if len(jobs) >= self.settings["max_wus_to_send"]:
                return jobs, "reply_limit"
            if len(host.held) + len(jobs) >= self.settings["max_wus_in_progress"]:
                return jobs, "in_progress_limit"
            if host.sent[now // 86400] + len(jobs) >= host.quota:
                return jobs, "daily_quota"
            units = (self.places[place] for place in queue)
            unit = next(
                (unit for unit in units if unit.name not in host.account.units and self.fits(host, unit)),
                None,
            )
            if unit is None:
                return jobs, "no_eligible_work"
            waiting = unit.unsent()
            assert waiting is not None  # it is queued
            jobs.append(waiting)
            seconds += estimate(unit, host)

    def send(self, host: Host, instance: Instance, now: int) -> None:
        """Makes the host the owner. A marked workunit without a class takes that of the host's version."""
        instance.host, instance.sent, instance.deadline = host, now, now + instance.unit.delay_bound
        host.held.append(instance)
        host.sent[now // 86400] += 1
        host.account.units.add(instance.unit.name)
        if instance.unit.marked and instance.unit.version_class is None:
            version = self.version(host, instance.unit.app)
            assert version is not None  # it fits the host
            instance.unit.version_class = version[2]
        self.requeue(instance.unit)

    def job(self, host: Host, instance: Instance, resent: bool) -> Record:
        """Returns what a reply says about a job."""
        version = self.version(host, instance.unit.app)
        assert version is not None  # it fits the host
        number, platform, _ = version
        return {
            "app_name": instance.unit.app,
            "estimate": estimate(instance.unit, host),
            "name": instance.name(),
            "platform": platform,
            "report_deadline": instance.deadline,
            "resent": resent,
            "version_num": number,
            "wu_name": instance.unit.name,
        }

    def call(self, host: Host, record: Record, now: int) -> Record:
        """Handles a fresh call of a host and returns its reply."""
        host.facts = record["host_info"]
        host.platforms = [record["platform_name"], *record["alt_platforms"]]
        listed: list[str] | None = record.get("other_results")
        charges: Counter[Host] = Counter()
        resent: list[Instance] = []
        dropped: list[Unit] = []
        touched = self.take_reports(host, record["results"], charges)
        if listed is not None and self.settings["resend_lost_results"]:
            resent, dropped = self.take_lost(host, set(listed), now)
        self.settle_all(touched + dropped, charges)
        aborts = self.aborts(host, listed or [])
        seconds = sum(estimate(instance.unit, host) for instance in resent)
        jobs, end_word = self.choose(host, seconds, record["work_req_seconds"], now)
        for instance in jobs:
            self.send(host, instance, now)
        return {
            "end_word": end_word,
            "host_total_credit": host.credit,
            "hostid": host.number,
            "request_delay": self.settings["request_delay"],
            "result_abort": aborts,
            "result_ack": list(dict.fromkeys(report["name"] for report in record["results"])),
            "results": [self.job(host, instance, True) for instance in resent]
            + [self.job(host, instance, False) for instance in jobs],
            "rpc_seqno": record["rpc_seqno"],
            "user_name": host.account.name,
            "user_total_credit": sum(other.credit for other in host.account.hosts),
        }

    def tick(self, now: int) -> int:
        """Lapses every held instance that is past its deadline. Returns how many did."""
        charges: Counter[Host] = Counter()
        touched = []
        for host in self.hosts.values():
            for instance in [instance for instance in host.held if instance.due() < now]:
                instance.lapse = "late"
                host.held.remove(instance)
                charges[host] += 1
                touched.append(instance.unit)
        self.settle_all(touched, charges)
        return len(touched)


# ---- The service: what is kept of calls and imports, and the refusals


class Service:
    """Answers the lines of a replay."""

    def __init__(self, settings: Settings = SETTINGS) -> None:
        self.machine = Machine(settings)
        self.batches: dict[tuple[str, str], tuple[str, str]] = {}

    def new_rows(self, kind: str, body: str) -> dict[str, list[str]]:
        """Returns the rows of an import by their names, after checking that the names are new."""
        _, names, app, most = KINDS[kind]
        stand, rows = self.machine.rows[kind], rows_of(kind, body)
        new: dict[str, list[str]] = {}
        for number, row in enumerate(rows, 1):
            name = " ".join(row[:names])
            if name in stand or name in new:
                raise Refused(409, 15, "duplicate_name", row=number)
            new[name] = row
        for number, row in enumerate(rows, 1):
            if app is not None and row[app] not in self.machine.rows["apps"]:
                raise Refused(409, 16, "unknown_reference", row=number)
        if len(stand) + len(rows) > most:
            raise Refused(409, 18, "table_full")
        return new

    def imported(self, kind: str, batch: str, body: str) -> str:
        """Returns the answer to an import."""
        if kind not in KINDS:
            raise Refused(404, 2, "no_route")
        if len(body.encode()) > 1048576:
            raise Refused(413, 5, "too_large")
        if (kind, batch) in self.batches:
            kept, answer = self.batches[kind, batch]
            if kept != body:
                raise Refused(409, 17, "batch_reused")
            return answer
        rows = self.new_rows(kind, body)
        for name, row in rows.items():
            self.machine.add_row(kind, name, row)
        answer = text({"batch": batch, "kind": kind, "rows": len(rows)})
        self.batches[kind, batch] = body, answer
        return answer

    def scheduler(self, body: bytes, now: int) -> str:
        """Returns the answer to a call."""
        record = record_of(body)
        hosts, account = self.machine.hosts, self.machine.rows["accounts"].get(record["authenticator"])
        if account is None:
            raise Refused(403, 8, "bad_account")
        key = record["authenticator"], record["host_info"]["host_cpid"]
        host = hosts.get(key)
        if record["hostid"] != 0 and (host is None or record["hostid"] != host.number):
            raise Refused(409, 9, "bad_host")
        seqno, request = record["rpc_seqno"], text(record)
        if host is not None:
            last = host.kept[0][0]
            before = next((call for call in host.kept if call[0] == seqno), None)
            if before is not None and before[1] == request:
                return before[2]
            if seqno <= last:
                raise Refused(409, *((11, "reused") if before is not None else (10, "stale")), last=last)
        elif len(hosts) >= self.machine.settings["max_hosts"]:
            raise Refused(409, 12, "hosts_full")
        else:
            host = hosts[key] = Host(len(hosts) + 1, account, self.machine.settings["daily_result_quota"])
            account.hosts.append(host)
        reply = text(self.machine.call(host, record, now))
        host.kept = [(seqno, request, reply), *host.kept[:3]]
        return reply

    def answer(self, line: bytes) -> tuple[int, str]:
        """Returns status and body of the answer to a line. Raises ValueError if it is no line of a replay."""
        instant, _, rest = line.partition(b" ")
        word, space, body = rest.partition(b" ")
        now = moment(instant.decode())
        parts = word.decode().split("/")
        try:
            if parts == ["scheduler"]:
                return 200, self.scheduler(body, now)
            if parts == ["tick"] and not space:
                return 200, text({"lapsed": self.machine.tick(now)})
            if parts == ["account"] and is_word(name := body.decode()):
                return 200, self.imported("accounts", name, f"authenticator,name\n{name},{name}\n")
            if parts[0] == "import" and len(parts) == 3 and all(map(is_word, parts)):
                if isinstance(text_body := read_json(body.decode()), str):
                    return 200, self.imported(parts[1], parts[2], text_body)
        except Refused as refusal:
            return refusal.status, refusal.body
        raise ValueError(line)


# ---- The replay


def settings_of(args: list[str]) -> Settings:
    """Returns the settings, changed by those that the command line names."""
    changes = dict(word.split("=") for word in args)
    if not changes.keys() <= SETTINGS.keys():
        sys.exit(__doc__)
    return {**SETTINGS, **{name: int(value) for name, value in changes.items()}}


def main() -> None:
    """Answers the lines of standard input."""
    service = Service(settings_of(sys.argv[1:]))
    for number, line in enumerate(sys.stdin.buffer, 1):
        line = line.removesuffix(b"\n")
        try:
            if number > 1_000_000 or len(line) > 1_100_000:
                raise ValueError(number)
            status, body = service.answer(line)
        except ValueError:
            sys.exit(f"plain: line {number}")
        sys.stdout.write(f"{status} {body}\n")


if __name__ == "__main__":
    main()

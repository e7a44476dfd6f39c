"""The tables of the case `dear` of `bench/serve` (serve_dear.py), which SQL fills.

In the large file workunits have 100 instances, as many as they may have. 99 were reported, and all reports
differ. One is a host's job. In the small file workunits have two instances.
"""
import itertools
import shutil
import sqlite3
import time
from collections.abc import Callable, Iterable, Iterator
from contextlib import closing
from dataclasses import astuple, dataclass
from typing import Any

import plain_tables
import serve_life
from serve_life import CREDIT, DELAY, FPOPS, HOUR
from serve_worst import FRESH, MOST_JOBS, MOST_REPORTS, SETTINGS

INSTANCES = 100  # of a large workunit
DIGITS = 1024  # how long an output may be
LONG = 240  # how many reports with such outputs fit into a call
EACH = (
    10  # how many results each host of the busy user has, and how many late jobs one large workunit or host
)
WAITING = 250  # how many small workunits wait at least
START = 1_600_000_000  # when jobs were sent whose deadlines have passed
LIMITS = f"{DELAY},{HOUR * FPOPS},1000000000,1000000000,{CREDIT}"
GIVEN = "UPDATE instance SET queued = 0, host_id = ?, sent = ?, deadline = ?"
REPORTED = f"{GIVEN}, outcome = 1, output = ?, place = ?"
AT = " WHERE unit_id = ? AND num = ?"
COUNT_HELD = (
    "UPDATE host SET held = (SELECT count(*) FROM instance "
    "WHERE host_id = host.id AND outcome IS NULL AND lapse = 0)"
)
COUNT_CREDIT = (
    f"UPDATE host SET credit = {CREDIT} * (SELECT count(*) FROM instance JOIN unit ON unit.id = unit_id "
    "WHERE host_id = host.id AND outcome = 1 AND status = 1)"
)


def filled(program: str, path: str, lines: dict[str, list[str]], hosts: Iterable[tuple[int, int]]) -> None:
    """Creates tables with these rows of imports, and with hosts that called once, each with its user."""
    serve_life.create(program, path, SETTINGS)
    tables = plain_tables.Tables(path, synchronous="OFF")
    service = plain_tables.Service(tables)
    for kind, rows in lines.items():
        serve_life.import_rows(service, kind, rows)
    tables.put([row for host, user in hosts for row in serve_life.host_rows(host, user)])
    tables.connection.close()


def change(path: str, statements: Callable[[sqlite3.Connection], None]) -> None:
    """Changes tables in one transaction. Hosts then have the counts of what they hold, and their credit."""
    with closing(sqlite3.connect(path, isolation_level=None)) as connection:
        connection.execute("PRAGMA synchronous = OFF")
        connection.execute("BEGIN")
        statements(connection)
        connection.execute(COUNT_HELD)
        connection.execute(COUNT_CREDIT)
        connection.execute("COMMIT")
        connection.execute("PRAGMA wal_checkpoint(TRUNCATE)")


@dataclass(frozen=True)
class Sizes:
    """How large the cases are: the jobs of a host, the reports of a call, late jobs, hosts of a user, and
    results of a host."""

    jobs: int = MOST_JOBS
    reports: int = MOST_REPORTS
    long: int = LONG
    late: int = 10_000
    hosts: int = 5000
    results: int = 20_000

    def part(self, number: int) -> "Sizes":
        """Returns smaller sizes, divided by a number."""
        return Sizes(*(max(EACH, size // number) for size in astuple(self)))


# ---- Large workunits


@dataclass(frozen=True)
class Shape:
    """An application with workunits whose reports all differ. `units` are the numbers of its workunits, and
    `holder` is the host that has the last instance of each."""

    what: str
    app: str
    agreement: str
    units: range
    holder: int
    is_long: bool = False

    def output(self, host: int) -> str:
        """Returns what a host reports: a whole number, or many digits that differ at their end."""
        return str(10**17 + 10 * host) if not self.is_long else f"{host:03}".rjust(DIGITS, "7")

    def names(self, count: int, number: int = INSTANCES - 1) -> list[str]:
        """Returns the names of an instance of its first workunits."""
        return [f"unit-{unit}_{number}" for unit in self.units[:count]]


def ranges(first: int, *counts: int) -> Iterator[range]:
    """Yields ranges of these lengths, one after the other."""
    for count in counts:
        yield range(first, first + count)
        first += count


class Large:
    """The shapes of the large file. Each host is the only one of its user."""

    def __init__(self, sizes: Sizes) -> None:
        self.sizes, self.hosts = sizes, INSTANCES + 3
        near, equal, equal_long, near_long = ranges(1, sizes.jobs, sizes.reports, sizes.long, sizes.long)
        digits = f"outputs of {DIGITS} digits"
        self.shapes = [
            Shape("within:2", "near", "within:2", near, INSTANCES),
            Shape("exact", "equal", "exact", equal, INSTANCES + 1),
            Shape(f"exact, {digits}", "equal-long", "exact", equal_long, INSTANCES + 2, True),
            Shape(f"within:2, {digits}", "near-long", "within:2", near_long, INSTANCES + 3, True),
        ]

    def reports(self, now: int) -> Iterator[tuple[Any, ...]]:
        """Yields the values of the reported instances: all but the last of each workunit."""
        for shape in self.shapes:
            for unit in shape.units:
                for host in range(1, INSTANCES):
                    yield host, now - HOUR, now - HOUR + DELAY, shape.output(host), host, unit, host - 1

    def make(self, program: str, path: str) -> None:
        """Makes the file."""
        limits = f"2,{INSTANCES},{INSTANCES},{INSTANCES},{INSTANCES},{LIMITS}"
        lines = {
            "accounts": [f"user{user},User {user}" for user in range(1, self.hosts + FRESH + 1)],
            "apps": [f"{shape.app},{shape.agreement}" for shape in self.shapes],
            "versions": [f"{shape.app},x86_64-pc-linux-gnu,1" for shape in self.shapes],
            "workunits": [f"unit-{n},{shape.app},{limits}" for shape in self.shapes for n in shape.units],
        }
        filled(program, path, lines, ((host, host) for host in range(1, self.hosts + 1)))
        now = int(time.time())

        def statements(connection: sqlite3.Connection) -> None:
            connection.executemany(REPORTED + AT, self.reports(now))
            for shape in self.shapes:
                held = ((shape.holder, now - HOUR, now - HOUR + DELAY, n, INSTANCES - 1) for n in shape.units)
                connection.executemany(GIVEN + AT, held)

        change(path, statements)

    def late_units(self) -> int:
        """Returns how many workunits have late jobs."""
        return self.sizes.late // EACH

    def make_late(self, path: str, copy: str) -> None:
        """Makes a copy of the file in which the last reports of the first workunits did not come, and their
        deadlines are past."""
        shutil.copyfile(path, copy)
        values = START, START + DELAY, self.late_units(), INSTANCES - 1 - EACH, INSTANCES - 2

        def statements(connection: sqlite3.Connection) -> None:
            given = "sent = ?, deadline = ?, outcome = NULL, output = NULL, place = NULL"
            where = "WHERE unit_id <= ? AND num BETWEEN ? AND ?"
            connection.execute(f"UPDATE instance SET {given} {where}", values)

        change(copy, statements)


# ---- Small workunits


class Small:
    """Which workunits and hosts of the small file a case has. Half of the results of done workunits are those
    of the busy user's hosts. The busy host has others, and one more host has the rest. Each host but those of
    the busy user is its user's only one."""

    def __init__(self, sizes: Sizes) -> None:
        self.sizes = sizes
        done = max(EACH * sizes.hosts, sizes.results)
        self.done, self.late, self.lost, self.agreed, self.waiting = ranges(
            1, done, sizes.late, sizes.jobs, sizes.reports, WAITING
        )
        (
            (busy,),
            self.many,
            (self.other,),
            self.late_hosts,
            (self.loser,),
            self.first,
            (self.second,),
        ) = ranges(1, 1, sizes.hosts, 1, sizes.late // EACH, 1, sizes.reports, 1)
        self.busy_host = busy

    def user_of(self, host: int) -> int:
        """Returns the user of a host: 1 is the busy host's, and 2 has the many hosts."""
        return host if host <= 2 else max(2, host - len(self.many) + 1)

    def free_users(self) -> Iterator[int]:
        """Returns users without a host."""
        return itertools.count(self.user_of(self.second) + 1)

    def reports(self) -> Iterator[tuple[Any, ...]]:
        """Yields the values of the reported instances."""
        for unit in self.done:
            owner = self.busy_host if unit <= self.sizes.results else self.other
            for number, host in enumerate((owner, self.many[unit % len(self.many)])):
                yield host, START + unit, START + unit + DELAY, str(
                    unit * 37 % 1000
                ), number + 1, unit, number
        for host, unit in zip(self.first, self.agreed):
            yield host, START + unit, START + unit + DELAY, "42", 1, unit, 0

    def held(self, now: int) -> Iterator[tuple[Any, ...]]:
        """Yields the values of the held instances: those that are late come first."""
        for host, unit in zip(itertools.cycle(self.late_hosts), self.late):
            yield host, START, START + DELAY, unit, 0
        for unit in self.lost:
            yield self.loser, now - HOUR, now - HOUR + DELAY, unit, 0
        for unit in self.agreed:
            yield self.second, now - HOUR, now - HOUR + DELAY, unit, 1

    def make(self, program: str, path: str) -> None:
        """Makes the file."""
        last_user, last = self.user_of(self.second), self.waiting[-1]
        lines = {
            "accounts": [f"user{user},User {user}" for user in range(1, last_user + FRESH + 1)],
            "apps": ["dock,exact", "d,exact"],
            "versions": ["dock,x86_64-pc-linux-gnu,1"],
            "workunits": [f"unit-{number},dock,2,2,3,8,6,{LIMITS}" for number in range(1, last + 1)],
        }
        filled(program, path, lines, ((host, self.user_of(host)) for host in range(1, self.second + 1)))
        now = int(time.time())

        def statements(connection: sqlite3.Connection) -> None:
            connection.executemany(REPORTED + AT, self.reports())
            connection.execute("UPDATE unit SET status = 1 WHERE id <= ?", (self.done[-1],))
            connection.executemany(GIVEN + AT, self.held(now))

        change(path, statements)

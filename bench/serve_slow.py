"""The case `slow` of `bench/serve`: slow calls, and the first tick after an opening, over 200,000 workunits.

There are three files of tables. Each is a copy of the largest project, in which SQL changes the past. One
file is not enough. A workunit at the front has two instances: one was a user's, and the other waits. So only
one user can lead the front. In each file a fresh host calls too, and the other calls are compared with its
calls.
"""
import json
import os
import shutil
import sqlite3
import statistics
import time
from collections.abc import Callable
from dataclasses import dataclass
from typing import Any

import serve_life
from played import Options, Played, begun, ended, limit_time
from serve_life import CREDIT, DELAY, MOST, Client, copied, hosts_of, made, standing, user_of
from served import wants

HOSTS = 5000  # how many hosts a busy user has
EIGHT = 8  # how many workunits are looked up by key before a user's past is listed
FRONT = 20_000  # how many of the first waiting workunits a user had
TODAY, HELD = 900, 8  # how many jobs a host got today, and how many of them it still has
DONE = 50_000  # how many of the last workunits are done, with two results each
CALLS = TICKS = 41  # how many calls each client makes after its first, and how many ticks there are
BUSY, LEADING, GIVEN = 1, HOSTS + 1, 2 * HOSTS + 1  # the callers of the first file
# what hosts return for a workunit: the output on which all clients agree
OUTPUT = "CAST(unit_id * 37 % 1000 AS TEXT)"
# the columns of an instance that a host returned long ago, in time
RETURNED = (
    f"sent = 1600000000 + unit_id, deadline = 1600000000 + unit_id + {DELAY}, "
    f"outcome = 1, output = {OUTPUT}, queued = 0"
)


# ---- Tables


def changed(program: str, name: str, change: Callable[[sqlite3.Connection], None]) -> str:
    """Returns the path of a copy of the largest tables, which `change` changed in one transaction."""
    path = os.path.join(serve_life.MADE.name, f"{name}.db")
    shutil.copyfile(made(program, MOST), path)
    connection = sqlite3.connect(path, isolation_level=None)
    connection.execute("BEGIN")
    change(connection)
    connection.execute("COMMIT")
    connection.close()
    return path


def gather(connection: sqlite3.Connection, first: int, count: int) -> None:
    """Makes a number of hosts, from a first one on, the only hosts of the first one's user."""
    hosts = first, first + count - 1
    connection.execute("UPDATE host SET account_id = ? WHERE id BETWEEN ? AND ?", (user_of(first), *hosts))
    others = "UPDATE host SET account_id = account_id + 1 WHERE account_id = ? AND id NOT BETWEEN ? AND ?"
    connection.execute(others, (user_of(first), *hosts))


def lead(connection: sqlite3.Connection, first: int, count: int, units: int) -> None:
    """Gives one instance of each of the first workunits to hosts, from a first one on. They returned all."""
    given = f"host_id = ? + unit_id % ?, place = 1, {RETURNED}"
    connection.execute(f"UPDATE instance SET {given} WHERE unit_id <= ? AND num = 0", (first, count, units))


def finish(connection: sqlite3.Connection) -> None:
    """Makes the last workunits done, each by a host of one busy user and a host of the other. So each of
    their hosts has returned ten results, and has credit."""
    given = f"host_id = ? - num * ? + unit_id % ?, place = num + 1, {RETURNED}"
    owners = LEADING, LEADING - BUSY, HOSTS, MOST - DONE
    connection.execute(f"UPDATE instance SET {given} WHERE unit_id > ?", owners)
    connection.execute("UPDATE unit SET status = 1 WHERE id > ?", (MOST - DONE,))
    results = "SELECT count(*) FROM instance WHERE host_id = host.id AND unit_id > ?"
    values = CREDIT, MOST - DONE, LEADING + HOSTS
    connection.execute(f"UPDATE host SET credit = ? * ({results}) WHERE id < ?", values)


def give_today(connection: sqlite3.Connection, host: int) -> None:
    """Gives jobs to a host on this day. It returned all but the last few."""
    now, first = int(time.time()), MOST // 2
    day = now // 86400 * 86400
    given = (
        "UPDATE instance SET host_id = ?, sent = ? + (unit_id - ?) * ? / ?, queued = 0 "
        "WHERE unit_id > ? AND unit_id <= ? AND num = 0"
    )
    connection.execute(given, (host, day, first, now - day, TODAY + 1, first, first + TODAY))
    connection.execute("UPDATE instance SET deadline = sent + ? WHERE host_id = ?", (DELAY, host))
    returned = f"outcome = 1, output = {OUTPUT}, place = 1"
    last = first + TODAY - HELD
    connection.execute(f"UPDATE instance SET {returned} WHERE host_id = ? AND unit_id <= ?", (host, last))
    connection.execute("UPDATE host SET held = ? WHERE id = ?", (HELD, host))


def make_hosts(connection: sqlite3.Connection) -> None:
    """Makes two users with many hosts, one of whom had the first eight waiting workunits, a host with many
    jobs today, and results whose deadlines are past."""
    gather(connection, BUSY, HOSTS)
    gather(connection, LEADING, HOSTS)
    lead(connection, LEADING, HOSTS, EIGHT)
    give_today(connection, GIVEN)
    finish(connection)


def make_one(connection: sqlite3.Connection) -> None:
    """Makes a user with one host, which had the first waiting workunits."""
    gather(connection, 1, 1)
    lead(connection, 1, 1, FRONT)


def make_many(connection: sqlite3.Connection) -> None:
    """Makes a user with many hosts, which had the first waiting workunits."""
    gather(connection, 1, HOSTS)
    lead(connection, 1, HOSTS, FRONT)


# ---- Calls and ticks


@dataclass
class Took:
    """The processor milliseconds that each program took for the first call, and their median for a later
    call. A ratio is how many times as long the program took as the reference. For the later calls it is the
    median."""

    first: list[float]
    later: list[float]
    first_ratio: float
    later_ratio: float


def took_of(each: list[list[float]]) -> Took:
    """Returns what calls took, given the milliseconds of each program for each call."""
    first, *later = [one[0] / one[-1] for one in each]
    medians = [statistics.median(every) for every in zip(*each[1:])]
    return Took(each[0], medians, first, statistics.median(later))


class Slow(Played):
    """Calls of clients that report the right output, and ticks. Each is timed."""

    def __init__(self, programs: list[str], path: str, folder: str) -> None:
        copies = [copied(path, folder, f"{number}.slow.db") for number in range(len(programs))]
        super().__init__([begun(program, copy) for program, copy in zip(programs, copies)], timed=True)

    def report(self, name: str) -> dict[str, Any]:
        """Returns what a client reports of a job that it finished."""
        unit = int(name.split("_")[0].removeprefix("unit-"))
        return {"name": name, "exit_status": 0, "output": str(unit * 37 % 1000)}

    def calls_of(self, *clients: Client) -> list[Took]:
        """Lets clients call in turn. The first call of a client gets a job. Each later one reports a job and
        gets one."""
        each: list[list[list[float]]] = [[] for _ in clients]
        for _ in range(CALLS + 1):
            for client, every in zip(clients, each):
                self.call(client, 1)
                wants(len(client.jobs), 1, f"how many jobs {client.cpid} has")
                every.append([seconds * 1e3 for seconds in self.seconds])
        return [took_of(every) for every in each]

    def ticks(self) -> Took:
        """Sends ticks, at which nothing is late."""
        each = []
        for _ in range(TICKS + 1):
            for answer, _, _ in self.exchange_all(serve_life.TICK):
                wants(json.loads(answer.rpartition(b"\r\n\r\n")[2]), {"lapsed": 0}, "a tick")
            each.append([seconds * 1e3 for seconds in self.seconds])
        return took_of(each)

    def end(self) -> None:
        """Ends the servers."""
        for run in self.runs:
            ended(run)


def tell(what: str, took: list[float], fresh: Took, ratio: float, others: list[str]) -> None:
    """Prints what something took, compared with a call of a fresh host and with the reference. Another
    figure is printed for each program, too."""
    lines = []
    for number, milliseconds in enumerate(took):
        one = f"{milliseconds:.2f} milliseconds"
        if took is not fresh.later:
            one += f", {milliseconds / fresh.later[number]:.2f} times a fresh host's call"
        lines.append(f"{'by the reference ' if number else ''}{one} ({others[number]})")
    if len(took) > 1:
        lines.append(f"{ratio:.2f} times the reference")
    print(f"slow: {what}: {'; '.join(lines)}", flush=True)


def tell_calls(what: str, took: Took, fresh: Took) -> None:
    """Prints what the later calls of a client took, and the first one."""
    tell(what, took.later, fresh, took.later_ratio, [f"the first call {first:.2f}" for first in took.first])


def tell_ticks(took: Took, fresh: Took) -> None:
    """Prints what the first tick took, and a later one."""
    pairs = zip(took.first, took.later)
    others = [f"{first / later:.1f} times a later tick, which takes {later:.2f}" for first, later in pairs]
    what = f"the first tick after an opening, {2 * DONE} deadlines are past"
    tell(what, took.first, fresh, took.first_ratio, others)
    if len(took.later) > 1:
        print(f"slow: a later tick takes {took.later_ratio:.2f} times the reference", flush=True)


def slow_hosts(programs: list[str], folder: str) -> None:
    """Measures the cases of the first file. The ticks come first. Then the user who had the first eight
    waiting workunits calls in turn with a fresh host: each of its calls adds a workunit to the eight, and
    each fresh call takes one of them. The others call in turn, too. If one called alone, it would soon have
    had the first waiting workunits itself."""
    played = Slow(programs, changed(programs[0], "hosts", make_hosts), folder)
    client = standing(hosts_of(MOST))
    ticks = played.ticks()
    leading, before = played.calls_of(standing(LEADING), client)
    given = standing(GIVEN)
    given.jobs = [f"unit-{MOST // 2 + number}_0" for number in range(TODAY - HELD + 1, TODAY + 1)]
    fresh, busy, today = played.calls_of(client, standing(BUSY), given)
    played.end()
    tell_calls("a fresh host", fresh, fresh)
    tell_calls(f"a user with {HOSTS} hosts", busy, fresh)
    tell_calls(f"the same, if the user had the first {EIGHT} waiting workunits", leading, before)
    tell_calls(f"a host that got {TODAY} jobs today", today, fresh)
    tell_ticks(ticks, before)


def slow_front(
    programs: list[str], folder: str, name: str, what: str, make: Callable[[sqlite3.Connection], None]
) -> None:
    """Measures a user who had the first waiting workunits."""
    played = Slow(programs, changed(programs[0], name, make), folder)
    fresh, leading = played.calls_of(standing(hosts_of(MOST)), standing(1))
    played.end()
    tell_calls("a fresh host", fresh, fresh)
    who = f"a user with {what} who had one of each of the first {FRONT} waiting workunits"
    tell_calls(who, leading, fresh)


def slow(options: Options, folder: str) -> None:
    """Measures the slow cases."""
    limit_time("slow", 1800)
    day = int(time.time()) // 86400
    slow_hosts(options.programs(), folder)
    wants(int(time.time()) // 86400, day, "the day on which the jobs of today were given")
    slow_front(options.programs(), folder, "one", "one host", make_one)
    slow_front(options.programs(), folder, "many", f"{HOSTS} hosts", make_many)

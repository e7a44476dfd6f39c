"""The case `worst` of `bench/serve`: the dearest calls that clients can bring about with reports.

Each workunit has 100 instances, as many as it may have, and a quorum of two. 100 hosts of as many users get
one instance of each, and all report outputs that differ, so that no two agree. The application compares
outputs as whole numbers at most two apart: a pair costs more than under equality. serve_dear.py has other
dear messages.
"""
import os
import sqlite3
import statistics
from typing import Any

import serve_life
from plain_formats import KINDS
from played import Options, Played, begun, ended, limit_time
from serve_life import DELAY
from served import wants

HOSTS = 100  # of as many users, one for each instance of a workunit
REPORTED = 10, 20, 50, 99  # how many reports a workunit has before the one that is timed
NAMED = 24  # how many of its jobs a host names at first
MOST_REPORTS = 256  # how many reports a call may have
MOST_JOBS = 1000  # how many jobs a host may hold
MOST_SENT = 100  # how many jobs a reply may bring
FRESH = 31  # how many calls of fresh hosts are timed
SETTINGS = serve_life.SETTINGS | {
    "daily_result_quota": 1_000_000,
    "max_wus_in_progress": MOST_JOBS,
    "max_wus_to_send": MOST_SENT,
}
LIMITS = f"2,100,100,100,100,{DELAY},1,1000000,1000000,5000"


def create(program: str, folder: str) -> str:
    """Creates tables with enough accounts and workunits, and returns their path."""
    tables = os.path.join(folder, "worst.db")
    serve_life.create(program, tables, SETTINGS)
    users = [f"user{user},User {user}" for user in range(1, HOSTS + FRESH + 1)]
    units = [f"unit-{unit},fold,{LIMITS}" for unit in range(1, MOST_JOBS + 1)]
    imports = {
        "accounts": ["authenticator,name", *users],
        "apps": ["name,agreement", "fold,within:2"],
        "versions": ["app,platform,version_num", "fold,x86_64-pc-linux-gnu,1"],
        "workunits": [",".join(KINDS["workunits"][0]), *units],
    }
    texts = {kind: "\n".join([*lines, ""]) for kind, lines in imports.items()}
    serve_life.import_texts(program, tables, texts)
    connection = sqlite3.connect(tables)
    connection.execute("PRAGMA wal_checkpoint(TRUNCATE)")  # the database file alone is copied
    connection.close()
    return tables


class Worst(Played):
    """Calls of the hosts. Host n belongs to user n."""

    def __init__(self, programs: list[str], tables: str, folder: str) -> None:
        copies = [serve_life.copied(tables, folder, f"{n}.worst.db") for n in range(len(programs))]
        super().__init__([begun(program, copy) for program, copy in zip(programs, copies)], timed=True)
        self.numbers = [0] * (HOSTS + FRESH + 1)

    def ask(self, host: int, **fields: Any) -> tuple[dict[str, Any], list[float]]:
        """Makes a call of a host. Returns its reply and the milliseconds of each program."""
        self.numbers[host] += 1
        reply = self.send(serve_life.request(host, f"host{host}", self.numbers[host], **fields))
        if reply is None:
            raise SystemExit(f"a call of host {host} is refused")
        return reply, [seconds * 1e3 for seconds in self.seconds]

    def take_jobs(self, host: int) -> list[str]:
        """Lets a host get an instance of each workunit, and returns their names."""
        names: list[str] = []
        for _ in range(MOST_JOBS // MOST_SENT):
            reply, _ = self.ask(host, work_req_seconds=MOST_SENT)
            names += [job["name"] for job in reply["results"]]
        wants(len(names), MOST_JOBS, f"how many jobs host {host} got")
        return names

    def report_all(self, host: int, names: list[str]) -> list[float]:
        """Lets a host report an output of its own for each name. Returns the milliseconds."""
        took = [0.0] * len(self.runs)
        for first in range(0, len(names), MOST_REPORTS):
            results = [
                {"name": name, "exit_status": 0, "output": str(10**17 + 10 * host)}
                for name in names[first : first + MOST_REPORTS]
            ]
            _, milliseconds = self.ask(host, results=results)
            took = milliseconds
        return took

    def end(self) -> None:
        """Ends the servers."""
        for run in self.runs:
            ended(run)


def tell(what: str, took: list[float], fresh: list[float]) -> None:
    """Prints what a call took, compared with a call of a fresh host."""
    each = [
        f"{one:.2f} milliseconds, {one / usual:.1f} times a fresh call" for one, usual in zip(took, fresh)
    ]
    print(f"worst: {what}: {'; by the reference '.join(each)}", flush=True)


def worst(options: Options, folder: str) -> None:
    """Measures the dearest calls."""
    limit_time("worst", 1800)
    programs = options.programs()
    played = Worst(programs, create(programs[0], folder), folder)
    none: list[str] = []
    names = [none, *(played.take_jobs(host) for host in range(1, HOSTS + 1))]
    reports = {}
    for host in range(1, HOSTS):
        if host - 1 in REPORTED:
            reports[host - 1] = played.report_all(host, names[host][:1])
            played.report_all(host, names[host][1:])
        else:
            last = played.report_all(host, names[host])
    each = [played.ask(HOSTS + number, work_req_seconds=0)[1] for number in range(1, FRESH + 1)]
    fresh = [statistics.median(one) for one in zip(*each)]
    tell("a fresh host's call, without a job", fresh, fresh)
    for count, took in reports.items():
        tell(f"a further report of a workunit with {count} reports that all differ", took, fresh)
    many = f"a call with {MOST_REPORTS} reports of workunits with {HOSTS - 2} reports that all differ"
    tell(many, last, fresh)
    _, took = played.ask(HOSTS, other_results=names[HOSTS][:NAMED])
    tell(
        f"a call that lists {NAMED} of {MOST_JOBS} such jobs, so that the others are sent again", took, fresh
    )
    _, took = played.ask(HOSTS, other_results=names[HOSTS])
    tell(f"a call that lists {MOST_JOBS} such jobs", took, fresh)
    took = played.report_all(HOSTS, names[HOSTS][:1])
    tell(f"a further report of a workunit with {HOSTS - 1} reports that all differ", took, fresh)
    played.end()

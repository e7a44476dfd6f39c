"""Makes the lines of a project's life for `bench/run`: hosts ask for work, report it, and lose replies.

plain.py answers the lines as they are made, so reports name jobs that were really granted.
"""
import json
import random
import time
from collections import Counter

import plain
from plain_formats import KINDS, Record

SETTINGS = {"daily_result_quota": 12, "max_hosts": 100, "max_wus_in_progress": 8, "max_wus_to_send": 4}
HOUR = 3600
START = 1000
VERSIONS = [
    "dock,linux,101",
    "dock,linux,102",
    "dock,windows,101",
    "dock,mac,103",
    "fold,linux,7",
    "fold,windows,9",
    "wave,windows,1",
    "wave,windows,2",
]
PLATFORMS = [["linux"], ["linux"], ["windows"], ["windows", "linux"], ["mac", "linux"], ["mac"]]
# application, min_quorum, target_nresults, max_error_results, max_total_results, max_success_results
LIMITS = [
    "dock,2,2,3,6,5",
    "dock,2,2,3,6,5",
    "dock,1,1,2,4,3",
    "fold,3,3,3,7,6",
    "fold,2,3,1,5,4",
    "wave,2,3,2,5,4",
    "dock,2,2,0,3,2",
]


class Client:
    """A host, as its own software sees it."""

    def __init__(self, number: int, pick: random.Random) -> None:
        self.authenticator, self.cpid = f"user{number // 2}", f"host{number}"
        self.host_info = {
            "host_cpid": self.cpid,
            "p_fpops": pick.choice([3, 8, 10, 10, 12]) * 10**8,
            "m_nbytes": pick.choice([2, 4, 8]) * 10**9,
            "d_free": pick.choice([5, 50]) * 10**9,
        }
        self.platforms = pick.choice(PLATFORMS)
        self.faulty = 0.97 if number % 10 == 7 else 0.04  # the share of its jobs that end in a client error
        self.buffer = pick.choice([4, 8, 20, 20, 60]) * HOUR  # the seconds of work that it wants to have
        self.hostid = self.seqno = 0
        self.jobs: dict[str, int] = {}  # when each job is finished, by name
        self.idle_from = START
        self.unheard: str | None = None  # the request whose reply was lost


class Project:
    """The service, its clients, and the lines so far."""

    def __init__(self, calls: int) -> None:
        self.pick = random.Random(1)
        self.now, self.calls = START, calls
        self.lines: list[bytes] = []
        self.seen: Counter[str] = Counter()
        self.service = plain.Service({**plain.SETTINGS, **SETTINGS})
        hosts = max(20, min(SETTINGS["max_hosts"], calls // 200))
        self.pace = 2 * 6000 // hosts  # each host calls about every 6,000 seconds
        self.bring_rows(hosts // 2, max(150, calls // 10))
        self.clients = [Client(number, self.pick) for number in range(hosts)]

    def send(self, message: str) -> tuple[int, str]:
        """Adds a line and returns its answer."""
        instant = time.strftime("%Y-%m-%dT%H:%M:%SZ", time.gmtime(self.now))
        line = f"{instant} {message}".encode()
        self.lines.append(line + b"\n")
        return self.service.answer(line)

    def bring(self, kind: str, header: str, rows: list[str]) -> None:
        """Imports rows."""
        text = json.dumps("\n".join([header, *rows, ""]))
        assert self.send(f"import/{kind}/b1 {text}")[0] == 200

    def bring_rows(self, users: int, units: int) -> None:
        """Imports all rows of the project, in four imports."""
        self.bring(
            "accounts", "authenticator,name", [f"user{number},User {number}" for number in range(users)]
        )
        self.bring("apps", "name,agreement", ["dock,exact", "fold,within:2", "wave,exact"])
        self.bring("versions", ",".join(KINDS["versions"][0]), VERSIONS)
        rows = []
        for number in range(units):
            days, hours = self.pick.choice([1, 2, 3]), self.pick.choice([3, 4, 5, 6])
            memory, disk = self.pick.choice([1, 1, 1, 3, 6]), self.pick.choice([1, 1, 10])
            rows.append(
                f"unit-{number:05},{self.pick.choice(LIMITS)},{days * 24 * HOUR},"
                f"{hours * HOUR * 10**9 + number},{memory}000000000,{disk}000000000,"
                f"{self.pick.randrange(1000, 9000)}"
            )
        self.bring("workunits", ",".join(KINDS["workunits"][0]), rows)

    def output(self, name: str) -> str:
        """Returns a job's output. Mostly it agrees with others of its workunit; for some workunits it never
        does."""
        number = int(name.split("_")[0].removeprefix("unit-"))
        right = number * 37 % 1000
        if number % 15 == 0:
            return str(right + 10 * self.pick.randrange(1000))
        if self.pick.random() < 0.05:
            return str(right + self.pick.randrange(3, 9))
        return str(right + (self.pick.randrange(3) if self.is_fold(name) else 0))

    def is_fold(self, name: str) -> bool:
        """Returns whether the job's application compares outputs by nearness."""
        unit: plain.Unit = self.service.machine.rows["workunits"][name.split("_")[0]]
        return unit.app == "fold"

    def report(self, client: Client, name: str) -> Record:
        """Returns what the client reports of a finished job."""
        if self.pick.random() < client.faulty:
            return {"name": name, "exit_status": self.pick.choice([1, -9, 195])}
        return {"name": name, "exit_status": 0, "output": self.output(name)}

    def request(self, client: Client) -> str:
        """Returns the client's next request: what it finished, what it has, and what it wants."""
        client.seqno += 1
        finished = [name for name, until in client.jobs.items() if until <= self.now]
        fields = {
            "authenticator": client.authenticator,
            "hostid": client.hostid if self.pick.random() < 0.5 else 0,
            "rpc_seqno": client.seqno,
            "host_info": {**client.host_info, **({"d_free": 0} if self.pick.random() < 0.02 else {})},
            "platform_name": client.platforms[0],
            "alt_platforms": client.platforms[1:],
            "work_req_seconds": max(0, client.buffer - max(0, client.idle_from - self.now)),
            "results": [self.report(client, name) for name in finished],
        }
        if self.pick.random() < 0.9:
            fields["other_results"] = [name for name in client.jobs if name not in finished]
        return json.dumps(fields, separators=(",", ":"))

    def take(self, client: Client, reply: Record) -> None:
        """Takes a reply as the client does: it forgets jobs and begins new ones."""
        client.hostid, client.unheard = reply["hostid"], None
        for name in reply["result_ack"] + reply["result_abort"]:
            client.jobs.pop(name, None)
        for job in reply["results"]:
            begin = max(client.idle_from, self.now)
            client.idle_from = begin + job["estimate"]
            late = self.pick.random() < 0.08
            until = job["report_deadline"] + self.pick.randrange(40 * HOUR) if late else client.idle_from
            client.jobs[job["name"]] = until

    def call(self, client: Client) -> None:
        """Makes a call of the client: a new one, or, if a reply was lost, perhaps the same again."""
        unheard = client.unheard
        again = unheard is not None and self.pick.random() < 0.5
        request = unheard if unheard is not None and again else self.request(client)
        status, body = self.send(f"scheduler {request}")
        assert status == 200, body
        reply = json.loads(body)
        self.seen["repeats" if again else "fresh calls"] += 1
        if not again:
            self.seen["jobs granted"] += sum(not job["resent"] for job in reply["results"])
            self.seen["jobs sent again"] += sum(job["resent"] for job in reply["results"])
            self.seen["names to forget"] += len(reply["result_abort"])
            self.seen["end word " + reply["end_word"]] += 1
        if self.pick.random() < 0.05:
            client.unheard = request
            self.seen["replies lost"] += 1
            self.seen["replies lost that had jobs"] += reply["results"] != []
        else:
            self.take(client, reply)

    def refused_call(self, client: Client) -> None:
        """Makes a call with a number older than the kept ones, or with the last number and another text."""
        older = client.seqno > 4 and self.pick.random() < 0.5
        fields = {
            **json.loads(self.request(client)),
            "rpc_seqno": client.seqno - 5 if older else client.seqno - 1,
        }
        client.seqno -= 1
        status, body = self.send(f"scheduler {json.dumps({**fields, 'work_req_seconds': 999_999_999})}")
        self.seen[f"refused as {json.loads(body)['error']}"] += 1

    def live(self) -> None:
        """Makes all the calls, and now and then a tick."""
        for _ in range(self.calls):
            self.now += self.pick.randrange(1, self.pace)
            client = self.pick.choice(self.clients)
            if self.pick.random() < 0.003:
                client.jobs, client.idle_from = {}, self.now  # its computer lost what it had
                self.seen["hosts that forgot their jobs"] += 1
            if client.seqno > 1 and self.pick.random() < 0.01:
                self.refused_call(client)
            else:
                self.call(client)
            if self.pick.random() < 0.01:
                self.seen["ticks"] += 1
                self.seen["lapsed at ticks"] += json.loads(self.send("tick")[1])["lapsed"]

    def mix(self) -> dict[str, int]:
        """Returns how often each kind of thing happened."""
        machine, mix = self.service.machine, Counter(self.seen)
        for unit in machine.places:
            mix["workunits " + (f"failed by {unit.status}" if unit.failed() else unit.status)] += 1
            for instance in unit.instances:
                mix["instances"] += 1
                mix["reported"] += instance.exit_status is not None
                mix["client errors"] += instance.exit_status not in (None, 0)
                mix["reported and not judged"] += (
                    instance.exit_status is not None and instance not in unit.judged
                )
                mix["reported after a lapse"] += (
                    instance.exit_status is not None and instance.lapse is not None
                )
                mix["dropped"] += instance.lapse == "dropped"
                mix["valid"] += instance.verdict is True
                mix["invalid"] += instance.verdict is False
                mix["held at the end"] += instance.held()
        mix["hosts"] = len(machine.hosts)
        mix["hosts with a quota of 1"] = sum(host.quota == 1 for host in machine.hosts.values())
        return dict(sorted(mix.items()))


def lines(calls: int) -> tuple[bytes, dict[str, int]]:
    """Returns the lines of a project with a number of calls, and their mix."""
    project = Project(calls)
    project.live()
    return b"".join(project.lines), project.mix()

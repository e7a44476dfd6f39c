"""Random lives of a project: computers that are copied, renamed and attached anew, tables that are restored
or replaced by a further file, state files that get lost, and bridges that are killed.

At each reply a life checks two promises. A report that is acknowledged is recorded in the scheduler as that
of the host that got the job. No two computers get one job, unless the scheduler itself gives it out again.
"""
import copy
import http.client
import json
from collections.abc import Callable
from dataclasses import dataclass, field, replace
from types import SimpleNamespace
from typing import Any

import plain
from bridges import Bridge
from joining import Stopped, Stops
from messages import jobs, names, request, value
from numbering import NEW_HOSTID, rising
from twin import IMPORTS, Twin

ABORTED = -221  # the exit status that BOINC's client reports for a job that it was told to abort
FAULTS = ["lost", "unheard", "unavailable", "garbage"]
MOST_CLIENTS = 7
KILLS, MOST_STOPS = (
    0.1,
    8,
)  # how often the bridge is killed, and at which of its writes and sends at the latest
STEP_SECONDS = 60  # on the simulated clock
LAST_ROUNDS = 12
LIFE_SETTINGS = "most_hosts = 100000\n"


class SimulatedClock:
    """The clock by which numbers are given. It rises with each step."""

    def __init__(self) -> None:
        self.seconds = 1_000_000

    def __call__(self) -> int:
        return self.seconds

    def replaces(self, set_attribute: Callable[..., Any]) -> None:
        """Replaces the clock of the bridge, its pauses, and a limit by the minute."""
        set_attribute(NEW_HOSTID, rising(self))
        set_attribute("bsched_bridge.scheduler.messages.PAUSE_SECONDS", 0.0)
        set_attribute("bsched_bridge.exchange.host_search.MOST_SEARCHES", 10**9)


@dataclass(frozen=True)
class Grant:
    """How a client got a job."""

    holder: tuple[str, str]  # the scheduler's key of the host that has the job
    tables: int  # the number of the tables in which it got the job
    state: int  # the number of the bridge's state file at that time


@dataclass(eq=False)
class Client:
    """A client that acts as BOINC's does. It lists what it has, and reports what it finished until that is
    acknowledged.
    """

    key: str
    cpid: str
    image: int  # the same number for copies of one computer
    heard_as: tuple[str, str] | None = None  # the scheduler's key of the host that it was at its last reply
    hostid: int = 0
    seqno: int = 0
    working: dict[str, Grant] = field(default_factory=dict)
    finished: dict[str, Grant] = field(default_factory=dict)
    aborted: set[str] = field(default_factory=set)  # those of the finished jobs that it was told to abort

    def request(self, seconds: int) -> str:
        """Returns the client's request."""
        return request(
            hostid=self.hostid,
            key=self.key,
            cpid=self.cpid,
            seqno=self.seqno,
            seconds=seconds,
            listed=sorted(self.working),
            reports=[(name, name.rpartition("_")[0]) for name in sorted(self.finished)],
            statuses={name: ABORTED for name in self.aborted},
        )

    def copied(self) -> "Client":
        """Returns a copy, as an image of the machine makes it."""
        return replace(
            self, working=dict(self.working), finished=dict(self.finished), aborted=set(self.aborted)
        )


class Life:
    """A life of a project with two computers of Ann and one of Bob."""

    def __init__(self, bridge: Bridge, twin: Twin, chance: Any, clock: SimulatedClock) -> None:
        self.bridge, self.twin, self.chance, self.clock = bridge, twin, chance, clock
        self.clients = [Client("ann-key", "a1", 1), Client("ann-key", "a2", 2), Client("bob-key", "b1", 3)]
        self.tables, self.files, self.state, self.renamed = 0, 0, 0, 0
        self.older_tables: plain.Service | None = None
        self.older_state: dict[str, bytes] | None = None
        self.counts = {
            "acknowledged": 0,
            "copies": 0,
            "restores": 0,
            "further files": 0,
            "state files": 0,
            "changed host_cpids": 0,
            "kills": 0,
            "kills within a call": 0,
        }

    # ---- Steps

    def step(self) -> None:
        """Something happens, and then a client calls."""
        self.clock.seconds += STEP_SECONDS
        chance = self.chance
        client = chance.choice(self.clients)
        if chance.random() < 0.15:
            self.twin.faults = [chance.choice(FAULTS) for _ in range(chance.randint(1, 6))]
        if chance.random() < KILLS:
            self.is_killed(client)
        else:
            self.call(client, loses=chance.random() < 0.15)
        self.twin.faults = []
        happens = chance.random()
        if happens < 0.05:
            self.bridge.restart()
        elif happens < 0.10:
            self.renamed += 1
            client.cpid = f"{client.cpid[:2]}_{self.renamed}"
            self.counts["changed host_cpids"] += 1
        elif happens < 0.13:
            self.copies(client)
        elif happens < 0.15 and client.hostid:
            self.attaches_anew(client)
        elif happens < 0.19:
            self.changes_tables()
        elif happens < 0.22:
            self.changes_state_file()

    def is_killed(self, client: Client) -> None:
        """A client calls, and the bridge is killed before or after one of its writes and sends, or else
        before the client has the reply. Then it starts again.
        """
        stops = Stops(self.chance.randint(1, MOST_STOPS), self.chance.random() < 0.5)
        stops.set(SimpleNamespace(setattr=setattr), self.bridge)
        try:
            self.call(client, loses=True)
        except Stopped:
            self.counts["kills within a call"] += 1
        self.counts["kills"] += 1
        self.bridge.restart()

    def copies(self, client: Client) -> None:
        """A computer is copied. If there are many, another one is thrown away first."""
        if not client.hostid:
            return
        if len(self.clients) == MOST_CLIENTS:
            self.clients.remove(self.chance.choice([other for other in self.clients if other is not client]))
        self.clients.append(client.copied())
        self.counts["copies"] += 1

    def attaches_anew(self, client: Client) -> None:
        """A volunteer removes the project, and adds it again."""
        client.hostid = client.seqno = 0
        client.working, client.finished, client.aborted = {}, {}, set()

    def changes_tables(self) -> None:
        """Takes a copy of the tables, restores the one before, or begins a further file."""
        chosen = self.chance.random()
        with self.twin.lock:
            if chosen < 0.5:
                self.older_tables = copy.deepcopy(self.twin.service)
                return
            self.tables += 1
            if chosen < 0.8 and self.older_tables is not None:
                self.twin.service = copy.deepcopy(self.older_tables)
                self.counts["restores"] += 1
                return
            self.files += 1
            self.twin.service = further_file(self.twin.service, self.files)
            self.older_tables = None
            self.counts["further files"] += 1

    def changes_state_file(self) -> None:
        """Takes a copy of the bridge's state file, restores the one before, or loses the file."""
        chosen, folder = self.chance.random(), self.bridge.folder
        self.bridge.file.close()
        paths = list(folder.glob("bridge.db*"))
        if chosen < 0.5:
            self.older_state = {path.name: path.read_bytes() for path in paths}
        else:
            for path in paths:
                path.unlink()
            if chosen < 0.8 and self.older_state is not None:
                for name, content in self.older_state.items():
                    (folder / name).write_bytes(content)
            self.state += 1
            self.counts["state files"] += 1
        self.bridge.start()

    # ---- Calls

    def call(self, client: Client, loses: bool = False, seconds: int = 61) -> None:
        """A client finishes some of its jobs and calls. The reply may get lost on its way."""
        for name in [name for name in client.working if self.chance.random() < 0.5]:
            client.finished[name] = client.working.pop(name)
        try:
            reply = self.bridge.call(client.request(seconds))
        except (OSError, http.client.HTTPException):
            return
        if not loses:
            self.hears(client, reply)

    def hears(self, client: Client, reply: bytes) -> None:
        """A client gets a reply."""
        if value(reply, "project_is_down") == "1":
            return
        hostid = int(value(reply, "hostid") or 0)
        if hostid:
            if client.hostid:
                self.renamed += 1
                client.cpid = f"{client.cpid[:2]}_{self.renamed}"
            client.hostid, client.seqno = hostid, 0
        client.seqno += 1
        call = json.loads(self.twin.heard[-1])
        client.heard_as = call["authenticator"], call["host_info"]["host_cpid"]
        for name in names(reply, "result_ack"):
            self.is_acknowledged(client, name, name in jobs(reply))
        for name in names(reply, "result_abort"):
            if name in client.working:
                client.finished[name] = client.working.pop(name)
                client.aborted.add(name)
        for name in jobs(reply):
            self.is_given(client, name)

    def owner(self, name: str) -> tuple[tuple[str, str] | None, bool]:
        """Returns the key of the host that has a job in the present tables, and whether it was reported."""
        machine = self.twin.service.machine
        unit_name, _, number = name.rpartition("_")
        unit = machine.rows["workunits"].get(unit_name)
        if unit is None or int(number) >= len(unit.instances) or unit.instances[int(number)].host is None:
            return None, False
        instance = unit.instances[int(number)]
        keys = [key for key, host in machine.hosts.items() if host is instance.host]
        return keys[0], instance.exit_status is not None

    def is_acknowledged(self, client: Client, name: str, is_given_anew: bool) -> None:
        """Checks that the report is recorded. If the tables have changed since the client got the job, they
        may not know that it got the job, and may give it out anew.
        """
        grant = client.finished.pop(name)
        if name in client.aborted:
            client.aborted.discard(name)
            return
        owner, is_reported = self.owner(name)
        if owner == grant.holder and not (is_given_anew and grant.tables != self.tables):
            assert is_reported, f"{name} of {owner} is acknowledged and not recorded"
        else:
            assert grant.tables != self.tables, f"{name} is not that of {grant.holder}"
        self.counts["acknowledged"] += 1

    def is_given(self, client: Client, name: str) -> None:
        """Checks that no other computer has the job."""
        if name in client.working or name in client.finished:
            return  # it is sent once more, and the client has it already
        owner, _ = self.owner(name)
        assert owner is not None, f"{name} is given, and nobody has it"
        for other in self.clients:
            grant = other.working.get(name) or other.finished.get(name)
            if other is client or grant is None or name in other.aborted:
                continue
            # copies are one host until the bridge tells them apart; without the state file that may take long
            is_one_host = other.image == client.image and (
                other.heard_as == client.heard_as or grant.state != self.state
            )
            # after a change of the tables the scheduler does not know any more that it gave the job out
            assert is_one_host or (
                grant.tables != self.tables and grant.holder != owner
            ), f"{name} is given to {owner}, and {other} has it"
        client.working[name] = Grant(owner, self.tables, self.state)

    # ---- The end

    def end(self) -> None:
        """All goes well for a while. Then each computer has a number of its own and nothing left to do. What
        is left are results that the present tables do not know, or whose host a lost state file knew.
        """
        for _ in range(LAST_ROUNDS):
            for client in self.clients:
                for _ in range(self.chance.randint(1, 4)):  # of two copies one then has the lower count
                    self.clock.seconds += STEP_SECONDS
                    self.call(client, seconds=0)
        numbers = [client.hostid for client in self.clients if not client.finished]
        assert 0 not in numbers and len(set(numbers)) == len(numbers), numbers
        for client in self.clients:
            for name, grant in client.finished.items():
                owner, _ = self.owner(name)
                assert grant.state != self.state or owner != grant.holder, f"{name} of {owner} is never taken"
                assert grant.state != self.state or grant.tables != self.tables, name
            assert not client.working


def further_file(service: Any, number: int) -> Any:
    """Returns a further file of a project: the same accounts, applications and versions, and new
    workunits."""
    made = plain.Service(service.machine.settings)
    for kind in ("accounts", "apps", "versions"):
        made.imported(kind, "first", IMPORTS[kind])
    header, _, rows = IMPORTS["workunits"].partition("\n")
    fields = rows.partition("\n")[0].partition(",")[2]
    text = "".join(f"f{number}u{place},{fields}\n" for place in range(1, 41))
    made.imported("workunits", "first", f"{header}\n{text}")
    return made


def life_twin() -> Twin:
    """Returns a scheduler for a life, with room for many hosts."""
    twin = Twin(max_hosts=100_000, daily_result_quota=1_000_000, max_wus_in_progress=4)
    twin.statement = None
    return twin

"""Random lives of clients. Answers, replies and bridges get lost, and nothing else does."""
import http.client
import json
import random
import threading
import time
from collections.abc import Set
from pathlib import Path
from typing import Any, Protocol

import pytest
from bridges import Bridge
from messages import jobs, names, request, value
from random_lives import LIFE_SETTINGS, Life, SimulatedClock, life_twin
from served import free_port
from trial import programs
from twin import Twin

FAULTS = ["lost", "unheard", "unavailable", "garbage"]


class Called(Protocol):
    """What answers calls."""

    def call(self, body: str) -> bytes:
        """Returns the reply to a scheduler_request."""


class Client:
    """A client that acts as BOINC's does. It lists what it has, and reports what it finished until that is
    acknowledged.
    """

    def __init__(self, key: str, cpid: str, lists: bool) -> None:
        self.key, self.cpid, self.lists, self.hostid = key, cpid, lists, 0
        self.working: set[str] = set()
        self.finished: set[str] = set()

    def call(self, bridge: Called, chance: Any, loses: bool, seconds: int = 61) -> None:
        """Calls. The reply may get lost on the way, and the bridge may be killed."""
        self.finished |= {name for name in self.working if chance.random() < 0.5}
        self.working -= self.finished
        body = request(
            hostid=self.hostid,
            key=self.key,
            cpid=self.cpid,
            seconds=seconds,
            listed=sorted(self.working) if self.lists else None,
            reports=[(name, name.split("_")[0]) for name in sorted(self.finished)],
        )
        try:
            reply = bridge.call(body)
        except (OSError, http.client.HTTPException):
            return
        if loses:
            return
        self.finished -= set(names(reply, "result_ack"))
        self.working |= set(jobs(reply)) - self.finished
        hostid = value(reply, "hostid")
        assert (
            (hostid is None)
            if self.hostid
            else (hostid is not None or value(reply, "project_is_down") == "1")
        )
        self.hostid = int(hostid or self.hostid)


@pytest.mark.parametrize("seed", range(12))
def test_a_life(bridge: Bridge, twin: Twin, seed: int) -> None:
    chance, twin.statement = random.Random(seed), None
    clients = [Client("ann-key", "c1", True), Client("bob-key", "c2", True)]
    for step in range(120):
        client = chance.choice(clients)
        if chance.random() < 0.3:
            twin.faults = [chance.choice(FAULTS) for _ in range(chance.randint(1, 6))]
        client.call(bridge, chance, loses=chance.random() < 0.2)
        twin.faults = []
        if chance.random() < 0.1:
            bridge.restart()
        if client.hostid and chance.random() < 0.05:
            client.cpid = f"{client.cpid}_{step}"
    for _ in range(40):
        for client in clients:
            client.call(bridge, chance, loses=False)
    # each client has had each of the eight workunits, and has credit for each one once
    for number, client in enumerate(clients, 1):
        reply = bridge.call(request(hostid=client.hostid, key=client.key, cpid=client.cpid, seconds=0))
        assert value(reply, "user_total_credit") == "40.000"
        assert not client.working and not client.finished
    assert len(twin.service.machine.hosts) == 2
    # a question about a host that bsched has, since its host_cpid has changed, is refused as stale
    looked_at_numbers(twin, {"stale"})


def looked_at_numbers(twin: Twin, questions: Set[str] = frozenset()) -> None:
    """Checks that the numbers of a key rise, that only the same bytes repeat a number, and that no call was
    refused.
    """
    last: dict[tuple[str, str], tuple[int, bytes]] = {}
    for body in twin.heard:
        call = json.loads(body)
        if call["rpc_seqno"] == 0:
            continue  # a question whether bsched has an account or a host, which changes nothing
        key = call["authenticator"], call["host_info"]["host_cpid"]
        number, before = last.get(key, (0, b""))
        assert call["rpc_seqno"] > number or (call["rpc_seqno"] == number and body == before)
        last[key] = call["rpc_seqno"], body
    refusals = {json.loads(answer)["error"] for answer in twin.answers if '"error"' in answer}
    assert refusals <= {"unavailable", "bad_host", *questions}


@pytest.mark.parametrize("seed", range(6))
def test_a_life_of_a_client_that_lists_nothing(bridge: Bridge, twin: Twin, seed: int) -> None:
    """bsched sends nothing again to such a client. Only the bridge passes on the jobs of late answers."""
    chance = random.Random(seed)
    clients = [Client("ann-key", "c1", False), Client("bob-key", "c2", False)]
    for _ in range(60):
        if chance.random() < 0.3:
            twin.faults = [chance.choice(FAULTS) for _ in range(chance.randint(1, 6))]
        chance.choice(clients).call(bridge, chance, loses=False)
        twin.faults = []
        if chance.random() < 0.2:
            bridge.restart()
    for _ in range(20):
        for client in clients:
            client.call(bridge, chance, loses=False)
    assert [host.credit for host in twin.service.machine.hosts.values()] == [40000, 40000]
    looked_at_numbers(twin)


# ---- Two computers of one account, copies, other tables and other state files


@pytest.mark.parametrize("seed", range(4))
def test_each_acknowledged_report_is_recorded_and_no_job_is_given_twice(
    project: Path, monkeypatch: pytest.MonkeyPatch, seed: int
) -> None:
    """bridge/try_lives has many more steps."""
    clock, twin = SimulatedClock(), life_twin()
    clock.replaces(monkeypatch.setattr)
    with (project / "bridge.toml").open("a") as file:
        file.write(LIFE_SETTINGS)
    bridge = Bridge(project, twin)
    life = Life(bridge, twin, random.Random(seed), clock)
    for _ in range(120):
        life.step()
    life.end()
    bridge.file.close()
    twin.close()


# ---- A bridge that is killed


class KilledBridge(programs.Bridge):
    """A bridge in a process of its own."""

    def call(self, body: str) -> bytes:
        """Returns the reply to a scheduler_request. Raises OSError or HTTPException if the bridge is killed
        before the reply comes.
        """
        connection = http.client.HTTPConnection("127.0.0.1", self.port, timeout=10)
        try:
            connection.request("POST", "/p/cgi", body.encode())
            return connection.getresponse().read()
        finally:
            connection.close()


@pytest.mark.parametrize("seed", range(2))
def test_a_bridge_that_is_killed_at_random_moments(project: Path, twin: Twin, seed: int) -> None:
    chance = random.Random(seed)
    port = free_port()
    settings = (
        (project / "bridge.toml").read_text().replace("127.0.0.1:8080", f"127.0.0.1:{twin.address.port}")
    )
    (project / "bridge.toml").write_text(
        settings.replace('listen = "127.0.0.1:8081"', f'listen = "127.0.0.1:{port}"')
    )
    bridge = KilledBridge(project, port)
    bridge.start()
    clients = [Client("ann-key", "c1", True), Client("bob-key", "c2", True)]
    ended = threading.Event()

    def live(client: Client, chance: Any) -> None:
        while not ended.is_set():
            client.call(bridge, chance, loses=False)
            time.sleep(0.002)

    threads = [
        threading.Thread(target=live, args=(client, random.Random(seed + 10 * place)))
        for place, client in enumerate(clients)
    ]
    for thread in threads:
        thread.start()
    try:
        for _ in range(12):
            time.sleep(chance.random() * 0.1)
            bridge.kill()
            bridge.start()
    finally:
        ended.set()
        for thread in threads:
            thread.join()
    for _ in range(40):
        for client in clients:
            client.call(bridge, chance, loses=False)
    bridge.kill()
    assert [host.credit for host in twin.service.machine.hosts.values()] == [40000, 40000]
    looked_at_numbers(twin)

"""A bridge that is stopped while it makes an account: no account is lost or made twice, and each key that a
client got works.
"""
import http.client
import os
import random
import signal
import socket
import subprocess
import sys
import threading
from collections.abc import Callable
from pathlib import Path
from typing import Any

import pytest
from bridges import ACCOUNTS, BRIDGE, Bridge
from joining import Stopped, Stops, account_query, create, key_or_number, look_up, made_accounts, rows, works
from twin import Twin

from bsched_bridge.scheduler.messages import NoAnswer

EMAIL = "ann@sums.example"
PACKAGES = f"{BRIDGE}:{BRIDGE.parent / 'bench'}:{BRIDGE.parent / 'files'}"
FULL = '{"error":"table_full","number":18}'
# the answers to the first imports; later answers are good
PASTS: dict[str, list[str]] = {
    "good": [],
    "lost": ["lost"],
    "unheard": ["unheard"],
    "unavailable": ["unavailable"],
    "lost twice": ["lost", "lost"],
    "batch taken": ['{"error":"batch_reused","number":17}'],
    "batch taken, then lost": ['{"error":"batch_reused","number":17}', "lost"],
    "refused, then good": ['{"error":"not_operator","number":13}'],
}


def ended_well(bridge: Bridge, twin: Twin, keys: list[str]) -> None:
    """Checks what must be so after a stop, after the client has asked until it has a key."""
    key = [create(bridge) for _ in range(4)][-1]
    assert look_up(bridge) == key
    assert rows(bridge) == [(EMAIL, key, 1)]
    assert made_accounts(twin) == [key]
    assert set(keys) <= {key}
    assert works(bridge, key)


def resent(bridge: Bridge) -> None:
    """Sends open imports again, as the bridge does at its start and at intervals."""
    accounts = bridge.accounts
    assert accounts is not None
    for _ in range(4):
        try:
            accounts.resend_open()
        except NoAnswer:
            pass


@pytest.mark.parametrize("is_after", [False, True], ids=["before", "after"])
@pytest.mark.parametrize("past", PASTS)
@pytest.mark.parametrize("asks_first", [True, False], ids=["client first", "resending first"])
def test_a_stop_at_each_write_and_send(
    project: Path, monkeypatch: pytest.MonkeyPatch, past: str, is_after: bool, asks_first: bool
) -> None:
    """The client asks until it has a key. The bridge is stopped once, at the n-th write or send, for each
    n."""
    with (project / "bridge.toml").open("a") as file:
        file.write(ACCOUNTS)
    seen: set[str] = set()
    for at in range(1, 30):
        for path in project.glob("bridge.db*"):
            path.unlink()
        twin = Twin()
        twin.import_faults = list(PASTS[past])
        keys: list[str] = []
        bridge = Bridge(project, twin)
        with monkeypatch.context() as patch:
            stops = Stops(at, is_after).set(patch, bridge)
            try:
                for _ in range(4):
                    keys += [answer for answer in [create(bridge)] if isinstance(answer, str)]
            except Stopped:
                pass
        bridge.restart()
        if not asks_first:
            resent(bridge)
        ended_well(bridge, twin, keys)
        bridge.file.close()
        twin.close()
        seen |= set(stops.points)
        if not stops.is_stopped:
            break
    assert not stops.is_stopped and at > 3 and seen == {"write", "send"}


@pytest.mark.parametrize("is_after", [False, True], ids=["before", "after"])
def test_a_stop_where_the_table_is_full(
    project: Path, monkeypatch: pytest.MonkeyPatch, is_after: bool
) -> None:
    """No account is made, and no row is left over."""
    with (project / "bridge.toml").open("a") as file:
        file.write(ACCOUNTS)
    for at in range(1, 10):
        for path in project.glob("bridge.db*"):
            path.unlink()
        twin = Twin()
        twin.import_faults = [FULL] * 3
        bridge = Bridge(project, twin)
        with monkeypatch.context() as patch:
            stops = Stops(at, is_after).set(patch, bridge)
            try:
                assert create(bridge) == -208
            except Stopped:
                pass
        bridge.restart()
        resent(bridge)
        assert rows(bridge) == [] == made_accounts(twin)
        bridge.file.close()
        twin.close()
        if not stops.is_stopped:
            return
    raise AssertionError("it never came to its end")


# ---- Random lives

FAULTS = [
    "lost",
    "unheard",
    "unavailable",
    "garbage",
    '{"error":"batch_reused","number":17}',
    '{"error":"bad_csv","number":14}',
]


def two_at_once(bridge: Bridge, act: Callable[..., Any]) -> list[Any]:
    """Returns the answers to the same message, sent twice at once. A stop may leave fewer than two."""
    answers: list[Any] = []

    def asks() -> None:
        try:
            answers.append(act(bridge))
        except Stopped:
            pass

    threads = [threading.Thread(target=asks) for _ in range(2)]
    for thread in threads:
        thread.start()
    for thread in threads:
        thread.join()
    return answers


@pytest.mark.parametrize("seed", range(8))
def test_a_life_of_accounts(
    open_bridge: Bridge, twin: Twin, monkeypatch: pytest.MonkeyPatch, seed: int
) -> None:
    chance = random.Random(seed)
    emails = [f"u{number}@sums.example" for number in range(6)]
    keys: dict[str, str] = {}
    acts: list[Callable[..., Any]] = [create, create, look_up]
    for step in range(60):
        email, right = chance.choice(emails), chance.random() < 0.85
        twin.import_faults = [chance.choice(FAULTS) for _ in range(chance.randint(0, 2))]
        act = chance.choice(acts)

        def asks(bridge: Bridge) -> Any:
            return act(bridge, email, "secret1" if right else "wrong-1", client=f"198.51.100.{step}")

        answers: list[Any] = []
        with monkeypatch.context() as patch:
            stops = Stops(chance.randint(1, 12), chance.random() < 0.5).set(patch, open_bridge)
            try:
                answers = two_at_once(open_bridge, asks) if chance.random() < 0.2 else [asks(open_bridge)]
            except Stopped:
                pass
        if stops.is_stopped or chance.random() < 0.1:
            open_bridge.restart()
        for answer in answers:
            if isinstance(answer, str):
                assert keys.setdefault(email, answer) == answer
                # whoever makes the account first sets its password, even a wrong one
        if chance.random() < 0.2:
            resent(open_bridge)
    twin.import_faults = []
    open_bridge.restart()
    resent(open_bridge)
    kept = {email: key for email, key, _ in rows(open_bridge)}
    assert {email: kept[email] for email in keys} == keys
    assert sorted(kept.values()) == sorted(made_accounts(twin))
    assert len(kept) == len(rows(open_bridge)) and all(is_imported for _, _, is_imported in rows(open_bridge))
    for number, key in enumerate(kept.values()):
        assert works(open_bridge, key, f"c{number}")


# ---- A bridge that is killed

# the row, the import, and the mark that it counted
POINTS = [(at, is_after) for at in (1, 2, 3) for is_after in (False, True)]


def asked(address: tuple[str, int], query: str) -> tuple[str, dict[str, str], bytes] | None:
    """Returns the answer of a bridge in another process, or None if the bridge is killed first."""
    connection = http.client.HTTPConnection(*address, timeout=600)  # a busy machine may need long to start it
    try:
        connection.request("GET", query)
        response = connection.getresponse()
        fields = {name: value for name, value in response.getheaders()}
        return f"{response.status} {response.reason}", fields, response.read()
    except (OSError, http.client.HTTPException):
        return None
    finally:
        connection.close()


@pytest.mark.parametrize("at, is_after", POINTS)
def test_a_bridge_that_is_killed(project: Path, twin: Twin, at: int, is_after: bool) -> None:
    """SIGKILL ends the process at a write or at the send. What it leaves is enough."""
    with (project / "bridge.toml").open("a") as file:
        file.write(ACCOUNTS)
    text = (project / "bridge.toml").read_text().replace("127.0.0.1:8080", f"127.0.0.1:{twin.address.port}")
    (project / "bridge.toml").write_text(text)
    with socket.create_server(("127.0.0.1", 0)) as listener:  # the bridge takes over the socket
        address, number = listener.getsockname(), listener.fileno()
        words = [
            str(BRIDGE / "tests" / "killed_bridge.py"),
            str(project / "bridge.toml"),
            str(number),
            str(at),
        ]
        process = subprocess.Popen(
            [sys.executable, *words, "after" if is_after else "before"],
            env={**os.environ, "PYTHONPATH": PACKAGES, "PYTHONDONTWRITEBYTECODE": "1"},
            pass_fds=[number],
        )
    try:
        answer = asked(address, account_query("create_account.php", EMAIL, "secret1", user_name="ann"))
        assert process.wait(600) == -signal.SIGKILL
    finally:
        process.kill()
    assert answer is None
    bridge = Bridge(project, twin)
    ended_well(bridge, twin, [])
    bridge.file.close()


def test_a_bridge_that_is_not_killed_answers(project: Path, twin: Twin) -> None:
    """The same without a kill. There are as many writes and sends as the test above goes through."""
    with (project / "bridge.toml").open("a") as file:
        file.write(ACCOUNTS)
    bridge = Bridge(project, twin)
    stops = Stops(100, False).set(pytest.MonkeyPatch(), bridge)
    key = key_or_number(bridge.got(account_query("create_account.php", EMAIL, "secret1", user_name="ann")))
    assert isinstance(key, str) and stops.points == ["write", "send", "write"]
    assert len(POINTS) == 2 * len(stops.points)
    bridge.file.close()

"""What must outlive a power failure is synced before somebody else learns of it."""
import json
from collections.abc import Callable
from itertools import groupby
from typing import Any

import pytest
from bridges import Bridge
from joining import create
from messages import FIRST, request


LEVELS = {1: "NORMAL", 2: "FULL"}  # as SQLite numbers them


@pytest.fixture(autouse=True)
def one_day(monkeypatch: pytest.MonkeyPatch) -> None:
    """Lets it be noon: the first call of a day does more than others."""
    monkeypatch.setattr("time.time", lambda: 20_000.5 * 86400)


@pytest.fixture
def events(monkeypatch: pytest.MonkeyPatch) -> Callable[..., Any]:
    """Yields a function that returns what a bridge does from now on: SQL statements and messages to
    bsched."""

    def watched(bridge: Bridge) -> list[Any]:
        level = bridge.file._connection.execute("PRAGMA synchronous").fetchone()[0]
        seen = [f"PRAGMA synchronous = {LEVELS[level]}"]
        bridge.file._connection.set_trace_callback(seen.append)
        exchange = bridge.application.scheduler._exchange

        def sent(method: str, path: str, *words: Any) -> tuple[int, bytes]:
            seen.append(f"SEND {path}")
            return exchange(method, path, *words)

        monkeypatch.setattr(bridge.application.scheduler, "_exchange", sent)
        return seen

    return watched


def last_commit(seen: list[str]) -> tuple[bool, list[str]]:
    """Returns whether the last transaction was synced, and its statements that write."""
    end = max(place for place, one in enumerate(seen) if one == "COMMIT")
    start = max(place for place, one in enumerate(seen[:end]) if one.startswith("BEGIN"))
    level = [one for one in seen[:start] if one.startswith("PRAGMA synchronous")][-1]
    return level.endswith("FULL"), [one for one in seen[start:end] if one.startswith(("INSERT", "UPDATE"))]


def before(seen: list[str], what: str) -> list[str]:
    """Returns the events before the first one that begins so."""
    return seen[: next(place for place, one in enumerate(seen) if one.startswith(what))]


def test_a_call_is_synced_before_it_is_sent(bridge: Bridge, events: Callable[..., Any]) -> None:
    bridge.call(request())
    seen = events(bridge)
    bridge.call(request(cpid="c2"))
    is_synced, statements = last_commit(before(seen, "SEND /scheduler"))
    assert is_synced and statements[-1].startswith("INSERT INTO host_file") and "open_call" in statements[-1]


def test_a_number_is_synced_before_a_client_is_told(bridge: Bridge, events: Callable[..., Any]) -> None:
    seen = events(bridge)
    bridge.call(request())
    is_synced, statements = last_commit(seen)
    assert is_synced and [one.partition(" SET")[0] for one in statements] == ["UPDATE numbers", "UPDATE host"]


def test_an_account_is_synced_before_it_is_imported(open_bridge: Bridge, events: Callable[..., Any]) -> None:
    seen = events(open_bridge)
    create(open_bridge)
    is_synced, statements = last_commit(before(seen, "SEND /import/accounts"))
    assert is_synced and "INSERT INTO member" in statements[0]


def test_an_answer_is_not_synced(bridge: Bridge, events: Callable[..., Any]) -> None:
    """If a power failure undoes it, the call is sent again and gets the same answer."""
    bridge.call(request())
    seen = events(bridge)
    bridge.twin.faults = [json.dumps({"error": "hosts_full", "number": 12})]
    bridge.call(request(cpid="c2"))
    assert not last_commit(seen)[0]


def test_a_usual_call_takes_one_transaction(bridge: Bridge, events: Callable[..., Any]) -> None:
    """Of a host that is known, it reads the row, and writes the call with the last answer. The answer waits
    for the next call, or for somebody who reads it.
    """
    bridge.call(request())
    bridge.call(request(hostid=FIRST, listed=["u1_0"], seconds=0))
    bridge.states.flush()
    seen = events(bridge)
    bridge.call(request(hostid=FIRST, listed=[], reports=[("u1_0", "42")]))
    assert kinds(seen) == CALL
    bridge.call(request(hostid=FIRST, listed=[]))
    assert kinds(seen) == [*CALL, "BEGIN", "UPDATE", *CALL[2:]]
    bridge.got("/p/computers")
    assert kinds(seen)[-4:] == ["BEGIN", "UPDATE", "UPDATE", "COMMIT"]
    assert not last_commit(seen)[0]


def kinds(seen: list[str]) -> list[str]:
    """Returns what each statement does, and when the call is sent. SQLite traces one with a trigger twice."""
    statements = [one for one, _ in groupby(seen) if not one.startswith("PRAGMA")]
    return [one.split()[0] for one in statements]


CALL = ["SELECT", "BEGIN", "UPDATE", "UPDATE", "COMMIT", "SEND"]  # of the host in the file, and of the host


def test_another_credit_takes_four_statements(bridge: Bridge, events: Callable[..., Any]) -> None:
    """One is for the account, one for the account in the file, and one each for the days of both."""
    bridge.call(request())
    bridge.call(request(hostid=FIRST))
    with bridge.file.transaction() as connection:
        for table in ("member", "member_day", "host_day"):
            connection.execute(f"UPDATE {table} SET credit = 1")
    seen = events(bridge)
    bridge.call(request(hostid=FIRST))
    bridge.states.flush()
    assert kinds(seen) == [*CALL, "BEGIN", *["UPDATE"] * 3, *["INSERT"] * 3, "COMMIT"]
    assert bridge.file.row("SELECT count(*) FROM member_day WHERE credit = 1") == (0,)


def test_the_first_call_of_a_day_forgets_days(bridge: Bridge, events: Callable[..., Any]) -> None:
    bridge.call(request())
    bridge.call(request(hostid=FIRST))
    with bridge.file.transaction() as connection:
        for table in ("member_day", "host_day"):
            connection.execute(f"UPDATE {table} SET day = day - 1")
    seen = events(bridge)
    bridge.call(request(hostid=FIRST))
    bridge.states.flush()
    assert kinds(seen) == [*CALL, "BEGIN", "UPDATE", "UPDATE", *["INSERT", "DELETE"] * 2, "COMMIT"]

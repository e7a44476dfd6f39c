"""Computers that report errors get fewer jobs: what the bridge asks bsched for, and what volunteers read."""
import json
import time
from typing import Any

import pytest
from bridges import Bridge
from messages import FIRST, jobs, names, request, value
from twin import Twin

from bsched_bridge.people import held_back
from bsched_bridge.people.held_back import HeldBack
from bsched_bridge.people.hosts import Key
from bsched_bridge.requests.client_requests import Report, read_request

ANN = Key("ann-key", "c1")
WANTS = read_request([request(seconds=5000).encode()])


class Clock:
    """A clock that a test sets."""

    now = 86_400.0 * 20_000

    def __call__(self) -> float:
        return self.now


def note(held: HeldBack, *statuses: int) -> int | None:
    """Has a host report results with some exit statuses. Returns how many jobs a day it may get then."""
    reports = [Report(f"u{place}", status, "") for place, status in enumerate(statuses)]
    held.record(ANN, reports, [report.name for report in reports])
    return held.allowed(ANN)


def test_an_error_halves_and_a_good_result_doubles() -> None:
    held = HeldBack()
    assert note(held, 0, 0) is None
    assert [note(held, 1) for _ in range(8)] == [32, 16, 8, 4, 2, 1, 1, 1]
    assert [note(held, 0) for _ in range(6)] == [2, 4, 8, 16, 32, None]
    assert note(held, -9, 0, 3) == 32 and held.count() == 1


def test_only_what_bsched_acknowledged_counts() -> None:
    held = HeldBack()
    held.record(ANN, [Report("u1_0", 1, ""), Report("u2_0", 1, "")], ["u2_0"])
    assert held.allowed(ANN) == 32


@pytest.mark.parametrize("status", [200, 202, -221])
def test_jobs_that_the_project_ended_are_no_errors(status: int) -> None:
    assert note(HeldBack(), status) is None


def test_a_host_gets_one_job_in_a_call_and_so_many_in_a_day() -> None:
    clock = Clock()
    held = HeldBack(clock)
    assert held.limited(ANN, WANTS) == WANTS
    note(held, 1, 1, 1, 1, 1)
    for _ in range(2):
        assert held.limited(ANN, WANTS).work_req_seconds == 1 and held.notice(ANN, WANTS) is None
        held.gave(ANN, 1)
    assert held.limited(ANN, WANTS).work_req_seconds == 0
    notice = str(held.notice(ANN, WANTS))
    assert "at most 2 tasks a day" in notice
    assert held.notice(ANN, WANTS) is None  # once a day
    clock.now += 86_400
    assert held.limited(ANN, WANTS).work_req_seconds == 1
    assert held.limited(Key("bob-key", "c1"), WANTS) == WANTS


def test_who_asks_for_nothing_reads_nothing() -> None:
    held, idle = HeldBack(Clock()), read_request([request(seconds=0).encode()])
    note(held, 1, 1, 1, 1, 1, 1)
    held.gave(ANN, 1)
    assert held.limited(ANN, idle).work_req_seconds == 0 and held.notice(ANN, idle) is None


def test_what_is_kept_is_limited(monkeypatch: pytest.MonkeyPatch) -> None:
    monkeypatch.setattr(held_back, "MOST_HOSTS", 2)
    held = HeldBack()
    for number in (1, 2, 1, 3):
        held.record(Key("a", str(number)), [Report("u", 1, "")], ["u"])
    assert held.count() == 2 and held.allowed(Key("a", "2")) is None


# ---- In the bridge


def failed(bridge: Bridge, name: str, seconds: int = 61) -> bytes:
    """Has a client report that a job failed, and ask for more."""
    body = request(hostid=FIRST, reports=[(name, "no")], statuses={name: 1}, seconds=seconds)
    return bridge.call(body)


def test_a_broken_computer_gets_few_jobs(bridge: Bridge, twin: Twin) -> None:
    (name,) = jobs(bridge.call(request()))
    given = []
    for _ in range(7):
        reply = failed(bridge, name, seconds=5000)
        given.append(jobs(reply))
        name = given[-1][0] if given[-1] else name
    asked = [call["work_req_seconds"] for call in twin.calls()[1:]]
    # the first error is known only after its call
    assert asked[0] == 5000 and set(asked[1:]) <= {0, 1}
    assert all(len(one) <= 1 for one in given[1:])


def test_the_volunteer_reads_why(bridge: Bridge, twin: Twin) -> None:
    bridge.call(request())
    held = bridge.application.measurements.held_back
    for _ in range(6):
        held.record(ANN, [Report("u", 1, "")], ["u"])
    held.gave(ANN, 1)
    reply = bridge.call(request(hostid=FIRST, listed=["u1_0"], seconds=100))
    assert twin.calls()[-1]["work_req_seconds"] == 0 and jobs(reply) == []
    assert b"This computer reported tasks that failed. So it gets at most 1 task a day" in reply
    assert b"at most 1 task a day" not in bridge.call(request(hostid=FIRST, listed=["u1_0"], seconds=100))


def test_an_operator_can_turn_it_off(bridge: Bridge, twin: Twin) -> None:
    bridge.call(request())
    for _ in range(6):
        bridge.application.measurements.held_back.record(ANN, [Report("u", 1, "")], ["u"])
    path = bridge.folder / "bridge.toml"
    path.write_text(f"hold_back = false\n{path.read_text()}")
    bridge.call(request(hostid=FIRST, listed=["u1_0"], seconds=100))
    assert twin.calls()[-1]["work_req_seconds"] == 100


def test_a_call_that_is_repeated_has_the_same_bytes(bridge: Bridge, twin: Twin) -> None:
    """Also if the host is held back by the time at which it is sent again."""
    bridge.call(request())
    twin.faults = ["unheard"] * 3
    assert value(bridge.call(request(hostid=FIRST, listed=["u1_0"], seconds=100)), "project_is_down") == "1"
    for _ in range(6):
        bridge.application.measurements.held_back.record(ANN, [Report("u", 1, "")], ["u"])
    bridge.call(request(hostid=FIRST, listed=["u1_0"], seconds=100))
    sent = [body for body in twin.heard if json.loads(body)["work_req_seconds"] == 100]
    assert len(sent) == 4 and len(set(sent)) == 1


def test_the_board_shows_who_has_invalid_results(bridge: Bridge, twin: Twin) -> None:
    """A cheat reports no errors: the statement of its computer has them. Those of former days don't count."""
    now, former = (
        time.strftime("%Y-%m-%d %H:%M:%S", time.gmtime(time.time() - ago)) for ago in (600, 90_000)
    )
    head = "result,app,sent,deadline,server_state,outcome,validate_state,credit\n"
    lines = [(now, "1,2"), (now, "1,2"), (former, "1,2"), (now, "3,3"), (now, "1,1")]
    text = "".join(f"u{place}_0,sum,{sent},{now},5,{end},0.000\n" for place, (sent, end) in enumerate(lines))
    twin.statement = f"{head}{text}total,,,,,,,5.000\n"
    bridge.call(request())
    board = shown_board(bridge)
    assert "Computers with errors or invalid results of the last day" in board
    cells = '<td>ann..</td><td class="number">0</td><td class="number">0</td><td class="number">2</td>'
    assert cells in board


def shown_board(bridge: Bridge) -> str:
    """Returns the operator's board."""
    kind = "application/x-www-form-urlencoded"
    fields: Any = {"CONTENT_TYPE": kind, "REMOTE_ADDR": "127.0.0.1"}
    return bridge.got("/p/operator/board", "POST", b"key=change-this-key", **fields)[2].decode()


def test_the_board_shows_what_a_computer_may_get(bridge: Bridge) -> None:
    (name,) = jobs(bridge.call(request()))
    assert names(failed(bridge, name), "result_ack") == [name]
    board = shown_board(bridge)
    assert '<th scope="col" class="number">jobs a day</th>' in board and '<td class="number">32</td>' in board
    numbers = bridge.got("/p/operator/metrics", REMOTE_ADDR="127.0.0.1")[2].decode()
    assert "bsched_bridge_held_back_hosts 1.0" in numbers

"""Calls in vain: what they may take of a processor, and who waits then."""
import threading
from collections.abc import Callable, Iterable
from pathlib import Path
from typing import Any

import pytest
from bridges import Bridge
from clocks import Clock
from messages import FIRST, jobs, names, request, value
from twin import Twin

from bsched_bridge.exchange import large_calls
from bsched_bridge.exchange import messages as call_messages
from bsched_bridge.exchange.vain_calls import VainCalls
from bsched_bridge.people.measurements import End
from bsched_bridge.requests.client_requests import ClientRequest
from bsched_bridge.scheduler import messages as scheduler_messages
from bsched_files.project_settings import Address, read_settings

TOO_OFTEN = b"ask too often at the moment"
ANSWERED = b"<user_name>"


class Counted:
    """Counts seconds that a test chooses, in place of those of the thread."""

    seconds = 0.0

    def __init__(self, _scheduler: object) -> None:
        pass

    def so_far(self) -> float:
        """Returns the seconds."""
        return self.seconds


@pytest.fixture
def took(bridge: Bridge, monkeypatch: pytest.MonkeyPatch) -> Callable[[float], Clock]:
    """Returns a function that says how many seconds each call takes from then on, and returns the clock."""
    clock = Clock()
    bridge.application.requests.vain = bridge.application.vain = VainCalls(lambda: 2, 60, clock)
    monkeypatch.setattr(call_messages, "Seconds", Counted)

    def take(seconds: float) -> Clock:
        monkeypatch.setattr(Counted, "seconds", seconds)
        return clock

    return take


def ended(bridge: Bridge) -> dict[End, int]:
    """Returns how many calls ended in each way."""
    return dict(bridge.application.measurements.calls.all().ends)


def test_calls_are_put_off_once_those_in_vain_took_long(
    bridge: Bridge, took: Callable[[float], Clock], caplog: pytest.LogCaptureFixture
) -> None:
    clock = took(0.9)
    first = bridge.call(request(seconds=0))
    for seqno in (1, 2):
        assert ANSWERED in bridge.call(request(hostid=FIRST, seqno=seqno, seconds=0))
    heard = len(bridge.twin.heard)
    for seqno in (3, 4):
        reply = bridge.call(request(hostid=FIRST, seqno=seqno, seconds=60))
        assert TOO_OFTEN in reply and value(reply, "request_delay") == "60.000000" and not jobs(reply)
    assert ANSWERED in first and len(bridge.twin.heard) == heard  # bsched gets nothing of them
    assert ANSWERED in bridge.call(request(key="bob-key", cpid="c2", seconds=0))
    assert ended(bridge) == {End.ANSWERED: 4, End.TOO_OFTEN: 2}
    assert caplog.text.count("account ann..: its calls are put off") == 1, caplog.text
    clock.now += 66  # those that were put off do not count
    assert len(jobs(bridge.call(request(hostid=FIRST, seqno=5, seconds=60)))) == 1


def test_calls_that_bring_something_do_not_count(bridge: Bridge, took: Callable[[float], Clock]) -> None:
    took(1.5)
    given = jobs(bridge.call(request(seconds=60)))
    for seqno in range(1, 4):
        body = request(hostid=FIRST, seqno=seqno, reports=[(name, "1") for name in given], seconds=60)
        reply = bridge.call(body)
        assert names(reply, "result_ack") == given and given
        given = jobs(reply)
        if not given:
            break
    assert End.TOO_OFTEN not in ended(bridge)


def test_calls_that_fail_by_no_fault_of_the_client_do_not_count(
    bridge: Bridge, took: Callable[[float], Clock]
) -> None:
    took(100.0)
    bridge.twin.faults = ["unavailable"] * 9  # each call is sent three times
    for seqno in range(3):
        assert ANSWERED not in bridge.call(request(seconds=0, seqno=seqno))
    assert ended(bridge) == {End.NO_ANSWER: 3}
    assert ANSWERED not in bridge.call(request(key="nobody", seconds=0))
    assert ANSWERED not in bridge.call(request(key="nobody", seconds=0))
    assert ended(bridge) == {End.NO_ANSWER: 3, End.BAD_ACCOUNT: 2}


def test_a_message_that_cannot_be_read_counts_for_the_key_in_it(
    bridge: Bridge, took: Callable[[float], Clock]
) -> None:
    took(3.0)
    body = request(seconds=0)
    assert b"Error in request message" in bridge.call(body.replace("</scheduler_request>", "<a>"))
    assert TOO_OFTEN in bridge.call(body)


def test_a_key_that_only_the_xml_shows_counts(bridge: Bridge, took: Callable[[float], Clock]) -> None:
    took(3.0)
    hidden = request(seconds=0).replace("<authenticator>", "<authenticator >")
    assert ANSWERED in bridge.call(hidden)
    assert TOO_OFTEN in bridge.call(hidden)


def test_a_large_call_is_put_off_before_it_is_read(
    bridge: Bridge, took: Callable[[float], Clock], monkeypatch: pytest.MonkeyPatch
) -> None:
    took(3.0)
    large = request(seconds=0, extra="<x>" + "y" * 200_000 + "</x>")
    assert ANSWERED in bridge.call(large)
    reader = bridge.application.requests.reader
    monkeypatch.setattr(reader, "read", lambda *_: pytest.fail("it is read"))
    assert TOO_OFTEN in bridge.call(large)


def test_the_limit_is_a_setting(project: Path, twin: Twin) -> None:
    path = project / "bridge.toml"
    assert read_settings(path).host_rules.vain_seconds == 2
    path.write_text("vain_seconds = 30\n" + path.read_text())
    assert read_settings(path).host_rules.vain_seconds == 30


def test_bscheds_time_is_shared_among_the_messages_that_wait(monkeypatch: pytest.MonkeyPatch) -> None:
    """Two messages wait for bsched together: each took half of the time that it waited."""
    now, both, seconds = [100.0], threading.Barrier(2, timeout=60), list[float]()
    monkeypatch.setattr("bsched_bridge.scheduler.messages.time.monotonic", lambda: now[0])
    made = scheduler_messages.Scheduler(Address("127.0.0.1", 1), 10)

    def exchanged(*_: Any) -> tuple[int, bytes]:
        both.wait()
        now[0] = 104.0
        both.wait()
        return 200, b"{}"

    monkeypatch.setattr(scheduler_messages, "exchanged", exchanged)

    def send() -> None:
        made.message("GET", "/")
        seconds.append(made.seconds_of_thread)

    threads = [threading.Thread(target=send) for _ in range(2)]
    for thread in threads:
        thread.start()
    for thread in threads:
        thread.join()
    assert sorted(seconds) == [2.0, 4.0]  # the first one waited alone when it began
    assert made.seconds_of_thread == 0


# ---- Calls of accounts that do not exist


@pytest.mark.parametrize("is_down", [False, True])
def test_many_calls_of_accounts_that_do_not_exist_are_not_read(
    bridge: Bridge, monkeypatch: pytest.MonkeyPatch, is_down: bool
) -> None:
    monkeypatch.setattr(large_calls, "MANY_STRANGERS", 3)
    bridge.restart()
    assert ANSWERED in bridge.call(request(seconds=0))
    bridge.twin.faults = ["unavailable"] * 100 if is_down else []
    reader, lengths = bridge.application.requests.reader, list[int]()
    read = reader.read

    def noted(blocks: Iterable[bytes], length: int) -> ClientRequest:
        asked = read(blocks, length)
        lengths.append(length)
        return asked

    monkeypatch.setattr(reader, "read", noted)
    for number in range(6):
        reply = bridge.call(request(key=f"made-up-{number}", seconds=0))
        assert (b"gives no answer" if is_down else b"Invalid or missing account key") in reply
    assert len(lengths) == 3
    bridge.twin.faults = []
    # those that exist are served: one that the bridge knows, and one that bsched has
    assert ANSWERED in bridge.call(request(hostid=FIRST, seqno=1, seconds=0))
    assert ANSWERED in bridge.call(request(key="bob-key", cpid="c2", seconds=0))
    # a key that only the XML shows
    hidden = request(key="made-up", seconds=0).replace("<authenticator>", "<authenticator >")
    assert b"Invalid or missing account key" in bridge.call(hidden)


def test_strangers_are_few_again_after_a_minute(monkeypatch: pytest.MonkeyPatch) -> None:
    now, strangers = [0.0], large_calls.Strangers()
    monkeypatch.setattr("bsched_bridge.exchange.large_calls.time.monotonic", lambda: now[0])
    for _ in range(large_calls.MANY_STRANGERS):
        assert not strangers.are_many()
        strangers.add()
        now[0] += 1
    assert strangers.are_many()
    now[0] = large_calls.STRANGERS_SECONDS
    assert not strangers.are_many()

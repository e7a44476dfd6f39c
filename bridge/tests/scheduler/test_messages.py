"""A bsched that hangs: it takes connections and gives no answer."""
import http.client
import socket
import threading
import time
from collections.abc import Callable, Iterator
from typing import Any

import pytest
import waitress
from bridges import Bridge
from joining import wait_until
from messages import request
from twin import Twin

from bsched_bridge.scheduler.messages import Hung, NoAnswer, Refusal, Scheduler, read_refusal
from bsched_files.project_settings import Address


@pytest.fixture
def silent() -> Iterator[Address]:
    """A port that takes connections and answers none."""
    with socket.create_server(("127.0.0.1", 0), backlog=100) as listener:
        yield Address(*listener.getsockname())


def fault_of(action: Callable[..., Any]) -> type[Any]:
    """Returns the fault of an action that gets no answer."""
    with pytest.raises(NoAnswer) as raised:
        action()
    return raised.type


def test_after_a_time_out_messages_fail_at_once(silent: Address, monkeypatch: pytest.MonkeyPatch) -> None:
    monkeypatch.setattr("bsched_bridge.scheduler.messages.HUNG_SECONDS", 1000.0)
    asked = Scheduler(silent, 1)
    sent: list[tuple[Any, ...]] = []
    exchange = asked._exchange

    def counted(*words: Any) -> Any:
        sent.append(words)
        return exchange(*words)

    monkeypatch.setattr(asked, "_exchange", counted)
    assert fault_of(lambda: asked.call(b"{}")) is NoAnswer
    assert len(sent) == 1  # one attempt, which waited for a second
    assert {fault_of(lambda: asked.call(b"{}")) for _ in range(20)} == {Hung}
    assert len(sent) == 1
    assert asked.silent_since is not None and asked.is_slow


def test_one_message_shows_whether_there_are_answers_again(
    silent: Address, twin: Twin, monkeypatch: pytest.MonkeyPatch
) -> None:
    monkeypatch.setattr("bsched_bridge.scheduler.messages.HUNG_SECONDS", 0.1)
    asked = Scheduler(silent, 1)
    fault_of(lambda: asked.has_account("ann-key"))
    time.sleep(0.2)
    may_send, exchange = threading.Event(), asked._exchange

    def waits(*words: Any) -> Any:
        """A busy machine may look late whether others fail meanwhile."""
        assert may_send.wait(60)
        return exchange(*words)

    monkeypatch.setattr(asked, "_exchange", waits)
    probe = threading.Thread(target=fault_of, args=(lambda: asked.has_account("ann-key"),))
    probe.start()
    wait_until(lambda: asked._is_probed)
    assert fault_of(lambda: asked.has_account("ann-key")) is Hung
    may_send.set()
    probe.join()
    time.sleep(0.2)
    asked.address, asked.answer_seconds = twin.address, 60
    assert asked.has_account("ann-key") and asked.has_account("ann-key")
    assert asked.silent_since is None and not asked.is_slow


def test_a_bsched_that_is_not_there_is_asked_each_time(silent: Address) -> None:
    with socket.create_server(("127.0.0.1", 0)) as listener:
        address = Address(*listener.getsockname())
    asked = Scheduler(address, 1)
    assert {fault_of(lambda: asked.has_account("ann-key")) for _ in range(3)} == {NoAnswer}
    assert asked._began == {}


def test_pages_and_files_are_answered_while_bsched_hangs(
    bridge: Bridge, monkeypatch: pytest.MonkeyPatch
) -> None:
    asked, threads = bridge.application.scheduler, bridge.application.settings.threads
    monkeypatch.setattr(asked, "answer_seconds", 600)
    server = waitress.create_server(
        bridge.application, host="127.0.0.1", port=0, threads=threads, clear_untrusted_proxy_headers=True
    )
    serving = threading.Thread(target=server.run, daemon=True)
    serving.start()

    def got(method: str, path: str, body: str | None = None) -> bytes:
        connection = http.client.HTTPConnection("127.0.0.1", server.effective_port, timeout=120)
        connection.request(method, path, body)
        answer = connection.getresponse().read()
        connection.close()
        return answer

    callers = [
        threading.Thread(target=got, args=("POST", "/p/cgi", request(cpid=f"c{number}")))
        for number in range(24)
    ]
    with socket.create_server(("127.0.0.1", 0), backlog=100) as silent:
        monkeypatch.setattr(asked, "address", Address(*silent.getsockname()))
        for caller in callers:
            caller.start()
        wait_until(lambda: len(asked._began) == threads - 2)
        assert b"How to join" in got("GET", "/p/") and got("GET", "/p/download/two.txt") == b"2\n"
        assert len(asked._began) == threads - 2  # these calls still wait
    for caller in callers:
        caller.join()
    server.trigger.pull_trigger(server.close)  # by its own thread, which still waits at its sockets
    serving.join(60)
    assert not serving.is_alive() and server.task_dispatcher.shutdown()


def test_a_message_that_has_just_begun_is_not_slow(twin: Twin, monkeypatch: pytest.MonkeyPatch) -> None:
    asked = Scheduler(twin.address, 1)
    monkeypatch.setattr("bsched_bridge.scheduler.messages.SLOW_SECONDS", 60.0)
    message = asked._begin_to_wait()
    assert not asked.is_slow
    monkeypatch.setattr("bsched_bridge.scheduler.messages.SLOW_SECONDS", -1.0)
    assert asked.is_slow
    asked._end_to_wait(*message)
    assert not asked.is_slow


def test_what_is_no_refusal_of_bsched_is_no_answer() -> None:
    for body in ({"error": 5}, {"number": 5}, ["error"], "error", None):
        with pytest.raises(NoAnswer):
            read_refusal(400, body)
    assert read_refusal(400, {"error": "stale", "last": 5}) == Refusal("stale", {"last": 5})

"""A scheduler_request from its bytes to those of its reply."""
import xml.etree.ElementTree as ElementTree

import pytest
from bridges import Bridge
from messages import FIRST, jobs, names, request, value


def test_a_name_of_any_characters(bridge: Bridge) -> None:
    bridge.twin.service.imported("accounts", "second", 'authenticator,name\ncid,"<C> &\x01\n\U0001f600"\n')
    reply = bridge.call(request(key="cid"))
    assert ElementTree.fromstring(reply).findtext("user_name") == "<C> &\ufffd\n\U0001f600"
    for path in ("status", "users", "user/1", "computers", f"computer/{FIRST}", ""):
        assert "&lt;C&gt; &amp;" in bridge.got(f"/p/{path}")[2].decode(), path


@pytest.mark.parametrize(
    "end_word, message",
    [("no_eligible_work", "No tasks are available"), ("in_progress_limit", "limit on tasks")],
)
def test_why_there_are_no_jobs(bridge: Bridge, end_word: str, message: str) -> None:
    listed: list[str] = []
    for _ in range(8):
        reply = bridge.call(request(hostid=int(bool(listed)), listed=listed, seconds=1000))
        if not jobs(reply):
            break
        listed += jobs(reply)
        if end_word == "no_eligible_work":
            bridge.call(request(hostid=FIRST, listed=[], reports=[(name, "1") for name in listed], seconds=0))
            listed = []
    assert message in value(reply, "message")


def test_aborted_names_are_told(bridge: Bridge) -> None:
    assert names(bridge.call(request(listed=["strange_0"])), "result_abort") == ["strange_0"]


@pytest.mark.parametrize(
    "body, why",
    [(b"", "incomplete or faulty XML"), (b"<a", "incomplete"), (b"<a/>", "not a scheduler_request")],
)
def test_a_faulty_request_gets_a_reply(bridge: Bridge, body: bytes, why: str) -> None:
    reply = bridge.call(body)
    assert why in value(reply, "message")
    assert value(reply, "request_delay") == "3600.000000"
    assert bridge.twin.heard == []


def test_large_requests_are_read_one_after_the_other(bridge: Bridge, monkeypatch: pytest.MonkeyPatch) -> None:
    large = request(extra=" " * 1024 * 1024)
    monkeypatch.setattr(bridge.application.requests.reader.large, "wait_seconds", 0.01)
    with bridge.application.requests.reader.large.held("large"):
        reply = bridge.call(large)
        assert value(reply, "message") == "The project is busy at the moment."
        assert (value(reply, "request_delay"), jobs(reply)) == ("60.000000", [])
        assert value(bridge.call(request()), "hostid") == str(FIRST)  # a small one need not wait
    assert jobs(bridge.call(large)) == ["u1_0"]

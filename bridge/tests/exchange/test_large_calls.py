"""The bodies of large calls: from whom they are received, and how fast they must come."""
from pathlib import Path
from types import SimpleNamespace
from typing import Any

import pytest
from bridges import Bridge
from hypothesis import HealthCheck, given, settings
from hypothesis import strategies as st
from messages import names, request, value
from twin import Twin
from werkzeug.exceptions import BadRequest

from bsched_bridge.common.limits import NoPlace
from bsched_bridge.exchange import large_calls
from bsched_bridge.exchange.answers import BARRED, PutOff
from bsched_bridge.exchange.large_calls import FRONT, LARGE, MOST_OF_ACCOUNT, SMALL, LargeCalls, Refused
from bsched_bridge.people.measurements import End
from bsched_bridge.requests.parts import RequestFault

HEAD = b"<scheduler_request>\n    <authenticator>ann-key</authenticator>\n"


class Pieces:
    """A body that comes in pieces."""

    def __init__(self, body: bytes, lengths: list[int] | None = None, ends: bool = False) -> None:
        self.body, self.lengths, self.ends = body, lengths or [], ends
        self.given = 0

    def read_some(self, most: int, seconds: float) -> bytes:
        """Returns the next piece. What does not come is a time-out, or the end."""
        if seconds <= 0 or (self.given == len(self.body) and not self.ends):
            raise TimeoutError
        length = self.lengths.pop(0) if self.lengths else 65_536
        block = self.body[self.given : self.given + min(length, most)]
        self.given += len(block)
        return block


def receiver(folder: Path, refusal: PutOff | None = None) -> LargeCalls:
    """Returns what receives calls, with what it says of each account."""
    return LargeCalls(folder, lambda key: refusal if key == "ann-key" else BARRED)


@settings(suppress_health_check=[HealthCheck.function_scoped_fixture], max_examples=50, deadline=None)
@given(st.lists(st.integers(1, 3000), max_size=60), st.integers(0, 3000))
def test_a_body_in_any_pieces(tmp_path: Path, lengths: list[int], more: int) -> None:
    body = HEAD + bytes(range(256)) * (LARGE // 256) + bytes(more)
    with receiver(tmp_path).received(Pieces(body, lengths), len(body)) as blocks:
        assert list(tmp_path.iterdir()) == []  # the file has no name
        assert b"".join(blocks) == body


def test_nothing_is_stored_of_an_account_that_is_refused(tmp_path: Path) -> None:
    stream = Pieces(HEAD + bytes(10**6), [len(HEAD)])
    with pytest.raises(Refused) as raised:
        with receiver(tmp_path / "missing", BARRED).received(stream, 10**6):
            pass
    assert raised.value.put_off is BARRED and stream.given == len(HEAD)


def test_no_more_than_the_front_is_read_for_a_key(tmp_path: Path) -> None:
    stream = Pieces(b"<scheduler_request>" + bytes(10**6))
    with pytest.raises(RequestFault, match="authenticator is missing"):
        with receiver(tmp_path).received(stream, 10**6):
            pass
    assert stream.given <= FRONT + 65_536


@pytest.mark.parametrize("body", [b"", HEAD[:20], HEAD, HEAD + bytes(LARGE)])
@pytest.mark.parametrize("ends", [True, False])
def test_a_body_that_stays_away(tmp_path: Path, body: bytes, ends: bool) -> None:
    calls = receiver(tmp_path)
    for _ in range(MOST_OF_ACCOUNT + 1):  # its turn ends
        with pytest.raises(BadRequest):
            with calls.received(Pieces(body, ends=ends), LARGE + 10_000):
                pass


def test_a_body_that_comes_too_slowly(tmp_path: Path, monkeypatch: pytest.MonkeyPatch) -> None:
    """A byte now and then is not enough, neither of the front nor of the rest."""
    seconds = iter(range(10**6))
    clock = SimpleNamespace(monotonic=lambda: float(next(seconds)))
    monkeypatch.setattr("bsched_bridge.exchange.large_calls.time", clock)
    for body, before in ((bytes(10**6), 20), (HEAD + bytes(10**6), len(HEAD) + 200)):
        stream = Pieces(body, [1] * 10**4)
        with pytest.raises(BadRequest):
            with receiver(tmp_path).received(stream, 10**6):
                pass
        assert stream.given < before


def test_an_account_has_two_turns(tmp_path: Path) -> None:
    calls, body = receiver(tmp_path), HEAD + bytes(LARGE)
    with calls.received(Pieces(body), len(body)), calls.received(Pieces(body), len(body)):
        with pytest.raises(NoPlace):
            with calls.received(Pieces(body), len(body)):
                pass
    with calls.received(Pieces(body), len(body)) as blocks:
        assert b"".join(blocks) == body


def test_all_turns(tmp_path: Path, monkeypatch: pytest.MonkeyPatch) -> None:
    monkeypatch.setattr(large_calls, "MOST_AT_ONCE", 1)
    calls = LargeCalls(tmp_path, lambda _key: None)
    ann, bob = HEAD + bytes(LARGE), HEAD.replace(b"ann", b"bob") + bytes(LARGE)
    with calls.received(Pieces(ann), len(ann)):
        with pytest.raises(NoPlace):
            with calls.received(Pieces(bob), len(bob)):
                pass
    with calls.received(Pieces(bob), len(bob)):
        pass


def test_a_full_disk(tmp_path: Path, monkeypatch: pytest.MonkeyPatch) -> None:
    class Full:
        """A file on a full disk."""

        def __enter__(self) -> "Full":
            return self

        def __exit__(self, *_fault: object) -> None:
            pass

        def write(self, _block: bytes) -> None:
            raise OSError(28, "No space left on device")

    files = SimpleNamespace(TemporaryFile=lambda **_words: Full())
    monkeypatch.setattr("bsched_bridge.exchange.large_calls.tempfile", files)
    with pytest.raises(NoPlace):
        with receiver(tmp_path).received(Pieces(HEAD + bytes(LARGE)), LARGE + len(HEAD)):
            pass


# ---- In the bridge


def sent(bridge: Bridge, body: str) -> tuple[bytes, Pieces]:
    """Sends a call whose body comes in pieces. Returns the reply, and the body."""
    stream: Any = Pieces(body.encode(), [len(HEAD)])
    status, _, reply = bridge.got("/p/cgi", "POST", body.encode(), **{"wsgi.input": stream})
    assert status == "200 OK"
    return reply, stream


def large(**words: Any) -> str:
    """Returns a large request that reports a result."""
    return request(reports=[("u1_0", "42")], extra=" " * LARGE, seconds=0, **words)


def test_a_large_call_of_a_known_host(bridge: Bridge, twin: Twin) -> None:
    twin.statement = None
    hostid = value(bridge.call(request(seconds=60)), "hostid")
    heard = len(twin.heard)
    reply, _ = sent(bridge, large(hostid=hostid))
    assert names(reply, "result_ack") == ["u1_0"]
    assert all(call["rpc_seqno"] for call in twin.calls()[heard:])  # bsched is not asked for a known account


def test_an_account_that_only_bsched_knows(bridge: Bridge, twin: Twin) -> None:
    """As after a loss of the state file."""
    twin.statement = None
    reply, stream = sent(bridge, large(key="bob-key", cpid="b"))
    assert "can't tell which computer got u1_0" in value(reply, "message")
    assert stream.given == len(stream.body)


def test_a_stranger_is_refused_by_the_front(bridge: Bridge) -> None:
    reply, stream = sent(bridge, large(key="made-up"))
    assert "Invalid or missing account key" in value(reply, "message")
    assert stream.given < 65_536 < len(stream.body)
    assert bridge.application.measurements.calls.all().ends[End.BAD_ACCOUNT] == 1


@pytest.mark.parametrize("length, is_read", [(SMALL, True), (SMALL + 1, False)])
def test_the_xml_of_a_stranger_is_read_only_if_it_is_small(
    bridge: Bridge, length: int, is_read: bool
) -> None:
    """To read it takes many times the processor time of a refusal."""
    reply = bridge.call(request(key="made-up")[:200].ljust(length, "<"))
    assert ("XML" in value(reply, "message")) == is_read
    assert ("Invalid or missing account key" in value(reply, "message")) != is_read


def test_a_call_of_middle_size_without_a_key(bridge: Bridge) -> None:
    reply = bridge.call("<scheduler_request>".ljust(70_000))
    assert "authenticator is missing" in value(reply, "message")


def test_a_barred_account_is_refused_by_the_front(bridge: Bridge) -> None:
    bridge.application.exchange.barring.bar("ann-key", 0)
    reply, stream = sent(bridge, large())
    assert "barred this account" in value(reply, "message") and stream.given < 65_536


def test_an_account_that_cannot_be_known_now(bridge: Bridge, twin: Twin) -> None:
    twin.faults = ["unavailable"]
    reply, stream = sent(bridge, large(key="bob-key"))
    assert value(reply, "project_is_down") == "1" and stream.given < 65_536


def test_a_body_that_the_server_has_already(bridge: Bridge, twin: Twin) -> None:
    """waitress reads it before."""
    twin.statement = None
    assert "can't tell which computer got u1_0" in value(bridge.call(large()), "message")

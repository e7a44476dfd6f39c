"""Whether a key is the operator's."""
from functools import partial
from urllib.parse import urlencode

import pytest
from boards import FORM, KEY, board, sent
from bridges import Bridge
from messages import request
from pages_seen import page_of

from bsched_bridge.common.limits import RecentCounts


@pytest.mark.parametrize("wrong", ["", "x", f"{KEY}x", KEY[:-1], KEY.upper(), "ann-key", "\xe9"])
def test_another_key(bridge: Bridge, wrong: str) -> None:
    body = urlencode({"key": wrong, "action": "bar", "account": "Ann"}).encode()
    bridge.call(request())
    answer = bridge.got("/p/operator/board", "POST", body, CONTENT_TYPE=FORM)
    page = page_of(answer, "403 Forbidden", has_key=True)
    assert "This is not the operator's key." in page.text and "Parts" not in page.text
    assert KEY not in answer[2].decode() and bridge.application.exchange.barring.all() == {}


def test_the_key(bridge: Bridge) -> None:
    page = board(bridge)
    assert "Parts" in page.text and KEY not in page.text
    hidden = [fields for tag, fields in page.tags if tag == "input" and fields["type"] == "hidden"]
    assert {fields["value"] for fields in hidden} == {KEY}
    forms = [fields for tag, fields in page.tags if tag == "form"]
    assert len(forms) == len(hidden) == 3
    assert {(form["method"], form["action"]) for form in forms} == {("post", "/p/operator/board")}


def test_few_wrong_keys_are_compared(bridge: Bridge, monkeypatch: pytest.MonkeyPatch) -> None:
    now = [0.0]
    monkeypatch.setattr(
        "bsched_bridge.operator.key.RecentCounts", partial(RecentCounts, clock=lambda: now[0])
    )
    bridge.restart()
    for _ in range(20):
        board(bridge)  # right ones are not counted
    for _ in range(10):
        assert b"not the operator" in sent(bridge, key="wrong")[2]
    assert b"Too many wrong keys" in sent(bridge)[2]
    now[0] = 59.0
    assert sent(bridge)[0] == "403 Forbidden"
    now[0] = 60.0
    assert sent(bridge)[0] == "200 OK"

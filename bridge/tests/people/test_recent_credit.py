"""Recent average credit: what the tools keep is in replies and on pages."""
import hashlib
import hmac
import json
import os
import time
from pathlib import Path

import pytest
from bridges import Bridge
from messages import request, value

from bsched_bridge.people.recent_credit import RecentCredit

DAY = 86400
SALT = "5a17"


def file_of(path: Path, averages: dict[tuple[str, str], float], now: float | int) -> None:
    """Writes a file of averages as the tools do. They are given by key and host_cpid."""
    hosts = {
        hmac.new(SALT.encode(), f"{key}\0{cpid}".encode(), hashlib.sha256).hexdigest()[:32]: {
            "id": 1,
            "created": 0,
            "calls": [],
            "called": 0,
            "millicredits": 0,
            "average": average,
            "time": now,
        }
        for (key, cpid), average in averages.items()
    }
    path.write_text(json.dumps({"format": 1, "salt": SALT, "users": {}, "hosts": hosts}))


def test_an_average_halves_in_a_week(tmp_path: Path) -> None:
    file_of(tmp_path / "a.json", {("ann-key", "c1"): 8.0, ("ann-key", "c2"): 2.0}, 1000)
    recent = RecentCredit(tmp_path / "a.json")
    assert recent.of_host("ann-key", "c1", 1000) == 8
    assert recent.of_host("ann-key", "c1", 1000 + 7 * DAY) == pytest.approx(4)
    assert recent.of_host("ann-key", "c1", 1000 + 14 * DAY) == pytest.approx(2)
    assert recent.of_host("ann-key", "c1", 0) == 8  # a clock that went back
    assert recent.of_hosts([("ann-key", "c1"), ("ann-key", "c2"), ("eve-key", "c1")], 1000) == 10


def test_the_file_is_read_again_after_a_change(tmp_path: Path, caplog: pytest.LogCaptureFixture) -> None:
    path = tmp_path / "a.json"
    recent = RecentCredit(path)
    assert recent.of_host("ann-key", "c1", 1000) == 0
    file_of(path, {("ann-key", "c1"): 8.0}, 1000)
    assert recent.of_host("ann-key", "c1", 1000) == 8
    for text in ("{", "[]", '{"format": 2}', '{"format": 1, "salt": "x", "hosts": {"a": 3}}'):
        path.write_text(text)
        os.utime(path, ns=(time.time_ns(), time.time_ns()))
        assert recent.of_host("ann-key", "c1", 1000) == 0
    assert caplog.text.count("recent average credit is 0: ") == 4


def test_replies_and_pages_have_it(project: Path, bridge: Bridge) -> None:
    path = project / "bridge.toml"
    path.write_text('averages = "averages.json"\n' + path.read_text())
    bridge.restart()
    assert value(bridge.call(request()), "user_expavg_credit") == "0.000000"
    file_of(project / "averages.json", {("ann-key", "c1"): 8.0, ("ann-key", "c2"): 2.0}, time.time() + DAY)
    bridge.call(request(cpid="c2"))
    reply = bridge.call(request())
    assert (value(reply, "user_expavg_credit"), value(reply, "host_expavg_credit")) == (
        "10.000000",
        "8.000000",
    )
    text = bridge.got("/p/users")[2].decode()
    assert "recent average credit" in text and ">10.00<" in text


def test_without_a_file_nothing_is_said(bridge: Bridge) -> None:
    assert value(bridge.call(request()), "user_expavg_credit") is None
    assert "recent average" not in bridge.got("/p/users")[2].decode()


def test_a_page_that_does_not_exist(bridge: Bridge) -> None:
    status, fields, body = bridge.got("/p/nope")
    assert status == "404 Not Found" and fields["Content-Type"].startswith("text/html")
    assert b"There is no such page here." in body and b'href="/p/"' in body


def test_how_to_reach_the_operator(project: Path, bridge: Bridge) -> None:
    path = project / "bridge.toml"
    path.write_text('contact = "https://sums.example/us"\n' + path.read_text())
    bridge.restart()
    assert b'<a href="https://sums.example/us">' in bridge.got("/p/")[2]

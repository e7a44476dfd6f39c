"""What the bridge says of itself to the tools, and who gets it."""
import json
import shutil
from dataclasses import replace
from pathlib import Path
from typing import Any

import pytest
from bridges import Bridge
from messages import FIRST, jobs, request
from uploading import DATA, sent, tokens_of, upload

KEY = "change-this-key"
PATH = "/p/operator/state"


def state_of(bridge: Bridge) -> dict[str, Any]:
    """Returns the members of the answer."""
    status, fields, body = bridge.got(PATH, HTTP_X_OPERATOR_KEY=KEY, REMOTE_ADDR="127.0.0.1")
    assert (status, fields["Content-Type"]) == ("200 OK", "application/json")
    assert fields["Cache-Control"] == "no-store"
    state = json.loads(body)
    assert isinstance(state, dict)
    return state


def test_a_bridge_without_uploads(bridge: Bridge) -> None:
    assert state_of(bridge) == {
        "format": 1,
        "catalogue": {"edit": None, "digests": {}},
        "put_off": None,
        "uploads": None,
    }


def test_an_edit_with_a_fault(bridge: Bridge) -> None:
    """The fault is there once anybody asked the bridge for anything of the catalogue, and goes with it."""
    catalogue = bridge.folder / "catalogue.toml"
    good = catalogue.read_text()
    catalogue.write_text(good.replace('name = "sum"', 'name = "sum'))
    bridge.got("/p/get_project_config.php")
    assert "is not TOML: Illegal character" in state_of(bridge)["catalogue"]["edit"]
    catalogue.write_text(good)
    bridge.got("/p/get_project_config.php")
    assert state_of(bridge)["catalogue"]["edit"] is None


def test_faults_of_digest_programs_and_reports(bridge: Bridge) -> None:
    bridge.application.faults.digests["sum"] = "digests/rounded: it ends with status 1"
    bridge.application.measurements.put_offs._fault = 1_700_000_000.5, "u1_0: bubblewrap can't run here"
    state = state_of(bridge)
    assert state["catalogue"]["digests"] == {"sum": "digests/rounded: it ends with status 1"}
    assert state["put_off"] == {"moment": 1_700_000_000, "text": "u1_0: bubblewrap can't run here"}


def test_the_room_for_uploads(file_bridge: Bridge, monkeypatch: pytest.MonkeyPatch) -> None:
    """What may come is counted for the jobs that are out, until they are reported or late."""
    usage = shutil.disk_usage(file_bridge.folder)
    uploads = state_of(file_bridge)["uploads"]
    assert abs(uploads.pop("disk_free") - usage.free) < 10**9
    assert uploads == {"used": 0, "most_bytes": 1_000_000, "free_bytes": 0, "coming": 0}
    reply = file_bridge.call(request(seconds=120))
    count = len(jobs(reply))
    assert count and state_of(file_bridge)["uploads"]["coming"] == count * 21_000
    name, token = next(iter(tokens_of(reply).items()))
    assert sent(file_bridge, upload(name, DATA, token)) == 0
    assert state_of(file_bridge)["uploads"]["used"] == len(DATA)
    settings = file_bridge.store.settings
    monkeypatch.setattr(file_bridge.store, "settings", replace(settings, free_bytes=7))
    assert state_of(file_bridge)["uploads"]["free_bytes"] == 7
    reports = [(result, "1") for result in jobs(reply)]
    statuses = dict.fromkeys(jobs(reply), 3)
    file_bridge.call(request(hostid=FIRST, seqno=1, seconds=0, reports=reports, statuses=statuses))
    assert state_of(file_bridge)["uploads"]["coming"] == 0


def test_late_jobs_bring_nothing(file_bridge: Bridge, monkeypatch: pytest.MonkeyPatch) -> None:
    file_bridge.call(request(seconds=120))
    far = 4_000_000_000
    monkeypatch.setattr("bsched_bridge.operator.overview.time.time", lambda: far)
    assert state_of(file_bridge)["uploads"]["coming"] == 0


# ---- Who gets it


@pytest.mark.parametrize("wrong", ["", "x", f"{KEY}x", KEY.upper(), "ann-key", "\xe9"])
def test_another_key(bridge: Bridge, wrong: str) -> None:
    status, _, body = bridge.got(PATH, HTTP_X_OPERATOR_KEY=wrong, REMOTE_ADDR="127.0.0.1")
    assert (status, body) == ("403 Forbidden", b"This is not the operator's key.\n")
    assert bridge.got(PATH, REMOTE_ADDR="127.0.0.1")[0] == "403 Forbidden"


def test_few_wrong_keys_are_compared(bridge: Bridge) -> None:
    for _ in range(20):
        state_of(bridge)  # right ones are not counted
    for _ in range(10):
        assert b"not the operator" in bridge.got(PATH, HTTP_X_OPERATOR_KEY="x")[2]
    assert b"Too many wrong keys" in bridge.got(PATH, HTTP_X_OPERATOR_KEY=KEY)[2]


def test_messages_from_elsewhere(bridge: Bridge) -> None:
    for field in ("X_REAL_IP", "X_FORWARDED_FOR", "FORWARDED", "VIA"):
        more: Any = {"REMOTE_ADDR": "127.0.0.1", f"HTTP_{field}": "127.0.0.1", "HTTP_X_OPERATOR_KEY": KEY}
        assert bridge.got(PATH, **more)[0] == "404 Not Found"
    assert bridge.got(PATH, REMOTE_ADDR="198.51.100.7", HTTP_X_OPERATOR_KEY=KEY)[0] == "404 Not Found"


def test_a_bridge_without_a_key(project: Path, bridge: Bridge) -> None:
    settings = project / "bridge.toml"
    settings.write_text(settings.read_text().replace('operator_key = "change-this-key"\n', ""))
    bridge.restart()
    assert bridge.got(PATH, HTTP_X_OPERATOR_KEY="")[0] == "404 Not Found"

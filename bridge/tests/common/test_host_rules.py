"""How many hosts an account may have, and barred accounts. The settings are read again without a restart."""
import os
import threading
import time
from pathlib import Path

import pytest
from bridges import Bridge
from messages import FIRST, request, value
from numbering import NEW_HOSTID, rising
from twin import Twin

FULL = "Your account has 3 computers at this project, and may have no more."


@pytest.fixture
def small(project: Path, bridge: Bridge) -> Bridge:
    """A bridge that allows each account three hosts."""
    settings(project, "most_hosts = 3")
    return bridge


def settings(project: Path, *lines: str) -> None:
    """Writes other settings on hosts. The time of the file rises, however soon after another edit that is."""
    path = project / "bridge.toml"
    before = path.stat()
    kept = [line for line in path.read_text().splitlines() if not line.startswith(("most_hosts", "barred"))]
    path.write_text("\n".join([*kept, *lines]) + "\n")
    os.utime(path, ns=(before.st_atime_ns, before.st_mtime_ns + 1))


def called(bridge: Bridge, number: int, key: str = "ann-key", hostid: int = 0) -> str:
    """Has a host call. Returns the place of its hostid in the order of all, or the message to the
    volunteer."""
    reply = bridge.call(request(key=key, cpid=f"c{number}", hostid=hostid, seconds=0))
    hostid = value(reply, "hostid")
    return str(int(hostid) - FIRST + 1) if hostid else value(reply, "message") or "known"


def test_one_account_fills_no_project(bridge: Bridge, twin: Twin) -> None:
    """The limit is 20 by default."""
    answers = [called(bridge, number) for number in range(200)]
    assert answers[:20] == [str(number) for number in range(1, 21)]
    assert {answer[:24] for answer in answers[20:]} == {"Your account has 20 comp"}
    assert len(twin.service.machine.hosts) == 20


def test_a_host_too_many_gets_a_message(small: Bridge, twin: Twin, caplog: pytest.LogCaptureFixture) -> None:
    assert [called(small, number) for number in range(3)] == ["1", "2", "3"]
    reply = small.call(request(cpid="c9"))
    assert FULL in value(reply, "message") and 'priority="notice"' in reply.decode()
    assert value(reply, "request_delay") == "86400.000000"
    lines = [record.getMessage() for record in caplog.records if "refused" in record.getMessage()]
    assert lines == ["host c9 of account ann.. is refused: the account has 3 hosts"]
    assert called(small, 1) == "2" and called(small, 1, hostid=FIRST + 1) == "known"
    assert called(small, 9, "bob-key") == "4"
    small.restart()
    assert FULL in called(small, 9)
    assert len(twin.service.machine.hosts) == 4


def test_a_host_whose_answer_was_lost_counts(small: Bridge, twin: Twin) -> None:
    twin.faults = ["lost"] * 3
    called(small, 0)
    assert [called(small, number) for number in (1, 2)] == ["1", "2"]
    assert FULL in called(small, 3)
    assert called(small, 0) == "3"


def test_hosts_that_come_at_once(small: Bridge, twin: Twin) -> None:
    answers = []
    threads = [
        threading.Thread(target=lambda number=number: answers.append(called(small, number)))
        for number in range(12)
    ]
    for thread in threads:
        thread.start()
    for thread in threads:
        thread.join()
    assert len([answer for answer in answers if answer.isdigit()]) == 3 == len(twin.service.machine.hosts)


def test_the_settings_are_read_again(project: Path, small: Bridge, caplog: pytest.LogCaptureFixture) -> None:
    assert [called(small, number) for number in range(3)] == ["1", "2", "3"]
    assert FULL in called(small, 3)
    settings(project, "most_hosts = 4")
    assert called(small, 3) == "4"
    settings(project, "most_hosts = 1")  # existing hosts continue
    assert called(small, 3) == "4" and "4 computers" in called(small, 4)
    settings(project, "most_hosts = 0")
    assert "4 computers" in called(small, 4)
    assert (
        "the settings on hosts stay as they were" in caplog.text
        and "most_hosts is not within 1" in caplog.text
    )
    settings(project, "most_hosts = 5")
    assert called(small, 4) == "5"
    (project / "bridge.toml").rename(project / "gone.toml")
    assert "5 computers" in called(small, 5)
    assert caplog.text.count("stay as they were") == 2  # once for each edit


def test_a_barred_account(
    project: Path, bridge: Bridge, twin: Twin, caplog: pytest.LogCaptureFixture
) -> None:
    assert called(bridge, 0) == "1"
    settings(project, 'barred = ["ann-key", "other"]')
    heard = len(twin.heard)
    reply = bridge.call(request(cpid="c0", hostid=FIRST))
    assert value(reply, "message") == "The project's operator has barred this account. Ask the operator why."
    assert value(reply, "request_delay") == "86400.000000"
    assert len(twin.heard) == heard
    assert "host c0 of account ann.. is refused: barred" in caplog.text
    assert called(bridge, 1, "bob-key") == "2"
    settings(project)
    assert called(bridge, 0, hostid=FIRST) == "known"


def test_a_barred_account_that_calls_again_is_refused_before_its_call_is_read(
    project: Path, bridge: Bridge, monkeypatch: pytest.MonkeyPatch
) -> None:
    """To read a call takes most of what its refusal takes. Other accounts are served, and so is this one once
    it is not barred any more.
    """
    settings(project, 'barred = ["ann-key"]')
    unreadable = request(cpid="c0") + "<a/>"
    assert b"Error in request message" in bridge.call(unreadable)  # nobody was refused before
    assert b"has barred this account" in bridge.call(request(cpid="c0"))
    assert b"has barred this account" in bridge.call(unreadable)
    assert called(bridge, 1, "bob-key") == "1"
    settings(project)
    assert called(bridge, 0) == "2"
    settings(project, 'barred = ["ann-key"]')
    now = time.monotonic()
    monkeypatch.setattr(bridge.application.exchange._logged, "clock", lambda: now + 61)
    assert b"Error in request message" in bridge.call(unreadable)


def test_hosts_that_bsched_has_lost_make_room(small: Bridge, twin: Twin) -> None:
    assert [called(small, number) for number in range(3)] == ["1", "2", "3"]
    machine = twin.service.machine
    for key in [key for key, host in machine.hosts.items() if host.number == 3]:  # as in an older copy
        del machine.hosts[key]
    assert called(small, 7) == "4"  # no number is given twice
    assert FULL in called(small, 8)
    assert FULL in called(small, 2, hostid=FIRST + 2)  # its place is taken
    assert len(machine.hosts) == 3


def test_without_the_state_file_the_hosts_that_call_count(
    small: Bridge, twin: Twin, project: Path, monkeypatch: pytest.MonkeyPatch
) -> None:
    for number in range(3):
        called(small, number)
    small.file.close()
    for path in project.glob("bridge.db*"):
        path.unlink()
    monkeypatch.setattr(NEW_HOSTID, rising(lambda: FIRST + 99))
    small.start()
    assert [called(small, number) for number in (7, 8, 9)] == ["101", "102", "103"]
    assert FULL in called(small, 0, hostid=FIRST)
    settings(project, "most_hosts = 4")
    assert called(small, 0, hostid=FIRST) == "104"


def test_no_answer_about_a_host(small: Bridge, twin: Twin) -> None:
    for number in range(3):
        called(small, number)
    twin.close()
    assert "gives no answer" in called(small, 9)


def test_refused_hosts_have_one_line_in_a_minute(
    project: Path, bridge: Bridge, caplog: pytest.LogCaptureFixture
) -> None:
    """A barred account, or one with too many hosts, can call without an end: it must not fill the log."""
    settings(project, 'most_hosts = 1\nbarred = ["bob-key"]')
    bridge.restart()
    bridge.call(request())
    for number in range(5):
        bridge.call(request(cpid=f"more{number}"))
        bridge.call(request(key="bob-key", cpid=f"b{number}"))
    lines = [record.message for record in caplog.records if " is refused: " in record.message]
    assert lines == [
        "host more0 of account ann.. is refused: the account has 1 hosts",
        "host b0 of account bob.. is refused: barred",
    ]

"""The status of hosts and users, by bsched's statements."""
import json
import re
import threading
import time
from pathlib import Path
from typing import Any

import pytest
from bridges import Bridge
from joining import create
from messages import FIRST, request
from pages_seen import page_of
from twin import Twin


def cells(page: str, before: str, place: int) -> list[str]:
    """Returns the numbers in the rest of a table row, after the place-th occurrence of a text."""
    rest = page.split(before)[place].partition("</tr>")[0]
    return re.findall('<td class="number(?: less)?"[^>]*>([^<]*)</td>', rest)


def test_the_status_page(bridge: Bridge) -> None:
    bridge.call(request())
    page = bridge.got("/p/status")[2].decode()
    # credit, out, waiting, done, late, failed
    assert cells(page, '<a href="/p/user/1">Ann</a>', 1) == ["5", "1", "1", "1", "1", "1"]
    bridge.call(request(key="bob-key", cpid="c2"))
    page = bridge.got("/p/status")[2].decode()
    assert "Bob" not in page  # the computers are not read anew each time
    assert "Users with computers that called: 2." in page


def test_users_of_one_name_are_two(bridge: Bridge) -> None:
    bridge.twin.service.imported("accounts", "second", "authenticator,name\nann-two,Ann\n")
    bridge.call(request())
    bridge.call(request(key="ann-two", cpid="second-cpid"))
    page = bridge.got("/p/users")[2].decode()
    for number in (1, 2):
        assert page.count(f'<td><a href="/p/user/{number}">Ann</a></td><td class="number">0</td>') == 1
    for path in ("users", "user/1", "user/2", "computers", "status", f"computer/{FIRST}", ""):
        page = bridge.got(f"/p/{path}")[2].decode()
        assert "ann-two" not in page and "ann-key" not in page and "second-cpid" not in page, path


def test_the_status_page_of_no_hosts(bridge: Bridge) -> None:
    assert "Users with computers that called: 0." in bridge.got("/p/status")[2].decode()


def test_the_status_page_without_statements(bridge: Bridge) -> None:
    bridge.call(request())
    bridge.twin.close()
    page = bridge.got("/p/status")[2].decode()
    assert "Ann" in page
    assert "waiting" not in page
    assert "The scheduler has given no answer since 20" in page


def test_a_scheduler_that_is_silent(open_bridge: Bridge, twin: Twin) -> None:
    open_bridge.call(request())
    assert "no answer since" not in page_of(open_bridge.got("/p/status")).text
    twin.import_faults = ["unavailable"]
    create(open_bridge)
    open_bridge.application.statements._kept = None
    # it has answered the statement since
    assert "no answer since" not in page_of(open_bridge.got("/p/status")).text
    twin.close()
    open_bridge.application.statements._kept = None
    first = page_of(open_bridge.got("/p/status")).text
    open_bridge.call(request())
    open_bridge.application.statements._kept = None
    again = page_of(open_bridge.got("/p/status")).text
    since = re.compile(r"The scheduler has given no answer since (2\d\d\d-\d\d-\d\d \d\d:\d\d:\d\d) UTC")
    assert since.findall(first)[0] == since.findall(again)[0]


def test_nobody_waits_while_somebody_else_reads_the_status(open_bridge: Bridge) -> None:
    open_bridge.call(request())
    with open_bridge.application.statements._lock:
        pages = []
        reading = threading.Thread(target=lambda: pages.append(open_bridge.got("/p/status")), daemon=True)
        reading.start()
        reading.join(60)
        page = page_of(pages[0])
    assert "Ann" in page.text and "waiting" not in page.text
    assert "waiting" in page_of(open_bridge.got("/p/status")).text


def test_a_page_waits_a_little_for_the_status(open_bridge: Bridge) -> None:
    """While statements are read, the page shows what replies said. The next one has the results."""
    open_bridge.call(request())
    statements: Any = open_bridge.application.statements
    statements.wait_seconds = 0.0
    read, may_read = statements._with_results, threading.Event()
    statements._with_results = lambda heard, key: (may_read.wait(30), read(heard, key))[1]
    page = page_of(open_bridge.got("/p/status"))
    assert "Ann" in page.text and "waiting" not in page.text
    may_read.set()
    with statements._lock:
        pass
    assert "waiting" in page_of(open_bridge.got("/p/status")).text


def test_statements_that_take_too_long(open_bridge: Bridge, monkeypatch: pytest.MonkeyPatch) -> None:
    open_bridge.call(request())
    monkeypatch.setattr("bsched_bridge.pages.statements.READ_SECONDS", -1.0)
    page = page_of(open_bridge.got("/p/status"))
    assert "Ann" in page.text and "waiting" not in page.text


@pytest.mark.parametrize(
    "text, is_shown",
    [
        (json.dumps({"workunits": {"open": 12, "done": 30, "failed by errors": 1}, "moment": 86400}), True),
        (None, False),
        ("{", False),
        ("[]", False),
        ('{"workunits":[1]}', False),
        ('{"workunits":{}}', False),
        ('{"workunits":1}', False),
    ],
)
def test_workunits_of_a_copy(project: Path, bridge: Bridge, text: str | None, is_shown: bool) -> None:
    (project / "bridge.toml").write_text('counts = "counts.json"\n' + (project / "bridge.toml").read_text())
    if text is not None:
        (project / "counts.json").write_text(text)
    bridge.restart()
    page = page_of(bridge.got("/p/status"))
    assert ("Workunits" in page.text) is is_shown
    if is_shown:
        assert "open12" in page.text and "all workunits43" in page.text
        assert "Counted at 1970-01-02 00:00:00 UTC." in page.text


@pytest.mark.parametrize("statement", ["", "result\n", "a,b\n1\n", "result,app,credit\ntotal,,x\n"])
def test_a_statement_that_cant_be_read(open_bridge: Bridge, twin: Twin, statement: str) -> None:
    open_bridge.call(request())
    twin.statement = statement
    page = page_of(open_bridge.got("/p/status"))
    assert "Computers that called: 1." in page.text and "out" not in page.text.split("called last")[1][:40]


def test_results_in_words(bridge: Bridge, twin: Twin) -> None:
    lines = [
        "result,app,sent,deadline,server_state,outcome,validate_state,credit",
        "u1_0,sum,2026-01-01 00:00:00,2026-01-02 00:00:00,5,1,1,5.000",
        "u2_0,sum,2026-01-01 00:00:00,2026-01-02 00:00:00,4,0,0,0.000",
        "u3_0,sum,2026-01-01 00:00:00,2026-01-02 00:00:00,5,1,0,0.000",
        "u4_0,sum,2026-01-01 00:00:00,2026-01-02 00:00:00,5,3,0,0.000",
        "u5_0,sum,2026-01-01 00:00:00,2026-01-02 00:00:00,5,4,0,0.000",
        "u6_0,sum,2026-01-01 00:00:00,2026-01-02 00:00:00,5,1,2,0.000",
        "u7_0,sum,2026-01-01 00:00:00,2026-01-02 00:00:00,5,1,3,0.000",
        "total,,,,,,,5.000",
    ]
    bridge.call(request())
    twin.statement = "\n".join(lines) + "\n"
    page = page_of(bridge.got(f"/p/computer/{FIRST}"))
    results = page.text.rpartition("deadline (UTC)")[2]
    found = re.findall(r"(u\d_0)(\w+ [A-Z]\w+ ?\w*)[^_]*sum2026-01-01 00:00:002026-01-02", results)
    assert found == [  # the latest is first
        ("u7_0", "failed Not compared"),
        ("u6_0", "failed Invalid"),
        ("u5_0", "late No report"),
        ("u4_0", "failed An error"),
        ("u3_0", "waiting Reported"),
        ("u2_0", "out The computer"),
        ("u1_0", "done Valid"),
    ]


def test_results_that_can_not_be_read(bridge: Bridge, twin: Twin) -> None:
    bridge.call(request())
    for statement in ("", "result\n", "a,b\n1\n"):
        twin.statement = statement
        page = page_of(bridge.got(f"/p/computer/{FIRST}"))
        assert "can't be shown" in page.text or "no results" in page.text
        bridge.application.statements._results.clear()
    twin.close()
    assert "can't be shown at the moment" in page_of(bridge.got(f"/p/computer/{FIRST}")).text


def test_pages_of_computers_ask_bsched_only_so_often(
    bridge: Bridge, twin: Twin, monkeypatch: pytest.MonkeyPatch
) -> None:
    bridge.call(request())
    monkeypatch.setattr(bridge.application.statements._reads, "most", 2)
    statements = bridge.application.statements
    for _ in range(5):
        assert "u1_0" in page_of(bridge.got(f"/p/computer/{FIRST}")).text  # kept for a minute
    for is_shown in (True, False, False):
        statements._results.clear()
        assert ("u1_0" in page_of(bridge.got(f"/p/computer/{FIRST}")).text) is is_shown


def test_few_pages_wait_for_bsched_at_once(bridge: Bridge) -> None:
    bridge.call(request())
    reading = bridge.application.statements._reading
    with reading.taken(), reading.taken():
        assert "can't be shown at the moment" in page_of(bridge.got(f"/p/computer/{FIRST}")).text
    assert "u1_0" in page_of(bridge.got(f"/p/computer/{FIRST}")).text


def test_the_status_is_read_anew_while_the_older_one_is_shown(
    bridge: Bridge, monkeypatch: pytest.MonkeyPatch
) -> None:
    statements: Any = bridge.application.statements
    page_of(bridge.got("/p/status"))
    bridge.call(request())
    threads = threading.active_count()  # other tests may have left some
    statements._kept = statements._kept[0], time.monotonic() - 1
    assert "Ann" not in page_of(bridge.got("/p/status")).text  # a thread reads it now
    with statements._lock:
        pass
    assert "Ann" in page_of(bridge.got("/p/status")).text
    bridge.call(request(key="bob-key", cpid="c2"))
    statements._kept = statements._kept[0], time.monotonic() - 601
    assert "Bob" in page_of(bridge.got("/p/status")).text  # what is old is not shown
    assert threading.active_count() < threads + 10

"""The operator's board: who sees it, what it shows of messages that the test sent, and what its forms do."""
from pathlib import Path
from typing import Any

import pytest
from boards import KEY, Environ, board, cells, facts, row, sent
from bridges import Bridge
from messages import FIRST, jobs, request, value
from numbering import NEW_HOSTID
from pages_seen import Page, page_of
from twin import Twin

from bsched_bridge.operator.board import Board, age_text, seconds_text
from bsched_bridge.people.hosts import MOST_NUMBER
from bsched_bridge.people.measurements import End
from bsched_files.project_settings import project_of


def rows(page: Page) -> list[str]:
    """Returns the lines of the page's text."""
    return [line.strip() for line in page.text.splitlines() if line.strip()]


# ---- Who sees it


def test_it_asks_for_the_key(bridge: Bridge) -> None:
    answer = bridge.got("/p/operator/board")
    page = page_of(answer, has_key=True)
    assert page.inputs["key"]["type"] == "password" and "value" not in page.inputs["key"]
    assert page.header == ["", "operator/board", "operator/metrics"]
    assert ("html", {"lang": "en"}) in page.tags and KEY not in answer[2].decode()


def test_messages_from_elsewhere(open_bridge: Bridge) -> None:
    """The lines for nginx give the address of the client with each message of a volunteer."""
    elsewhere: list[Environ] = [{"REMOTE_ADDR": "198.51.100.7"}]
    elsewhere += [
        {"REMOTE_ADDR": "127.0.0.1", f"HTTP_{field}": text}
        for field in ("X_REAL_IP", "X_FORWARDED_FOR", "FORWARDED", "VIA", "X_FORWARDED_HOST")
        for text in ("198.51.100.7", "127.0.0.1", "")
    ]
    for environ in elsewhere:
        assert open_bridge.got("/p/operator/board", **environ)[0] == "404 Not Found"
        answer = sent(open_bridge, environ, action="bar", account="ann-key")
        page_of(answer, "404 Not Found")
    assert open_bridge.application.exchange.barring.all() == {}


@pytest.mark.parametrize(
    "environ",
    [
        {"HTTP_SEC_FETCH_SITE": "cross-site"},
        {"HTTP_SEC_FETCH_SITE": "same-site"},
        {"HTTP_ORIGIN": "http://evil.example"},
        {"HTTP_ORIGIN": "http://127.0.0.1:8082"},
        {"HTTP_ORIGIN": "null"},
        {"HTTP_ORIGIN": "http://evil.example:8081", "HTTP_HOST": "evil.example:8081"},
        {"HTTP_ORIGIN": "http://localhost:9000", "HTTP_HOST": "localhost:9001"},
    ],
)
def test_pages_of_other_sites(bridge: Bridge, environ: Environ) -> None:
    bridge.call(request())
    assert sent(bridge, environ, action="bar", account="ann-key")[0] == "403 Forbidden"
    assert bridge.application.exchange.barring.all() == {}


@pytest.mark.parametrize(
    "environ",
    [
        {"HTTP_SEC_FETCH_SITE": "same-origin", "HTTP_ORIGIN": "http://localhost:9000"},
        {"HTTP_ORIGIN": "http://localhost:9000", "HTTP_HOST": "localhost:9000"},
        {"HTTP_ORIGIN": "http://[::1]:9000", "HTTP_HOST": "[::1]:9000"},
    ],
)
def test_its_own_page_through_a_tunnel(bridge: Bridge, environ: Environ) -> None:
    """A browser that reaches it under another name says that the page is of the same site, or an older one
    that it comes from this name.
    """
    assert sent(bridge, environ)[0] == "200 OK"


def test_odd_messages(bridge: Bridge) -> None:
    assert sent(bridge, action="delete")[0] == "400 Bad Request"
    assert sent(bridge, {"CONTENT_TYPE": "text/plain"})[0] == "415 Unsupported Media Type"
    assert sent(bridge, account="x" * 20_000)[0] == "413 Content Too Large"
    many: Environ = {f"f{number}": "" for number in range(40)}
    assert sent(bridge, **many)[0] == "400 Bad Request"
    assert bridge.got("/p/operator/board", "PUT")[0] == "405 Method Not Allowed"


def test_without_the_operators_key(project: Path, bridge: Bridge) -> None:
    path = project / "bridge.toml"
    path.write_text(path.read_text().replace(f'operator_key = "{KEY}"\n', ""))
    bridge.restart()
    assert bridge.got("/p/operator/board")[0] == sent(bridge)[0] == sent(bridge, key="")[0] == "404 Not Found"


def test_one_at_a_time(bridge: Bridge, monkeypatch: pytest.MonkeyPatch) -> None:
    statuses: list[str] = []
    shown = Board._board

    def show(self: Board, *args: Any) -> Any:
        if not statuses:
            statuses.append(sent(bridge)[0])
        return shown(self, *args)

    monkeypatch.setattr(Board, "_board", show)
    assert sent(bridge)[0] == "200 OK"
    assert statuses == ["503 Service Unavailable"]


def test_no_page_leads_to_it(bridge: Bridge) -> None:
    bridge.call(request())
    for path in ("", "status", "users", "computers", "user/1", f"computer/{FIRST}", "nothing"):
        assert b"operator/" not in bridge.got(f"/p/{path}")[2]


# ---- Numbers


def test_times_of_answers(bridge: Bridge) -> None:
    calls = bridge.application.measurements.calls
    for seconds in [0.004] * 50 + [0.04] * 50:
        calls.record(End.ANSWERED, seconds)
    found = facts(sent(bridge))
    assert found["median of an answer, last hour"] == "5.0 ms"
    assert found["99 of 100 within, last hour"] == "49.5 ms"


@pytest.mark.parametrize(
    "seconds, text",
    [(None, "none"), (0.0012, "1.2 ms"), (0.999, "999.0 ms"), (2.5, "2.5 s"), (30.0, "more than 30 s")],
)
def test_durations_as_text(seconds: float | None, text: str) -> None:
    assert seconds_text(seconds) == text


@pytest.mark.parametrize(
    "seconds, text",
    [
        (-5, "0 seconds ago"),
        (119, "119 seconds ago"),
        (120, "2 minutes ago"),
        (7199, "119 minutes ago"),
        (7200, "2 hours ago"),
        (172_800, "2 days ago"),
    ],
)
def test_ages_as_text(seconds: float, text: str) -> None:
    assert age_text(seconds) == text


def test_the_name_of_a_project(tmp_path: Path, monkeypatch: pytest.MonkeyPatch) -> None:
    monkeypatch.setattr("bsched_files.project_settings.PROJECTS", tmp_path)
    monkeypatch.chdir(tmp_path)
    assert project_of(tmp_path / "sums" / "bridge" / "bridge.toml") == "sums"
    assert project_of(Path("sums/bridge/bridge.toml")) == "sums"
    assert project_of(tmp_path / "sums" / "other" / "bridge.toml") is None
    assert project_of(tmp_path / "bridge" / "bridge.toml") is None
    assert project_of(tmp_path / "sums" / "bridge" / "more" / "bridge.toml") is None


# ---- Forms


def test_an_account_is_barred_and_no_longer(bridge: Bridge) -> None:
    assert value(bridge.call(request()), "hostid") == str(FIRST)
    page = board(bridge, action="bar", account="ann-key")
    assert "Ann (ann..) is barred" in rows(page)
    assert b"has barred this account" in bridge.call(request(hostid=FIRST, seqno=1))
    page = board(bridge, action="unbar", account=" Ann ")
    assert "Ann (ann..) is not barred: its computers ask again within 24 hours" in page.text
    assert b"has barred this account" not in bridge.call(request(hostid=FIRST, seqno=1))


def test_an_account_that_can_not_be_barred(project: Path, bridge: Bridge) -> None:
    bridge.call(request())
    assert "no account has the address, name or key <b>" in board(bridge, action="bar", account="<b>").text
    assert "Give the account." in board(bridge, action="bar", account=" ").text
    with (project / "bridge.toml").open("a") as file:
        file.write('barred = ["ann-key"]\n')
    bridge.restart()
    assert "remove it there" in board(bridge, action="unbar", account="ann-key").text


def test_names_are_escaped(bridge: Bridge) -> None:
    names = jobs(bridge.call(request()))
    member = bridge.members.of_key("ann-key")
    bridge.members.change(member, "<script>&\"'", False)
    bridge.call(request(FIRST, seconds=0, seqno=1, reports=[(names[0], "")], statuses={names[0]: 1}))
    answer = sent(bridge, action="bar", account="ann-key")
    text = answer[2].decode()
    assert page_of(answer, has_key=True).text.count("<script>&\"'") == 2  # what was done, and the computer
    assert "<script" not in text and "&lt;script&gt;&amp;&#34;&#39;" in text


def test_the_results_of_a_computer_with_the_largest_number(
    bridge: Bridge, monkeypatch: pytest.MonkeyPatch
) -> None:
    monkeypatch.setattr(NEW_HOSTID, lambda _connection: MOST_NUMBER)
    bridge.call(request())
    page = board(bridge, action="results", computer=str(MOST_NUMBER))
    assert f"Results of computer {MOST_NUMBER}" in page.text
    assert page.inputs["computer"]["maxlength"] == "10"


def test_the_results_of_a_computer(bridge: Bridge, twin: Twin) -> None:
    bridge.call(request())
    assert twin.statement is not None
    twin.statement = twin.statement.replace("u1_0,", "<b>,")
    answer = sent(bridge, action="results", computer=f" {FIRST} ")
    assert row(answer, "u2_0")[3].startswith("out: ")
    assert "<b>" in page_of(answer, has_key=True).text
    assert len([one for one in cells(answer) if one[0].startswith(("u", "&lt;b")) and len(one) == 6]) == 5


@pytest.mark.parametrize(
    "name", ["\0", "\U0010ffff", "%", "'; --", "x" * 254, "\x1b[31m", "\u202eann", "a\nb"]
)
def test_any_name_of_an_account(bridge: Bridge, name: str) -> None:
    assert "no account has the address, name or key" in board(bridge, action="bar", account=name).text


@pytest.mark.parametrize("computer", ["", "0", "x", "5", "-1", "9" * 30, "100001'"])
def test_the_results_of_no_computer(bridge: Bridge, computer: str) -> None:
    bridge.call(request())
    assert "No computer has this number." in board(bridge, action="results", computer=computer).text


def test_results_that_can_not_be_read(bridge: Bridge, twin: Twin) -> None:
    bridge.call(request())
    twin.close()
    page = board(bridge, action="results", computer=str(FIRST))
    assert "The scheduler gives no answer" in page.text


def test_a_computer_of_a_deleted_account(bridge: Bridge) -> None:
    names = jobs(bridge.call(request()))
    bridge.call(request(FIRST, seconds=0, seqno=1, reports=[(names[0], "")], statuses={names[0]: 1}))
    assert row(sent(bridge), str(FIRST))[2:4] == ["1", "1"]
    bridge.application.exchange.barring.delete("ann-key", 0)
    page = board(bridge)
    assert "No computer has reported an error" in page.text
    assert "can make another one" in board(bridge, action="unbar", account="ann-key").text

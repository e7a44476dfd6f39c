"""The project's page: what it shows, and how to join."""
import json
import xml.etree.ElementTree as ElementTree
from pathlib import Path
from typing import Any

from bridges import Bridge
from messages import FIRST, request
from pages_seen import Page, page_of


URL = "http://127.0.0.1:8081/p/"


def test_the_master_page_has_both_forms(bridge: Bridge) -> None:
    status, fields, body = bridge.got("/p/")
    assert (status, fields["Content-Type"]) == ("200 OK", "text/html; charset=utf-8")
    lines = body.decode().split("\n")
    assert "<scheduler>http://127.0.0.1:8081/p/cgi</scheduler>" in lines
    assert '<link rel="boinc_scheduler" href="http://127.0.0.1:8081/p/cgi">' in lines


def buttons_of(bridge: Bridge, seqno: int = 0, language: str = "en") -> dict[str, str]:
    """Calls, and returns the paths of the Manager's buttons, by their names. Each leads to a page."""
    hostid = FIRST if seqno else 0
    body = request(hostid=hostid, seqno=seqno).encode()
    _, _, reply = bridge.got("/p/cgi", "POST", body, HTTP_ACCEPT_LANGUAGE=language)
    buttons = ElementTree.fromstring(reply).findall("gui_urls/gui_url")
    paths = {}
    for button in buttons:
        url = button.findtext("url") or ""
        assert url.startswith(URL) and button.findtext("description")
        path = url.removeprefix(URL)
        assert bridge.got(f"/p/{path}")[0] in ("200 OK", "303 See Other")
        paths[button.findtext("name") or ""] = path
    return paths


def test_the_manager_gets_buttons(bridge: Bridge) -> None:
    assert buttons_of(bridge) == {
        "Your tasks": f"computer/{FIRST}",
        "Project status": "status",
        "Help": "help",
    }


def test_the_manager_gets_a_button_for_the_account(open_bridge: Bridge) -> None:
    assert list(buttons_of(open_bridge)) == ["Your account", "Your tasks", "Project status", "Help"]
    text = "Ihr Konto", "Ihre Aufgaben", "Stand des Projekts", "Hilfe"
    assert tuple(buttons_of(open_bridge, seqno=1, language="de")) == text


def test_the_manager_gets_a_button_for_the_team(open_bridge: Bridge) -> None:
    """It leads to the team that the user has at that time."""
    buttons_of(open_bridge)
    member = open_bridge.application.members.of_key("ann-key")
    assert member is not None
    open_bridge.application.teams.make(member, "The Adders", 1)
    buttons = buttons_of(open_bridge, seqno=1)
    assert list(buttons) == ["Your account", "Your tasks", "Your team", "Project status", "Help"]
    status, fields, _ = open_bridge.got(f"/p/{buttons['Your team']}")
    assert (status, fields["Location"]) == ("303 See Other", "http://127.0.0.1:8081/p/team/1")
    assert "The Adders" in page_of(open_bridge.got("/p/team/1")).text
    open_bridge.application.teams.leave(member)
    assert open_bridge.got(f"/p/{buttons['Your team']}")[0] == "404 Not Found"
    assert open_bridge.got("/p/computer/7/team")[0] == "404 Not Found"
    assert "Your team" not in buttons_of(open_bridge, seqno=2)


# ---- The project's page


def test_how_far_the_work_is(project: Path, bridge: Bridge) -> None:
    (project / "bridge.toml").write_text('counts = "counts.json"\n' + (project / "bridge.toml").read_text())
    bridge.restart()
    counts = {"open": 1200, "done": 2999, "failed by errors": 1}

    def page(**more: Any) -> Page:
        text = json.dumps({"workunits": counts, "moment": 86400, **more})
        (project / "counts.json").write_text(text)
        return page_of(bridge.got("/p/"))

    known = page(open_workunits={"out": 200, "waiting": 1000})
    assert "71.4 % of 4,200 workunits are done." in known.text
    assert "Counted at 1970-01-02 00:00:00 UTC." in known.text
    words = "71.4 % of 4,200 workunits are done: 2,999 done, 200 out, 1,000 waiting for a computer, 1 failed."
    assert [
        fields["aria-label"] for tag, fields in known.tags if "aria-label" in fields and tag == "svg"
    ] == [words]
    bars = [fields for tag, fields in known.tags if tag == "rect" and "x" in fields]
    assert [one["class"] for one in bars] == ["is-done", "is-out", "is-waiting", "is-failed"]
    assert abs(sum(float(one["width"]) for one in bars) - 1000) < 0.1
    words = "200 out, 993 waiting for a computer, 7 waiting for a further volunteer, 1 failed."
    stuck = page(open_workunits={"out": 200, "waiting": 1000, "stuck": 7})
    assert [one["class"] for tag, one in stuck.tags if tag == "rect" and "x" in one] == [
        "is-done",
        "is-out",
        "is-waiting",
        "is-waiting",
        "is-failed",
    ]
    (label,) = [one["aria-label"] for tag, one in stuck.tags if tag == "svg" and "aria-label" in one]
    assert label.endswith(words)
    for wrong in (-1, 1001, "7", None):
        assert "further volunteer" not in page(open_workunits={"out": 200, "stuck": wrong}).text
    odd: tuple[dict[str, Any], ...] = (
        {},
        {"open_workunits": 1},
        {"open_workunits": {"out": 1201}},
        {"open_workunits": {"out": -1}},
    )
    for members in odd:
        text = page(**members).text
        assert "1,200 open" in text or members.get("open_workunits") == 1
        legend = text.partition("workunits are done")[2].partition("Counted")[0]
        assert "out" not in legend and "waiting" not in legend
    counts.update({"open": 0, "done": 4199})
    assert "99.9 % of 4,200 workunits are done." in page().text
    counts.clear()
    assert "workunits are done" not in page().text


def test_the_status_has_the_words_of_the_bar(project: Path, bridge: Bridge) -> None:
    (project / "bridge.toml").write_text('counts = "counts.json"\n' + (project / "bridge.toml").read_text())
    bridge.restart()
    counts = {"open": 1200, "done": 2999, "failed by errors": 1}
    (project / "counts.json").write_text(
        json.dumps({"workunits": counts, "open_workunits": {"out": 200, "waiting": 1000}})
    )
    text = page_of(bridge.got("/p/status")).text
    rows = [
        "done2,999",
        "out200",
        "waiting for a computer1,000",
        "failed: too many errors1",
        "all workunits4,200",
    ]
    assert text.partition("statusworkunits\n")[2].split("\n")[:5] == rows


# ---- How to join


def test_the_operators_own_words(project: Path, bridge: Bridge) -> None:
    (project / "welcome.txt").write_text("We add <numbers>.\n\nJoin us!\n")
    (project / "bridge.toml").write_text('welcome = "welcome.txt"\n' + (project / "bridge.toml").read_text())
    bridge.restart()
    page = page_of(bridge.got("/p/"))
    assert "We add <numbers>." in page.text and "account key" in page.text
    assert page.header == ["", "status", "users", "computers", "help"]
    assert "Install BOINC" in page.text and page.links == ["https://boinc.berkeley.edu/download.php"]
    lines = bridge.got("/p/")[2].decode().split("\n")
    assert "<scheduler>http://127.0.0.1:8081/p/cgi</scheduler>" in lines
    assert '<link rel="boinc_scheduler" href="http://127.0.0.1:8081/p/cgi">' in lines


def test_how_to_join(project: Path, open_bridge: Bridge) -> None:
    page = page_of(open_bridge.got("/p/"))
    assert "No, new user" in page.text and "http://127.0.0.1:8081/p/" in page.text
    assert page.links == ["https://boinc.berkeley.edu/download.php", "account"]
    assert page.header == ["", "status", "users", "computers", "teams", "account", "help"]
    (project / "terms.txt").write_text("Be kind.\n")
    with (project / "bridge.toml").open("a") as file:
        file.write('terms = "terms.txt"\n')
    open_bridge.restart()
    page = page_of(open_bridge.got("/p/"))
    assert page.links[1:] == ["terms", "account"] and page.header[-1] == "terms"
    assert "Be kind." in page_of(open_bridge.got("/p/terms")).text


# ---- Help


def test_help(project: Path, bridge: Bridge) -> None:
    page = page_of(bridge.got("/p/help"))
    assert "same account key" in page.text and "Ask the project's operator" not in page.text
    assert page.links == ["status", "https://boinc.berkeley.edu/"]
    (project / "bridge.toml").write_text(
        'contact = "help@sums.example"\n' + (project / "bridge.toml").read_text()
    )
    bridge.restart()
    page = page_of(bridge.got("/p/help"))
    assert "Ask the project's operator: help@sums.example" in page.text
    assert "mailto:help@sums.example" in page.links


def test_help_with_accounts(open_bridge: Bridge) -> None:
    page = page_of(open_bridge.got("/p/help"))
    assert page.links[1:-1] == ["get_passwd.php", "account", "delete_account.php"]
    assert "same e-mail address and password" in page.text
    for path in page.links[:-1]:
        assert open_bridge.got(f"/p/{path}")[0] == "200 OK"
    assert "Wann bekomme ich Guthaben?" in page_of(open_bridge.got("/p/help", HTTP_ACCEPT_LANGUAGE="de")).text

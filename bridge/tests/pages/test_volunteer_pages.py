"""What everybody can see of users and computers."""
import json
from pathlib import Path
from typing import Any

import pytest
from bridges import Bridge
from joining import create
from many_people import people
from messages import FIRST, request
from numbering import NEW_HOSTID
from ordering import done
from pages_seen import Page, page_of, posted, with_key

from bsched_bridge.people.hosts import MOST_NUMBER


def test_pages_say_what_credit_is_and_how_they_are_sorted(bridge: Bridge) -> None:
    people(bridge, 2)
    users = page_of(bridge.got("/p/users")).text
    assert "Credit is the project's measure of the work that your computers did; it can't be spent." in users
    assert "Those with the most credit are first." in page_of(bridge.got("/p/computers")).text


def test_recent_average_credit_is_shown_if_it_is_known(project: Path, bridge: Bridge) -> None:
    people(bridge, 2)
    assert "average" not in page_of(bridge.got("/p/users")).text
    with_key(project, bridge, 'averages = "averages.json"')
    assert "recent average credit" in page_of(bridge.got("/p/users")).text
    assert "recent average credit a day" in page_of(bridge.got("/p/user/1")).text


def test_the_page_of_a_user(bridge: Bridge) -> None:
    people(bridge, 5)
    page = page_of(bridge.got("/p/user/3"))
    assert "place3 of 5" in page.text.replace("\n", "") and "number3credit2place" in page.text.replace(
        "\n", ""
    )
    assert page.links == ["computer/200002"] and "1970-01-01" in page.text
    for number in ("0", "6", "x", "-1", "03", "9" * 9, "9" * 10, "9" * 5000, "%33", ""):
        page_of(bridge.got(f"/p/user/{number}"), "404 Not Found")
    assert bridge.got("/p/user/3", "POST")[0] == "405 Method Not Allowed"


def test_an_account_without_a_reply_has_no_page(open_bridge: Bridge) -> None:
    key = create(open_bridge)
    number = open_bridge.members.of_key(key).id
    page_of(open_bridge.got(f"/p/user/{number}"), "404 Not Found")
    open_bridge.call(request(key=key))
    page = page_of(open_bridge.got(f"/p/user/{number}"))
    assert open_bridge.members.of_key(key).name in page.text and page.links == [f"computer/{FIRST}"]


def test_a_user_can_be_anonymous(open_bridge: Bridge) -> None:
    key = create(open_bridge)
    reply = open_bridge.call(request(key=key))
    posted(open_bridge, "account_finish.php", key=key, name="Zoë", is_anonymous="1")
    page = page_of(posted(open_bridge, "account", key=key))
    assert "checked" in page.inputs["is_anonymous"] and "checked" not in page.inputs["is_exported"]
    number = open_bridge.members.of_key(key).id
    for path in ("", "users", "computers", "status", f"user/{number}", f"computer/{FIRST}"):
        text = page_of(open_bridge.got(f"/p/{path}")).text
        assert "anonymous" in text and "Zoë" not in text, path
    for path in ("users", "computers"):
        assert "in their name: 0." in page_of(open_bridge.got(f"/p/{path}?name=zo")).text
        assert "in their name: 0." in page_of(open_bridge.got(f"/p/{path}?name=anonymous")).text
    reply = open_bridge.call(request(hostid=FIRST, key=key, seqno=1))
    assert "<user_name>Zoë</user_name>" in reply.decode()  # the user's own client knows the name
    posted(open_bridge, "account_finish.php", key=key, name="Zoë")
    assert "Zoë" in page_of(open_bridge.got("/p/users")).text


def test_the_anonymous_in_statistics(project: Path, open_bridge: Bridge) -> None:
    key, other = create(open_bridge), create(open_bridge, "bob@sums.example")
    posted(open_bridge, "account_finish.php", key=key, name="Zoë", is_exported="1", is_anonymous="1")
    posted(open_bridge, "account_finish.php", key=other, name="Bob", is_anonymous="1")
    assert done(project, "consented") == f"{key},anonymous\n"
    rows: list[dict[str, Any]] = [
        json.loads(line) for line in done(project, "consented", "--json").splitlines()
    ]
    assert [(row["authenticator"], row["name"], row["is_agreed"]) for row in rows] == [
        (key, "anonymous", True),
        (other, "anonymous", False),
    ]
    assert "is anonymous: yes" in done(project, "show", "Bob")


def test_each_page_has_one_first_heading(open_bridge: Bridge) -> None:
    open_bridge.call(request())
    paths = ("", "status", "users", "computers", "user/1", f"computer/{FIRST}", "account", "get_passwd.php")
    for path in (*paths, "delete_account.php"):
        page: Page = page_of(open_bridge.got(f"/p/{path}"))
        assert [tag for tag, _ in page.tags if tag in ("h1", "main", "header", "nav")].count("h1") == 1, path


def test_a_computer_with_the_largest_number_has_a_page(
    bridge: Bridge, monkeypatch: pytest.MonkeyPatch
) -> None:
    monkeypatch.setattr(NEW_HOSTID, lambda _connection: MOST_NUMBER)
    bridge.call(request())
    assert f"computer/{MOST_NUMBER}" in page_of(bridge.got("/p/status")).links
    assert str(MOST_NUMBER) in page_of(bridge.got(f"/p/computer/{MOST_NUMBER}")).text


def test_a_narrow_screen_shows_each_number_of_a_computer(bridge: Bridge) -> None:
    """There the heads are not shown, so each cell has the word of its own."""
    bridge.call(request())
    tags = page_of(bridge.got("/p/status")).tags
    assert ("table", {"class": "lines"}) in tags and ("tr", {"class": "heads"}) in tags
    cells = [fields for tag, fields in tags if tag in ("th", "td")]
    assert not [fields for fields in cells if "less" in fields.get("class", "")]
    results = ["out", "waiting", "done", "late", "failed"]
    front = ["computer", "user", "called last (UTC)", "credit"]
    labels = [fields["data-label"] for fields in cells if "data-label" in fields]
    assert labels == [*front, *results, *results]  # of a computer, and of all of them

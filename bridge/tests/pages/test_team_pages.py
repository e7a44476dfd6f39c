"""The pages of teams."""
from typing import Any

from bridges import Bridge
from many_people import people
from pages_seen import page_of, posted
from teams_acted import accounts

from bsched_bridge.people.names import fold


def test_forms_of_teams_need_the_key(open_bridge: Bridge) -> None:
    ((ann, _),) = accounts(open_bridge, 1)
    forms: tuple[dict[str, str], ...] = ({}, {"key": "nobody"})
    for form in forms:
        assert (
            "No account has this key."
            in page_of(posted(open_bridge, "account_team", action="make", **form)).text
        )
    kind: Any = {"CONTENT_TYPE": "application/x-www-form-urlencoded"}
    body = f"key={ann}&action=make&team=A".encode()
    for elsewhere in ({"HTTP_SEC_FETCH_SITE": "cross-site"}, {"HTTP_ORIGIN": "https://other.example"}):
        assert open_bridge.got("/p/account_team", "POST", body, **kind, **elsewhere)[0].startswith("403")
    assert open_bridge.got("/p/account_team")[0].startswith("405")
    for action in ("", "x"):
        assert posted(open_bridge, "account_team", key=ann, action=action)[0].startswith("400")
    assert "Teams: 0." in page_of(open_bridge.got("/p/teams")).text


def test_the_ranking_of_teams(open_bridge: Bridge) -> None:
    people(open_bridge, 230)
    with open_bridge.file.transaction() as connection:
        for number in range(1, 116):  # teams of two members each
            name = f"Team {number:03}"
            connection.execute(
                "INSERT INTO team (name, folded, founder, created_at) VALUES (?, ?, ?, 0)",
                (name, fold(name), number),
            )
            connection.execute(
                "UPDATE member SET team = ? WHERE id IN (?, ?)", (number, number, 231 - number)
            )
        connection.execute("UPDATE member SET credit = 1000000000 WHERE id = 5")
    page = page_of(open_bridge.got("/p/teams"))
    assert "Teams: 115." in page.text and page.links[0] == "team/5" and page.links[-2] == "teams?page=2"
    assert "place1 of 115" in page_of(open_bridge.got("/p/team/5")).text.replace("\n", "")
    assert "place2 of 115" in page_of(open_bridge.got("/p/team/7")).text.replace(
        "\n", ""
    )  # all others are equal
    assert page_of(open_bridge.got("/p/teams?name=m+11")).links[1:7] == [f"team/{n}" for n in range(110, 116)]
    assert "in their name: 0." in page_of(open_bridge.got("/p/teams?name=%25")).text


def test_no_accounts_no_teams(bridge: Bridge) -> None:
    for path in ("teams", "team/1", "account_team"):
        page_of(bridge.got(f"/p/{path}"), "404 Not Found")
    assert "teams" not in page_of(bridge.got("/p/")).header

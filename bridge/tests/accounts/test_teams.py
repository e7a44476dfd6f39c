"""Teams: who makes, joins and leaves one, what others see of it, and what members' clients read."""
import json
from pathlib import Path

import pytest
from bridges import Bridge
from messages import FIRST, request, value
from ordering import done
from pages_seen import page_of, posted
from teams_acted import accounts, acted

from bsched_bridge.accounts import teams


def test_a_team_from_its_beginning_to_its_end(open_bridge: Bridge) -> None:
    (ann, ann_id), (bob, bob_id), (cid, cid_id) = accounts(open_bridge, 3)
    assert "Teams: 0." in page_of(open_bridge.got("/p/teams")).text
    text = acted(open_bridge, ann, "make", team="  Sum <b>\x00mers ")
    assert "Your team is made." in text and "if you leave, the team is deleted." in text
    text = acted(open_bridge, bob, "join", team="sum <B> MERS")
    assert "You are in the team." in text and "your credit counts for the team no more." in text
    text = page_of(open_bridge.got(f"/p/account_finish.php?auth={ann}"), has_key=True).text
    assert "If you leave, the member with the lowest number becomes the founder." in text
    assert "You are in the team." in acted(open_bridge, cid, "join", team="1")
    page = page_of(open_bridge.got("/p/team/1"))
    assert "Sum <b> mers" in page.text and "members3" in page.text.replace("\n", "")
    assert page.links == [
        f"user/{ann_id}",
        "account",
        *(f"user/{number}" for number in (ann_id, bob_id, cid_id)),
    ]
    assert "team/1" in page_of(open_bridge.got(f"/p/user/{bob_id}")).links
    assert page_of(open_bridge.got("/p/teams")).links[0] == "team/1"
    # the founder leaves, and the next one is the member with the lowest number
    assert "You left the team." in acted(open_bridge, ann, "leave")
    assert page_of(open_bridge.got("/p/team/1")).links[0] == f"user/{bob_id}"
    acted(open_bridge, bob, "leave")
    acted(open_bridge, cid, "leave")
    page_of(open_bridge.got("/p/team/1"), "404 Not Found")
    assert "You left the team." in acted(open_bridge, cid, "leave")  # once more, with no effect
    assert "Your team is made." in acted(open_bridge, cid, "make", team="Sum <b> mers")
    page_of(open_bridge.got("/p/team/1"), "404 Not Found")  # a number is never given twice
    page_of(open_bridge.got("/p/team/2"))


def test_what_a_client_reads_of_a_team(open_bridge: Bridge) -> None:
    ((ann, _),) = accounts(open_bridge, 1)
    before = open_bridge.call(request(hostid=FIRST, key=ann, seqno=1))
    assert b"team_name" not in before
    acted(open_bridge, ann, "make", team="A & B")
    reply = open_bridge.call(request(hostid=FIRST, key=ann, seqno=2))
    assert value(reply, "team_name") == "A &amp; B"
    assert reply.replace(b"    <team_name>A &amp; B</team_name>\n", b"").count(b"<user_name>") == 1
    acted(open_bridge, ann, "leave")
    assert b"team_name" not in open_bridge.call(request(hostid=FIRST, key=ann, seqno=3))


@pytest.mark.parametrize(
    "action, fields, field, why",
    [
        ("make", {"team": " \t"}, "team", "Give a name."),
        ("make", {"team": "ＴＡＫＥＮ"}, "team", "Another team has this name."),
        ("join", {"team": "nothing"}, "team", "No team has this name or number."),
        ("join", {"team": "2"}, "team", "No team has this name or number."),
        ("join", {"team": ""}, "team", "No team has this name or number."),
    ],
)
def test_what_can_not_be_done(
    open_bridge: Bridge, action: str, fields: dict[str, str], field: str, why: str
) -> None:
    (ann, _), (bob, _) = accounts(open_bridge, 2)
    acted(open_bridge, ann, "make", team="Taken")
    page = page_of(posted(open_bridge, "account_team", key=bob, action=action, **fields), has_key=True)
    assert why in page.text and page.inputs[field]["aria-invalid"] == "true"
    assert open_bridge.members.of_key(bob).team is None


def test_a_user_is_in_one_team(open_bridge: Bridge) -> None:
    (ann, _), (bob, _) = accounts(open_bridge, 2)
    acted(open_bridge, ann, "make", team="A")
    acted(open_bridge, bob, "make", team="B")
    for action, name in (("join", "B"), ("make", "C")):
        assert "Leave your team first." in acted(open_bridge, ann, action, team=name)
        assert open_bridge.members.of_key(ann).team == 1
    assert "Teams: 2." in page_of(open_bridge.got("/p/teams")).text


def test_the_number_of_a_team_leads_to_it_whatever_others_are_called(open_bridge: Bridge) -> None:
    """A name can be chosen so that it is the number of another team, and a number can't."""
    (ann, _), (bob, _), (cid, _) = accounts(open_bridge, 3)
    acted(open_bridge, ann, "make", team="A")
    acted(open_bridge, bob, "make", team="1")
    acted(open_bridge, cid, "join", team="1")
    assert [open_bridge.members.of_key(key).team for key in (ann, bob, cid)] == [1, 2, 1]
    acted(open_bridge, cid, "leave")
    acted(open_bridge, cid, "join", team="2")
    assert open_bridge.members.of_key(cid).team == 2


def test_the_founder_removes_members(open_bridge: Bridge) -> None:
    (ann, ann_id), (bob, bob_id), (cid, cid_id) = accounts(open_bridge, 3)
    acted(open_bridge, ann, "make", team="A")
    acted(open_bridge, bob, "join", team="A")
    acted(open_bridge, cid, "make", team="C")
    for number in (ann_id, cid_id, 99, "x", "", "-1", "9" * 30, "٣"):
        assert "No other member of your team" in acted(open_bridge, ann, "remove", member=str(number))
    assert "Only the founder of a team" in acted(open_bridge, bob, "remove", member=str(ann_id))
    assert [open_bridge.members.of_key(key).team for key in (ann, bob, cid)] == [1, 1, 2]
    assert "The member is removed." in acted(open_bridge, ann, "remove", member=str(bob_id))
    assert open_bridge.members.of_key(bob).team is None
    assert "members1" in page_of(open_bridge.got("/p/team/1")).text.replace("\n", "")


def test_limits_of_teams(open_bridge: Bridge, monkeypatch: pytest.MonkeyPatch) -> None:
    (ann, _), (bob, _) = accounts(open_bridge, 2)
    for number in range(3):
        assert "is made" in acted(open_bridge, ann, "make", team=f"A{number}")
        acted(open_bridge, ann, "leave")
    assert "Try again tomorrow." in acted(open_bridge, ann, "make", team="A3")
    monkeypatch.setattr(teams, "MOST_TEAMS", 0)
    assert "as many teams as it can have" in acted(open_bridge, bob, "make", team="B")


def test_the_operator_lists_the_teams(project: Path, open_bridge: Bridge) -> None:
    assert done(project, "teams") == done(project, "teams", "--json") == ""
    (ann, ann_id), (bob, _), (cid, cid_id) = accounts(open_bridge, 3)
    acted(open_bridge, ann, "make", team="Summers")
    acted(open_bridge, cid, "make", team='"The" <others>')
    acted(open_bridge, bob, "join", team="Summers")
    head, *lines = done(project, "teams").splitlines()
    assert head.split() == ["number", "name", "founder", "members", "credit", "made"]
    assert [line.split()[0] for line in lines] == ["1", "2"]
    assert lines[0].split()[1:5] == ["Summers", str(ann_id), "2", "0.000"]
    assert lines[1].split()[3:6] == [str(cid_id), "1", "0.000"]
    rows = [json.loads(line) for line in done(project, "teams", "--json").splitlines()]
    assert [(row["number"], row["name"], row["founder"], row["members"]) for row in rows] == [
        (1, "Summers", ann, [ann, bob]),
        (2, '"The" <others>', cid, [cid]),
    ]
    # the founder leaves: the member who is left is the founder
    acted(open_bridge, ann, "leave")
    row = json.loads(done(project, "teams", "--json").splitlines()[0])
    assert (row["founder"], row["members"]) == (bob, [bob])

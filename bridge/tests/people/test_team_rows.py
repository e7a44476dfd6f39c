"""How a user leaves a team."""
from bridges import Bridge
from pages_seen import page_of, posted
from teams_acted import accounts, acted


def test_a_deleted_account_leaves_its_team(open_bridge: Bridge) -> None:
    (ann, _), (bob, bob_id) = accounts(open_bridge, 2)
    acted(open_bridge, ann, "make", team="A")
    acted(open_bridge, bob, "join", team="A")
    form = {"email": "user0@sums.example", "password": "secret1", "is_sure": "1"}
    assert "is deleted" in page_of(posted(open_bridge, "delete_account.php", **form)).text
    page = page_of(open_bridge.got("/p/team/1"))
    assert page.links[0] == f"user/{bob_id}" and "deleted" not in page.text
    form["email"] = "user1@sums.example"
    posted(open_bridge, "delete_account.php", **form)
    page_of(open_bridge.got("/p/team/1"), "404 Not Found")

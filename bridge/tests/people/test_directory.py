"""Users and computers by credit and by name."""
import re

import pytest
from bridges import Bridge
from joining import create
from many_people import people
from messages import FIRST, request
from pages_seen import page_of, posted


@pytest.mark.parametrize("path", ["users", "computers"])
def test_a_search_by_name(bridge: Bridge, path: str) -> None:
    people(bridge, 230)
    page = page_of(bridge.got(f"/p/{path}?name=user+22"))
    assert "in their name: 10." in page.text and "User 229" in page.text and "User 219" not in page.text
    assert page.inputs["name"]["value"] == "user 22"
    page = page_of(bridge.got(f"/p/{path}?name=User"))
    assert page.links[-1] == f"{path}?page=2&name=User"
    assert "in their name: 0." in page_of(bridge.got(f"/p/{path}?name=%25")).text
    assert "in their name: 0." in page_of(bridge.got(f"/p/{path}?name=User_22")).text
    assert "in their name: 0." in page_of(bridge.got(f"/p/{path}?name=%5C%27%22%3Cb%3E")).text
    assert "that called: 230." in page_of(bridge.got(f"/p/{path}?name=+")).text
    assert len(page_of(bridge.got(f"/p/{path}?name={'x' * 5000}")).inputs["name"]["value"]) == 64


def test_a_search_keeps_the_places_among_all_users(bridge: Bridge) -> None:
    people(bridge, 200)
    with bridge.file.transaction() as connection:  # the best ten of twenty are equal
        connection.execute("UPDATE member SET credit = 190000 WHERE credit > 190000")
    found = page_of(bridge.got("/p/users?name=User+1"))
    assert found.inputs["name"]["value"] == "User 1"
    rows = re.findall(r"^([0-9]+)(User [0-9]{3})", found.text, re.MULTILINE)
    assert [place for place, _ in rows] == ["1"] * 10 + [str(place) for place in range(11, 101)]
    labels = [fields["aria-label"] for tag, fields in found.tags if tag == "svg"]
    # one more of each kind is in the legend
    assert labels.count("Among the best 1 of 100 users by credit") == 10 + 1
    assert labels.count("Among the best 25 of 100 users by credit") == 50 - 10 + 1
    everybody = page_of(bridge.got("/p/users"))
    assert re.findall(r"^([0-9]+)(User [0-9]{3})", everybody.text, re.MULTILINE) == rows


def test_the_leaders(bridge: Bridge) -> None:
    assert "Leaders" not in page_of(bridge.got("/p/")).text
    people(bridge, 12)
    page = page_of(bridge.got("/p/"))
    assert "1User 01111\n" in page.text and "10User 0022\n" in page.text and "User 001" not in page.text


def test_calls_do_not_wait_for_pages_nor_pages_for_calls(bridge: Bridge) -> None:
    people(bridge, 3)
    with bridge.file._lock:  # a call writes
        assert "User 002" in page_of(bridge.got("/p/users")).text
        assert "User 002" in page_of(bridge.got("/p/user/3")).text
    with bridge.file._look_lock:  # a page reads
        assert b"<hostid>" in bridge.call(request())


def test_a_deleted_account_is_in_no_list(open_bridge: Bridge) -> None:
    key = create(open_bridge)
    open_bridge.call(request(key=key))
    open_bridge.call(request(hostid=FIRST, key=key, seqno=1))
    number = open_bridge.members.of_key(key).id
    assert open_bridge.file.rows("SELECT count(*) FROM host_day") == [(1,)]
    form = {"email": "ann@sums.example", "password": "secret1", "is_sure": "1"}
    assert "is deleted" in page_of(posted(open_bridge, "delete_account.php", **form)).text
    for path in (f"user/{number}", f"computer/{FIRST}"):
        page_of(open_bridge.got(f"/p/{path}"), "404 Not Found")
    assert "that called: 0." in page_of(open_bridge.got("/p/users")).text
    for table in ("host_day", "member_day", "host"):
        assert open_bridge.file.rows(f"SELECT count(*) FROM {table}") == [(0,)]

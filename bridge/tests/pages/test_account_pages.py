"""The pages of an account: what they show, their forms, and what a browser may do with them."""
from typing import Any
from urllib.parse import urlencode

import pytest
from bridges import Bridge
from joining import CLIENT, create, look_up
from messages import request
from pages_seen import FORM, page_of, posted
from twin import Twin


# ---- How to join


def test_no_accounts_no_pages_of_accounts(bridge: Bridge) -> None:
    for path in ("account", "account_finish.php?auth=ann-key", "terms"):
        assert bridge.got(f"/p/{path}")[0] == "404 Not Found"
    assert "no passwords" in page_of(bridge.got("/p/get_passwd.php")).text


# ---- An account


def test_the_page_of_an_account(open_bridge: Bridge, twin: Twin) -> None:
    key = create(open_bridge)
    name = open_bridge.members.of_key(key).name
    page = page_of(open_bridge.got(f"/p/account_finish.php?auth={key}"), has_key=True)
    assert key in page.text and name in page.text and "None of your computers has called yet." in page.text
    open_bridge.call(request(key=key, cpid="c1"))
    open_bridge.application.statements._accounts.clear()
    page = page_of(open_bridge.got(f"/p/account_finish.php?auth={key}"), has_key=True)
    assert "credit5\n" in page.text  # the twin's statement
    assert "ann@sums.example" not in page.text
    assert twin.service.machine.rows["accounts"][key].name == name


def test_an_account_begins_with_its_place_credit_and_team(open_bridge: Bridge) -> None:
    key = create(open_bridge)
    page = page_of(open_bridge.got(f"/p/account_finish.php?auth={key}"), has_key=True)
    assert "place" not in page.text.partition("Your account key")[0] and "teamnone\n" in page.text
    open_bridge.call(request(key=key, cpid="c1"))
    open_bridge.application.statements._accounts.clear()
    posted(open_bridge, "account_team", key=key, action="make", team="Summers")
    page = page_of(open_bridge.got(f"/p/account_finish.php?auth={key}"), has_key=True)
    number = open_bridge.members.of_key(key).id
    head = page.text.partition("Your account key")[0]
    assert "place1 of 1\ncredit5\nteamSummers\n" in head and "Your page, as others see it" in head
    assert page.links[:2] == ["team/1", f"user/{number}"]


def test_the_credit_of_more_hosts_than_the_page_shows(
    open_bridge: Bridge, monkeypatch: pytest.MonkeyPatch
) -> None:
    for module in ("statements", "account_pages"):
        monkeypatch.setattr(f"bsched_bridge.pages.{module}.MOST_HOSTS", 1)
    for number in range(2):
        open_bridge.call(request(cpid=f"c{number}"))
    page = page_of(open_bridge.got("/p/account_finish.php?auth=ann-key"), has_key=True)
    assert "credit5\n" in page.text and "The table has the 1 computers that called last." in page.text
    with open_bridge.file.transaction() as connection:  # as the latest reply has it
        connection.execute("UPDATE host SET user_credit = 123456")
    open_bridge.application.statements._accounts.clear()
    page = page_of(open_bridge.got("/p/account_finish.php?auth=ann-key"), has_key=True)
    assert "credit123.456\n" in page.text


def test_an_account_of_the_operator_has_a_page(open_bridge: Bridge) -> None:
    page_of(open_bridge.got("/p/account_finish.php?auth=ann-key"), "404 Not Found")  # no host has called yet
    open_bridge.call(request())
    assert "Ann" in page_of(open_bridge.got("/p/account_finish.php?auth=ann-key"), has_key=True).text


@pytest.mark.parametrize("query", ["", "?auth=", "?auth=nobody", "?auth=%3Cb%3E", "?auth=%27%20OR%201"])
def test_a_key_that_nobody_has(open_bridge: Bridge, query: str) -> None:
    page = page_of(open_bridge.got(f"/p/account_finish.php{query}"), "404 Not Found")
    assert "No account has this key." in page.text


def test_a_look_changes_nothing(open_bridge: Bridge) -> None:
    key = create(open_bridge)
    before = open_bridge.members.of_key(key)
    for query in ("", "&name=Eve&is_exported=1", "&key=1"):
        open_bridge.got(f"/p/account_finish.php?auth={key}{query}")
    assert open_bridge.members.of_key(key) == before


def test_a_name_and_consent_are_changed(open_bridge: Bridge) -> None:
    key = create(open_bridge)
    page = page_of(
        posted(open_bridge, "account_finish.php", key=key, name=" Ann <A>\x00 ", is_exported="1"),
        has_key=True,
    )
    assert "Your changes are saved." in page.text
    assert page.inputs["name"]["value"] == "Ann <A>" and "checked" in page.inputs["is_exported"]
    member = open_bridge.members.of_key(key)
    assert (member.name, member.is_exported) == ("Ann <A>", True)
    reply = open_bridge.call(request(key=key, cpid="c1")).decode()
    assert "<user_name>Ann &lt;A&gt;</user_name>" in reply
    for path in ("status", "users", "computers"):
        assert open_bridge.got(f"/p/{path}")[2].decode().count(">Ann &lt;A&gt;</a></td>") == 1
    posted(open_bridge, "account_finish.php", key=key, name="Ann")
    assert open_bridge.members.of_key(key).is_exported is False


def test_an_empty_name_is_a_fault_beside_its_field(open_bridge: Bridge) -> None:
    key = create(open_bridge)
    name = open_bridge.members.of_key(key).name
    page = page_of(posted(open_bridge, "account_finish.php", key=key, name=" \t"), has_key=True)
    assert page.inputs["name"]["aria-invalid"] == "true" and "Give a name." in page.text
    assert page.inputs["name"]["aria-describedby"].split() == ["name-note", "name-fault"]
    assert open_bridge.members.of_key(key).name == name


def test_a_form_without_its_key(open_bridge: Bridge) -> None:
    for form in ({"name": "Eve"}, {"name": "Eve", "key": "nobody"}):
        page = page_of(posted(open_bridge, "account_finish.php", **form))
        assert "No account has this key." in page.text


def test_the_way_to_an_account(open_bridge: Bridge) -> None:
    key = create(open_bridge)
    assert set(page_of(open_bridge.got("/p/account")).inputs) == {"email", "password", "key"}
    assert key in page_of(posted(open_bridge, "account", key=f" {key} "), has_key=True).text
    answer = posted(open_bridge, "account", email="Ann@Sums.Example ", password="secret1")
    assert key in page_of(answer, has_key=True).text
    page = page_of(posted(open_bridge, "account", email="ann@sums.example", password="wrong-1"))
    assert "No account has this e-mail address and password." in page.text
    assert page.inputs["email"]["value"] == "ann@sums.example" and "value" not in page.inputs["password"]
    assert key not in page.text


def test_wrong_keys_and_passwords_of_forms_count(open_bridge: Bridge) -> None:
    key = create(open_bridge)
    for number in range(10):
        form = {"key": "nobody"} if number % 2 else {"email": "ann@sums.example", "password": "wrong-1"}
        page_of(posted(open_bridge, "account", **form))
    for path, form in (
        ("account", {"key": key}),
        ("account", {"email": "ann@sums.example", "password": "secret1"}),
        ("account_finish.php", {"key": key, "name": "A"}),
        ("get_passwd.php", {"key": key, "email": "a@b.example", "password": "secret2"}),
    ):
        assert "Too many wrong passwords" in page_of(posted(open_bridge, path, **form)).text
    assert key in page_of(posted(open_bridge, "account", "198.51.100.9", key=key)).text


def test_a_new_password(open_bridge: Bridge) -> None:
    key = create(open_bridge)
    assert set(page_of(open_bridge.got("/p/get_passwd.php")).inputs) == {"key", "email", "password"}
    page = page_of(
        posted(open_bridge, "get_passwd.php", key=key, email="New@Sums.Example", password="secret2")
    )
    assert "Your password is changed." in page.text
    assert look_up(open_bridge, "new@sums.example", "secret2") == key
    assert look_up(open_bridge) == -155
    assert create(open_bridge, "new@sums.example", "secret2") == key


def test_an_account_of_the_operator_gets_a_password(open_bridge: Bridge) -> None:
    open_bridge.call(request())
    page_of(
        posted(open_bridge, "get_passwd.php", key="ann-key", email="ann@sums.example", password="secret2")
    )
    assert (
        b"ann-key"
        in open_bridge.got(
            "/p/lookup_account.php?email_addr=ann%40sums%2Eexample&passwd_hash="
            + __import__("joining").client_hash("secret2", "ann@sums.example")
        )[2]
    )


@pytest.mark.parametrize(
    "fields, field, what",
    [
        ({"email": "ann"}, "email", "This is not an e-mail address."),
        ({"password": "short"}, "password", "fewer than 6"),
        ({"password": ""}, "password", "fewer than 6"),
        ({"password": "p" * 1001}, "password", "more than 1000"),
        ({"key": "nobody"}, "key", "No account has this key."),
        ({"email": "bob@sums.example"}, "email", "Another account has this e-mail address."),
    ],
)
def test_a_new_password_that_can_not_be(
    open_bridge: Bridge, fields: dict[str, str], field: str, what: str
) -> None:
    key = create(open_bridge)
    create(open_bridge, "bob@sums.example")
    form = {"key": key, "email": "new@sums.example", "password": "secret2", **fields}
    page = page_of(posted(open_bridge, "get_passwd.php", **form))
    assert what in page.text and page.inputs[field]["aria-invalid"] == "true"
    assert f"{field}-fault" in page.inputs[field]["aria-describedby"]
    assert look_up(open_bridge) == key


def test_what_is_no_form(open_bridge: Bridge) -> None:
    for path in ("account", "account_finish.php", "get_passwd.php"):
        assert open_bridge.got(f"/p/{path}", "POST", b"{}", CONTENT_TYPE="application/json")[0].startswith(
            "415"
        )
        assert open_bridge.got(f"/p/{path}", "POST", b"a" * 16_385, CONTENT_TYPE=FORM)[0].startswith("413")
        assert open_bridge.got(f"/p/{path}", "POST", b"&".join([b"a=1"] * 40), CONTENT_TYPE=FORM)[
            0
        ].startswith("400")
        assert open_bridge.got(f"/p/{path}", "PUT")[0].startswith("405")
        assert open_bridge.got(f"/p/{path}", "HEAD")[2] == b""


# ---- Pages of other sites


ELSEWHERE = [
    {"HTTP_SEC_FETCH_SITE": "cross-site"},
    {"HTTP_SEC_FETCH_SITE": "same-site", "HTTP_ORIGIN": "null"},
    {"HTTP_ORIGIN": "https://other.example"},
    {"HTTP_ORIGIN": "http://127.0.0.1:8082"},
    {"HTTP_ORIGIN": "null"},
]
FROM_HERE = [
    {},
    {"HTTP_SEC_FETCH_SITE": "same-origin", "HTTP_ORIGIN": "null"},
    {"HTTP_SEC_FETCH_SITE": "none"},
    {"HTTP_ORIGIN": "http://127.0.0.1:8081"},
]


FORMS = (
    "account",
    "account_finish.php",
    "account_preferences",
    "account_team",
    "delete_account.php",
    "get_passwd.php",
)


@pytest.mark.parametrize("fields", ELSEWHERE)
def test_pages_of_other_sites_can_neither_try_passwords_nor_lock_people_out(
    open_bridge: Bridge, fields: dict[str, str]
) -> None:
    key = create(open_bridge)
    body, kind = b"email=ann@sums.example&password=wrong&key=x", {
        "CONTENT_TYPE": "application/x-www-form-urlencoded"
    }
    for _ in range(12):
        for page in FORMS:
            answer = open_bridge.got(f"/p/{page}", "POST", body, REMOTE_ADDR=CLIENT, **kind, **fields)
            assert answer[0].startswith("403")
        image = open_bridge.got("/p/account_finish.php?auth=x", REMOTE_ADDR=CLIENT, **fields)
        assert image[0].startswith("403")
    assert look_up(open_bridge) == key
    # links to the forms may come from anywhere
    assert open_bridge.got("/p/account", **fields)[0].startswith("200")


@pytest.mark.parametrize("fields", FROM_HERE)
def test_the_pages_own_forms_are_taken(open_bridge: Bridge, fields: dict[str, Any]) -> None:
    key = create(open_bridge)
    assert open_bridge.got(f"/p/account_finish.php?auth={key}", **fields)[0].startswith("200")
    kind = {"CONTENT_TYPE": "application/x-www-form-urlencoded"}
    page = open_bridge.got("/p/account", "POST", f"key={key}".encode(), **kind, **fields)
    assert key in page[2].decode()


@pytest.mark.parametrize("page", ["account", "get_passwd.php", "account_finish.php?auth=nobody"])
def test_browsers_store_no_page_that_may_have_a_key(open_bridge: Bridge, page: str) -> None:
    assert open_bridge.got(f"/p/{page}")[1]["Cache-Control"] == "no-store"
    form = urlencode({"key": "some-key", "email": "x", "password": "y"}).encode()
    kind = {"CONTENT_TYPE": "application/x-www-form-urlencoded"}
    answer = open_bridge.got(f"/p/{page.partition('?')[0]}", "POST", form, **kind)
    assert answer[1]["Cache-Control"] == "no-store"

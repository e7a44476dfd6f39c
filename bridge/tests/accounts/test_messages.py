"""What a client asks about accounts, and what it gets."""
import xml.etree.ElementTree as ElementTree
from pathlib import Path

import pytest
from account_queries import EMAIL, fault_of
from bridges import Bridge
from joining import (
    CLIENT,
    account_query,
    client_hash,
    create,
    key_or_number,
    look_up,
    made_accounts,
    rows,
    works,
)
from twin import Twin

from bsched_bridge.accounts.actions import Fault, is_email
from bsched_bridge.people.passwords import TooBusy
from bsched_bridge.people.passwords import client_hash as own_client_hash


# queries as the client 7.20.5 and others send them
HASH = client_hash("secret1", EMAIL)
QUERIES = [
    f"email_addr=ann%40sums%2Eexample&passwd_hash={HASH}&user_name=ann",
    f"email_addr=ann%40sums%2Eexample&passwd_hash={HASH}&user_name=%E9&team_name=T",
    f"email_addr=ann@sums.example&passwd_hash={HASH.upper()}&user_name=a+b",
    f"email_addr=x&email_addr=Ann%40Sums%2EExample&passwd_hash=0&passwd_hash={HASH}",
    f"consent_flag=1&source=BOINC%20Manager&email_addr=ann%40sums%2Eexample&passwd_hash={HASH}&;&=&a",
]


@pytest.mark.parametrize("query", QUERIES)
def test_queries(open_bridge: Bridge, query: str) -> None:
    key = key_or_number(open_bridge.got(f"/p/create_account.php?{query}"))
    assert works(open_bridge, key)
    assert key_or_number(open_bridge.got(f"/p/lookup_account.php?{query}")) == key
    assert rows(open_bridge) == [(EMAIL, key, 1)]


@pytest.mark.parametrize(
    "email, creation",
    [
        ("", -205),
        ("ann", -205),
        ("ann-key@", -205),
        ("@sums.example", -205),
        ("a@b@c.de", -205),
        ("ann@localhost", -205),
        # the Manager accepts these as addresses, and its wizard never ends with -205
        ("a b@sums.example", -208),
        ("a@sums.ex ample", -208),
        ("a\x01@sums.example", -208),
        ("a" * 250 + "@sums.example", -208),
    ],
)
def test_what_is_no_address(open_bridge: Bridge, twin: Twin, email: str, creation: int) -> None:
    assert create(open_bridge, email) == creation
    if email != "ann":  # an account key would be looked up as such
        assert look_up(open_bridge, email) == -155
    assert rows(open_bridge) == [] == made_accounts(twin)


@pytest.mark.parametrize("sent", ["", "0" * 31, "0" * 33, "g" * 32, client_hash("", EMAIL)])
def test_what_is_no_password(open_bridge: Bridge, sent: str) -> None:
    query = f"email_addr=ann%40sums%2Eexample&passwd_hash={sent}"
    assert key_or_number(open_bridge.got(f"/p/create_account.php?{query}")) == -206
    assert key_or_number(open_bridge.got(f"/p/lookup_account.php?{query}")) == -155
    assert rows(open_bridge) == []


def test_an_account_key_is_looked_up_too(open_bridge: Bridge) -> None:
    assert b"ann-key" in open_bridge.got("/p/lookup_account.php?email_addr=ann-key&passwd_hash=00")[2]
    assert key_or_number(open_bridge.got("/p/lookup_account.php?email_addr=nobody&passwd_hash=00")) == -155


def test_the_configuration(open_bridge: Bridge) -> None:
    config = ElementTree.fromstring(open_bridge.got("/p/get_project_config.php")[2])
    assert config.findtext("min_passwd_length") == "6"
    absent = (
        "uses_username",
        "account_creation_disabled",
        "client_account_creation_disabled",
        "terms_of_use",
        "ldap_auth",
    )
    assert [config.find(name) for name in absent] == [None] * 5


def test_terms_need_consent(project: Path, open_bridge: Bridge, twin: Twin) -> None:
    (project / "terms.txt").write_text("Be <kind>.\n")
    with (project / "bridge.toml").open("a") as file:
        file.write('terms = "terms.txt"\n')
    open_bridge.restart()
    config = ElementTree.fromstring(open_bridge.got("/p/get_project_config.php")[2])
    assert config.findtext("terms_of_use", "").strip() == "Be <kind>."
    assert create(open_bridge) == create(open_bridge, consent_flag="0") == -242
    assert rows(open_bridge) == []
    key = create(open_bridge, consent_flag="1", source="BOINC Manager 7.20.5")
    assert open_bridge.members.of_key(key).consent_at > 0
    assert create(open_bridge) == key  # consent was given before
    assert b"Be &lt;kind&gt;." in open_bridge.got("/p/terms")[2]


def test_a_creation_is_for_no_head_and_no_browser(open_bridge: Bridge, twin: Twin) -> None:
    for page in ("create_account.php", "lookup_account.php"):
        query = account_query(page, EMAIL, "secret1", user_name="ann")
        assert open_bridge.got(query, "HEAD")[0] == "405 Method Not Allowed"
        assert open_bridge.got(query, "POST")[0] == "405 Method Not Allowed"
        for field in ("HTTP_ORIGIN", "HTTP_REFERER", "HTTP_SEC_FETCH_SITE"):
            assert open_bridge.got(query, **{field: "null"})[0] == "403 Forbidden"
    assert rows(open_bridge) == [] == twin.imports


def test_addresses_as_the_manager_has_them() -> None:
    assert is_email("ann@sums.example") and is_email("ann+b@a-b.co.uk") and is_email("é@sums.example")


def test_a_busy_bridge_says_so(open_bridge: Bridge, monkeypatch: pytest.MonkeyPatch) -> None:
    create(open_bridge)
    accounts = open_bridge.accounts

    def busy(*_words: object) -> bool:
        raise TooBusy

    monkeypatch.setattr(accounts.passwords, "is_right", busy)
    password = own_client_hash("secret1", EMAIL)
    assert fault_of(lambda: accounts.look_up(EMAIL, password, CLIENT)) is Fault.TOO_BUSY

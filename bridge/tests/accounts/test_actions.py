"""Accounts that volunteers make: what clients get, limits, refusals of bsched, and that nothing secret is
logged.
"""
import json
import re
import threading
import time
from pathlib import Path
from typing import Any
from urllib.parse import urlencode

import pytest
from account_queries import EMAIL, fault_of, of_key
from bridges import Bridge
from joining import (
    CLIENT,
    client_hash,
    create,
    key_or_number,
    look_up,
    made_accounts,
    rows,
    wait_until,
    works,
)
from messages import FIRST, request, value
from twin import Twin

from bsched_bridge.accounts.actions import Fault
from bsched_bridge.common.limits import RecentCounts
from bsched_bridge.people.members import Member
from bsched_bridge.people.passwords import Secret, scrypt
from bsched_bridge.people.passwords import client_hash as own_client_hash


# ---- What clients get


def test_an_account_is_made_once_and_found_again(open_bridge: Bridge, twin: Twin) -> None:
    key = create(open_bridge)
    assert works(open_bridge, key)
    assert create(open_bridge) == key
    assert look_up(open_bridge) == key
    assert create(open_bridge, password="other-1") == -207
    assert look_up(open_bridge, password="other-1") == look_up(open_bridge, "nobody@sums.example") == -155
    assert rows(open_bridge) == [(EMAIL, key, 1)]
    assert made_accounts(twin) == [key]
    open_bridge.restart()
    assert look_up(open_bridge) == create(open_bridge) == key


def test_what_is_sent_to_bsched(open_bridge: Bridge, twin: Twin) -> None:
    key = create(open_bridge)
    ((batch, text),) = twin.imports
    assert re.fullmatch("account-[0-9a-f]{32}", batch)
    name = open_bridge.members.of_key(key).name
    assert re.fullmatch("volunteer-[0-9]{6}", name)
    assert text == f'authenticator,name\n{key},"{name}"\n'


def test_no_consent_is_kept_where_none_is_asked(open_bridge: Bridge) -> None:
    assert open_bridge.members.of_key(create(open_bridge)).consent_at is None


# ---- Limits


def test_a_thousand_creations_from_one_address(open_bridge: Bridge, twin: Twin) -> None:
    answers = [create(open_bridge, f"u{number}@sums.example") for number in range(1000)]
    assert [type(answer) for answer in answers[:3]] == [str] * 3
    assert answers[3:] == [-208] * 10 + [-183] * 987
    assert len(rows(open_bridge)) == len(made_accounts(twin)) == 3
    assert look_up(open_bridge, "u0@sums.example", client="198.51.100.8") == answers[0]
    assert isinstance(create(open_bridge, "v@sums.example", client="198.51.100.8"), str)


def test_nobody_can_ask_whether_many_addresses_have_accounts(
    project: Path, open_bridge: Bridge, monkeypatch: pytest.MonkeyPatch
) -> None:
    for number in range(20):
        create(open_bridge, f"u{number}@sums.example", client=f"192.0.2.{number}")
    key = create(open_bridge, client="192.0.2.99")
    monkeypatch.setattr("bsched_bridge.people.passwords.scrypt", lambda *_words: 1 // 0)  # it takes no hash

    def asked(email: str, client: str) -> str:
        form = urlencode({"key": key, "email": email, "password": "secret1"}).encode()
        kind = "application/x-www-form-urlencoded"
        page = open_bridge.got("/p/get_passwd.php", "POST", form, CONTENT_TYPE=kind, REMOTE_ADDR=client)[
            2
        ].decode()
        return "taken" if "Another account has" in page else "many" if "Too many wrong" in page else page

    # neither from one address, nor with one key from many
    assert [asked(f"u{number}@sums.example", CLIENT) for number in range(12)] == ["taken"] * 10 + ["many"] * 2
    assert asked("u0@sums.example", "192.0.2.50") == "many" == asked("new@sums.example", "192.0.2.51")


def test_creations_that_say_that_an_address_is_free_are_counted(project: Path, open_bridge: Bridge) -> None:
    (project / "terms.txt").write_text("Be kind.")
    with (project / "bridge.toml").open("a") as file:
        file.write('terms = "terms.txt"\n')
    open_bridge.restart()
    answers = [create(open_bridge, f"u{number}@sums.example") for number in range(12)]
    assert answers == [-242] * 10 + [-183] * 2
    assert isinstance(create(open_bridge, client="192.0.2.1", consent_flag="1"), str)


def test_a_clock_that_was_ahead_stops_no_accounts(
    open_bridge: Bridge, monkeypatch: pytest.MonkeyPatch
) -> None:
    monkeypatch.setattr("bsched_bridge.accounts.actions.time.time", lambda: 4e9)
    for number in range(50):
        assert isinstance(create(open_bridge, f"u{number}@sums.example", client=f"192.0.2.{number}"), str)
    monkeypatch.undo()
    assert isinstance(create(open_bridge, client="198.51.100.9"), str)


def test_no_wide_network_makes_all_accounts_of_a_day(open_bridge: Bridge) -> None:
    """The attack: a customer has 65,536 networks of 64 bits in one of 48, and takes another one each time."""
    made = [
        create(open_bridge, f"u{number}@sums.example", client=f"2001:db8:5:{number:x}::1")
        for number in range(12)
    ]
    assert [isinstance(one, str) for one in made] == [True] * 5 + [False] * 7  # a tenth of 50
    assert made[5:] == [-208] * 7
    honest = [
        create(open_bridge, f"v{number}@sums.example", client=f"2001:db8:{number + 6:x}::1")
        for number in range(9)
    ]
    assert all(isinstance(one, str) for one in honest)


def test_wrong_passwords_of_a_wide_network(open_bridge: Bridge, monkeypatch: pytest.MonkeyPatch) -> None:
    """A network of 56 bits tries four times as often as one of 64, and one of 48 ten times."""
    monkeypatch.setattr(open_bridge.accounts.passwords, "_recent", RecentCounts(1000, 1))
    key, tried = create(open_bridge, client="192.0.2.1"), 0

    def guess(client: str) -> int | str:
        nonlocal tried
        tried += 1
        found: int | str = look_up(open_bridge, f"nobody{tried}@sums.example", "wrong-1", client=client)
        return found

    assert [guess(f"2001:db8:5:{one % 8:x}::1") for one in range(50)] == [-155] * 40 + [-183] * 10
    assert [guess(f"2001:db8:5:{one % 30 + 1:x}00::1") for one in range(70)] == [-155] * 60 + [-183] * 10
    assert guess("2001:db8:5:5000::1") == -183
    assert guess("2001:db8:6::1") == -155
    assert look_up(open_bridge, client="2001:db8:7::1") == key


def test_wrong_passwords_of_a_client(open_bridge: Bridge) -> None:
    keys = [create(open_bridge, f"u{number}@sums.example") for number in range(3)]
    for number in range(10):
        email = f"u{number % 3}@sums.example"
        found = (
            create(open_bridge, email, "wrong-1") if number % 2 else look_up(open_bridge, email, "wrong-1")
        )
        assert found in (-155, -207)
    # now the right one does not help either, and known and unknown addresses get the same answer
    assert look_up(open_bridge, "u0@sums.example") == look_up(open_bridge, "nobody@sums.example") == -183
    assert look_up(open_bridge, "u0@sums.example", client="198.51.100.8") == keys[0]


def test_wrong_passwords_for_an_address(open_bridge: Bridge) -> None:
    key = create(open_bridge)
    for number in range(10):
        assert look_up(open_bridge, EMAIL, "wrong-1", client=f"198.51.100.{number}") == -155
        assert look_up(open_bridge, "nobody@sums.example", "wrong-1", client=f"203.0.113.{number}") == -155
    assert look_up(open_bridge, client="192.0.2.1") == -183
    assert look_up(open_bridge, "nobody@sums.example", client="192.0.2.1") == -183
    assert create(open_bridge, client="192.0.2.1") == -183
    open_bridge.restart()
    assert look_up(open_bridge, client="192.0.2.1") == key


def test_right_passwords_do_not_count(open_bridge: Bridge) -> None:
    key = create(open_bridge)
    assert [look_up(open_bridge) for _ in range(30)] == [key] * 30


def test_wrong_keys_of_a_client(open_bridge: Bridge, twin: Twin) -> None:
    key = create(open_bridge)
    assert [of_key(open_bridge, key) for _ in range(30)] == [key] * 30  # right keys do not count
    page = f"/p/account_finish.php?auth={key}"
    for number in range(5):
        assert of_key(open_bridge, "nobody") == -155
        assert open_bridge.got("/p/account_finish.php?auth=nobody", REMOTE_ADDR=CLIENT)[0].startswith("404")
    asked = len(twin.heard)
    assert of_key(open_bridge, key) == look_up(open_bridge) == -183
    status, _, body = open_bridge.got(page, REMOTE_ADDR=CLIENT)
    assert status == "200 OK" and key.encode() not in body and b"Too many wrong passwords or keys" in body
    assert len(twin.heard) == asked
    assert of_key(open_bridge, key, "198.51.100.8") == key
    assert key.encode() in open_bridge.got(page, REMOTE_ADDR="198.51.100.8")[2]


def test_a_key_about_which_bsched_gives_no_answer_does_not_count(open_bridge: Bridge, twin: Twin) -> None:
    key = create(open_bridge)
    twin.faults = ["unavailable"] * 20
    assert [of_key(open_bridge, "nobody") for _ in range(20)] == [-183] * 20
    assert of_key(open_bridge, key) == key


# ---- Passwords


def test_account_messages_leave_threads_for_calls(open_bridge: Bridge) -> None:
    """At most half of the threads work for accounts. Any further message is asked at once to try again."""
    answers = []
    locks = open_bridge.accounts._locks
    locks.wait_seconds = 60
    with locks.held(EMAIL):
        threads = [
            threading.Thread(
                target=lambda client: answers.append(create(open_bridge, client=client)),
                args=(f"192.0.2.{n}",),
            )
            for n in range(4)
        ]
        for thread in threads:
            thread.start()
        wait_until(lambda: not open_bridge.application.account_places.places._places._value)
        assert create(open_bridge, "bob@sums.example") == look_up(open_bridge) == -183
        assert (
            key_or_number(open_bridge.got("/p/lookup_account.php?email_addr=ann-key&passwd_hash=00")) == -183
        )
        for page in ("account_finish.php?auth=ann-key", "account", "get_passwd.php"):
            method = "GET" if "?" in page else "POST"
            form = b"key=ann-key&email=bob%40sums.example&password=secret1"
            kind = "application/x-www-form-urlencoded"
            assert b"The project is busy" in open_bridge.got(f"/p/{page}", method, form, CONTENT_TYPE=kind)[2]
        assert answers == []
        assert value(open_bridge.call(request()), "hostid") == str(FIRST)
    for thread in threads:
        thread.join()
    assert len({answer for answer in answers if isinstance(answer, str)}) == 1


# ---- bsched that refuses, or does not answer


@pytest.mark.parametrize("fault", ["unheard", "lost", "unavailable", "garbage", "another"])
def test_no_key_is_told_before_bsched_has_it(open_bridge: Bridge, twin: Twin, fault: str) -> None:
    twin.import_faults = [fault]
    assert create(open_bridge) == -183
    twin.import_faults = [fault]
    assert look_up(open_bridge) == -183
    assert len(rows(open_bridge)) == 1
    key = create(open_bridge)
    assert works(open_bridge, key)
    assert len({batch for batch, _ in twin.imports}) == len({text for _, text in twin.imports}) == 1
    assert rows(open_bridge) == [(EMAIL, key, 1)]


@pytest.mark.parametrize("fault", ["unheard", "lost", "unavailable"])
def test_an_open_account_is_finished_without_its_client(open_bridge: Bridge, twin: Twin, fault: str) -> None:
    twin.import_faults = [fault]
    assert create(open_bridge) == -183
    open_bridge.restart()
    open_bridge.accounts.resend_open()
    key = rows(open_bridge)[0][1]
    assert rows(open_bridge) == [(EMAIL, key, 1)]
    assert made_accounts(twin) == [key] == [look_up(open_bridge)]


def test_a_table_that_is_full(open_bridge: Bridge, twin: Twin, caplog: pytest.LogCaptureFixture) -> None:
    twin.import_faults = ['{"error":"table_full","number":18}'] * 4
    assert [create(open_bridge) for _ in range(4)] == [-208] * 4
    assert rows(open_bridge) == []
    assert "bsched has as many as it can have" in caplog.text
    key = create(open_bridge)
    assert works(open_bridge, key)


def test_a_key_that_is_in(open_bridge: Bridge, twin: Twin) -> None:
    twin.import_faults = ["lost", '{"error":"duplicate_name","row":1,"number":15}']
    assert create(open_bridge) == -183
    assert works(open_bridge, create(open_bridge))


def test_a_batch_name_that_is_taken(open_bridge: Bridge, twin: Twin) -> None:
    twin.import_faults = ['{"error":"batch_reused","number":17}']
    key = create(open_bridge)
    (first, one), (second, other) = twin.imports
    assert first != second and one == other
    assert works(open_bridge, key)
    assert open_bridge.members.of_key(key).batch == second


@pytest.mark.parametrize("error", ["not_operator", "bad_csv", "too_large", "no_route", "new"])
def test_another_refusal_keeps_the_row(
    open_bridge: Bridge, twin: Twin, caplog: pytest.LogCaptureFixture, error: str
) -> None:
    twin.import_faults = [json.dumps({"error": error, "number": 1})]
    assert create(open_bridge) == -183
    assert len(rows(open_bridge)) == 1
    assert f"refuses the import of account {rows(open_bridge)[0][1][:6]}.. as {error}" in caplog.text
    twin.import_faults = [json.dumps({"error": error, "number": 1})]
    open_bridge.accounts.resend_open()  # this account does not hold up the others
    assert works(open_bridge, create(open_bridge))


def test_bsched_that_is_not_there(open_bridge: Bridge, twin: Twin) -> None:
    twin.close()
    assert create(open_bridge) == look_up(open_bridge) == -183


def test_bsched_that_was_put_back_to_an_older_copy(
    open_bridge: Bridge, twin: Twin, caplog: pytest.LogCaptureFixture
) -> None:
    key = create(open_bridge)
    assert works(open_bridge, key)
    machine = twin.service.machine
    del machine.rows["accounts"][key]
    twin.service.batches = {
        name: kept for name, kept in twin.service.batches.items() if not name[1].startswith("account-")
    }
    machine.hosts.clear()
    twin.import_faults = ["unavailable"]
    assert value(open_bridge.call(request(key=key, cpid="cpid")), "project_is_down") == "1"
    assert works(open_bridge, key)
    assert len(twin.imports) == 3
    assert made_accounts(twin) == [key]
    assert "does not know account" in caplog.text
    # a key that nobody made is still refused
    assert "Invalid or missing account key" in value(open_bridge.call(request(key="nobody")), "message")
    # and a key that a client got is kept, even if bsched has no more room for it
    del machine.rows["accounts"][key]
    twin.import_faults = ['{"error":"table_full","number":18}']
    machine.hosts.clear()
    assert "Invalid or missing account key" in value(
        open_bridge.call(request(key=key, cpid="cpid")), "message"
    )
    assert rows(open_bridge) == [(EMAIL, key, 1)]


def test_creations_at_once_are_one(open_bridge: Bridge, twin: Twin, monkeypatch: pytest.MonkeyPatch) -> None:
    def slow(*words: Any) -> bytes:
        time.sleep(0.1)
        return scrypt(*words)

    monkeypatch.setattr("bsched_bridge.people.passwords.scrypt", slow)
    open_bridge.accounts._locks.wait_seconds = 60
    answers = []
    threads = [
        threading.Thread(
            target=lambda client: answers.append(create(open_bridge, client=client)), args=(f"192.0.2.{n}",)
        )
        for n in range(4)
    ]
    for thread in threads:
        thread.start()
    for thread in threads:
        thread.join()
    (key,) = made_accounts(twin)
    assert answers == [key] * 4 and len(rows(open_bridge)) == 1


def test_a_full_disk(open_bridge: Bridge, twin: Twin, monkeypatch: pytest.MonkeyPatch) -> None:
    """For a while nothing can be written. No client gets a key, and afterwards there is one account for each
    address.
    """
    with monkeypatch.context() as patch:
        patch.setattr(open_bridge.file, "transaction", lambda is_synced=True: 1 // 0)
        assert create(open_bridge) == -183
    key = create(open_bridge)
    with monkeypatch.context() as patch:
        patch.setattr(open_bridge.members, "mark_imported", lambda member: 1 // 0)
        assert create(open_bridge, "bob@sums.example") == -183
    other = create(open_bridge, "bob@sums.example")
    assert made_accounts(twin) == [key, other]


# ---- What nobody may read in a log


def test_nothing_secret_is_logged(
    open_bridge: Bridge, twin: Twin, caplog: pytest.LogCaptureFixture, monkeypatch: pytest.MonkeyPatch
) -> None:
    caplog.set_level(0)
    secrets = {EMAIL, "sums.example", client_hash("secret1", EMAIL), client_hash("wrong-1", EMAIL), "secret1"}
    twin.import_faults = [
        "unheard",
        '{"error":"not_operator","number":13}',
        '{"error":"batch_reused","number":17}',
    ]
    for _ in range(4):
        key = create(open_bridge)
    create(open_bridge, password="wrong-1")
    for _ in range(12):
        look_up(open_bridge, password="wrong-1")
    for number in range(60):
        create(open_bridge, f"u{number}@sums.example", client=f"192.0.2.{number}")
    open_bridge.call(request(key=key, cpid="c1"))
    twin.service.machine.rows["accounts"].clear()
    open_bridge.call(request(key=key, cpid="c1"))
    open_bridge.got(f"/p/account_finish.php?auth={key}")

    def fails(*_words: str) -> None:
        raise ValueError(f"{EMAIL} {key}")

    monkeypatch.setattr(open_bridge.accounts.members, "of_email", fails)
    assert create(open_bridge, client="203.0.113.9") == -183
    form = f"key={key}&email={EMAIL}&password=secret1".encode()
    monkeypatch.setattr(open_bridge.accounts, "set_password", fails)
    kind = "application/x-www-form-urlencoded"
    assert open_bridge.got("/p/get_passwd.php", "POST", form, CONTENT_TYPE=kind)[0].startswith("500")
    assert caplog.text.count("a message could not be answered: ValueError") == 2
    assert len(caplog.records) > 5
    assert not [secret for secret in {*secrets, key} if secret in caplog.text]
    for _, authenticator, _ in rows(open_bridge):
        assert authenticator not in caplog.text


# ---- What only two messages at once bring about


def test_what_is_no_address_or_no_hash_counts_as_no_wrong_password(open_bridge: Bridge) -> None:
    key, accounts = create(open_bridge), open_bridge.accounts
    for _ in range(11):
        wrong = own_client_hash("secret1", "nobody")
        assert fault_of(lambda: accounts.look_up("nobody", wrong, CLIENT)) is Fault.WRONG
        assert fault_of(lambda: accounts.look_up(EMAIL, "no hash", CLIENT)) is Fault.WRONG
    assert look_up(open_bridge) == key


def test_a_deletion_of_an_account_that_has_another_address_meanwhile(
    open_bridge: Bridge, monkeypatch: pytest.MonkeyPatch
) -> None:
    accounts, key = open_bridge.accounts, create(open_bridge)
    look_up_before = accounts.look_up

    def meanwhile(*words: str) -> Member:
        member: Member = look_up_before(*words)
        open_bridge.members.set_password(member, "new@sums.example", member.secret)
        if is_taken:
            create(open_bridge)
        return member

    for is_taken in (False, True):
        monkeypatch.setattr(accounts, "look_up", meanwhile)
        assert (
            fault_of(lambda: accounts.delete(EMAIL, own_client_hash("secret1", EMAIL), CLIENT)) is Fault.WRONG
        )
        monkeypatch.undo()
        assert not accounts.is_deleted(key)
        member = open_bridge.members.of_key(key)
        if not is_taken:
            open_bridge.members.set_password(member, EMAIL, member.secret)


def test_a_password_of_an_account_that_is_deleted_meanwhile(
    open_bridge: Bridge, monkeypatch: pytest.MonkeyPatch
) -> None:
    accounts, key = open_bridge.accounts, create(open_bridge)
    new_secret = accounts.passwords.new_secret

    def meanwhile(*words: str) -> Secret:
        accounts.barring.delete(key, 7)
        made: Secret = new_secret(*words)
        return made

    monkeypatch.setattr(accounts.passwords, "new_secret", meanwhile)
    password = own_client_hash("secret2", EMAIL)
    assert fault_of(lambda: accounts.set_password(key, EMAIL, password, CLIENT)) is Fault.WRONG_KEY


def test_an_account_that_vanishes_before_its_import_is_sent_again(
    open_bridge: Bridge, twin: Twin, monkeypatch: pytest.MonkeyPatch
) -> None:
    twin.import_faults = ["unheard"]
    assert create(open_bridge) == -183
    monkeypatch.setattr(open_bridge.accounts.members, "of_key", lambda _key: None)
    open_bridge.accounts.resend_open()
    assert len(twin.imports) == 1


def test_a_call_of_an_unknown_account_is_sent_once(open_bridge: Bridge, twin: Twin) -> None:
    assert "Invalid or missing account key" in value(open_bridge.call(request(key="nobody")), "message")
    assert len(twin.heard) == 1
    key = create(open_bridge)
    twin.faults = ['{"error":"bad_account","number":9}']
    twin.import_faults = ['{"error":"table_full","number":18}']
    before = len(twin.heard)
    assert "Invalid or missing account key" in value(open_bridge.call(request(key=key)), "message")
    assert len(twin.heard) == before + 1

"""What is kept of a password, and how many hashes are made at once."""
import threading
from typing import Any
from contextlib import suppress
from pathlib import Path

import pytest
from account_queries import EMAIL
from bridges import Bridge
from joining import CLIENT, client_hash, create, look_up, wait_until

from bsched_bridge.people import passwords
from bsched_bridge.people.passwords import COST, Cost, Passwords, TooBusy
from bsched_bridge.people.passwords import client_hash as own_client_hash


def test_what_is_kept_of_a_password(open_bridge: Bridge) -> None:
    create(open_bridge)
    ((salt, secret, cost),) = open_bridge.file.rows("SELECT salt, secret, cost FROM member")
    assert isinstance(salt, bytes) and isinstance(secret, bytes)
    assert (len(salt), len(secret), cost) == (16, 64, "scrypt 16 8 1")
    dump = str(open_bridge.file.rows("SELECT * FROM member"))
    assert client_hash("secret1", EMAIL) not in dump and "secret1" not in dump
    assert COST == Cost(2**15, 8, 1)


def test_a_password_keeps_its_cost() -> None:
    secret = Passwords(Cost(2**4, 8, 1)).new_secret("0" * 32, CLIENT)
    other = Passwords(Cost(2**5, 8, 1))
    assert other.is_right("0" * 32, secret, CLIENT) and not other.is_right("1" * 32, secret, CLIENT)
    assert not other.is_right("0" * 32, None, CLIENT)
    assert own_client_hash("secret1", EMAIL) == client_hash("secret1", EMAIL)


def test_an_unknown_address_takes_a_hash_too(open_bridge: Bridge, monkeypatch: pytest.MonkeyPatch) -> None:
    create(open_bridge)
    made: list[Cost] = []

    def noted(_passwd_hash: str, _salt: bytes, cost: Cost) -> bytes:
        made.append(cost)
        return b""

    monkeypatch.setattr("bsched_bridge.people.passwords.scrypt", noted)
    look_up(open_bridge, "nobody@sums.example")
    look_up(open_bridge)
    assert made == [Cost(2**4, 8, 1)] * 2


def test_two_hashes_at_once_and_few_that_wait(monkeypatch: pytest.MonkeyPatch) -> None:
    monkeypatch.setattr("bsched_bridge.people.passwords.WAIT_SECONDS", 60.0)
    hashes, running, most, ended = Passwords(Cost(2**4, 8, 1)), [], [], threading.Event()

    def slow(_told: str, _salt: bytes, _cost: Cost) -> bytes:
        running.append(1)
        most.append(len(running))
        ended.wait(60)
        running.pop()
        return b""

    monkeypatch.setattr("bsched_bridge.people.passwords.scrypt", slow)
    threads = [threading.Thread(target=hashes.new_secret, args=("0" * 32, str(n))) for n in range(4)]
    for thread in threads:
        thread.start()
    wait_until(lambda: not hashes._places._value)
    with pytest.raises(TooBusy):
        hashes.new_secret("0" * 32, "another")
    ended.set()
    for thread in threads:
        thread.join()
    assert max(most) == 2
    hashes.new_secret("0" * 32, "another")


def test_a_wide_network_has_half_of_the_hashes_at_once(monkeypatch: pytest.MonkeyPatch) -> None:
    """The attack: networks of 64 bits of one customer send wrong passwords all the time, and others wait."""
    monkeypatch.setattr("bsched_bridge.people.passwords.WAIT_SECONDS", 60.0)
    hashes, ended = Passwords(Cost(2**4, 8, 1)), threading.Event()
    monkeypatch.setattr(
        "bsched_bridge.people.passwords.scrypt", lambda *_words: b"" if ended.wait(60) else b""
    )
    ends: list[str] = []

    def ask(client: str) -> None:
        try:
            hashes.new_secret("0" * 32, client)
            ends.append("made")
        except TooBusy:
            ends.append("busy")

    threads = [threading.Thread(target=ask, args=(f"2001:db8:5:{n:x}::/64",)) for n in range(40)]
    for thread in threads:
        thread.start()
    wait_until(lambda: len(ends) == 38)
    honest = [threading.Thread(target=ask, args=(client,)) for client in ("192.0.2.1", "2001:db8:6::/64")]
    for thread in honest:
        thread.start()
    wait_until(lambda: not hashes._places._value)
    ended.set()
    for thread in [*threads, *honest]:
        thread.join()
    assert (ends.count("busy"), ends.count("made")) == (38, 4)


def test_a_wide_network_has_a_tenth_of_the_hashes_of_a_minute(monkeypatch: pytest.MonkeyPatch) -> None:
    now = [0.0]
    hashes = Passwords(Cost(2**4, 8, 1))
    hashes._recent.clock = lambda: now[0]
    monkeypatch.setattr("bsched_bridge.people.passwords.scrypt", lambda *_words: b"")

    def made(clients: list[str]) -> int:
        count = 0
        for client in clients:
            with suppress(TooBusy):
                hashes.new_secret("0" * 32, client)
                count += 1
        return count

    assert made([f"2001:db8:5:{n:x}::/64" for n in range(1000)]) == 80
    assert made(["192.0.2.1"] * 50) == 40
    assert made(["2001:db8:6::/64"]) == 1
    now[0] = 61.0
    assert made(["2001:db8:5:7::/64"]) == 1


def test_a_hash_beyond_the_limit_takes_no_place(monkeypatch: pytest.MonkeyPatch) -> None:
    """Else somebody who is refused would still keep others out while he waits."""
    hashes = Passwords(Cost(2**4, 8, 1))
    monkeypatch.setattr(hashes._recent, "take", lambda _client: False)
    monkeypatch.setattr(hashes, "_place", None)
    with pytest.raises(TooBusy):
        hashes.new_secret("0" * 32, CLIENT)


def test_one_client_has_one_hash_at_once(open_bridge: Bridge, monkeypatch: pytest.MonkeyPatch) -> None:
    key = create(open_bridge)
    began, ended = threading.Event(), threading.Event()
    scrypt = passwords.scrypt

    def slow(*words: Any) -> bytes:
        began.set()
        ended.wait(60)
        return scrypt(*words)

    monkeypatch.setattr("bsched_bridge.people.passwords.scrypt", slow)
    thread = threading.Thread(target=look_up, args=(open_bridge,))
    thread.start()
    assert began.wait(60)
    monkeypatch.setattr("bsched_bridge.people.passwords.scrypt", scrypt)
    with open_bridge.accounts._locks.held("other"):
        create(open_bridge, "bob@sums.example", client="192.0.2.1")
    assert look_up(open_bridge, "bob@sums.example") == -183  # of the client that has a hash
    assert look_up(open_bridge, "bob@sums.example", client="192.0.2.1") not in (-183, -155)
    ended.set()
    thread.join()
    assert look_up(open_bridge) == key


def test_messages_of_one_client_that_wait_keep_nobody_from_a_place(open_bridge: Bridge) -> None:
    """Eight log-ins of one account wait for one another, as they do while its password is hashed."""
    create(open_bridge)
    bob = create(open_bridge, "bob@sums.example", client="192.0.2.1")
    answers: list[object] = []
    open_bridge.accounts._locks.wait_seconds = 60
    with open_bridge.accounts._locks.held("ann@sums.example"):
        threads = [threading.Thread(target=lambda: answers.append(look_up(open_bridge))) for _ in range(8)]
        for thread in threads:
            thread.start()
        wait_until(lambda: len(answers) == 7)  # they are refused at once, and one waits
        assert look_up(open_bridge, "bob@sums.example", client="192.0.2.1") == bob
    for thread in threads:
        thread.join()
    assert answers[:7] == [-183] * 7 and answers[7] != -183


def test_one_client_has_so_many_hashes_in_a_minute(open_bridge: Bridge) -> None:
    recent = open_bridge.accounts.passwords._recent
    recent.clock = lambda: 1000.0
    key = create(open_bridge)
    answers = [look_up(open_bridge) for _ in range(50)]
    assert answers == [key] * 39 + [-183] * 11
    assert look_up(open_bridge, client="192.0.2.1") == key
    recent.clock = lambda: 1061.0
    assert look_up(open_bridge) == key


def test_a_hash_that_waited_too_long(monkeypatch: pytest.MonkeyPatch) -> None:
    monkeypatch.setattr("bsched_bridge.people.passwords.WAIT_SECONDS", 0.01)
    made = Passwords(Cost(2**4, 8, 1))
    for _ in range(passwords.AT_ONCE):
        made._turns.acquire()
    with pytest.raises(TooBusy):
        made.new_secret("0" * 32, CLIENT)
    made._turns.release()
    made.new_secret("0" * 32, CLIENT)


def test_what_is_refused_takes_no_hash(
    project: Path, open_bridge: Bridge, monkeypatch: pytest.MonkeyPatch
) -> None:
    create(open_bridge)
    text = (project / "bridge.toml").read_text().replace("most_a_day = 50", "most_a_day = 1")
    (project / "bridge.toml").write_text(text)
    open_bridge.restart()
    monkeypatch.setattr("bsched_bridge.people.passwords.scrypt", lambda *_words: 1 // 0)
    assert create(open_bridge, "bob@sums.example") == -208
    for number in range(10):
        open_bridge.accounts._wrong["client"].take(CLIENT)
    assert create(open_bridge) == look_up(open_bridge) == -183


def test_a_bridge_that_is_busy(open_bridge: Bridge, monkeypatch: pytest.MonkeyPatch) -> None:
    def busy(*_words: str) -> None:
        raise TooBusy

    monkeypatch.setattr(open_bridge.accounts.passwords, "new_secret", busy)
    assert create(open_bridge) == -183
    monkeypatch.undo()
    assert isinstance(create(open_bridge), str)


def test_a_hash_that_finds_no_place(monkeypatch: pytest.MonkeyPatch) -> None:
    made = Passwords(Cost(2**4, 8, 1))
    with made._clients.held(CLIENT), pytest.raises(TooBusy):
        made.new_secret("0" * 32, CLIENT)
    for _ in range(passwords.AT_ONCE + passwords.WAITING):
        made._places.acquire()
    faults: list[str] = []

    def ask() -> None:
        try:
            made.new_secret("0" * 32, CLIENT)
        except Exception as fault:
            faults.append(type(fault).__name__)

    thread = threading.Thread(target=ask, daemon=True)
    thread.start()
    thread.join(60)
    assert faults == ["TooBusy"]
    made._places.release()
    made.new_secret("0" * 32, CLIENT)

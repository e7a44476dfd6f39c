"""How many at once, how often, and for whom a message counts."""
import time
from pathlib import Path

import pytest
from account_queries import of_key
from bridges import Bridge
from joining import account_query, create, key_or_number, look_up

from bsched_bridge.common.limits import RecentCounts, is_loopback, network_of


def test_addresses_of_one_network_are_one(open_bridge: Bridge) -> None:
    answers = [
        create(open_bridge, f"u{number}@sums.example", client=f"2001:db8::{number}:1") for number in range(5)
    ]
    assert answers[3:] == [-208, -208]
    assert isinstance(create(open_bridge, "v@sums.example", client="2001:db8:0:1::1"), str)


def test_old_counts_and_surplus_keys_are_forgotten(monkeypatch: pytest.MonkeyPatch) -> None:
    now = [0.0]
    counts = RecentCounts(2, 60, lambda: now[0])
    assert [counts.take("a") for _ in range(3)] == [True, True, False]
    counts.give_back("a")
    now[0] = 59.0
    assert [counts.take("a") for _ in range(2)] == [True, False]
    assert counts.has("a") and not counts.has("b")
    now[0] = 60.0
    assert [counts.take("a") for _ in range(2)] == [True, False]
    monkeypatch.setattr("bsched_bridge.common.limits.MOST_KEYS", 3)
    assert [counts.take(key) for key in "bcad"] == [True, True, False, True]
    assert list(counts._times) == ["b", "c", "d"]  # the one that did nothing for longest is gone
    counts.give_back("d")
    assert counts.take("e") and list(counts._times) == ["b", "c", "e"]
    now[0] = 121.0
    assert not counts.has("e")
    assert counts.take("e") and list(counts._times) == ["e"]
    counts.give_back("nobody")


def test_counts_of_wrong_passwords_are_not_pushed_out(
    open_bridge: Bridge, monkeypatch: pytest.MonkeyPatch
) -> None:
    monkeypatch.setattr("bsched_bridge.common.limits.MOST_KEYS", 30)
    key = create(open_bridge)
    for number in range(100):
        assert look_up(open_bridge, password=f"wrong-{number}") == (-155 if number < 10 else -183)
    for number in range(100):  # of addresses that somebody made up, of a client that is refused
        assert look_up(open_bridge, f"nobody{number}@sums.example") == -183
    assert look_up(open_bridge) == look_up(open_bridge, client="192.0.2.9") == -183
    # others have their turn while there are more clients than counts, and the address stays locked
    for number in range(40):
        assert of_key(open_bridge, "nobody", client=f"192.0.2.{number}") == -155
    assert of_key(open_bridge, key, client="192.0.2.99") == key
    assert look_up(open_bridge, "new@sums.example", client="192.0.2.99") == -155
    assert look_up(open_bridge, client="192.0.2.98") == -183
    counts = open_bridge.accounts._wrong
    assert {len(one._times) <= 30 for one in counts.values()} == {True}
    for one in counts.values():
        one.clock = lambda: time.monotonic() + 3601
    assert look_up(open_bridge) == key


def test_whose_address_it_is(project: Path, open_bridge: Bridge) -> None:
    with (project / "bridge.toml").open("a") as file:
        file.write('address_field = "X-Real-IP"\nmost_from_address = 1\n')
    open_bridge.restart()

    def made(email: str, peer: str, **fields: str) -> int | str:
        query = account_query("create_account.php", f"{email}@sums.example", "secret1")
        found: int | str = key_or_number(open_bridge.got(query, REMOTE_ADDR=peer, **fields))
        return found

    assert isinstance(made("a", "127.0.0.1", HTTP_X_REAL_IP="198.51.100.1"), str)
    assert made("b", "127.0.0.1", HTTP_X_REAL_IP="198.51.100.1") == -208
    assert isinstance(made("b", "127.0.0.1", HTTP_X_REAL_IP="198.51.100.2"), str)
    # the bridge believes only a proxy on this machine
    assert isinstance(made("c", "203.0.113.1", HTTP_X_REAL_IP="198.51.100.3"), str)
    assert made("d", "203.0.113.1", HTTP_X_REAL_IP="198.51.100.4") == -208
    # if the field is no address, the message counts for the peer
    assert isinstance(made("e", "127.0.0.1", HTTP_X_REAL_IP="nobody"), str)
    assert made("f", "127.0.0.1") == -208


@pytest.mark.parametrize(
    "address, network, is_own",
    [
        ("198.51.100.7", "198.51.100.7", False),
        ("127.0.0.1", "127.0.0.1", True),
        ("::1", "::/64", True),
        ("", "", True),
        ("::ffff:198.51.100.7", "198.51.100.7", False),
        ("2001:db8:1:2:3:4:5:6", "2001:db8:1:2::/64", False),
        ("fe80::1%eth0", "fe80::/64", False),
        ("nobody", "", False),
        ("198.51.100.7, 10.0.0.1", "", False),
    ],
)
def test_networks(address: str, network: str, is_own: bool) -> None:
    assert (network_of(address), is_loopback(address)) == (network, is_own)


def test_a_key_that_was_active_lately_is_not_before_one_that_was_not(monkeypatch: pytest.MonkeyPatch) -> None:
    monkeypatch.setattr("bsched_bridge.common.limits.MOST_KEYS", 2)
    now = 0.0
    counts = RecentCounts(5, 5, lambda: now)
    for now, key in ((0.0, "a"), (1.0, "b"), (4.0, "a")):
        assert counts.take(key)
    now = 7.0
    assert counts.take("c")  # in place of b, which did nothing for six seconds

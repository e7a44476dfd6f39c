"""The accounts that the bridge knows, and how many a day takes."""
from dataclasses import replace
from pathlib import Path

import pytest
from account_queries import EMAIL
from bridges import Bridge
from joining import CLIENT, create
from messages import request
from twin import Twin

from bsched_bridge.people.members import DayIsFull, EmailTaken
from bsched_bridge.people.passwords import Cost, Passwords
from bsched_bridge.people.passwords import client_hash as own_client_hash


def test_a_day_takes_so_many_accounts(
    project: Path, open_bridge: Bridge, twin: Twin, caplog: pytest.LogCaptureFixture
) -> None:
    text = (
        (project / "bridge.toml")
        .read_text()
        .replace("most_a_day = 50", "most_a_day = 4\nmost_from_address = 1")
    )
    (project / "bridge.toml").write_text(text)
    open_bridge.restart()
    answers = [
        create(open_bridge, f"u{number}@sums.example", client=f"198.51.100.{number}") for number in range(8)
    ]
    assert answers[4:] == [-208] * 4
    assert "4 accounts were made in 24 hours" in caplog.text
    open_bridge.restart()  # the table has the count of the day
    assert create(open_bridge, "v@sums.example", client="198.51.100.4") == -208
    with open_bridge.file.transaction() as connection:
        connection.execute(
            "UPDATE member SET created_at = created_at - 86400 WHERE id = (SELECT min(id) FROM member)"
        )
    # a refusal because of the day does not count for the address
    assert isinstance(create(open_bridge, "v@sums.example", client="198.51.100.4"), str)
    assert create(open_bridge, "w@sums.example", client="198.51.100.5") == -208


def test_accounts_of_the_operator_do_not_count(project: Path, open_bridge: Bridge) -> None:
    text = (project / "bridge.toml").read_text().replace("most_a_day = 50", "most_a_day = 1")
    (project / "bridge.toml").write_text(text)
    open_bridge.restart()
    open_bridge.call(request())
    assert open_bridge.members.of_key("ann-key").name == "Ann"
    assert isinstance(create(open_bridge), str)


def test_the_day_is_counted_where_the_row_is_made(open_bridge: Bridge) -> None:
    """Creations that come at once check the day before any of them has its row."""
    members, secret = open_bridge.members, Passwords(Cost(2**4, 8, 1)).new_secret("0" * 32, CLIENT)
    for number in range(2):
        members.insert(f"u{number}@sums.example", secret, "N", False, 1000, 2)
    with pytest.raises(DayIsFull):
        members.insert("v@sums.example", secret, "N", False, 87_399, 2)
    members.insert("v@sums.example", secret, "N", False, 87_400, 2)


def test_a_new_account_is_as_its_row_says(open_bridge: Bridge) -> None:
    accounts = open_bridge.accounts
    made = accounts.create(EMAIL, own_client_hash("secret1", EMAIL), "ann", False, CLIENT)
    assert made == replace(open_bridge.members.of_key(made.authenticator), is_imported=False)


def test_all_accounts_are_read_part_by_part(open_bridge: Bridge, monkeypatch: pytest.MonkeyPatch) -> None:
    keys = [
        create(open_bridge, f"user{number}@sums.example", client=f"192.0.2.{number}") for number in range(5)
    ]
    monkeypatch.setattr("bsched_bridge.people.members.ROWS_AT_ONCE", 2)
    assert [member.authenticator for member in open_bridge.members.all()] == keys


def test_an_address_that_another_account_takes_at_the_same_moment(open_bridge: Bridge) -> None:
    create(open_bridge)
    other = open_bridge.members.of_key(create(open_bridge, "bob@sums.example"))
    with pytest.raises(EmailTaken):
        open_bridge.members.set_password(other, EMAIL, other.secret)

"""Accounts that are deleted: what is kept of them, and who gets them back."""
import sqlite3
from pathlib import Path
from typing import Any, cast

import pytest
from bridges import Bridge
from joining import CLIENT, client_hash, create, look_up
from messages import request, value
from ordering import ANN, PASSWORD, done, files_with, is_forgotten, message, posted

from bsched_bridge.people.barring import Barred, forget


def test_a_volunteer_deletes_the_account(project: Path, open_bridge: Bridge) -> None:
    key = create(open_bridge)
    open_bridge.call(request(key=key, cpid="computer-of-ann"))
    posted(open_bridge, "account_finish.php", key=key, name="Zoë", is_exported="1")
    form = {"email": ANN, "password": PASSWORD}
    assert "Tick this" in posted(open_bridge, "delete_account.php", **form)
    wrong = {"email": ANN, "password": "another", "is_sure": "1"}
    assert "No account has this e-mail address and password" in posted(
        open_bridge, "delete_account.php", **wrong
    )
    assert look_up(open_bridge) == key
    assert "Your account is deleted." in posted(open_bridge, "delete_account.php", **form, is_sure="1")
    assert "was deleted" in message(open_bridge, key, "computer-of-ann")
    assert "was deleted" in message(open_bridge, key, "another")
    assert look_up(open_bridge) == -155
    is_forgotten(project, open_bridge, key)
    assert "was deleted" in message(open_bridge, key)  # also after a start
    again = create(open_bridge)
    assert again != key and value(open_bridge.call(request(key=again)), "hostid") is not None


def test_nobody_gets_a_deleted_account_back_by_its_key(project: Path, open_bridge: Bridge) -> None:
    key = create(open_bridge)
    done(project, "delete", "--yes", ANN)
    output = posted(open_bridge, "get_passwd.php", key=key, email="eve@sums.example", password="secret2")
    assert "No account has this key" in output
    assert open_bridge.got(f"/p/account_finish.php?auth={key}")[0] == "404 Not Found"
    query = f"/p/lookup_account.php?email_addr={key}&passwd_hash={client_hash('x', key)}"
    assert b"-155" in open_bridge.got(query, REMOTE_ADDR=CLIENT)[2]
    assert files_with(project, "eve@sums.example") == []


def test_a_message_in_work_writes_nothing_of_a_deleted_account(
    project: Path, open_bridge: Bridge, monkeypatch: pytest.MonkeyPatch
) -> None:
    """A call is under way when its account is deleted, and so are changes of the name and the password."""
    key = create(open_bridge)
    member = open_bridge.members.of_key(key)
    scheduler = open_bridge.application.scheduler
    call_once = scheduler.call_once

    def deleted_meanwhile(body: bytes) -> Any:
        open_bridge.application.exchange.barring.delete(key, 7)
        return call_once(body)

    monkeypatch.setattr(scheduler, "call_once", deleted_meanwhile)
    open_bridge.call(request(key=key, cpid="computer-of-ann"))
    open_bridge.members.change(member, "Zoë", True)
    open_bridge.members.set_password(member, ANN, member.secret)
    is_forgotten(project, open_bridge, key)
    assert files_with(project, "computer-of-ann") == []


def test_a_stop_within_a_deletion(project: Path, open_bridge: Bridge) -> None:
    """The account is whole or gone: a deletion is one transaction."""
    key = create(open_bridge)
    barring = open_bridge.application.exchange.barring
    for at in range(1, 4):
        left = [at]

        class Counted:
            """Counts statements, and ends at one of them."""

            def execute(self, statement: str, *values: tuple[Any, ...]) -> Any:
                left[0] -= 1
                if left[0] == 0:
                    raise RuntimeError
                return connection.execute(statement, *values)

        with pytest.raises(RuntimeError):
            with open_bridge.file.transaction() as connection:
                forget(cast(sqlite3.Connection, Counted()), key, 7)
        assert look_up(open_bridge) == key and barring.reason(key) is None
    barring.delete(key, 7)
    assert barring.reason(key) is Barred.DELETED

"""The operator's commands on accounts."""
import json
import re
import sqlite3
from pathlib import Path

import pytest
from bridges import Bridge
from joining import create, look_up
from messages import request, value
from ordering import ANN, done, is_forgotten, message, posted, refused

from bsched_bridge.common.state_file import StateFile


# ---- Lists


def test_accounts_are_listed_while_the_bridge_serves(project: Path, open_bridge: Bridge) -> None:
    key = create(open_bridge)
    open_bridge.call(request(key=key))
    open_bridge.call(request(key="bob-key"))
    lines = done(project, "members").splitlines()
    assert re.split(" {2,}", lines[0])[:5] == ["number", "key", "name", "address", "computers"]
    name = open_bridge.members.of_key(key).name
    assert re.split(" {2,}", lines[1])[1:6] == [f"{key[:6]}..", name, ANN, "1", "0.000"]
    rows = [json.loads(line) for line in done(project, "members", "--json").splitlines()]
    assert [(row["name"], row["address"]) for row in rows] == [(name, ANN), ("Bob", "")]


@pytest.mark.parametrize("by", ["address", "ADDRESS", "name", "key", "front"])
def test_an_account_is_shown_by_any_of_its_names(project: Path, open_bridge: Bridge, by: str) -> None:
    key = create(open_bridge)
    open_bridge.call(request(key=key))
    names = {
        "address": ANN,
        "ADDRESS": ANN.upper(),
        "name": open_bridge.members.of_key(key).name,
        "key": key,
        "front": key[:8],
    }
    output = done(project, "show", names[by])
    assert f"key: {key}\n" in output and f"address: {ANN}\n" in output and "state: good\n" in output
    assert re.search(r"^computer \d+ \(1 in the tables\): 0.000 credit, called last ", output, re.MULTILINE)


def test_what_names_no_account_or_several(project: Path, open_bridge: Bridge) -> None:
    one, other = create(open_bridge), create(open_bridge, "bob@sums.example")
    for key in (one, other):
        posted(open_bridge, "account_finish.php", key=key, name="Same")
    assert "no account has" in refused(project, "show", "nobody")
    assert "no account has" in refused(project, "show", one[:5])
    assert "2 accounts have this name" in refused(project, "bar", "Same")


def test_who_agreed_to_be_named(project: Path, open_bridge: Bridge) -> None:
    key, other = create(open_bridge), create(open_bridge, "bob@sums.example")
    posted(open_bridge, "account_finish.php", key=key, name='Zoë, "Z"', is_exported="1")
    posted(open_bridge, "account_finish.php", key=other, name="Bob")
    assert done(project, "consented") == f'{key},"Zoë, ""Z"""\n'
    assert json.loads(done(project, "consented", "--json")) == {
        "authenticator": key,
        "name": 'Zoë, "Z"',
        "is_deleted": False,
        "is_agreed": True,
    }


# ---- Barring


def test_an_account_is_barred_and_freed_at_once(project: Path, open_bridge: Bridge) -> None:
    key = create(open_bridge)
    assert "barred" in done(project, "bar", ANN)
    assert "has barred this account" in message(open_bridge, key)
    assert "barred" in done(project, "show", ANN)
    assert "is not barred" in done(project, "unbar", ANN)
    assert value(open_bridge.call(request(key=key)), "hostid") is not None


def test_the_list_of_the_settings_counts_too(project: Path, open_bridge: Bridge) -> None:
    key = create(open_bridge)
    path = project / "bridge.toml"
    path.write_text(f'barred = ["{key}"]\ncontact = "op@sums.example"\n' + path.read_text())
    assert "remove it there" in refused(project, "unbar", ANN)
    open_bridge.restart()
    assert message(open_bridge, key).endswith("Ask the operator why. (op@sums.example)")


# ---- Deletion


def test_the_operator_deletes_an_account(project: Path, open_bridge: Bridge) -> None:
    key = create(open_bridge)
    open_bridge.call(request(key=key))
    assert "--yes" in refused(project, "delete", ANN)
    assert "is deleted" in done(project, "delete", "--yes", ANN)
    is_forgotten(project, open_bridge, key)
    assert "was deleted" in refused(project, "unbar", key)
    assert "deleted" in done(project, "bar", key)
    output = json.loads(done(project, "consented", "--json"))
    assert output == {"authenticator": key, "name": "deleted", "is_deleted": True, "is_agreed": False}
    assert done(project, "consented") == "" and "0 users" not in done(project, "members")


# ---- Copies


def test_a_copy_while_the_bridge_serves(project: Path, open_bridge: Bridge) -> None:
    key = create(open_bridge)
    copies = project / "copies"
    copies.mkdir()
    for _ in range(3):
        done(project, "copy", "--to", str(copies), "--keep", "2")
    made = sorted(copies.iterdir())
    assert len(made) == 2 and {path.stat().st_mode & 0o777 for path in made} == {0o600}
    restored = project / "restored.db"
    restored.write_bytes(made[-1].read_bytes())
    file = StateFile(restored)
    assert file.rows("SELECT authenticator FROM member") == [(key,)]
    file.close()
    done(project, "copy", "--to", str(project / "one.state"))
    assert "is never written over" in refused(project, "copy", "--to", str(project / "one.state"))
    assert "No such file" in refused(project, "copy", "--to", str(project / "none" / "x"))
    assert look_up(open_bridge) == key


def test_commands_need_a_bridge_that_ran_once(project: Path) -> None:
    assert "the bridge makes it at its first start" in refused(project, "members")
    StateFile(project / "bridge.db").close()
    assert done(project, "members") == ""
    connection = sqlite3.connect(project / "bridge.db")
    connection.execute("PRAGMA user_version = 1")
    connection.close()
    assert "restart the bridge" in refused(project, "members")

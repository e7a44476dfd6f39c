"""Names of users and teams."""
import re
from pathlib import Path

import pytest
from bridges import Bridge
from hypothesis import given
from hypothesis import strategies as st
from joining import create
from teams_acted import accounts, acted
from twin import Twin

from bsched_bridge.accounts.actions import account_import
from bsched_bridge.people.members import Member
from bsched_bridge.people.names import clean_name, fold


@pytest.mark.parametrize(
    "sent, name",
    [
        ("ann", "ann"),
        ("  Ann \t B \n", "Ann B"),
        ("a\x00\x07b\x9fc", "a b c"),
        ("\ufffd", ""),
        ("", ""),
        ("\u2028é", "é"),
        ("x" * 65, "x" * 64),
        ("é" * 33, "é" * 32),
        ("x" * 63 + " y", "x" * 63),
        ('"a"', '"a"'),
        ("<b>", "<b>"),
        # what can't be seen: fillers, a joiner, a variation selector, an inherent vowel, a blank of Braille
        ("\u3164\u115f", ""),
        ("Te\u034fam\ufe0f \u17b4A", "Team A"),
        ("\u2800", ""),
        ("a\u2800b", "a b"),
        ("\U000e0101a", "a"),
        # no letter and no digit
        ('"', ""),
        ("\U0001f600 -", ""),
        ("\u0301\u0302", ""),
        ("7", "7"),
        # marks
        ("a" + "\u0301" * 40, "a" + "\u0301" * 4),
        (" \u0301a", "a"),
        (
            "\u0645\u064f\u062d\u064e\u0645\u0651\u064e\u062f",
            "\u0645\u064f\u062d\u064e\u0645\u0651\u064e\u062f",
        ),
        ("\u200b\ufeff", ""),
        ("An\u202en", "Ann"),
    ],
)
def test_names(sent: str, name: str) -> None:
    assert clean_name(sent) == name


@given(st.text())
def test_any_name_becomes_one_that_bsched_takes(sent: str) -> None:
    name = clean_name(sent)
    assert len(name.encode()) <= 64 and name == clean_name(name)
    if name:
        text = account_import(Member(1, "k", None, None, name, "b", False, "", None, False, 0)).decode()
        assert text == 'authenticator,name\nk,"' + name.replace('"', '""') + '"\n'


@pytest.mark.parametrize("sent, kept", [('A "B", <C>', 'A "B", <C>'), ("\t", None)])
def test_a_name_that_is_told(
    project: Path, open_bridge: Bridge, twin: Twin, sent: str, kept: str | None
) -> None:
    with (project / "bridge.toml").open("a") as file:
        file.write('names = "told"\n')
    open_bridge.restart()
    key = create(open_bridge, name=sent)
    name = open_bridge.members.of_key(key).name
    assert name == kept or (kept is None and re.fullmatch("volunteer-[0-9]{6}", name))
    assert twin.service.machine.rows["accounts"][key].name == name


def test_names_that_look_alike() -> None:
    assert fold("Straße") == fold("STRASSE") and fold("ﬁne") == fold("FINE") and fold("a") != fold("b")
    assert fold("Team A") == fold("TEAM  \u0410") == fold("T\u03b5am \u0391") and fold("TeamA") == fold(
        "Team\u034fA"
    )
    assert fold("\u041e\u0421\u0410") == fold("\u043e\u0441\u0430") and fold("M\u00fcller") != fold("Muller")


def test_a_name_that_looks_like_that_of_a_former_bridge_is_taken(open_bridge: Bridge) -> None:
    """A former bridge folded names in another way."""
    (ann, ann_id), (bob, _) = accounts(open_bridge, 2)
    with open_bridge.file.transaction() as connection:
        insert = "INSERT INTO team (name, folded, founder, created_at) VALUES (?, ?, ?, 1)"
        connection.execute(insert, ("Team\u034fA", "team\u034fa", ann_id))
    assert "Another team has this name" in acted(open_bridge, bob, "make", team="TeamA")
    acted(open_bridge, bob, "join", team="teama")
    assert [team.members for team in open_bridge.application.teams.teams(0, 9)] == [1]

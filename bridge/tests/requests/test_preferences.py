"""Preferences of an account: who sets them, and when a client gets them. It takes whatever comes."""
import xml.etree.ElementTree as ElementTree
from typing import Any

import pytest
from bridges import Bridge
from joining import create
from messages import FIRST, request
from pages_seen import Page, page_of, posted

from bsched_bridge.requests.preferences import PreferenceFault, typed

NOW = 1_800_000_000


@pytest.fixture
def ann(open_bridge: Bridge, monkeypatch: pytest.MonkeyPatch) -> str:
    """Returns the key of an account whose computer has called."""
    made: str = create(open_bridge)
    open_bridge.call(request(key=made))
    monkeypatch.setattr("bsched_bridge.pages.account_pages.time.time", lambda: NOW + 0.9)
    return made


def saved(bridge: Bridge, key: str, **more: str) -> Page:
    """Sends the form, and returns the page."""
    form = {"key": key, "action": "save", "share": "40", "processors": "50", **more}
    return page_of(posted(bridge, "account_preferences", **form), has_key=True)


def reply(bridge: Bridge, key: str, has: str = "") -> ElementTree.Element:
    """Returns the reply to a client with these elements in its request."""
    body = request(hostid=FIRST, key=key, seqno=1, seconds=0, extra=has)
    return ElementTree.fromstring(bridge.call(body))


def global_ones(root: ElementTree.Element) -> dict[str, Any] | None:
    """Returns the preferences of a reply that count for all projects."""
    found = root.findall("global_preferences")
    assert len(found) <= 1
    return {one.tag: one.text for one in found[0]} if found else None


def mod_time(text: str) -> str:
    """Returns the preferences that a client sends, changed at a time."""
    return f"<global_preferences><mod_time>{text}</mod_time></global_preferences>"


ALL = {
    "source_project": "http://127.0.0.1:8081/p/",
    "mod_time": str(NOW),
    "run_if_user_active": "0",
    "max_ncpus_pct": "50",
}


def test_without_preferences_a_reply_has_none(open_bridge: Bridge, ann: str) -> None:
    root = reply(open_bridge, ann)
    assert root.find("global_preferences") is None and root.find("project_preferences") is None


def test_a_client_gets_newer_ones_alone(open_bridge: Bridge, ann: str) -> None:
    assert "at their next calls" in saved(open_bridge, ann, is_only_idle="1").text
    for has in ("", mod_time("0"), mod_time("0.0"), mod_time(f"{NOW - 1}.000000"), mod_time("-5")):
        root = reply(open_bridge, ann, has)
        assert global_ones(root) == ALL
        assert root.findtext("project_preferences/resource_share") == "40"
    for has in (
        mod_time(f"{NOW}.000000"),
        mod_time(f"{NOW - 1}.5"),
        mod_time("9e99"),
        mod_time("abc"),
        mod_time(""),
    ):
        root = reply(open_bridge, ann, has)
        assert global_ones(root) is None  # never an empty element: it would erase what the client has
        assert root.findtext("project_preferences/resource_share") == "40"


def test_the_time_of_the_working_preferences_does_not_count(open_bridge: Bridge, ann: str) -> None:
    saved(open_bridge, ann)
    working = f"<working_global_preferences>\n{mod_time('9999999999')}</working_global_preferences>"
    found = global_ones(reply(open_bridge, ann, working))
    assert found is not None and found["run_if_user_active"] == "1"


def test_preferences_that_are_removed_are_sent_no_more(open_bridge: Bridge, ann: str) -> None:
    page = saved(open_bridge, ann, share="0", processors="1")
    assert (page.inputs["share"]["value"], page.inputs["processors"]["value"]) == ("0", "1")
    assert reply(open_bridge, ann).findtext("project_preferences/resource_share") == "0"
    assert "If they are sent no more, your computers keep what they got" in page.text
    page = page_of(posted(open_bridge, "account_preferences", key=ann, action="remove"))
    assert "They are sent no more." in page.text
    root = reply(open_bridge, ann)
    assert global_ones(root) is None and root.find("project_preferences") is None


@pytest.mark.parametrize(
    "field, text",
    [
        ("share", "-1"),
        ("share", "10001"),
        ("share", "1e3"),
        ("share", ""),
        ("share", "٣"),
        ("share", "9" * 5000),
    ]
    + [("processors", "0"), ("processors", "101"), ("processors", "abc"), ("processors", "<b>")],
)
def test_preferences_that_can_not_be(open_bridge: Bridge, ann: str, field: str, text: str) -> None:
    page = saved(open_bridge, ann, **{field: text})
    assert page.inputs[field]["aria-invalid"] == "true" and "Give a whole number from" in page.text
    assert reply(open_bridge, ann).find("project_preferences") is None
    values = {"share": "1", "processors": "1", field: text}
    with pytest.raises(PreferenceFault):
        typed(values["share"], values["processors"], False, 0)


def test_only_the_owner_changes_them(open_bridge: Bridge, ann: str) -> None:
    assert "No account has this key." in saved(open_bridge, "nobody").text
    body, kind = f"key={ann}&share=1&processors=1".encode(), {
        "CONTENT_TYPE": "application/x-www-form-urlencoded"
    }
    answer = open_bridge.got("/p/account_preferences", "POST", body, HTTP_SEC_FETCH_SITE="cross-site", **kind)
    assert answer[0].startswith("403")
    assert reply(open_bridge, ann).find("project_preferences") is None


def test_a_deleted_account_has_none(open_bridge: Bridge, ann: str) -> None:
    saved(open_bridge, ann)
    form = {"email": "ann@sums.example", "password": "secret1", "is_sure": "1"}
    page_of(posted(open_bridge, "delete_account.php", **form))
    assert open_bridge.file.rows("SELECT preferences FROM member") == [(None,)]

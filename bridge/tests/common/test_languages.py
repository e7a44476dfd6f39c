"""The languages of pages and messages: which one an answer has, and that nothing in it stays in English."""
import gettext
import re
import sys
import threading
from collections.abc import Iterator
from html.parser import HTMLParser
from pathlib import Path
from typing import Any, cast
from urllib.parse import urlencode
from xml.etree import ElementTree

import pytest
from babel.messages.catalog import Catalog  # type: ignore[import]
from babel.messages.mofile import write_mo  # type: ignore[import]
from babel.messages.pofile import write_po  # type: ignore[import]
from bridges import Bridge
from hypothesis import given
from hypothesis import strategies as st
from joining import CLIENT, create
from many_people import people
from messages import FIRST, request, value
from pages_seen import FORM, page_of, plots_of, posted
from twin import STATEMENT, Twin
from uploading import DATA, upload, url_of

from bsched_bridge.common.languages import (
    ENGLISH,
    LANGUAGES,
    NUMBER,
    Language,
    Text,
    gettext_lazy,
    ngettext_lazy,
    preferred,
    read_translations,
)

GERMAN = LANGUAGES["de"]


# ---- Which language an answer has


@pytest.mark.parametrize(
    "header, tag",
    [
        ("", "en"),
        ("de", "de"),
        ("DE", "de"),
        ("de_DE", "de"),  # as BOINC's client writes it
        ("de-AT, en;q=0.8", "de"),
        ("de-CH-1996", "de"),
        ("en-US,en;q=0.9,de;q=0.8", "en"),
        ("en;q=0.3,de;q=0.4", "de"),
        ("de,en", "de"),
        ("en,de", "en"),
        ("fr, de;q=0.5", "de"),
        ("fr", "en"),
        ("den", "en"),
        ("*", "en"),
        ("de;q=0, fr", "en"),
        ("de;q=0.000", "en"),
        ("../de", "en"),
        ("de" + " " * 254, "de"),
        ("de" + " " * 255, "en"),  # too long
        ("fr," * 85 + "de", "en"),
    ],
)
def test_the_preferred_language(bridge: Bridge, header: str, tag: str) -> None:
    _, fields, body = bridge.got("/p/", HTTP_ACCEPT_LANGUAGE=header)
    assert f'<html lang="{tag}">' in body.decode()
    assert fields["Vary"] == "Accept-Language"


@given(st.text(max_size=300) | st.text("de;q=,.*-_ 019", max_size=300))
def test_any_header(header: str) -> None:
    assert preferred(header) in LANGUAGES.values()


def test_without_a_header(bridge: Bridge) -> None:
    for path, status in (("", "200 OK"), ("status", "200 OK"), ("nothing", "404 Not Found")):
        answer = bridge.got(f"/p/{path}")
        page_of(answer, status)
        assert b'<html lang="en">' in answer[2] and answer[1]["Vary"] == "Accept-Language"


def test_languages_at_once(bridge: Bridge) -> None:
    """Each thread gets pages in the language that it asks for."""
    expected = {tag: bridge.got("/p/", HTTP_ACCEPT_LANGUAGE=tag)[2] for tag in ("de", "en")}
    assert expected["de"] != expected["en"]
    wrong: list[bytes] = []

    def read(tag: str) -> None:
        for _ in range(20):
            body = bridge.got("/p/", HTTP_ACCEPT_LANGUAGE=tag)[2]
            if body != expected[tag]:
                wrong.append(body)

    threads = [threading.Thread(target=read, args=(tag,)) for tag in ("de", "en") * 4]
    for thread in threads:
        thread.start()
    for thread in threads:
        thread.join()
    assert wrong == []


# ---- Texts


def test_texts_are_translated_late() -> None:
    text = ngettext_lazy("%(count)s of %(what)s", "%(count)s of all %(what)s", 2, what=Text("100 %"))
    assert str(text) == "2 of all 100 %"
    assert str(gettext_lazy("a %(b)s", b="%(c)s")) == "a %(c)s"
    assert GERMAN.text(gettext_lazy("%(name)s is not a number", name="x")) == "x ist keine Zahl"
    assert GERMAN.text("Users") == "Benutzer" and ENGLISH.text("Users") == "Users"
    assert GERMAN.text("") == "" and GERMAN.text("nobody translated this") == "nobody translated this"
    years = "With the project for %(count)s year", "With the project for %(count)s years"
    assert GERMAN.text(ngettext_lazy(*years, 1)) == "Seit 1 Jahr beim Projekt"
    assert GERMAN.text(ngettext_lazy(*years, 2)) == "Seit 2 Jahren beim Projekt"


def test_numbers() -> None:
    assert GERMAN.number("1,234,567.890") == "1.234.567,890"
    assert ENGLISH.number("1,234,567.890") == "1,234,567.890"


def test_where_translations_come_from(tmp_path: Path, monkeypatch: pytest.MonkeyPatch) -> None:
    def write(name: str, text: str) -> None:
        catalog = Catalog(locale="de")
        catalog.add("Users", text)
        with (tmp_path / name).open("wb") as file:
            (write_po if name.endswith(".po") else write_mo)(file, catalog)

    assert read_translations(tmp_path).gettext("Users") == "Users"
    write("bsched.mo", "compiled")
    assert read_translations(tmp_path).gettext("Users") == "compiled"
    write("bsched.po", "edited")
    assert read_translations(tmp_path).gettext("Users") == "edited"
    modules: dict[str, Any] = cast(Any, sys.modules)
    monkeypatch.setitem(modules, "babel.messages.mofile", None)
    assert read_translations(tmp_path).gettext("Users") == "Users"  # a source tree without Babel


# ---- In German


def test_pages_in_german(open_bridge: Bridge) -> None:
    people(open_bridge, 1234)
    users = page_of(open_bridge.got("/p/users", HTTP_ACCEPT_LANGUAGE="de"))
    assert "Benutzer mit Rechnern, die sich gemeldet haben: 1.234." in users.text
    assert "Seite 1 von 13." in users.text and "1User 1233" in users.text and "1.2331\n" in users.text
    user = page_of(open_bridge.got("/p/user/1", HTTP_ACCEPT_LANGUAGE="de"))
    assert "Platz1.234 von 1.234" in user.text and "dabei seit1970-01-01" in user.text
    faulty = open_bridge.got("/p/nothing", HTTP_ACCEPT_LANGUAGE="de")
    assert "Diese Seite gibt es hier nicht." in page_of(faulty, "404 Not Found").text


def test_the_client_in_german(open_bridge: Bridge) -> None:
    create(open_bridge)
    for query, number, text in (
        ("create_account.php?email_addr=x", "-205", "Das ist keine E-Mail-Adresse."),
        ("lookup_account.php?email_addr=x%40y.zz", "-155", "Es gibt kein Konto mit dieser E-Mail-Adresse"),
        ("lookup_account.php?email_addr=no-key", "-155", "Es gibt kein Konto mit diesem Schlüssel."),
    ):
        body = open_bridge.got(f"/p/{query}", HTTP_ACCEPT_LANGUAGE="de_DE", REMOTE_ADDR="127.0.0.1")[2]
        error = ElementTree.fromstring(body.decode())
        assert error.findtext("error_num") == number and text in (error.findtext("error_msg") or "")


def test_replies_in_german(bridge: Bridge) -> None:
    def reply(body: str) -> bytes:
        return bridge.got("/p/cgi", "POST", body.encode(), HTTP_ACCEPT_LANGUAGE="de")[2]

    refused = value(reply(request(key="nobody")), "message")
    assert refused.startswith("Der Kontoschlüssel fehlt oder ist ungültig.")
    assert value(reply("<x/>"), "message") == "Fehler in der Anfrage: das XML ist kein scheduler_request"
    text = reply(request()).decode()
    assert "<name>Stand des Projekts</name>" in text and "<user_name>Ann</user_name>" in text
    assert b"<name>Project status</name>" in bridge.call(request(cpid="c2"))


def test_uploads_in_german(file_bridge: Bridge) -> None:
    message = upload("a_0_0_0", DATA, "forged")
    body = file_bridge.got(url_of(file_bridge, "a_0_0_0"), "POST", message, HTTP_ACCEPT_LANGUAGE="de")[2]
    assert b"<message>Das Projekt lehnt diese Datei ab.</message>" in body and b"<status>-1</status>" in body


# ---- Nothing stays in English


class Marked(gettext.NullTranslations):
    """Translations that put each text between marks."""

    def gettext(self, message: str) -> str:
        """Returns a text between marks."""
        return message if message == NUMBER else f"«{message}»"

    def ngettext(self, msgid1: str, msgid2: str, n: int) -> str:
        """Returns one of two texts between marks."""
        return f"«{msgid1 if n == 1 else msgid2}»"


class Seen(HTMLParser):
    """What a reader sees or hears of a page."""

    def __init__(self, text: str) -> None:
        super().__init__()
        self.texts: list[str] = []
        self.feed(text)
        self.close()

    def handle_starttag(self, tag: str, attributes: list[Any]) -> None:
        """Keeps what is said in place of a picture or a group of links."""
        self.texts += [text for name, text in attributes if name in ("alt", "aria-label", "title")]

    def handle_data(self, data: str) -> None:
        """Keeps a text."""
        self.texts.append(data)


def unmarked(text: str) -> set[str]:
    """Returns the words that are not between marks. A translated text may have another one in it."""
    found, depth = "", 0
    for one in text:
        depth += (one == "«") - (one == "»")
        found += one if depth == 0 else " "
    assert depth == 0, text
    return set(re.findall(r"[A-Za-z]{2,}", found))


@pytest.fixture
def marked(open_bridge: Bridge, project: Path) -> Iterator[Bridge]:
    """A bridge whose German has each text between marks, with all that its pages can show."""
    (project / "terms.txt").write_text("9.9\n")
    (project / "counts.json").write_text(
        '{"workunits": {"open": 2, "done": 1, "failed by errors": 3, "failed by successes": 4, '
        '"failed by the total": 5}, "open_workunits": {"out": 1}}'
    )
    (project / "averages.json").write_text("{}")
    plots_of(project, "credit")
    path = project / "bridge.toml"
    head = 'counts = "counts.json"\nplots = "plots"\ncontact = "9"\naverages = "averages.json"\n'
    path.write_text(f'{head}{path.read_text()}terms = "terms.txt"\nmost_from_address = 50\n')
    patch = pytest.MonkeyPatch()
    with patch.context() as patched:
        patched.setitem(LANGUAGES, "de", Language("de", Marked()))
        preferred.cache_clear()
        open_bridge.restart()
        yield open_bridge
    preferred.cache_clear()


# what the operator, volunteers, computers and other programs say: names, units, and words of this test
SPOKEN = set(
    "Sums BOINC UTC GB User anonymous Title of credit text sum http https boinc berkeley edu one".split()
)
ABOUT = (
    '{"processor": "9", "processors": 9, "system": "9", "client": "9", "memory": 9, "disk": 9, "speed": 9, '
    '"coprocessors": ["9"]}'
)


def for_german(bridge: Bridge, path: str, **fields: str) -> bytes:
    """Returns the page that a German reader gets, or the one after a form with these fields."""
    reader = {"HTTP_ACCEPT_LANGUAGE": "de", "REMOTE_ADDR": CLIENT}
    if not fields:
        return bridge.got(f"/p/{path}", "GET", b"", **reader)[2]
    return bridge.got(f"/p/{path}", "POST", urlencode(fields).encode(), CONTENT_TYPE=FORM, **reader)[2]


def has_only_marked_texts(body: bytes) -> None:
    """Checks that a page has no text in English that is not a translated one."""
    assert b'<html lang="de">' in body
    left = unmarked("\n".join(Seen(body.decode()).texts)) - SPOKEN
    # keys and the numbers of results are no words
    assert not {word for word in left if re.search("[G-Zg-z]", word)}, left


def key_with_history(bridge: Bridge) -> str:
    """Makes accounts with computers, credit and years. Returns the key of one with two computers."""
    people(bridge, 101)
    key = create(bridge, consent_flag="1")
    for cpid in ("c1", "c2"):
        bridge.call(request(key=key, cpid=cpid))
    with bridge.file.transaction() as connection:
        connection.execute("UPDATE host SET about = ?", (ABOUT,))
        connection.execute("UPDATE member SET created_at = 0, name = 'one' WHERE authenticator = ?", (key,))
        for day in (1, 2):
            connection.execute("INSERT INTO host_day SELECT hostid, ?, 5 FROM host", (day,))
            connection.execute("INSERT INTO member_day SELECT id, ?, 5 FROM member", (day,))
    return str(key)


def test_nothing_on_a_page_is_in_english(marked: Bridge, twin: Twin) -> None:
    key = key_with_history(marked)
    posted(marked, "account_team", key=key, action="make", team="one")
    paths = [
        *("", "status", "users", "users?page=2", "users?name=User", "computers", "computers?name=User"),
        *("teams", "teams?name=one", "team/1", "user/1", "user/102", f"computer/{FIRST}", "computer/200001"),
        *("account", "account_finish.php?auth=x", f"account_finish.php?auth={key}"),
        *("get_passwd.php", "delete_account.php", "terms", "x"),
    ]
    for path in paths:
        has_only_marked_texts(for_german(marked, path))
    head, statements = STATEMENT.partition("\n")[0], marked.application.statements
    for twin.statement in ("", f"{head}\ntotal,,,,,,,0.000\n"):  # a faulty one, and one without results
        statements._results.clear()
        has_only_marked_texts(for_german(marked, f"computer/{FIRST}"))
    marked.application.scheduler.silent_since = 0.0
    has_only_marked_texts(for_german(marked, ""))


def test_nothing_after_a_form_is_in_english(marked: Bridge) -> None:
    key = key_with_history(marked)

    def post(path: str, **fields: str) -> None:
        has_only_marked_texts(for_german(marked, path, **fields))

    post("account", key=key)
    post("account", email="ann@sums.example", password="wrong")
    for name in ("", "one"):
        post("account_finish.php", key=key, name=name)
    for action, text in (
        *(("join", "9"), ("make", ""), ("make", "one"), ("make", "one"), ("remove", "9"), ("leave", "")),
        *(("remove", "9"), ("make", "one")),
    ):
        post("account_team", key=key, action=action, team=text, member=text)
    for share, processors in (("10001", "1"), ("1", "x"), ("1", "1")):
        post("account_preferences", key=key, action="save", share=share, processors=processors)
    post("account_preferences", key=key, action="remove")
    post("get_passwd.php", key=key, email="x", password="x")
    post("get_passwd.php", key=key, email="ann@sums.example", password="secret2")
    post("delete_account.php", email="ann@sums.example", password="secret2")
    post("delete_account.php", email="ann@sums.example", password="wrong", is_sure="1")
    post("delete_account.php", email="ann@sums.example", password="secret2", is_sure="1")


def test_without_accounts_nothing_is_in_english(marked: Bridge, project: Path) -> None:
    path = project / "bridge.toml"
    path.write_text(path.read_text().partition("\n[accounts]")[0])
    marked.restart()
    for name in ("", "status", "get_passwd.php"):
        has_only_marked_texts(for_german(marked, name))


def test_no_message_to_the_client_is_in_english(marked: Bridge, project: Path) -> None:
    def messages(body: str) -> list[str]:
        reply = marked.got("/p/cgi", "POST", body.encode(), HTTP_ACCEPT_LANGUAGE="de")[2].decode()
        shown = re.findall("<(?:message[^>]*|description)>([^<]*)<", reply)
        return [*shown, *re.findall("<gui_url>\\s*<name>([^<]*)<", reply)]

    (project / "files" / "sum_1").unlink()
    for body in (
        *("<x/>", "<x", "<!DOCTYPE x><x/>", request(key="a b"), request(key="nobody"), request(hostid="x")),
        *(request(), request(cpid="c2", extra="<code_sign_key>other</code_sign_key>")),
    ):
        shown = messages(body)
        assert shown and all(text.startswith("«") and text.endswith("»") for text in shown), shown

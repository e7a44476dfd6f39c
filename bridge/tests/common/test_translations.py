"""The list of texts for volunteers, and its translations: both have all texts, and templates no others."""
import gettext
import re
import subprocess
from collections.abc import Iterator
from html.parser import HTMLParser
from pathlib import Path
from typing import Any

import pytest
from babel.messages.catalog import Catalog, Message  # type: ignore[import]
from babel.messages.pofile import read_po  # type: ignore[import]
from bridges import BRIDGE
from jinja2 import Environment, nodes

from bsched_bridge.common.languages import FOLDER, NUMBER
from bsched_bridge.pages.templates import FOLDER as TEMPLATES

LANGUAGES = sorted(folder.parent.name for folder in FOLDER.glob("*/LC_MESSAGES"))
PLACE = re.compile(r"%\(([a-z_]+)\)s|%.")
TAG = re.compile("<[^>]*>")
# what a translation keeps of a text that has it
NAMES = re.compile(r"BOINC|UTC|account_\*\.xml|authenticator|scheduler_request|anonymous|XML")
FOR_OPERATORS = "board"  # templates that begin so are in English
SAME = {"BOINC"}  # in all languages
MARKS = ("_", "gettext", "ngettext")


def texts_of(path: Path) -> Catalog:
    """Returns the texts in a file."""
    with path.open("rb") as file:
        return read_po(file)


def messages_of(path: Path) -> list[Message]:
    """Returns the texts in a file without its head."""
    return [message for message in texts_of(path) if message.id]


def forms(text: str | tuple[str, ...] | list[str]) -> list[str]:
    """Returns the forms of a text: one, or one for each plural."""
    return [text] if isinstance(text, str) else list(text)


def places(text: str) -> set[str]:
    """Returns the places for values in a text. `%%` is none, but a sign for percent."""
    return {found[0] for found in PLACE.finditer(text)} - {"%%"}


@pytest.fixture(scope="session")
def extracted(tmp_path_factory: pytest.TempPathFactory) -> Path:
    """The texts in the sources as they are now."""
    path = tmp_path_factory.mktemp("texts") / "bsched.pot"
    subprocess.run([BRIDGE / "extract_texts", path], check=True, capture_output=True, timeout=600)
    return path


def test_the_list_is_that_of_the_sources(extracted: Path) -> None:
    """If this fails, run bridge/extract_texts."""
    now, listed = messages_of(extracted), messages_of(FOLDER / "bsched.pot")
    assert len(now) > 200
    assert [(one.id, one.context) for one in listed] == [(one.id, one.context) for one in now]


@pytest.fixture(params=LANGUAGES)
def source(request: pytest.FixtureRequest) -> Path:
    """A translation."""
    return FOLDER / str(request.param) / "LC_MESSAGES" / "bsched.po"


def test_each_text_is_translated(source: Path, extracted: Path) -> None:
    catalog = texts_of(source)
    assert [one.id for one in messages_of(source)] == [one.id for one in messages_of(extracted)]
    for message in messages_of(source):
        plain, translated = forms(message.id), forms(message.string)
        assert len(translated) == (1 if len(plain) == 1 else catalog.num_plurals), plain
        assert not message.fuzzy and all(translated), plain


def test_a_translation_keeps_what_is_no_word(source: Path) -> None:
    for message in messages_of(source):
        plain, translated = forms(message.id)[-1], forms(message.string)
        for number, text in enumerate(translated):
            # the form for one thing need not say how many there are
            free = {"%(count)s"} if len(translated) > 1 and number == 0 else set()
            assert places(plain) - free <= places(text) <= places(plain), text
            assert sorted(TAG.findall(text)) == sorted(TAG.findall(plain)), text
            assert sorted(NAMES.findall(text)) == sorted(NAMES.findall(plain)), text
            assert text.strip() == text and text.endswith(tuple(".:?")) == plain.endswith(tuple(".:?")), text


def test_a_package_can_compile_it(source: Path, tmp_path: Path) -> None:
    """debian/rules compiles it so."""
    command = ["msgfmt", "--check", f"--output-file={tmp_path / 'bsched.mo'}", str(source)]
    subprocess.run(command, check=True, timeout=600)
    with (tmp_path / "bsched.mo").open("rb") as file:
        assert gettext.GNUTranslations(file).gettext(NUMBER) == texts_of(source)[NUMBER].string


def test_a_language_has_signs_for_numbers(source: Path) -> None:
    written = texts_of(source)[NUMBER].string
    assert re.fullmatch(r"1[^0-9]234[^0-9]5", written) and written[1] != written[5]


def test_german_is_polite() -> None:
    for message in messages_of(FOLDER / "de" / "LC_MESSAGES" / "bsched.po"):
        for text in forms(message.string):
            assert not re.search(r"\b([Dd]u|[Dd]ich|[Dd]ir|[Dd]ein|[Dd]eine[mnrs]?|[Ee]uch|[Ee]uer)\b", text)
            assert len(re.findall("„", text)) == len(re.findall("“", text)) and "”" not in text


def test_german_words_of_pages() -> None:
    catalog = texts_of(FOLDER / "de" / "LC_MESSAGES" / "bsched.po")
    for plain, word in {
        "How far the work is": "Fortschritt",
        "Results a day": "Ergebnisse pro Tag",
        "all workunits": "insgesamt",
        "Log in": "Anmelden",
        "Percent of the processors": "Anteil der Prozessoren in Prozent",
        "You are in the team %(team)s.": "Sie sind im Team %(team)s.",
        "deadline (UTC)": "Frist (UTC)",
        "recent average credit": "durchschnittliches Guthaben der letzten Zeit",
    }.items():
        assert catalog[plain].string == word
    for message in messages_of(FOLDER / "de" / "LC_MESSAGES" / "bsched.po"):
        for text in forms(message.string):
            assert not re.search(r"\b(vergisst|Ablaufdatum|am Tag)\b", text), text
            if all(file.startswith("pages/templates/") for file, _ in message.locations):
                assert "E-Mail" not in text, "its first hyphen is U+2011, at which no line ends"


# ---- Templates


class Outside(HTMLParser):
    """The texts and the spoken attributes that a template has by itself."""

    def __init__(self, text: str) -> None:
        super().__init__()
        self.texts: list[str] = []
        self.feed(text)
        self.close()

    def handle_starttag(self, tag: str, attributes: list[Any]) -> None:
        """Keeps the attributes that a reader sees or hears."""
        spoken = ("alt", "aria-label", "placeholder", "title")
        self.texts += [text for name, text in attributes if name in spoken and text]

    def handle_data(self, data: str) -> None:
        """Keeps a text."""
        self.texts.append(data)


def constants(node: nodes.Node) -> Iterator[str]:
    """Yields the texts in the code of a template that are not marked for the translators."""
    if isinstance(node, nodes.Call) and isinstance(node.node, nodes.Name) and node.node.name in MARKS:
        return
    if isinstance(node, nodes.Const) and isinstance(node.value, str):
        yield node.value
    for child in node.iter_child_nodes():
        yield from constants(child)


def test_templates_have_no_texts_of_their_own() -> None:
    environment = Environment(extensions=["jinja2.ext.i18n"])
    paths = [path for path in sorted(TEMPLATES.glob("*.html")) if not path.name.startswith(FOR_OPERATORS)]
    assert len(paths) > 10
    for path in paths:
        tree = environment.parse(path.read_text())
        html = "".join(data.data for data in tree.find_all(nodes.TemplateData))
        words = {text.strip() for text in Outside(html).texts if re.search("[A-Za-z]", text)}
        assert words <= SAME, path
        sentences = {text for text in constants(tree) if re.search("[A-Z]|[a-z] [a-z]", text)}
        assert not sentences, path


def test_the_check_of_templates() -> None:
    environment = Environment(extensions=["jinja2.ext.i18n"])
    text = '<p title="x">a {% trans %}b{% endtrans %}</p>{{ _("C d") }}{{ e("F g", note=_("H i")) }}'
    tree = environment.parse(text)
    html = "".join(data.data for data in tree.find_all(nodes.TemplateData))
    assert Outside(html).texts == ["x", "a "] and list(constants(tree)) == ["F g"]

"""The languages in which volunteers read the project: English, and each that has a folder in `locale`.

The sources have all texts in English. A text whose reader is not known yet is marked by gettext_noop, or is a
Text. It is translated where the answer is written, in the language that the message asks for. That language
is passed on as a value, since a thread answers one message in English and the next in German.

What programs read stays as it is: the lines at the master URL by which the client finds the scheduler, the
numbers of errors, and what bsched gets of a report. So does what the operator wrote, and what users are
called; one of these names is `anonymous`.

A package has compiled translations (debian/rules). A source tree has only those that translators edit, and
Babel compiles these in memory: so no compiled file is committed, and none is out of date.
"""
import gettext
import io
from collections.abc import Mapping
from dataclasses import dataclass, field
from functools import lru_cache
from pathlib import Path
from wsgiref.types import WSGIEnvironment

from werkzeug.datastructures import LanguageAccept
from werkzeug.http import parse_accept_header
from werkzeug.wrappers import Request

FOLDER, DOMAIN = Path(__file__).parents[1] / "locale", "bsched"
MOST_HEADER = 256  # characters of Accept-Language; of a longer one nothing is read
MOST_KEPT = 64  # such fields, with the languages that they ask for


def gettext_noop(text: str) -> str:
    """Returns a text as it is. It marks the text for the translators."""
    return text


# A translation of this number shows which signs the language writes in numbers.
NUMBER = gettext_noop("1,234.5")


@dataclass(frozen=True, slots=True)
class Text:
    """A text in English which is translated later. If it has values, it has places for them, such as
    `%(count)s`. If it has a plural, its count decides between the two.
    """

    message: str
    values: Mapping[str, "Text | str | int"] = field(default_factory=dict)
    plural: str | None = None
    count: int = 0

    def __str__(self) -> str:
        """Returns the text in English."""
        return ENGLISH.text(self)


def gettext_lazy(message: str, /, **values: Text | str | int) -> Text:
    """Returns a text with values."""
    return Text(message, values)


def ngettext_lazy(message: str, plural: str, count: int, /, **values: Text | str | int) -> Text:
    """Returns a text with a plural, and with its count and other values."""
    return Text(message, {"count": count, **values}, plural, count)


class Language:
    """A language."""

    def __init__(self, tag: str, translations: gettext.NullTranslations) -> None:
        self.tag, self.translations = tag, translations
        self.gettext, self.ngettext = translations.gettext, translations.ngettext
        written = self.gettext(NUMBER)
        self._signs = {} if written == NUMBER else str.maketrans(",.", written[1] + written[5])

    def text(self, text: Text | str) -> str:
        """Returns a text in this language, or as it is if nobody has translated it."""
        if isinstance(text, str):
            return self.gettext(text) if text else ""  # an empty text is the head of a translation
        values = {
            name: self.text(value) if isinstance(value, Text) else value
            for name, value in text.values.items()
        }
        if text.plural is None:
            return self.gettext(text.message) % values if values else self.gettext(text.message)
        return self.ngettext(text.message, text.plural, text.count) % values

    def number(self, text: str) -> str:
        """Returns a number that is written as in English with the signs of this language."""
        return text.translate(self._signs) if self._signs else text


def read_translations(folder: Path) -> gettext.NullTranslations:
    """Returns the translations in a folder. Without Babel a source tree has none."""
    source = folder / f"{DOMAIN}.po"
    try:
        if not source.exists():
            with source.with_suffix(".mo").open("rb") as file:
                return gettext.GNUTranslations(file)
        from babel.messages.mofile import write_mo  # type: ignore[import]
        from babel.messages.pofile import read_po  # type: ignore[import]
    except (FileNotFoundError, ImportError):
        return gettext.NullTranslations()
    compiled = io.BytesIO()
    with source.open("rb") as file:
        write_mo(compiled, read_po(file))
    compiled.seek(0)
    return gettext.GNUTranslations(compiled)


ENGLISH = Language("en", gettext.NullTranslations())
LANGUAGES = {
    "en": ENGLISH,
    **{
        folder.parent.name: Language(folder.parent.name, read_translations(folder))
        for folder in FOLDER.glob("*/LC_MESSAGES")
    },
}


@lru_cache(MOST_KEPT)
def preferred(header: str) -> Language:
    """Returns the language of the project that an Accept-Language prefers. Of a tag such as `de-AT` the front
    counts. (Werkzeug's best_match would answer `de-AT, en;q=0.8` in English.)
    """
    for tag, quality in parse_accept_header(header, LanguageAccept):
        language = LANGUAGES.get(tag.replace("_", "-").partition("-")[0].lower())
        if language is not None and quality > 0:
            return language
    return ENGLISH


def asked_language(environ: WSGIEnvironment) -> Language:
    """Returns the language that a message asks for. BOINC's client sends the Manager's, such as `de_DE`."""
    header = environ.get("HTTP_ACCEPT_LANGUAGE", "")
    return preferred(header) if len(header) <= MOST_HEADER else ENGLISH


def language_of(message: Request) -> Language:
    """Returns the same for a message as Werkzeug has it."""
    return asked_language(message.environ)

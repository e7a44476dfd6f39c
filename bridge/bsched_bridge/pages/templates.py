"""Pages from Jinja2's templates, in which every text is escaped, and their style sheet.

There is no script, and one style sheet. Its URL has a hash of its content, so browsers may keep it for good.
What the operator writes, the names of users and teams, and HTTP's own phrases are in no other language.
"""
import hashlib
import re
from collections.abc import Callable
from pathlib import Path

from jinja2 import Environment, FileSystemLoader, StrictUndefined
from markupsafe import Markup, escape
from werkzeug.wrappers import Request, Response

from bsched_files.moments import moment_text
from bsched_files.project_settings import Settings

from ..common.http_messages import CSS, FOR_GOOD, HTML, NO_STORE, answer
from ..common.languages import ENGLISH, LANGUAGES, Language
from ..common.texts import bytes_text, page_credits, without_zeros

FOLDER = Path(__file__).with_name("templates")
HASH_DIGITS = 16
POLICY = (
    "default-src 'none'; style-src 'self'; img-src 'self'; form-action 'self'; base-uri 'none'; "
    "frame-ancestors 'none'"
)
SAFE_FIELDS = {
    "Content-Security-Policy": POLICY,
    # With a form the browser sends the origin of the page, and to nobody its path, which may have a key
    "Referrer-Policy": "strict-origin",
    "X-Content-Type-Options": "nosniff",
}
PAGE_FIELDS = {**SAFE_FIELDS, "Vary": "Accept-Language"}
EMAIL_ADDRESS = re.compile(r"[A-Za-z0-9._+-]+@[A-Za-z0-9-]+(?:\.[A-Za-z0-9-]+)+")
WEB_ADDRESS = re.compile(r"https?://[^\s<>\"']*[^\s<>\"'.,;:!?)]")


def linked(text: str) -> Markup:
    """Returns a text in which web addresses are links."""
    parts, last = Markup(), 0
    for found in WEB_ADDRESS.finditer(text):
        parts += escape(text[last : found.start()])
        parts += Markup('<a href="{0}">{0}</a>').format(found[0])
        last = found.end()
    return parts + escape(text[last:])


def contact(text: str) -> Markup:
    """Returns how to reach the operator: an e-mail address alone is a link, and each web address is one."""
    if EMAIL_ADDRESS.fullmatch(text):
        return Markup('<a href="mailto:{0}">{0}</a>').format(text)
    return linked(text)


def paragraphs(text: str) -> Markup:
    """Returns a text that somebody wrote: split at empty lines, with web addresses as links."""
    parts = (part.strip() for part in re.split(r"\n\s*\n", text.replace("\r\n", "\n")))
    return Markup().join(Markup("<p>{}</p>").format(linked(part)) for part in parts if part)


def whole(number: int) -> str:
    """Returns a whole number with a comma after each three digits."""
    return f"{number:,}"


def decimal(number: float) -> str:
    """Returns a number with two decimals, and with a comma after each three digits before them."""
    return f"{number:,.2f}"


def hash_of(content: bytes) -> str:
    """Returns what tells one content from another, for a URL."""
    return hashlib.sha256(content).hexdigest()[:HASH_DIGITS]


def environment_of(language: Language) -> Environment:
    """Returns the templates of a language."""
    environment = Environment(
        loader=FileSystemLoader(FOLDER),
        extensions=["jinja2.ext.i18n"],
        autoescape=True,
        undefined=StrictUndefined,
        trim_blocks=True,
        lstrip_blocks=True,
        auto_reload=False,
    )
    environment.policies["ext.i18n.trimmed"] = True
    environment.install_gettext_translations(language.translations)  # type: ignore[attr-defined]
    environment.filters.update(
        bytes=lambda number: language.number(bytes_text(number)),
        contact=contact,
        credits=lambda number: language.number(page_credits(number)),
        decimal=lambda number: language.number(decimal(number)),
        linked=linked,
        moment=moment_text,
        number=language.number,
        paragraphs=paragraphs,
        short=lambda number: language.number(without_zeros(number)),
        text=language.text,
        whole=lambda number: language.number(whole(number)),
    )
    environment.globals["language"] = language.tag
    return environment


class Templates:
    """Makes the pages of a project."""

    def __init__(self, settings: Settings, has_news: Callable[[], bool]) -> None:
        self._style = (FOLDER / "style.css").read_bytes()
        self.style_name = f"style-{hash_of(self._style)}.css"
        self._environments = {tag: environment_of(language) for tag, language in LANGUAGES.items()}
        accounts = settings.accounts
        for environment in self._environments.values():
            environment.globals.update(
                root=settings.path,
                project=settings.name,
                style=self.style_name,
                has_accounts=accounts is not None,
                has_terms=accounts is not None and accounts.terms is not None,
                has_news=has_news,
            )

    def compile(self) -> None:
        """Compiles all templates, so that the first reader of a page does not wait for it."""
        for environment in self._environments.values():
            for name in environment.list_templates(extensions=["html"]):
                environment.get_template(name)

    def page(
        self,
        template: str,
        /,
        *,
        language: Language = ENGLISH,
        is_kept: bool = True,
        http_status: int = 200,
        **values: object,
    ) -> Response:
        """Returns a page in a language. If is_kept is false, browsers don't keep it: it may show a key."""
        text = self._environments[language.tag].get_template(template).render(values)
        fields = PAGE_FIELDS if is_kept else {**PAGE_FIELDS, **NO_STORE}
        return answer(HTML, text.encode(), fields, http_status)

    def style(self, _message: Request) -> Response:
        """Returns the style sheet."""
        return answer(CSS, self._style, {**SAFE_FIELDS, **FOR_GOOD})

"""The feeds of the news: Atom and RSS 2.0 for readers of feeds, and a feed of its own for BOINC's client.

BOINC's client reads RSS. It decodes the title of an item once, and writes it into its own XML as it is. The
Manager decodes that again, and takes it for HTML. So a title of its feed is escaped twice more. The client
keeps 255 bytes of a title, and no item that is older than 30 days.
"""
import time
import xml.etree.ElementTree as ElementTree
from collections.abc import Callable, Iterable
from dataclasses import dataclass
from datetime import datetime, timezone
from email.utils import formatdate
from xml.etree.ElementTree import Element, SubElement

from markupsafe import escape
from werkzeug.wrappers import Request, Response

from bsched_files.moments import DAY
from bsched_files.news import NewsItem
from bsched_files.project_settings import Settings

from ..common.http_messages import answer, status_line
from ..common.languages import language_of
from ..exchange.client_replies import FEED
from .news import News
from .templates import SAFE_FIELDS, paragraphs

ATOM, RSS, CLIENT = "news.atom", "news.rss", FEED
ATOM_KIND, RSS_KIND = "application/atom+xml; charset=utf-8", "application/rss+xml; charset=utf-8"
NAMESPACE = "http://www.w3.org/2005/Atom"
MOST_ITEMS, CLIENT_DAYS, MOST_CLIENT_TITLE = 20, 30, 255  # of a feed; days; bytes
FIELDS = {**SAFE_FIELDS, "Vary": "Accept-Language"}
LINE = "<br>\n"


@dataclass(frozen=True, slots=True)
class Channel:
    """What a feed says of itself."""

    title: str
    about: str
    url: str  # the master URL
    path: str  # of the feed below it

    def url_of(self, item: NewsItem) -> str:
        """Returns the URL of the page of a piece of news. It is also its lasting name."""
        return f"{self.url}news/{item.number}"


def html_of(item: NewsItem) -> str:
    """Returns the text of a piece of news as HTML, in which only web addresses are links."""
    return str(paragraphs(item.text)).replace("\n", LINE)


def client_title(title: str) -> str:
    """Returns a title as the feed of BOINC's client has it before the feed itself is escaped. It is cut so
    that the client keeps all of it.
    """
    while len((escaped := str(escape(str(escape(title))))).encode()) > MOST_CLIENT_TITLE:
        title = title[:-1]
    return escaped


def added(parent: Element, name: str, text: str, **fields: str) -> None:
    """Adds an element with a text."""
    SubElement(parent, name, fields).text = text


def written(root: Element) -> bytes:
    """Returns the bytes of a feed."""
    content: bytes = ElementTree.tostring(root, encoding="utf-8", xml_declaration=True)
    return content + b"\n"


def rss(
    channel: Channel, items: Iterable[NewsItem], title_of: Callable[[str], str] = lambda title: title
) -> bytes:
    """Returns a feed in RSS 2.0."""
    root = Element("rss", {"version": "2.0", "xmlns:atom": NAMESPACE})
    head = SubElement(root, "channel")
    added(head, "title", channel.title)
    added(head, "link", channel.url)
    added(head, "description", channel.about)
    SubElement(
        head, "atom:link", {"rel": "self", "href": channel.url + channel.path, "type": "application/rss+xml"}
    )
    for item in items:
        one = SubElement(head, "item")
        added(one, "title", title_of(item.title))
        added(one, "link", channel.url_of(item))
        added(one, "guid", channel.url_of(item), isPermaLink="true")
        added(one, "pubDate", formatdate(item.moment, usegmt=True))
        added(one, "description", html_of(item))
    return written(root)


def instant(moment: int) -> str:
    """Returns a moment as Atom has it."""
    return datetime.fromtimestamp(moment, timezone.utc).strftime("%Y-%m-%dT%H:%M:%SZ")


def atom(channel: Channel, items: Iterable[NewsItem]) -> bytes:
    """Returns a feed in Atom (RFC 4287)."""
    found = list(items)
    root = Element("feed", {"xmlns": NAMESPACE})
    added(root, "id", f"{channel.url}news")
    added(root, "title", channel.title)
    added(root, "subtitle", channel.about)
    added(root, "updated", instant(max((item.moment for item in found), default=0)))
    SubElement(root, "link", {"rel": "self", "href": channel.url + channel.path})
    SubElement(root, "link", {"rel": "alternate", "href": f"{channel.url}news", "type": "text/html"})
    added(SubElement(root, "author"), "name", channel.title)
    for item in found:
        one = SubElement(root, "entry")
        added(one, "id", channel.url_of(item))
        added(one, "title", item.title)
        added(one, "published", instant(item.moment))
        added(one, "updated", instant(item.moment))
        SubElement(one, "link", {"rel": "alternate", "href": channel.url_of(item), "type": "text/html"})
        added(one, "content", html_of(item), type="html")
    return written(root)


class Feeds:
    """Answers readers of feeds, and BOINC's client."""

    def __init__(self, settings: Settings, news: News) -> None:
        self.settings, self.news = settings, news

    def atom(self, message: Request) -> Response:
        """Returns the feed in Atom."""
        items = self.news.shown()[:MOST_ITEMS]
        return self._answer(message, ATOM_KIND, atom(self._channel(message, ATOM), items))

    def rss(self, message: Request) -> Response:
        """Returns the feed in RSS."""
        items = self.news.shown()[:MOST_ITEMS]
        return self._answer(message, RSS_KIND, rss(self._channel(message, RSS), items))

    def client(self, message: Request) -> Response:
        """Returns the feed for BOINC's client, with what it keeps."""
        least = time.time() - CLIENT_DAYS * DAY
        items = [item for item in self.news.shown()[:MOST_ITEMS] if item.moment > least]
        return self._answer(message, RSS_KIND, rss(self._channel(message, CLIENT), items, client_title))

    def _channel(self, message: Request, path: str) -> Channel:
        """Returns what a feed says of itself, in the language of who asks."""
        name = self.settings.name
        about = language_of(message).gettext("News of the project %(project)s") % {"project": name}
        return Channel(name, about, self.settings.url, path)

    def _answer(self, message: Request, kind: str, content: bytes) -> Response:
        """Sends a feed, or that it has not changed since a reader got it."""
        response = answer(kind, content, FIELDS)
        response.add_etag()
        response.make_conditional(message.environ)
        del response.headers["Date"]  # the server has one
        response.status = status_line(response.status_code)
        return response

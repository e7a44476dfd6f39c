"""The feeds of the news, and how replies name the one for BOINC's client."""
import time
import xml.etree.ElementTree as ElementTree
from html import unescape
from pathlib import Path
from xml.etree.ElementTree import Element

import pytest
from bridges import Bridge
from hypothesis import given, strategies as st
from messages import request

from bsched_bridge.pages.feeds import MOST_CLIENT_TITLE, client_title

ATOM = "{http://www.w3.org/2005/Atom}"
URL = "http://127.0.0.1:8081/p/"
ODD = 'a < b & <b>c</b> ]]> "d" é'
TEXT = f"{ODD}\nline\n\nhttps://x.example/?a=1&b=2. javascript:x"
HTML = (
    "<p>a &lt; b &amp; &lt;b&gt;c&lt;/b&gt; ]]&gt; &#34;d&#34; é<br>\nline</p>"
    '<p><a href="https://x.example/?a=1&amp;b=2">https://x.example/?a=1&amp;b=2</a>. javascript:x</p>'
)


def put(project: Path, number: int, days: int = 0, title: str = ODD, text: str = TEXT) -> str:
    """Writes news of some days ago. Returns its day."""
    day = time.strftime("%Y-%m-%d", time.gmtime(time.time() - days * 86_400))
    (project / "news").mkdir(exist_ok=True)
    (project / "news" / f"{number}.txt").write_text(f"{title}\n{day}\n\n{text}\n")
    return day


def feed(bridge: Bridge, path: str, kind: str) -> Element:
    """Returns a feed."""
    status, fields, body = bridge.got(f"/p/{path}")
    assert (status, fields["Content-Type"]) == ("200 OK", f"application/{kind}+xml; charset=utf-8")
    assert fields["X-Content-Type-Options"] == "nosniff" and fields["Vary"] == "Accept-Language"
    return ElementTree.fromstring(body)


def test_rss(project: Path, bridge: Bridge) -> None:
    day = put(project, 7)
    root = feed(bridge, "news.rss", "rss")
    assert (root.tag, root.get("version")) == ("rss", "2.0")
    assert [root.findtext(f"channel/{name}") for name in ("title", "link", "description")] == [
        "Sums",
        URL,
        "News of the project Sums",
    ]
    (item,) = root.findall("channel/item")
    assert item.findtext("title") == ODD and item.findtext("description") == HTML
    assert item.findtext("link") == item.findtext("guid") == f"{URL}news/7"
    date = time.strptime(item.findtext("pubDate") or "", "%a, %d %b %Y %H:%M:%S GMT")
    assert time.strftime("%Y-%m-%d", date) == day


def test_atom(project: Path, bridge: Bridge) -> None:
    day = put(project, 7)
    put(project, 8, days=2)
    root = feed(bridge, "news.atom", "atom")
    assert root.tag == f"{ATOM}feed" and root.findtext(f"{ATOM}updated") == f"{day}T00:00:00Z"
    assert root.findtext(f"{ATOM}author/{ATOM}name") == "Sums"
    links = {link.get("rel"): link.get("href") for link in root.findall(f"{ATOM}link")}
    assert links == {"self": f"{URL}news.atom", "alternate": f"{URL}news"}
    first, second = root.findall(f"{ATOM}entry")
    assert [one.findtext(f"{ATOM}id") for one in (first, second)] == [f"{URL}news/7", f"{URL}news/8"]
    assert first.findtext(f"{ATOM}title") == ODD
    content = first.find(f"{ATOM}content")
    assert content is not None and (content.get("type"), content.text) == ("html", HTML)
    assert first.findtext(f"{ATOM}published") == first.findtext(f"{ATOM}updated") == f"{day}T00:00:00Z"


@pytest.mark.parametrize("path, kind", [("news.rss", "rss"), ("news.atom", "atom"), ("notices.rss", "rss")])
def test_feeds_are_short(project: Path, bridge: Bridge, path: str, kind: str) -> None:
    """Without news they are empty. Readers that have the newest get no further one."""
    names = {"rss": "channel/item", "atom": f"{ATOM}entry"}
    assert feed(bridge, path, kind).findall(names[kind]) == []
    for number in range(1, 31):
        put(project, number)
    assert len(feed(bridge, path, kind).findall(names[kind])) == 20
    tag = bridge.got(f"/p/{path}")[1]["ETag"]
    status, fields, body = bridge.got(f"/p/{path}", HTTP_IF_NONE_MATCH=tag)
    assert (status, body, fields["ETag"]) == ("304 Not Modified", b"", tag)
    put(project, 31)
    assert bridge.got(f"/p/{path}", HTTP_IF_NONE_MATCH=tag)[0] == "200 OK"


def test_the_feed_of_the_client(project: Path, bridge: Bridge) -> None:
    """It has what a client keeps, and a title that is HTML after the client and the Manager decoded it."""
    put(project, 1, days=31)
    put(project, 2, days=29)
    (item,) = feed(bridge, "notices.rss", "rss").findall("channel/item")
    assert item.findtext("guid") == f"{URL}news/2" and item.findtext("description") == HTML
    title = item.findtext("title") or ""
    assert "<" not in unescape(title) and unescape(unescape(title)) == ODD


@given(st.text(st.characters(blacklist_categories=("Cc", "Cs")), max_size=120))
def test_a_client_keeps_the_whole_title(title: str) -> None:
    found = client_title(title)
    assert len(found.encode()) <= MOST_CLIENT_TITLE
    assert not set("<>") & set(unescape(found)) and title.startswith(unescape(unescape(found)))


def test_replies_name_the_feed(project: Path, bridge: Bridge) -> None:
    """They do so from the first news on, also if all of it was withdrawn: clients then read an empty feed."""
    assert ElementTree.fromstring(bridge.call(request())).find("rss_feeds") is None
    put(project, 1)
    for seqno in (2, 3):
        (found,) = ElementTree.fromstring(bridge.call(request(seqno=seqno))).findall("rss_feeds/rss_feed")
        assert found.findtext("url") == f"{URL}notices.rss" and found.findtext("poll_interval") == "86400"
        (project / "news" / "1.txt").unlink(missing_ok=True)

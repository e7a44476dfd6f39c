"""Pages as a browser reads them, and forms as it sends them."""
import hashlib
import json
from html.parser import HTMLParser
from pathlib import Path
from typing import Any
from urllib.parse import urlencode

from bridges import Bridge
from joining import CLIENT

from bsched_bridge.pages.templates import FOLDER

EMPTY = {"meta", "link", "input", "br", "img"}
FORM = "application/x-www-form-urlencoded"
ORIGIN = "http://127.0.0.1:8081"  # of the master URL


class Page(HTMLParser):
    """A page as a browser reads it. Each element is closed, and there is no script, and no style but the one
    sheet. Links within the project are kept without its path, those of the header apart from the others."""

    def __init__(self, text: str) -> None:
        super().__init__()
        self.open: list[str] = []
        self.tags: list[tuple[str, dict[str, Any]]] = []
        self.text = ""
        self.inputs: dict[str, dict[str, Any]] = {}
        self.links: list[str] = []
        self.header: list[str] = []
        self.ids: dict[str, dict[str, Any]] = {}
        self.feed(text)
        self.close()
        assert self.open == [], self.open

    def handle_starttag(self, tag: str, attributes: list[Any]) -> None:
        fields = dict(attributes)
        assert not [name for name in fields if name.startswith("on") or name == "style"]
        self.tags.append((tag, fields))
        if tag not in EMPTY:
            self.open.append(tag)
        if tag == "input":
            self.inputs[fields["name"]] = fields
        if tag == "a":
            links = self.header if "header" in self.open else self.links
            links.append(fields["href"].removeprefix("/p/"))
        if "id" in fields:
            assert fields["id"] not in self.ids or tag == "input"
            self.ids[fields["id"]] = fields

    def handle_endtag(self, tag: str) -> None:
        assert self.open.pop() == tag

    def handle_data(self, data: str) -> None:
        if self.open and self.open[-1] != "style":
            self.text += data


def style_name() -> str:
    """Returns the name of the style sheet: it follows from the content."""
    return f"style-{hashlib.sha256((FOLDER / 'style.css').read_bytes()).hexdigest()[:16]}.css"


def page_of(answer: tuple[str, dict[str, str], bytes], status: str = "200 OK", has_key: bool = False) -> Page:
    """Returns the page of an answer, and checks the answer's fields."""
    line, fields, body = answer
    assert (line, fields["Content-Type"]) == (status, "text/html; charset=utf-8")
    assert fields["Referrer-Policy"] == "strict-origin"
    policy = fields["Content-Security-Policy"]
    assert policy == (
        "default-src 'none'; style-src 'self'; img-src 'self'; form-action 'self'; base-uri 'none'; "
        "frame-ancestors 'none'"
    )
    assert "Set-Cookie" not in fields
    assert (fields.get("Cache-Control") == "no-store") or not has_key
    text = body.decode()
    assert "<style" not in text and "<script" not in text and "javascript:" not in text
    page = Page(text)
    assert [
        fields["href"] for tag, fields in page.tags if tag == "link" and fields["rel"] == "stylesheet"
    ] == ["/p/" + style_name()]
    assert ("meta", {"name": "viewport", "content": "width=device-width, initial-scale=1"}) in page.tags
    for tag, attributes in page.tags:  # each field has a label, and its descriptions exist
        if tag == "input" and attributes["type"] not in ("hidden", "checkbox"):
            assert [
                1 for name, other in page.tags if name == "label" and other.get("for") == attributes["id"]
            ]
            for target in (attributes.get("aria-describedby") or "").split():
                assert target in page.ids
    return page


def posted(
    bridge: Bridge, path: str, client: str = CLIENT, **fields: str
) -> tuple[str, dict[str, str], bytes]:
    """Returns the answer to a form."""
    body = urlencode(fields).encode()
    return bridge.got(f"/p/{path}", "POST", body, CONTENT_TYPE=FORM, REMOTE_ADDR=client, HTTP_ORIGIN=ORIGIN)


def with_key(project: Path, bridge: Bridge, text: str) -> None:
    """Adds a line to the settings, and starts the bridge again."""
    (project / "bridge.toml").write_text(f"{text}\n" + (project / "bridge.toml").read_text())
    bridge.restart()


def plots_of(project: Path, *names: str) -> None:
    """Writes plots as `bsched-tools report` does."""
    (project / "plots").mkdir(exist_ok=True)
    for name in names:
        (project / "plots" / f"{name}.svg").write_text(f"<svg>{name}</svg>")
    listed = [
        {"file": f"{name}.svg", "title": f"Title of {name}", "text": f"{name} & text"} for name in names
    ]
    path = project / "plots" / "new"
    path.write_text(json.dumps({"format": 1, "plots": listed}))
    path.rename(project / "plots" / "plots.json")

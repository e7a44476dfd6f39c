"""What all pages have in common: texts, the style sheet, and links."""
import math
import re
from pathlib import Path

import pytest
from bridges import Bridge
from pages_seen import page_of, style_name

from bsched_bridge.pages.templates import FOLDER, contact, linked, paragraphs


def test_texts_are_escaped(project: Path, bridge: Bridge) -> None:
    path = project / "bridge.toml"
    path.write_text(path.read_text().replace('name = "Sums"', """name = '<b>&"'"""))
    bridge.restart()
    text = bridge.got("/p/")[2].decode()
    assert "<title>&lt;b&gt;&amp;&#34;</title>" in text and "<b>" not in text
    assert page_of(bridge.got("/p/nothing"), "404 Not Found").text.count('<b>&"') == 2


def test_the_style_sheet(bridge: Bridge) -> None:
    status, fields, body = bridge.got(f"/p/{style_name()}")
    assert (status, body) == ("200 OK", (FOLDER / "style.css").read_bytes())
    assert fields["Content-Type"] == "text/css; charset=utf-8"
    assert fields["Cache-Control"] == "public, max-age=31536000, immutable"
    assert fields["X-Content-Type-Options"] == "nosniff"
    assert bridge.got("/p/style.css")[0] == bridge.got("/p/templates/style.css")[0] == "404 Not Found"
    assert bridge.got(f"/p/{style_name()}", "POST")[0] == "405 Method Not Allowed"


def colours(scheme: int) -> dict[str, tuple[int, int, int]]:
    """Returns the colours of the light scheme (0) or the dark one (1), by their names."""
    blocks = re.findall(r":root \{(.*?)\}", (FOLDER / "style.css").read_text(), re.DOTALL)
    found = re.findall(r"--([a-z-]+): #([0-9a-f]{2})([0-9a-f]{2})([0-9a-f]{2})", blocks[scheme])
    return {name: (int(red, 16), int(green, 16), int(blue, 16)) for name, red, green, blue in found}


def luminance(colour: tuple[int, int, int]) -> float:
    """Returns the relative luminance of a colour (WCAG 2.1)."""
    parts = [part / 255 for part in colour]
    red, green, blue = (
        part / 12.92 if part <= 0.04045 else math.pow((part + 0.055) / 1.055, 2.4) for part in parts
    )
    return 0.2126 * red + 0.7152 * green + 0.0722 * blue


def contrast(one: tuple[int, int, int], other: tuple[int, int, int]) -> float:
    """Returns the contrast of two colours (WCAG 2.1)."""
    low, high = sorted((luminance(one), luminance(other)))
    return (high + 0.05) / (low + 0.05)


@pytest.mark.parametrize("scheme", [0, 1])
def test_texts_have_enough_contrast(scheme: int) -> None:
    found = colours(scheme)
    assert set(found) == set(colours(0))
    for name in ("text", "soft", "link", "fault", "good"):
        for ground in ("back", "panel"):
            assert contrast(found[name], found[ground]) >= 4.5, (name, ground)
    assert contrast(found["on-accent"], found["accent"]) >= 4.5
    for name in ("gold", "silver", "bronze", "years"):
        assert contrast(found["on-badge"], found[name]) >= 4.5, name
    for name in ("done", "out", "failed"):  # of plots
        assert contrast(found[name], found["back"]) >= 3, name


def test_what_an_operator_writes() -> None:
    text = "One <b>\r\nline\n\n\n see https://sums.example/a?b=1&c=2. \n\njavascript:alert(1)"
    assert paragraphs(text) == (
        '<p>One &lt;b&gt;\nline</p><p>see <a href="https://sums.example/a?b=1&amp;c=2">'
        "https://sums.example/a?b=1&amp;c=2</a>.</p><p>javascript:alert(1)</p>"
    )
    assert linked("no https:// here") == "no https:// here"


@pytest.mark.parametrize(
    "text, shown",
    [
        ("help@sums.example", '<a href="mailto:help@sums.example">help@sums.example</a>'),
        (
            "https://sums.example/?a&b",
            '<a href="https://sums.example/?a&amp;b">https://sums.example/?a&amp;b</a>',
        ),
        ("write to help@sums.example", "write to help@sums.example"),
        ("help@sums.example?cc=eve@x.example", "help@sums.example?cc=eve@x.example"),
        ('"><b>@sums.example', "&#34;&gt;&lt;b&gt;@sums.example"),
        ("help@sums.example\n", "help@sums.example\n"),
        ("help@sums", "help@sums"),
        ("mailto:help@sums.example", "mailto:help@sums.example"),
        ("javascript:alert(1)@x.example", "javascript:alert(1)@x.example"),
    ],
)
def test_a_contact_is_a_link_if_it_is_an_address(text: str, shown: str) -> None:
    assert contact(text) == shown


def test_the_current_page_is_marked(open_bridge: Bridge) -> None:
    for path, marked in {
        "": ["/p/"],
        "status": ["/p/status"],
        "users": ["/p/users"],
        "users?page=1": ["/p/users"],
        "computers": ["/p/computers"],
        "teams": ["/p/teams"],
        "account": ["/p/account"],
        "get_passwd.php": [],
    }.items():
        page = page_of(open_bridge.got(f"/p/{path}"))
        assert [fields["href"] for tag, fields in page.tags if fields.get("aria-current") == "page"] == marked


def test_a_page_that_does_not_exist_leads_home(bridge: Bridge) -> None:
    page = page_of(bridge.got("/p/nothing"), "404 Not Found")
    assert page.links == [""] and page.text.rstrip().endswith("Home")

"""The pages of the news."""
import logging
import os
import time
from pathlib import Path

import pytest
from bridges import Bridge
from pages_seen import Page, page_of


def put(project: Path, number: int, title: str, date: str = "2024-10-04", text: str = "words") -> None:
    """Writes a piece of news, as the operator's tool does."""
    (project / "news").mkdir(exist_ok=True)
    path = project / "news" / f"{number}.txt"
    path.with_suffix(".part").write_text(f"{title}\n{date}\n\n{text}\n")
    path.with_suffix(".part").rename(path)


def titles(page: Page, tag: str) -> list[str]:
    """Returns the links to pieces of news."""
    return [
        fields["href"] for name, fields in page.tags if name == tag and "/news/" in fields.get("href", "")
    ]


def test_a_project_without_news(bridge: Bridge) -> None:
    page = page_of(bridge.got("/p/"))
    assert page.header == ["", "status", "users", "computers", "help"] and "news" not in page.text.lower()
    assert "There is no news at the moment." in page_of(bridge.got("/p/news")).text
    assert bridge.got("/p/news/1")[0] == "404 Not Found"


def test_the_newest_is_on_the_first_page(project: Path, bridge: Bridge) -> None:
    for number in range(1, 6):
        put(
            project, number, f"Title <{number}>", f"2024-10-0{number}", f"First {number}.\n\nSecond {number}."
        )
    page = page_of(bridge.got("/p/"))
    assert page.header == ["", "news", "status", "users", "computers", "help"]
    assert titles(page, "a") == ["/p/news/5", "/p/news/4", "/p/news/3"]
    assert "Title <5>" in page.text and "2024-10-05" in page.text
    assert "First 5." in page.text and "Second 5." not in page.text
    assert [fields["href"] for tag, fields in page.tags if fields.get("rel") == "alternate"] == [
        "/p/news.atom",
        "/p/news.rss",
    ]
    everything = page_of(bridge.got("/p/news"))
    assert titles(everything, "a") == [f"/p/news/{number}" for number in (5, 4, 3, 2, 1)]
    assert "Second 1." in everything.text
    one = page_of(bridge.got("/p/news/2"))
    assert "Title <2>" in one.text and "Second 2." in one.text and "Title <3>" not in one.text
    assert bridge.got("/p/news/6")[0] == bridge.got("/p/news/02")[0] == "404 Not Found"


def test_a_text_is_plain(project: Path, bridge: Bridge) -> None:
    """Markup is shown as it is, and only addresses of the web are links."""
    put(
        project,
        1,
        "<script>alert(1)</script>",
        text="<b>bold</b> & javascript:alert(1) ftp://x.example/ data:x https://x.example/?a=1&b=2.",
    )
    for path in ("/p/", "/p/news", "/p/news/1"):
        body = bridge.got(path)[2].decode()
        assert "&lt;script&gt;alert(1)&lt;/script&gt;" in body and "<script" not in body
        assert "&lt;b&gt;bold&lt;/b&gt; &amp; javascript:alert(1) ftp://x.example/" in body
        links = [
            line
            for line in body.split('href="')[1:]
            if not line.startswith(("/p/", "http://127", "https://b"))
        ]
        assert [line.partition('"')[0] for line in links] == ["https://x.example/?a=1&amp;b=2"]


def test_changes_count_at_once(project: Path, bridge: Bridge) -> None:
    """News that is added, edited in its place, or withdrawn."""
    put(project, 1, "One")
    assert "One" in page_of(bridge.got("/p/news")).text
    put(project, 2, "Two")
    assert "Two" in page_of(bridge.got("/p/news")).text
    (project / "news" / "1.txt").write_text("Other\n2024-10-04\n")
    os.utime(project / "news" / "1.txt", (1, 1))
    text = page_of(bridge.got("/p/news")).text
    assert "Other" in text and "One" not in text
    (project / "news" / "withdrawn").mkdir()
    (project / "news" / "2.txt").rename(project / "news" / "withdrawn" / "2.txt")
    assert "Two" not in page_of(bridge.got("/p/news")).text
    assert bridge.got("/p/news/2")[0] == "404 Not Found"


def test_what_is_of_later_waits(project: Path, bridge: Bridge) -> None:
    put(project, 1, "Later", time.strftime("%Y-%m-%d", time.gmtime(time.time() + 2 * 86_400)))
    assert "Later" not in page_of(bridge.got("/p/news")).text
    assert bridge.got("/p/news/1")[0] == "404 Not Found"


def test_a_wrong_file_leaves_the_others(
    project: Path, bridge: Bridge, caplog: pytest.LogCaptureFixture
) -> None:
    put(project, 1, "Good")
    put(project, 2, "Bad", "yesterday")
    with caplog.at_level(logging.WARNING):
        for _ in range(3):
            text = page_of(bridge.got("/p/news")).text
            assert "Good" in text and "Bad" not in text
    (line,) = [record.getMessage() for record in caplog.records]
    assert line.startswith("this news is not shown: ") and "2.txt: line 2: 'yesterday' is no date" in line


def test_news_on_several_pages(project: Path, bridge: Bridge) -> None:
    for number in range(1, 46):
        put(project, number, f"Title {number}.")
    page = page_of(bridge.got("/p/news?page=2"))
    assert titles(page, "a") == [f"/p/news/{number}" for number in range(25, 5, -1)]
    assert "Page 2 of 3." in page.text and "newer news" in page.text and "older news" in page.text
    german = page_of(bridge.got("/p/news", HTTP_ACCEPT_LANGUAGE="de"))
    assert "Neuigkeiten" in german.text and "ältere" in german.text

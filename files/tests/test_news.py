"""Tests how news is written and read."""
from pathlib import Path

import pytest
from hypothesis import given, strategies as st

from bsched_files.faults import Fault
from bsched_files.news import (
    MOST_FILE,
    MOST_NEWS,
    MOST_TEXT,
    MOST_TITLE,
    WITHDRAWN,
    NewsItem,
    item_in,
    next_number,
    read_news,
)

DAY = 86_400
PRINTED = st.text(st.characters(blacklist_categories=("Cc", "Cs", "Zl", "Zp", "Cn")), max_size=40)
TITLES = PRINTED.map(lambda text: " ".join(text.split())).filter(
    lambda text: text and text.isprintable() and "\ufffe" not in text
)
TEXTS = st.lists(PRINTED.map(str.rstrip), max_size=5).map("\n".join).map(lambda text: text.strip("\n"))


@given(TITLES, st.integers(0, 10**9), TEXTS)
def test_what_is_written_is_read(title: str, minutes: int, text: str) -> None:
    item = NewsItem(title.removeprefix("\ufeff") or "x", minutes % (70 * 365 * DAY) * 60, text)
    assert item_in(item.written(), "x") == item
    assert item_in(item.written().replace("\n", "\r\n"), "x", now=7) == item


def test_a_text_without_a_date_is_of_now() -> None:
    now = 20_000 * DAY + 61
    assert item_in("A  title\n\nWords\n", "x", now) == NewsItem("A title", now - 1, "Words")
    assert item_in("A title", "x", now) == NewsItem("A title", now - 1, "")
    assert item_in("T\nOne line\nanother\n", "x", now).text == "One line\nanother"
    assert item_in("T\n2024-10-04\nOne", "x", now) == NewsItem("T", 20_000 * DAY, "One")
    assert item_in("T\n2024-10-04 01:02\nOne", "x", now).moment == 20_000 * DAY + 3720


@pytest.mark.parametrize(
    "text, why",
    [
        ("", "line 1: the title"),
        ("\nwords", "line 1: the title"),
        ("t" * (MOST_TITLE + 1), "line 1: the title"),
        ("a\u202eb\n2024-10-04", "line 1: the title"),
        ("title\n\ntext", "line 2: '' is no date"),
        ("title\n2024-13-04\n", "line 2: '2024-13-04' is no date"),
        ("title\n1969-01-01\n", "is no date"),
        ("title\n2024-10-04\n\none\0", "line 4: it has a character that no page can show"),
        ("title\n2024-10-04\n" + "x" * (MOST_TEXT + 1), "has 10,001 characters"),
    ],
)
def test_a_text_that_is_refused(text: str, why: str) -> None:
    with pytest.raises(Fault, match="^FILE: ") as raised:
        item_in(text, "FILE")
    assert why in str(raised.value) and "\n" not in str(raised.value)


def test_the_news_of_a_folder(tmp_path: Path) -> None:
    """The newest is first, a wrong file leaves the others, and other files are not looked at."""
    assert read_news(tmp_path / "nothing").items == []
    for name, text in {
        "1.txt": "one\n2024-10-04\n",
        "2.txt": "two\n2024-10-05\n",
        "3.txt": "three\n2024-10-04\n",
        "4.txt": "four\n",
        "5.txt": "x" * (MOST_FILE + 1),
        "01.txt": "zero",
        "note": "x",
        ".6.txt.part": "x",
    }.items():
        (tmp_path / name).write_text(text)
    (tmp_path / "7.txt").write_bytes(b"t\n2024-10-04\n\n\xff")
    (tmp_path / "8.txt").mkdir()
    found = read_news(tmp_path)
    assert [(item.number, item.title, item.date) for item in found.items] == [
        (2, "two", "2024-10-05"),
        (3, "three", "2024-10-04"),
        (1, "one", "2024-10-04"),
    ]
    assert sorted(str(fault).removeprefix(f"{tmp_path}/") for fault in found.faults) == [
        "4.txt: line 2: '' is no date: write it as 2026-12-01 or 2026-12-01 18:30, in UTC",
        f"5.txt: it has more than {MOST_FILE:,} bytes",
        "7.txt: line 4: it is not UTF-8",
        "8.txt: Is a directory",
    ]


def test_a_number_is_used_once(tmp_path: Path) -> None:
    assert next_number(tmp_path / "nothing") == 1
    (tmp_path / "3.txt").touch()
    assert next_number(tmp_path) == 4
    (tmp_path / WITHDRAWN).mkdir()
    (tmp_path / WITHDRAWN / "8.txt").touch()
    assert next_number(tmp_path) == 9


def test_of_many_files_the_last_are_read(tmp_path: Path) -> None:
    for number in range(1, MOST_NEWS + 3):
        (tmp_path / f"{number}.txt").write_text("title\n2024-10-04\n")
    items = read_news(tmp_path).items
    assert len(items) == MOST_NEWS and (items[0].number, items[-1].number) == (MOST_NEWS + 2, 3)

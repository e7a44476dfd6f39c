"""Tests small texts: what XML and terminals get of any text, credit, and comma-separated values."""
import csv
import io
import xml.etree.ElementTree as ElementTree
from xml.sax.saxutils import escape

import pytest
from hypothesis import given
from hypothesis import strategies as st

from bsched_files.texts import (
    MILLICREDITS,
    credit_number,
    credits_text,
    csv_text,
    cut_to_bytes,
    is_word,
    shown,
    xml_text,
)


@pytest.mark.parametrize(
    "value, wanted", [("a_B-1.", True), ("", False), ("a" * 65, False), ("é", False), (1, False)]
)
def test_words(value: object, wanted: bool) -> None:
    assert is_word(value) is wanted


@given(st.text())
def test_xml_takes_any_text(text: str) -> None:
    read = ElementTree.fromstring(f"<a>{escape(xml_text(text), {chr(13): '&#13;'})}</a>").text or ""
    assert read == xml_text(text) and len(read) == len(text)


@given(st.text(), st.integers(0, 40))
def test_the_longest_prefix_within_some_bytes(text: str, most: int) -> None:
    cut = cut_to_bytes(text, most)
    assert text.startswith(cut) and len(cut.encode()) <= most
    assert cut == text or len(text[: len(cut) + 1].encode()) > most


@given(st.text())
def test_a_terminal_gets_what_can_be_printed(text: str) -> None:
    assert len(shown(text)) == len(text) and all(one.isprintable() or one == "\t" for one in shown(text))
    assert shown(text, kept="").isprintable()


@given(st.integers(0, 10**18))
def test_credit_is_exact(millicredits: int) -> None:
    whole, _, part = credit_number(millicredits).partition(".")
    assert int(whole) * MILLICREDITS + int(part) == millicredits and len(part) == 3
    assert credits_text(millicredits).replace(",", "") == credit_number(millicredits)


def test_credit_for_people_has_commas() -> None:
    assert credits_text(1_234_567_890) == "1,234,567.890" and credit_number(1_234_567_890) == "1234567.890"


@given(st.lists(st.lists(st.text(st.characters(blacklist_characters="\0")), min_size=1), min_size=1))
def test_comma_separated_values_are_read_again(rows: list[list[str]]) -> None:
    read = list(csv.reader(io.StringIO(csv_text(rows), newline="")))
    assert [row or [""] for row in read] == rows

"""Tests how texts that strangers chose are shown."""
import csv
import io
import json

import pytest
from hypothesis import given
from hypothesis import strategies as st

from bsched_files.texts import csv_text, shown
from bsched_tools.texts import FORMULA, cell, json_text, main_line, table_text

HOSTILE = [
    "\x00",
    "\x07",
    "\x1b",
    "\x7f",
    "\x85",
    "\x9b",
    "\u202a",
    "\u202e",
    "\u2066",
    "\u200f",
    "\u2028",
    "\ufeff",
]
TEXTS = st.text(st.one_of(st.sampled_from([*HOSTILE, *FORMULA, "\n", "'", '"', ",", "7"]), st.characters()))


@pytest.mark.parametrize("one", [*HOSTILE, "\r", "\n"])
def test_what_can_not_be_printed_is_replaced(one: str) -> None:
    assert shown(f"a{one}[2Jb\tc") == "a\ufffd[2Jb\tc"


@pytest.mark.parametrize("text", ["Ünïcode 漢字", "5050", ""])
def test_what_can_be_printed_stays(text: str) -> None:
    assert shown(text) == text and cell(text) == text and json_text(text) == f'"{text}"'


@pytest.mark.parametrize(
    "value, wanted",
    [
        ('=HYPERLINK("http://x")', '\'=HYPERLINK("http://x")'),
        ("+1+cmd|' /C calc'!A0", "'+1+cmd|' /C calc'!A0"),
        ("-2+3", "'-2+3"),
        ("@SUM(1)", "'@SUM(1)"),
        ("\t=1", "'\t=1"),
        ("\r=1", "'\ufffd=1"),
        ("\x1b=1", "\ufffd=1"),
        ("-5", "-5"),
        ("+3.25e-7", "+3.25e-7"),
        ("-.5", "-.5"),
        ("-", "'-"),
        ("-5\n", "'-5\n"),
        ("two\nlines", "two\nlines"),
        (-5, "-5"),
        (None, ""),
    ],
)
def test_a_cell_is_no_formula(value: object, wanted: str) -> None:
    assert cell(value) == wanted


@given(TEXTS)
def test_a_cell_can_be_written_again(text: str) -> None:
    """What `collect` reads from its own table stays as it is."""
    once = cell(text)
    assert cell(once) == once
    assert all(one.isprintable() or one in "\t\n" for one in once)
    assert not once.startswith(("=", "@", "\t", "\r"))


@given(st.lists(TEXTS, min_size=1))
def test_a_table_is_read_as_it_was_written(row: list[str]) -> None:
    read = list(csv.reader(io.StringIO(csv_text([row]), newline="")))
    assert read == [row]
    assert list(csv.reader(io.StringIO(table_text([row]), newline=""))) == [[cell(one) for one in row]]


@given(TEXTS)
def test_json_is_exact_and_harmless(text: str) -> None:
    line = json_text({"output": text})
    assert json.loads(line) == {"output": text} and line.isprintable()


@pytest.mark.parametrize(
    "text, line",
    [
        ("", "nothing"),
        ("\n \n  no numbers\nmore", "no numbers"),
        ("x" * 71, "x" * 70 + ".."),
        ("Traceback (most recent call last):\n  File ..\nValueError: three\n", "ValueError: three"),
        ("Traceback (most recent call last):", "Traceback (most recent call last):"),
        (
            "upload failure: <file_xfer_error>\n  <file_name>a_0</file_name>\n"
            "  <error_code>-131 (file size too big)</error_code>\n</file_xfer_error>",
            "upload failure: -131 (file size too big)",
        ),
        ("upload failure: <file_xfer_error>", "upload failure: <file_xfer_error>"),
    ],
)
def test_the_line_of_an_error_that_says_most(text: str, line: str) -> None:
    assert main_line(text) == line

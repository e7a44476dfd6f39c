"""Texts that hosts and volunteers chose, as they are shown in a line, in a spreadsheet and in JSON.

A spreadsheet computes a text that begins like a formula.
"""
import json
import re
from collections.abc import Iterable

from bsched_files.texts import csv_text, shown

MOST_TEXT = 70  # characters of a line that is cut
FORMULA = ("=", "+", "-", "@", "\t", "\r")
TRACEBACK = "Traceback (most recent call last)"
UPLOAD_FAILURE = re.compile("upload failure: <file_xfer_error>.*?<error_code>([^<\n]+)<", re.DOTALL)
NUMBER = re.compile(r"[+-]?(\d+\.?\d*|\.\d+)([eE][+-]?\d+)?", re.ASCII)


def main_line(text: str) -> str:
    """Returns the line of an error that says most, cut if it is long: the first one that is not empty, the
    last one of a traceback of Python, and the client's code of an upload that failed."""
    lines = [line.strip() for line in text.splitlines() if line.strip()]
    line = lines[0] if lines else "nothing"
    if line.startswith(TRACEBACK):
        line = lines[-1]
    elif (code := UPLOAD_FAILURE.match(text)) is not None:
        line = f"upload failure: {code[1]}"
    return line if len(line) <= MOST_TEXT else f"{line[:MOST_TEXT]}.."


def cell(value: object) -> str:
    """Returns a value for a cell of a table. A text that begins like a formula gets an apostrophe before it;
    a number stays."""
    if value is None:
        return ""
    text = str(value)
    is_formula = text.startswith(FORMULA) and not NUMBER.fullmatch(text)
    text = shown(text, "\t\n")
    return f"'{text}" if is_formula else text


def table_text(rows: Iterable[Iterable[object]]) -> str:
    """Returns rows as comma-separated values for a person: on a terminal or in a spreadsheet."""
    return csv_text([cell(value) for value in row] for row in rows)


def json_text(value: object) -> str:
    """Returns a value as JSON on one line, exactly. What can't be printed is escaped."""
    text = json.dumps(value, ensure_ascii=False)
    if text.isprintable():
        return text
    return "".join(one if one.isprintable() else escaped(one) for one in text)


def escaped(one: str) -> str:
    """Returns a character as JSON escapes it."""
    return json.dumps(one)[1:-1]

"""Small texts of several formats: words, credit, texts that fit into XML, and texts of strangers.

What can't be printed could move a terminal's cursor, or turn the text after it around.
"""
import csv
import io
import re
from collections.abc import Iterable

WORD = re.compile(r"[A-Za-z0-9_.-]{1,64}")
# the characters that XML 1.0 does not allow, not even escaped (section 2.2, "Characters")
NO_XML = re.compile("[^\t\n\r\x20-\ud7ff\ue000-\ufffd\U00010000-\U0010ffff]")
UNKNOWN = "\ufffd"  # takes the place of a character that is not allowed
MOST_OUTPUT = 1024  # bytes of UTF-8 in the output of a result
MILLICREDITS = 1000  # of one credit: bsched counts in them


def is_word(value: object) -> bool:
    """Returns whether a value is a word of docs/PROFILE.md: 1 to 64 letters, digits, `_`, `-` and `.`."""
    return isinstance(value, str) and WORD.fullmatch(value) is not None


def cut_to_bytes(text: str, most: int) -> str:
    """Returns the longest prefix of a text that takes at most this many bytes of UTF-8, with no part of a
    character.
    """
    return text.encode()[:most].decode(errors="ignore")


def xml_text(text: str) -> str:
    """Returns a text in which each character that XML does not allow is U+FFFD."""
    return NO_XML.sub(UNKNOWN, text)


def credit_number(millicredits: int) -> str:
    """Returns credit as a number for programs, exactly."""
    return f"{millicredits // MILLICREDITS}.{millicredits % MILLICREDITS:03}"


def credits_text(millicredits: int) -> str:
    """Returns credit for people, with commas between thousands."""
    return f"{millicredits // MILLICREDITS:,}.{millicredits % MILLICREDITS:03}"


def shown(text: str, kept: str = "\t") -> str:
    """Returns a text for a terminal. Characters that can't be printed are replaced, apart from those kept."""
    if text.isprintable():
        return text
    return "".join(one if one.isprintable() or one in kept else UNKNOWN for one in text)


def csv_text(rows: Iterable[Iterable[object]]) -> str:
    """Returns rows as comma-separated values, exactly. Python quotes a field with a carriage return only if
    the end of a row has one, and many readers end a row there."""
    texts = []
    for row in rows:
        file = io.StringIO()
        csv.writer(file, lineterminator="\r\n").writerow(row)
        texts.append(file.getvalue().removesuffix("\r\n") + "\n")
    return "".join(texts)

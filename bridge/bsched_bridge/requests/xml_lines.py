"""XML as lines: an element on each line, indented by four blanks for each level.

ElementTree writes the same bytes, and takes several times as long: it makes an object for each element first.
"""
import re

from bsched_files.texts import xml_text

INDENT = "    "
# each character that must be escaped in a text, or that XML 1.0 does not allow
odd_in = re.compile("[^\t\n\r\x20-\x25\x27-\x3b\x3d\x3f-\ud7ff\ue000-\ufffd\U00010000-\U0010ffff]").search


def escaped(text: str) -> str:
    """Returns a text as XML has it. A character that XML does not allow is U+FFFD."""
    return xml_text(text).replace("&", "&amp;").replace("<", "&lt;").replace(">", "&gt;")


class XmlLines:
    """An element while it is written."""

    def __init__(self, name: str, level: int = 1) -> None:
        self._lines: list[str] = [f"<{name}>"]
        self._indent = level * INDENT  # of what is in it
        self._names = [name]  # of the elements that are not ended yet

    def add(self, name: str, value: str | int) -> None:
        """Adds an element with a text."""
        if isinstance(value, str) and odd_in(value):
            value = escaped(value)
        self._lines.append(f"{self._indent}<{name}>{value}</{name}>")

    def add_message(self, text: str, priority: str) -> None:
        """Adds a message, which the client shows to the volunteer."""
        self._lines.append(f'{self._indent}<message priority="{priority}">{escaped(text)}</message>')

    def add_lines(self, lines: list[str]) -> None:
        """Adds lines of another element on the same level."""
        self._lines += lines

    def inside(self, name: str) -> "XmlLines":
        """Begins an element, which ends with the `with` statement."""
        self._lines.append(f"{self._indent}<{name}>")
        self._indent += INDENT
        self._names.append(name)
        return self

    def __enter__(self) -> None:
        """Has begun an element."""

    def __exit__(self, *_fault: object) -> None:
        """Ends the element that began last."""
        self._indent = self._indent[: -len(INDENT)]
        self._lines.append(f"{self._indent}</{self._names.pop()}>")

    def inner_lines(self) -> list[str]:
        """Returns the lines within the element."""
        return self._lines[1:]

    def written(self) -> bytes:
        """Returns the bytes of the element."""
        return "\n".join([*self._lines, f"</{self._names[0]}>\n"]).encode()

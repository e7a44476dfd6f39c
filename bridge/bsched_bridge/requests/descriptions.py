"""What a computer says of itself in a request, for people. Its name and its addresses are not kept."""
import json
from collections.abc import Sequence
from dataclasses import dataclass, field, fields
from typing import Protocol

MOST_TEXT = 80  # characters of each text
MOST_COPROCS = 4
VERSION = ("core_client_major_version", "core_client_minor_version", "core_client_release")

_written = json.JSONEncoder(ensure_ascii=False, separators=(",", ":")).encode


def one_line(text: str) -> str:
    """Returns a text on one line, without what can't be seen, and not longer than it may be."""
    if len(text) <= MOST_TEXT and "  " not in text and text.isprintable():
        return text.strip()
    front = text[: 4 * MOST_TEXT]
    if not front.isprintable():
        front = "".join(one if one.isprintable() else " " for one in front)
    return " ".join(front.split())[:MOST_TEXT].rstrip()


def system_of(name: str, version: str) -> str:
    """Returns a system with its version. Versions of Linux begin with words that the name ends with. If it is
    too long, the library after the kernel is left out, and then the kernel.
    """
    words, of_version = name[: 4 * MOST_TEXT].split(), version[: 4 * MOST_TEXT].split()
    for count in range(min(len(words), len(of_version)), 0, -1):
        if words[-count:] == of_version[:count]:
            words = words[:-count]
            break
    text = " ".join([*words, *of_version])
    kernel, bar, _ = text.partition("|")
    if len(text) > MOST_TEXT and bar and "[" in kernel:
        text = f"{kernel}]"
        if len(text) > MOST_TEXT:
            text = kernel.partition("[")[0]
    return one_line(text)


@dataclass(frozen=True, slots=True)
class Description:
    """What a computer says of itself."""

    processor: str = ""
    processors: int = 0
    system: str = ""
    client: str = ""  # the version of BOINC's client
    memory: int = 0  # bytes
    disk: int = 0  # bytes that are free
    speed: int = 0  # operations a second of a processor
    coprocessors: list[str] = field(default_factory=list)

    def written(self) -> str:
        """Returns it as JSON, for the state file. What is not known is left out."""
        return _written({name: value for name in NAMES if (value := getattr(self, name))})


NAMES = tuple(one.name for one in fields(Description))


def read_description(text: str | None) -> Description:
    """Returns a description from the state file. If there is none, nothing is known."""
    return Description(**json.loads(text)) if text else Description()


class Texts(Protocol):
    """Texts by name, such as those of the elements in an element."""

    def text(self, name: str) -> str | None:
        """Returns a text without blanks around it, or None."""


def described(
    request: Texts,
    host: Texts,
    processors: int,
    memory: int,
    disk: int,
    speed: int,
    coprocessors: Sequence[str],
) -> str:
    """Returns what a request and its host_info say of the computer, for the state file. Some models of
    processors begin with their vendor.
    """
    vendor, model = one_line(host.text("p_vendor") or ""), one_line(host.text("p_model") or "")
    return Description(
        model if model.lower().startswith(vendor.lower()) else one_line(f"{vendor} {model}"),
        processors,
        system_of(host.text("os_name") or "", host.text("os_version") or ""),
        one_line(".".join(filter(None, map(request.text, VERSION)))),
        memory,
        disk,
        speed,
        [one_line(text) for text in coprocessors[:MOST_COPROCS]],
    ).written()

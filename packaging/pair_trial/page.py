"""The commands of pages, and those that programs print. The trial runs them as they are."""
import re
from collections.abc import Iterator
from dataclasses import dataclass
from pathlib import Path

DOCS = Path(__file__).resolve().parent.parent.parent / "docs"
PAIR_PAGE = DOCS / "TWO_MACHINES.md"
PROJECT_PAGE = DOCS / "SET_UP.md"
UPGRADE_PAGE = DOCS / "NEXT_FILE.md"
BOTH = "both"


class PageFault(Exception):
    """A page has not what the trial needs of it."""


@dataclass(frozen=True, slots=True)
class Part:
    """Some commands of a step, and on which machines to run them."""

    machines: tuple[str, ...]
    commands: str


@dataclass(frozen=True, slots=True)
class Step:
    """A numbered step that a program prints."""

    number: int
    parts: tuple[Part, ...]


def section_of(text: str, heading: str) -> str:
    """Returns a section of a page, up to the next one of its level."""
    begun, line, rest = text.partition(f"\n## {heading}\n")
    if not line:
        raise PageFault(f"there is no section {heading!r}")
    return rest.partition("\n## ")[0]


def blocks_of(text: str, heading: str) -> list[str]:
    """Returns the blocks of commands in a section."""
    return re.findall(r"^```sh\n(.*?)^```$", section_of(text, heading), re.MULTILINE | re.DOTALL)


def block_with(text: str, heading: str, begin: str = "") -> str:
    """Returns the first block of commands in a section that begins with some words."""
    for block in blocks_of(text, heading):
        if block.startswith(begin):
            return block
    raise PageFault(f"the section {heading!r} has no commands that begin with {begin!r}")


def codes_of(text: str) -> list[str]:
    """Returns what a text has in back quotes."""
    return re.findall(r"`([^`\n]+)`", text)


def row_of(text: str, heading: str, first: str) -> list[str]:
    """Returns the commands in a row of a table, by its first cell."""
    for line in section_of(text, heading).splitlines():
        cells = [cell.strip() for cell in line.strip("|").split("|")]
        if line.startswith("|") and cells[0] == first:
            return codes_of(cells[-1])
    raise PageFault(f"no table in {heading!r} has a row {first!r}")


def paragraph_of(text: str, title: str) -> list[str]:
    """Returns what a paragraph has in back quotes, by the words in bold at its beginning."""
    for line in text.splitlines():
        if line.startswith(f"**{title}"):
            return codes_of(line)
    raise PageFault(f"no paragraph begins with {title!r}")


def printed_commands(text: str) -> str:
    """Returns the commands that a program printed: those lines begin with two blanks."""
    return "".join(f"{line[2:]}\n" for line in text.splitlines() if line.startswith("  "))


def steps_of(text: str, pair: tuple[str, str], vote: str) -> list[Step]:
    """Returns the steps that `bsched-project pair` prints."""
    parts = re.split(r"^(\d+)\. (On [^:]+):", text, flags=re.MULTILINE)
    return [
        Step(int(number), tuple(parts_of(where, printed_commands(commands), pair, vote)))
        for number, where, commands in zip(parts[1::3], parts[2::3], parts[3::3])
    ]


def parts_of(where: str, commands: str, pair: tuple[str, str], vote: str) -> Iterator[Part]:
    """Yields the commands of a step. If the third machine comes last, the last line is for it alone."""
    if where == f"On {BOTH}":
        yield Part(pair, commands)
        return
    machines = tuple(name for name in (*pair, vote) if re.search(rf"\b{name}\b", where))
    if vote not in machines:
        yield Part(machines, commands)
        return
    *lines, last = commands.splitlines(keepends=True)
    yield Part(tuple(name for name in machines if name != vote), "".join(lines))
    yield Part((vote,), last)

"""The commands of a page, with what the page says that they print."""
import re
from collections.abc import Iterator
from dataclasses import dataclass, field
from pathlib import Path

NOT_RUN, REPEATED = "does not run the next block", "repeats the next block"
ANYTHING = ".."


@dataclass(slots=True)
class Block:
    """A block of commands, the lines that the page says it prints, and the comment before it."""

    commands: str
    note: str = ""
    printed: list[str] = field(default_factory=list)

    @property
    def is_run(self) -> bool:
        """Whether a trial runs it."""
        return NOT_RUN not in self.note

    @property
    def is_repeated(self) -> bool:
        """Whether a trial runs it until it prints what the page says."""
        return REPEATED in self.note

    def missing_line(self, output: str) -> str | None:
        """Returns the first line that the page says and the output does not have, in this order, or None.
        `..` stands for any text, and alone on a line for any lines."""
        lines = iter(output.splitlines())
        for wanted in self.printed:
            pattern = ".*".join(map(re.escape, wanted.split(ANYTHING)))
            if wanted != ANYTHING and not any(re.fullmatch(pattern, line) for line in lines):
                return wanted
        return None


@dataclass(slots=True)
class Step:
    """A numbered step of a page."""

    number: int
    title: str
    blocks: list[Block] = field(default_factory=list)


def steps_of(path: Path) -> list[Step]:
    """Returns the steps of a page: its sections `## N. Title`, with their blocks."""
    return list(read_steps(path.read_text().splitlines()))


def read_steps(lines: list[str]) -> Iterator[Step]:
    """Yields the steps in the lines of a page."""
    step: Step | None = None
    note, at = "", 0
    while at < len(lines):
        line = lines[at]
        if title := re.fullmatch(r"## (?:(\d+)\. )?(.+)", line):
            if step is not None:
                yield step
            step = Step(int(title[1]), title[2]) if title[1] else None
        elif comment := re.fullmatch(r"<!-- (.+) -->", line):
            note = comment[1]
        elif line.startswith("```"):
            end = lines.index("```", at + 1)
            if step is not None and line == "```sh":
                step.blocks.append(Block("".join(f"{one}\n" for one in lines[at + 1 : end]), note))
                note = ""
            elif step is not None and line == "```":
                step.blocks[-1].printed += lines[at + 1 : end]
            at = end
        at += 1
    if step is not None:
        yield step

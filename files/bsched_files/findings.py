"""What the checks of a project's health found, and how bad it is: `findings.json`, which
`bsched-tools health` writes into the folder of a project for the board of its bridge.

The levels are those that monitors such as Nagios know, and the exit status of `health` is that of the worst
finding: 0 good, 1 warning, 2 critical, 3 unknown.
"""
from collections.abc import Iterable
from dataclasses import dataclass
from enum import IntEnum
from pathlib import Path
from typing import Any

from .json_files import file_text, read_members
from .moments import HOUR, MOST_MOMENT

NAME = "findings.json"
FORMAT = 1
PUT_OFF_SECONDS = HOUR  # within which a report that was put off is worth a warning
MOST_FINDINGS, MOST_TEXT = 50, 1000  # that are read; characters of a text


class Level(IntEnum):
    """How bad a finding is."""

    GOOD = 0
    WARNING = 1
    CRITICAL = 2
    UNKNOWN = 3

    @property
    def word(self) -> str:
        """The level as a word, in files and on pages."""
        return self.name.lower()

    @property
    def badness(self) -> int:
        """The order of levels: what is unknown is worse than good, and better than a warning."""
        return {Level.GOOD: 0, Level.UNKNOWN: 1, Level.WARNING: 2, Level.CRITICAL: 3}[self]


@dataclass(frozen=True, slots=True)
class Finding:
    """What a check found."""

    check: str
    level: Level
    text: str

    @property
    def line(self) -> str:
        """The finding in a line."""
        return f"{self.level.word:8}  {self.check:11}  {self.text}"


def worst_of(found: Iterable[Finding]) -> Level:
    """Returns the worst level."""
    return max((one.level for one in found), key=lambda level: level.badness, default=Level.UNKNOWN)


def levels_of(found: Iterable[Finding]) -> dict[str, str]:
    """Returns the name of the worst level of each check."""
    levels: dict[str, Level] = {}
    for one in found:
        levels[one.check] = max(levels.get(one.check, Level.GOOD), one.level, key=lambda level: level.badness)
    return {check: level.name for check, level in levels.items()}


@dataclass(frozen=True, slots=True)
class Findings:
    """What `bsched-tools health` found last."""

    moment: int
    findings: list[Finding]
    copies: int = 0  # of the tables, in the folder of copies
    oldest_copy: int | None = None  # when it was taken
    newest_copy: int | None = None

    def text(self) -> str:
        """Returns the findings as JSON on one line."""
        return file_text(
            FORMAT,
            {
                "moment": self.moment,
                "findings": [
                    {"check": one.check, "level": one.level.word, "text": one.text} for one in self.findings
                ],
                "copies": {"count": self.copies, "oldest": self.oldest_copy, "newest": self.newest_copy},
            },
        )


def read_findings(path: Path) -> Findings | None:
    """Reads what `Findings.text` wrote, as far as it is good. Returns None if it has no moment. Raises Fault
    if the file can't be read."""
    members = read_members(path, FORMAT, takes_unnumbered=True)
    moment = _moment_in(members, "moment")
    if moment is None:
        return None
    found, copies = members.get("findings"), members.get("copies")
    findings = [_finding_of(one) for one in found[:MOST_FINDINGS]] if isinstance(found, list) else []
    copies = copies if isinstance(copies, dict) else {}
    count = copies.get("count")
    return Findings(
        moment,
        [one for one in findings if one is not None],
        count if type(count) is int and count >= 0 else 0,
        _moment_in(copies, "oldest"),
        _moment_in(copies, "newest"),
    )


def _moment_in(members: dict[str, Any], name: str) -> int | None:
    """Returns a moment among members, or None."""
    value = members.get(name)
    return value if type(value) is int and 0 <= value <= MOST_MOMENT else None


def _finding_of(members: object) -> Finding | None:
    """Returns a finding, or None if it is none."""
    if not isinstance(members, dict):
        return None
    check, text = members.get("check"), members.get("text")
    level = next((one for one in Level if one.word == members.get("level")), None)
    if level is None or not isinstance(check, str) or not isinstance(text, str):
        return None
    return Finding(check[:MOST_TEXT], level, text[:MOST_TEXT])

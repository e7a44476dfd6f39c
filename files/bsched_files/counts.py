"""How many there are of each thing in the tables: `counts.json`, which `bsched-tools report` writes into the
folder of a project for its bridge, and the same as `bsched-tools counts --json` prints it.
"""
from collections import Counter
from dataclasses import dataclass, field
from pathlib import Path
from typing import Any

from .json_files import WatchedFile, file_text, read_members
from .moments import MOST_MOMENT

NAME = "counts.json"
FORMAT = 1
STATUSES = {0: "open", 1: "done", 2: "failed by errors", 3: "failed by successes", 4: "failed by the total"}
# how many rows there may be (docs/PROFILE.md, "What it knows"); for hosts a setting says it
MOST = {"account": 10_000, "app": 100, "version": 1_000, "unit": 200_000}
NO_HOST = 2**31 - 1  # no host has this number: there are at most 100,000
# how the rows of each table are called
NOUNS = {"account": "accounts", "app": "apps", "version": "versions", "unit": "workunits", "host": "hosts"}


@dataclass(frozen=True, slots=True)
class Limit:
    """How much is used, and how much there may be."""

    used: int
    most: int

    @property
    def left(self) -> int:
        """How much is left."""
        return max(0, self.most - self.used)


@dataclass(slots=True)
class Counts:
    """What is counted."""

    schema: int
    moment: int = 0
    workunits: Counter[str] = field(default_factory=Counter)
    out: int = 0  # open workunits with an instance that a host has
    stuck: int = 0  # open workunits that no user with a host can take
    instances: Counter[str] = field(default_factory=Counter)
    people: dict[str, int] = field(default_factory=dict)
    calls_unknown: str = ""  # why it is not known who called in the last day; empty if it is known
    millicredits: int = 0
    limits: dict[str, Limit] = field(default_factory=dict)  # of the tables that were named last
    bytes: int = 0

    def text(self) -> str:
        """Returns all counts as JSON on one line."""
        return file_text(
            FORMAT,
            {
                "schema": self.schema,
                "moment": self.moment,
                "bytes": self.bytes,
                "millicredits": self.millicredits,
                "workunits": dict(self.workunits),
                "open_workunits": {
                    "out": self.out,
                    "waiting": self.workunits["open"] - self.out,
                    "stuck": self.stuck,
                },
                "instances": dict(self.instances),
                "people": self.people,
                "limits": {noun: {"used": one.used, "most": one.most} for noun, one in self.limits.items()},
            },
        )


@dataclass(frozen=True, slots=True)
class UnitCounts:
    """How many workunits have each status, in a copy of bsched's tables."""

    by_status: dict[str, int]
    counted_at: float
    out: int | None = None  # of those that are open, how many a host has; None if that is not known
    stuck: int = 0  # of those that are open, how many no user with a host can take


@dataclass(frozen=True, slots=True)
class KnownCounts:
    """What a file says, as far as it is good."""

    units: UnitCounts | None = None
    limits: dict[str, Limit] = field(default_factory=dict)


def read_counts(path: Path) -> KnownCounts:
    """Reads what `Counts.text` wrote. Raises Fault if the file can't be read."""
    members = read_members(path, FORMAT, takes_unnumbered=True)
    moment = members.get("moment")
    if type(moment) is not int or not 0 <= moment <= MOST_MOMENT:
        moment = path.stat().st_mtime
    return KnownCounts(_units_in(members, moment), _limits_in(members))


def counts_in(path: Path | None) -> WatchedFile[KnownCounts]:
    """Returns the counts in a file, which is read again after each change."""
    return WatchedFile(path, read_counts, KnownCounts(), "the counts are not known")


def _units_in(members: dict[str, Any], counted_at: float) -> UnitCounts | None:
    """Returns the counts of workunits among the members of a file."""
    workunits, opened = members.get("workunits"), members.get("open_workunits", {})
    if not isinstance(workunits, dict) or not isinstance(opened, dict):
        return None
    by_status = {name: count for name, count in workunits.items() if type(count) is int}
    out, stuck, most = opened.get("out"), opened.get("stuck"), by_status.get("open", 0)
    if type(out) is not int or not 0 <= out <= most:
        out = None
    if out is None or type(stuck) is not int or not 0 <= stuck <= most - out:
        stuck = 0
    return UnitCounts(by_status, counted_at, out, stuck) if by_status else None


def _limits_in(members: dict[str, Any]) -> dict[str, Limit]:
    """Returns the limits among the members of a file."""
    limits = members.get("limits")
    if not isinstance(limits, dict):
        return {}
    found = {noun: _limit_of(limits.get(noun)) for noun in NOUNS.values()}
    return {noun: limit for noun, limit in found.items() if limit is not None}


def _limit_of(members: object) -> Limit | None:
    """Returns a limit, or None if it is none."""
    if not isinstance(members, dict):
        return None
    used, most = members.get("used"), members.get("most")
    return Limit(used, most) if type(used) is int and type(most) is int and used >= 0 < most else None

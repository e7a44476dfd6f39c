"""What became of workunits, by the rules of `docs/PROFILE.md` ("Agreement", "Counting a workunit")."""
import re
from collections.abc import Iterator
from dataclasses import dataclass
from itertools import groupby
from typing import Any

from .faults import Fault
from .file_names import FIRST
from .tables import Tables

WHOLE_NUMBER = re.compile("0|-?[1-9][0-9]{0,17}")
OPEN, DONE = 0, 1
REASONS = {2: "errors", 3: "successes", 4: "total"}  # why a workunit failed
SUCCESS = 1
IS_HELD = "host_id IS NOT NULL AND outcome IS NULL AND lapse = 0"
DECIDED = """
SELECT unit.id, unit.name, app.name, agreement, min_quorum, unit.credit, status,
  num, host_id, shown_name(auth, account.name), outcome, output, place
FROM unit JOIN app ON app.id = unit.app_id
  CROSS JOIN instance ON instance.unit_id = unit.id
  LEFT JOIN host ON host.id = host_id
  LEFT JOIN account ON account.id = account_id
WHERE status <> 0 AND unit.id > ?1
ORDER BY unit.id, num
"""
# only those of which an instance was sent then or later
DECIDED_SINCE = DECIDED.replace(
    "ORDER BY", "AND unit.id IN (SELECT unit_id FROM instance WHERE sent >= ?2) ORDER BY"
)


@dataclass(frozen=True, slots=True)
class Instance:
    """An instance of a workunit."""

    name: str
    host: int | None
    user: str | None
    outcome: int | None
    output: str | None
    place: int | None

    @property
    def text(self) -> str:
        """What the host reported as output, or an empty text."""
        return self.output or ""

    @property
    def may_be_judged(self) -> bool:
        """Whether the host may still report it."""
        return self.host is not None and self.outcome is None


@dataclass(frozen=True, slots=True)
class Result:
    """A judged success of a workunit that is done."""

    name: str
    host: int
    user: str
    is_valid: bool
    place: int


@dataclass(frozen=True, slots=True)
class Workunit:
    """A workunit that is done or has failed."""

    id: int
    name: str
    app: str
    millicredits: int
    reason: str | None  # why it failed; None if it is done
    canonical: str | None = None  # the name of the canonical result
    output: str | None = None  # the output of that result
    results: tuple[Result, ...] = ()
    is_closed: bool = True  # no further result of it can be judged
    file: int = FIRST  # the number of its file in the project


def agree(agreement: int | None, one: str, other: str) -> bool:
    """Returns whether two outputs agree: they are equal, or whole numbers within the distance."""
    if one == other:
        return True
    if agreement is None or not (WHOLE_NUMBER.fullmatch(one) and WHOLE_NUMBER.fullmatch(other)):
        return False
    return abs(int(one) - int(other)) <= agreement


def canonical_of(agreement: int | None, min_quorum: int, good: list[Instance]) -> Instance | None:
    """Returns the canonical result. `good` are the judged successes, by place. Take the shortest front of at
    least min_quorum of them in which some report agrees with more than half of min_quorum. The first such
    report is the canonical result."""
    enough = min_quorum // 2 + 1
    for size in range(min_quorum, len(good) + 1):
        front = good[:size]
        for one in front:
            if sum(agree(agreement, one.text, other.text) for other in front) >= enough:
                return one
    return None


def workunit_of(tables: Tables, rows: list[tuple[Any, ...]]) -> Workunit:
    """Returns a workunit, from the rows of its instances."""
    number, name, app, agreement, min_quorum, millicredits, status = rows[0][:7]
    if status in REASONS:
        return Workunit(number, name, app, millicredits, REASONS[status], file=tables.file)
    instances = [Instance(f"{name}_{row[7]}", *row[8:]) for row in rows]
    judged = [(one.place, one) for one in instances if one.place is not None and one.outcome == SUCCESS]
    good = [one for _, one in sorted(judged, key=lambda pair: pair[0])]
    best = canonical_of(agreement, min_quorum, good)
    if status != DONE or best is None:
        raise Fault(f"{tables.path}: row {number} of unit: its status does not fit its instances")
    results = tuple(
        Result(one.name, one.host or 0, one.user or "", agree(agreement, best.text, one.text), place)
        for place, one in judged
    )
    is_closed = not any(one.may_be_judged for one in instances)
    return Workunit(
        number, name, app, millicredits, None, best.name, best.output, results, is_closed, tables.file
    )


def decided(tables: Tables, after: int = 0, since: int | None = None) -> Iterator[Workunit]:
    """Yields the workunits that are done or have failed, in the order of import. It begins after the workunit
    with the number `after`. If a moment is given, it yields those of which an instance was sent since."""
    found = tables.rows(DECIDED, after) if since is None else tables.rows(DECIDED_SINCE, after, since)
    for _, rows in groupby(found, key=lambda row: int(row[0])):
        yield workunit_of(tables, list(rows))

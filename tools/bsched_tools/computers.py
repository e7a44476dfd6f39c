"""Computers most of whose results of the last day are bad: client errors, or invalid ones."""
from collections import Counter
from collections.abc import Iterable
from dataclasses import dataclass

from bsched_files.moments import DAY
from bsched_files.tables import Tables
from bsched_files.workunits import decided


LEAST_BAD = 3  # a computer with fewer bad results may just have been unlucky
MOST_NAMED = 3
# the tables do not have the moment of a report, so the results of a day are those of jobs that went out then
RECENT = """
SELECT unit.name || '_' || num, host_id, outcome FROM instance JOIN unit ON unit.id = unit_id
WHERE sent >= ?1 AND outcome IS NOT NULL
"""
USER = """
SELECT shown_name(auth, account.name) FROM host JOIN account ON account.id = account_id WHERE host.id = ?1
"""


@dataclass(frozen=True, slots=True)
class BadComputer:
    """A computer, and what it did in the last day."""

    host: int
    user: str
    results: int
    errors: int
    invalid: int

    @property
    def bad(self) -> int:
        """How many of its results are bad."""
        return self.errors + self.invalid

    @property
    def text(self) -> str:
        """The computer for a person."""
        what = f"{self.errors:,} errors, {self.invalid:,} invalid"
        return f"computer {self.host} of {self.user} ({what} of {self.results:,} results)"


def bad_computers(tables: Tables) -> list[BadComputer]:
    """Returns the computers with more than half bad results of the last day, the worst first."""
    since = tables.moment - DAY
    results: Counter[int] = Counter()
    errors: Counter[int] = Counter()
    names = set()
    for name, host, outcome in tables.rows(RECENT, since):
        results[host] += 1
        errors[host] += outcome == 3
        names.add(name)
    units = decided(tables, since=since)
    invalid = Counter(
        one.host for unit in units for one in unit.results if not one.is_valid and one.name in names
    )
    found = []
    for host, count in results.items():
        bad = errors[host] + invalid[host]
        if bad >= LEAST_BAD and 2 * bad > count:
            user = next(tables.rows(USER, host))[0]
            found.append(BadComputer(host, user, count, errors[host], invalid[host]))
    return sorted(found, key=lambda one: (-one.bad, one.host))


def named(found: Iterable[BadComputer]) -> str:
    """Returns the worst computers, and counts the others."""
    texts = [one.text for one in found]
    more = [f"and {len(texts) - MOST_NAMED:,} more"] if len(texts) > MOST_NAMED else []
    return ", ".join([*texts[:MOST_NAMED], *more])

"""What a page says about a project apart from its counts: deadlines, credit, errors, and marked workunits
that wait."""
from collections import Counter
from dataclasses import dataclass

from bsched_files.moments import HOUR
from bsched_files.tables import Tables
from bsched_files.workunits import IS_HELD, decided


DAY_HOURS = 24
MOST_LISTED = 20
DEADLINES = f"SELECT deadline FROM instance WHERE {IS_HELD} AND deadline >= ?1 AND deadline < ?2"
CREDIT = """
SELECT shown_name(auth, account.name), sum(host.credit), count(*)
FROM account JOIN host ON host.account_id = account.id
GROUP BY account.id ORDER BY sum(host.credit) DESC, account.id LIMIT ?1
"""
ERRORS = """
SELECT host.id, shown_name(auth, account.name), sum(outcome = 3), sum(lapse = 1), count(*), quota
FROM host JOIN account ON account.id = account_id JOIN instance ON host_id = host.id GROUP BY host.id
"""
MARKED = """
SELECT ifnull(class, ''), count(DISTINCT unit.id), sum(queued)
FROM unit JOIN unit_mark ON unit_mark.unit_id = unit.id JOIN instance ON instance.unit_id = unit.id
WHERE marked = 1 AND status = 0 GROUP BY class ORDER BY class
"""
# marked workunits whose class no newest version of their application has: they wait until one is imported
STUCK = """
SELECT unit.name, unit_mark.class FROM unit JOIN unit_mark ON unit_id = unit.id
WHERE status = 0 AND unit_mark.class NOT IN (
  SELECT version_class.class FROM version JOIN version_class ON version_id = version.id
  WHERE app_id = unit.app_id AND num = (
    SELECT max(num) FROM version AS other
    WHERE other.app_id = version.app_id AND other.platform = version.platform))
ORDER BY unit.id LIMIT ?1
"""


@dataclass(frozen=True, slots=True)
class HostErrors:
    """A host, and how many of its results failed."""

    host: int
    user: str
    errors: int
    invalid: int
    late: int
    given: int
    quota: int

    @property
    def failed(self) -> int:
        """How many failed in all."""
        return self.errors + self.invalid + self.late


def deadlines_by_hour(tables: Tables) -> list[int]:
    """Returns how many deadlines of held instances are in each hour of the day after the copy."""
    counted = [0] * DAY_HOURS
    for (deadline,) in tables.rows(DEADLINES, tables.moment, tables.moment + DAY_HOURS * HOUR):
        counted[(deadline - tables.moment) // HOUR] += 1
    return counted


def credit_by_user(tables: Tables) -> list[tuple[str, int, int]]:
    """Returns the users with the most credit: name, millicredits, hosts."""
    return [(name, millicredits, hosts) for name, millicredits, hosts in tables.rows(CREDIT, MOST_LISTED)]


def hosts_with_errors(tables: Tables) -> list[HostErrors]:
    """Returns the hosts with the most failed results."""
    invalid = Counter(one.host for unit in decided(tables) for one in unit.results if not one.is_valid)
    hosts = [
        HostErrors(host, user, errors or 0, invalid[host], late or 0, given, quota)
        for host, user, errors, late, given, quota in tables.rows(ERRORS)
    ]
    worst = sorted(hosts, key=lambda one: (-one.failed, one.host))
    return [one for one in worst if one.failed][:MOST_LISTED]


def marked_by_class(tables: Tables) -> list[tuple[str, int, int]]:
    """Returns the open marked workunits: class, how many, and how many of their instances wait."""
    return [(name, units, waiting or 0) for name, units, waiting in tables.rows(MARKED)]


def stuck_workunits(tables: Tables) -> list[tuple[str, str]]:
    """Returns the marked workunits that wait for a class which no newest version has: name and class."""
    return [(name, version_class) for name, version_class in tables.rows(STUCK, MOST_LISTED)]

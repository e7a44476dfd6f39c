"""What bsched checks row by row when it opens tables (docs/STORED.md, "Invariants"): which row of which table
is wrong."""
import re
import sqlite3
from collections import Counter
from collections.abc import Iterator
from dataclasses import dataclass
from itertools import groupby
from typing import Any, NamedTuple

from bsched_files.counts import MOST
from bsched_files.tables import Tables
from bsched_files.texts import WORD
from bsched_files.workunits import DONE, OPEN, SUCCESS, Instance, agree, canonical_of

from .settings_file import KEYS, shown, value_fault

MOST_TOLD = 20  # rows for each kind of fault
PLATFORMS = re.compile(r"[A-Za-z0-9_.-]{1,64}(,[A-Za-z0-9_.-]{1,64}){0,7}")
# for each table the columns of its key, and for each column what its value must be; `word`, `platforms` and
# `size` (in bytes) are functions below
RULES: dict[str, tuple[str, dict[str, str]]] = {
    "account": ("id", {"auth": "word(auth)", "name": "size(name) BETWEEN 1 AND 64"}),
    "app": (
        "id",
        {
            "name": "word(name)",
            "agreement": "agreement IS NULL OR agreement BETWEEN 0 AND 1000000000",
        },
    ),
    "version": ("id", {"platform": "word(platform)", "num": "num BETWEEN 1 AND 1000000"}),
    "version_class": ("version_id", {"class": "word(class)"}),
    "unit": (
        "id",
        {
            "name": "word(name)",
            "min_quorum": "min_quorum BETWEEN 1 AND 100",
            "target_nresults": "target_nresults BETWEEN min_quorum AND 100",
            "max_error_results": "max_error_results BETWEEN 0 AND 100",
            "max_total_results": "max_total_results BETWEEN target_nresults AND 100",
            "max_success_results": "max_success_results BETWEEN 0 AND 100",
            "delay_bound": "delay_bound BETWEEN 1 AND 100000000",
            "rsc_fpops_est": "rsc_fpops_est BETWEEN 1 AND 1000000000000000000",
            "rsc_memory_bound": "rsc_memory_bound BETWEEN 0 AND 1000000000000000000",
            "rsc_disk_bound": "rsc_disk_bound BETWEEN 0 AND 1000000000000000000",
            "credit": "credit BETWEEN 0 AND 100000000",
            "status": "status BETWEEN 0 AND 4",
        },
    ),
    "unit_mark": (
        "unit_id",
        {
            "marked": "marked IN (0, 1)",
            "class": "class IS NULL OR marked = 1 AND word(class)",
        },
    ),
    "host": (
        "id",
        {
            "cpid": "word(cpid)",
            "platforms": "platforms(platforms)",
            "fpops": "fpops BETWEEN 1 AND 1000000000000000000",
            "memory": "memory BETWEEN 0 AND 1000000000000000000",
            "disk": "disk BETWEEN 0 AND 1000000000000000000",
            "quota": "quota BETWEEN 1 AND (SELECT value FROM setting WHERE name = 'daily_result_quota')",
        },
    ),
    "instance": (
        "unit_id, num",
        {
            "num": "num BETWEEN 0 AND 99",
            "sent": "(sent IS NULL) = (host_id IS NULL) AND ifnull(sent, 0) BETWEEN 0 AND 250000000000",
            "deadline": "(deadline IS NULL) = (sent IS NULL) "
            "AND ifnull(deadline, 0) BETWEEN 0 AND 250100000000",
            "lapse": "lapse IN (0, 1, 2) AND (host_id IS NOT NULL OR lapse = 0)",
            "outcome": "outcome IS NULL OR outcome IN (1, 3) AND host_id IS NOT NULL",
            "output": "(output IS NULL) = (outcome IS NULL) AND size(ifnull(output, '')) <= 1024",
            "place": "place IS NULL OR place BETWEEN 1 AND 100 AND outcome IS NOT NULL",
        },
    ),
    "kept4": (
        "host_id, slot",
        {
            "slot": "slot BETWEEN 0 AND 3",
            "seqno": "seqno BETWEEN 0 AND 2147483647",
        },
    ),
    "batch": (
        "kind, name",
        {
            "kind": "kind IN ('accounts', 'apps', 'versions', 'workunits')",
            "name": "word(name)",
            "text": "length(text) <= 1048576",
        },
    ),
}
# rules between rows: the table, a query for the keys of rows that break the rule, and what is wrong
RELATIONS = [
    (
        "version",
        "SELECT id FROM version WHERE id NOT IN (SELECT version_id FROM version_class)",
        "it has no row in version_class",
    ),
    (
        "unit",
        "SELECT id FROM unit WHERE id NOT IN (SELECT unit_id FROM unit_mark)",
        "it has no row in unit_mark",
    ),
    (
        "host",
        "SELECT id FROM host WHERE held <> "
        "(SELECT count(*) FROM instance WHERE host_id = host.id AND outcome IS NULL AND lapse = 0)",
        "held is not how many instances it holds",
    ),
    (
        "instance",
        "SELECT unit_id, num FROM instance JOIN unit ON unit.id = unit_id "
        "WHERE queued <> (host_id IS NULL AND status = 0)",
        "queued is not whether it waits",
    ),
    (
        "instance",
        "SELECT unit_id, min(num) FROM instance JOIN host ON host.id = host_id "
        "GROUP BY unit_id, account_id HAVING count(*) > 1",
        "a user was given two instances of this workunit",
    ),
    (
        "unit_mark",
        "SELECT unit_id FROM unit_mark WHERE marked = 1 AND class IS NULL AND EXISTS "
        "(SELECT 1 FROM instance WHERE instance.unit_id = unit_mark.unit_id AND host_id IS NOT NULL)",
        "it is marked and was given out, and has no class",
    ),
]
WITHOUT_GAPS = ("account", "app", "version", "unit", "host")
UNITS = """
SELECT unit.id, unit.name, agreement, min_quorum, target_nresults, max_error_results, max_total_results,
  max_success_results, status, credit, num, host_id, lapse, outcome, output, place
FROM unit JOIN app ON app.id = app_id LEFT JOIN instance ON instance.unit_id = unit.id ORDER BY unit.id, num
"""


@dataclass(frozen=True, slots=True)
class Wrong:
    """A row that is wrong."""

    table: str
    key: str
    what: str

    def __str__(self) -> str:
        return f"row {self.key} of {self.table}: {self.what}"


def add_functions(connection: sqlite3.Connection) -> None:
    """Adds the functions that the rules use."""

    def matches(form: re.Pattern[str]) -> Any:
        return lambda value: isinstance(value, str) and form.fullmatch(value) is not None

    connection.text_factory = lambda text: text.decode(errors="surrogateescape")
    connection.create_function("word", 1, matches(WORD), deterministic=True)
    connection.create_function("platforms", 1, matches(PLATFORMS), deterministic=True)
    connection.create_function("size", 1, lambda value: len(str(value).encode(errors="surrogateescape")))


def key_text(values: tuple[Any, ...]) -> str:
    """Returns the key of a row as text for people."""
    return " ".join(str(value) for value in values)


def settings_rows(tables: Tables) -> Iterator[Wrong]:
    """Yields what is wrong with the settings."""
    for name in sorted(KEYS - tables.settings.keys()):
        yield Wrong("setting", name, "it is missing")
    for name, value in sorted(tables.settings.items()):
        if name == "schema":
            continue
        if name not in KEYS:
            yield Wrong("setting", name, "there is no such setting")
            continue
        typed = bool(value) if name == "resend_lost_results" and value in (0, 1) else value
        if fault := value_fault(name, typed):
            yield Wrong("setting", name, f"value is {shown(name, value)}: {fault}")


def values_of_rows(tables: Tables) -> Iterator[Wrong]:
    """Yields the values that are out of their ranges."""
    for table, (key, columns) in RULES.items():
        for column, rule in columns.items():
            query = f"SELECT {key}, {column} FROM {table} WHERE NOT ({rule}) LIMIT {MOST_TOLD}"
            for *values, value in tables.rows(query):
                shown = value if column not in ("auth", "text") else "a value"
                yield Wrong(table, key_text(tuple(values)), f"{column} is {shown!r}, and out of its range")


def gaps(tables: Tables) -> Iterator[Wrong]:
    """Yields rows whose numbers have a gap before them, and tables with too many rows."""
    most = {**MOST, "host": tables.settings["max_hosts"]}
    for table in WITHOUT_GAPS:
        numbered = f"SELECT id, row_number() OVER (ORDER BY id) AS nth FROM {table}"
        row = next(tables.rows(f"SELECT id FROM ({numbered}) WHERE id <> nth LIMIT 1"), None)
        if row is not None:
            yield Wrong(table, key_text(row), "the numbers before it have a gap")
        if (count := tables.number(f"SELECT count(*) FROM {table}")) > most[table]:
            yield Wrong(table, str(count), f"there are more than {most[table]} rows")


def relations(tables: Tables) -> Iterator[Wrong]:
    """Yields rows that do not fit other rows."""
    for table, query, what in RELATIONS:
        for row in tables.rows(f"{query} LIMIT {MOST_TOLD}"):
            yield Wrong(table, key_text(row), what)
    for table, number, other, _ in tables.rows("PRAGMA foreign_key_check"):
        yield Wrong(str(table), str(number), f"it refers to a row of {other} that does not exist")


# ---- Workunits


@dataclass(frozen=True, slots=True)
class Unit:
    """A workunit with the limits that decide its status."""

    id: int
    name: str
    agreement: int | None
    min_quorum: int
    target_nresults: int
    max_error_results: int
    max_total_results: int
    max_success_results: int
    status: int
    credit: int


class Row(NamedTuple):
    """What is stored about an instance."""

    num: int
    host: int | None
    lapse: int
    outcome: int | None
    output: str | None
    place: int | None


def good_of(rows: list[Row]) -> list[Instance]:
    """Returns the judged successes of a workunit, by place."""
    judged = [
        (row.place, Instance("", row.host, None, row.outcome, row.output, row.place))
        for row in rows
        if row.place is not None and row.outcome == SUCCESS
    ]
    return [one for _, one in sorted(judged, key=lambda pair: pair[0])]


def need_of(unit: Unit, rows: list[Row], good: int) -> int:
    """Returns how many more instances a workunit needs."""
    live = sum(row.host is None or row.outcome is None and row.lapse == 0 for row in rows)
    want = max(unit.target_nresults, good + 1 if good >= unit.min_quorum else 0)
    return max(0, want - live - good)


def status_of(unit: Unit, rows: list[Row], good: list[Instance]) -> int:
    """Returns the status of a workunit, from its limits and its instances."""
    errors = sum(row.place is not None and row.outcome != SUCCESS for row in rows)
    if canonical_of(unit.agreement, unit.min_quorum, good) is not None:
        return DONE
    if errors > unit.max_error_results:
        return 2
    if len(good) > unit.max_success_results:
        return 3
    return 4 if len(rows) + need_of(unit, rows, len(good)) > unit.max_total_results else OPEN


def workunit_faults(unit: Unit, rows: list[Row], good: list[Instance]) -> Iterator[Wrong]:
    """Yields what is wrong with a workunit and its instances."""
    key = str(unit.id)
    if [row.num for row in rows] != list(range(len(rows))):
        yield Wrong("instance", key, "the numbers of the workunit's instances have a gap")
    places = sorted(row.place for row in rows if row.place is not None)
    if places != list(range(1, len(places) + 1)):
        yield Wrong("instance", key, f"the places of its judged reports are {places}, and not 1, 2 ..")
    status = status_of(unit, rows, good)
    if status != unit.status:
        yield Wrong("unit", key, f"status is {unit.status}, and its instances say {status}")
    elif status == OPEN and (need := need_of(unit, rows, len(good))):
        yield Wrong("unit", key, f"it is open, and lacks {need} instances")


def workunits(tables: Tables) -> Iterator[Wrong]:
    """Yields what is wrong with workunits, and with the credit of hosts, which follows from them."""
    credit: Counter[int | None] = Counter()
    for _, group in groupby(tables.rows(UNITS), key=lambda row: int(row[0])):
        of_unit = list(group)
        unit, rows = Unit(*of_unit[0][:10]), [Row(*row[10:]) for row in of_unit if row[10] is not None]
        good = good_of(rows)
        yield from workunit_faults(unit, rows, good)
        for host in valid_hosts(unit, good):
            credit[host] += unit.credit
    for number, stored in tables.rows("SELECT id, credit FROM host"):
        if stored != credit[number]:
            yield Wrong("host", str(number), f"credit is {stored}, and its results give {credit[number]}")


def valid_hosts(unit: Unit, good: list[Instance]) -> list[int | None]:
    """Returns the hosts of the valid results of a workunit."""
    best = canonical_of(unit.agreement, unit.min_quorum, good)
    if best is None or unit.status != DONE:
        return []
    return [one.host for one in good if agree(unit.agreement, best.text, one.text)]


def values_and_relations(tables: Tables) -> Iterator[Wrong]:
    """Yields the rows that are wrong by themselves, or do not fit other rows."""
    yield from values_of_rows(tables)
    yield from gaps(tables)
    yield from relations(tables)


def wrong_rows(tables: Tables) -> Iterator[Wrong]:
    """Yields each row that is wrong. The settings are checked first, since they are the limits of other rows.
    Other rows are checked only if the settings are right, and workunits only if nothing else is wrong."""
    add_functions(tables.connection)
    for look in (settings_rows, values_and_relations, workunits):
        found = False
        for wrong in look(tables):
            found = True
            yield wrong
        if found:
            return

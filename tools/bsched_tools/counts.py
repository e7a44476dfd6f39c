"""How many there are of each thing in some tables, as lines and as Prometheus metrics."""
from collections import Counter
from collections.abc import Iterable, Iterator, Sequence
from dataclasses import dataclass
from pathlib import Path

from bsched_files.copies import COPY_NAME, copies_in, moment_of
from bsched_files.counts import MOST, NOUNS, STATUSES, Counts, Limit
from bsched_files.faults import Fault
from bsched_files.moments import DAY
from bsched_files.schemas import SCHEMA_NUMBER
from bsched_files.tables import Tables, all_opened, opened
from bsched_files.texts import credit_number
from bsched_files.workunits import IS_HELD

from .stuck import stuck_in

INSTANCES = f"""
SELECT count(*), sum(queued), sum({IS_HELD}), sum({IS_HELD} AND deadline < ?1), sum(outcome IS NOT NULL),
  sum(lapse <> 0 AND outcome IS NULL)
FROM instance
"""
STATES = ("all", "waiting", "held", "late", "reported", "lapsed")
OWNERS = "SELECT auth, cpid FROM host JOIN account ON account.id = account_id"
OUT = f"""
SELECT count(*) FROM unit
WHERE status = 0 AND EXISTS (SELECT 1 FROM instance WHERE unit_id = unit.id AND {IS_HELD})
"""
GIVEN = f"{OWNERS} WHERE EXISTS (SELECT 1 FROM instance WHERE host_id = host.id AND sent >= ?1)"
LAST_CALLS = f"""
SELECT auth, cpid, max(seqno)
FROM ({OWNERS.replace("SELECT", "SELECT host.id AS id,")}) JOIN kept4 ON host_id = id GROUP BY id
"""
HostKey = tuple[str, str]


def host_keys(tables: Tables, query: str, *values: int) -> set[HostKey]:
    """Returns the keys of the hosts in the rows of a query."""
    return {(user, cpid) for user, cpid in tables.rows(query, *values)}


def users_of(hosts: Iterable[HostKey]) -> set[str]:
    """Returns the users of hosts."""
    return {user for user, _ in hosts}


def copy_of_a_day_before(tables: Tables) -> Path | None:
    """Returns the newest copy of the same tables in the folder that is at least a day older."""
    match = COPY_NAME.fullmatch(tables.path.name)
    if match is None:
        return None
    older = copies_in(tables.path.parent, match["stem"])
    return next((path for path in older if moment_of(path) <= tables.moment - DAY), None)


def last_calls(tables: Tables) -> dict[HostKey, int]:
    """Returns the number of the last call of each host."""
    return {(user, cpid): number for user, cpid, number in tables.rows(LAST_CALLS)}


def calls_of_a_day_before(tables: Tables) -> dict[HostKey, int]:
    """Returns the number of the last call of each host a day before. If it is unknown, the fault says why."""
    before = copy_of_a_day_before(tables)
    if before is None:
        raise Fault(f"no copy in the folder of {tables.path} is a day older")
    try:
        with opened(before) as older:
            return last_calls(older)
    except Fault:
        raise Fault(f"{before} is of another schema, or can't be read") from None


@dataclass(frozen=True, slots=True)
class People:
    """The hosts and users of one file. Those that are in several files count once."""

    hosts: set[HostKey]
    users: set[str]
    given: set[HostKey]  # hosts with a job of the last day
    called: set[HostKey]  # hosts that called in the last day
    calls_unknown: str = ""  # why it is not known who called


@dataclass(frozen=True, slots=True)
class FileCounts:
    """What is counted in one file."""

    path: Path
    rows: Counts  # without its people
    people: People


def people_of(tables: Tables) -> People:
    """Returns the hosts and users of one file, also those with a job of the last day, and who called."""
    hosts = host_keys(tables, OWNERS)
    users = {user for user, in tables.rows("SELECT auth FROM account")}
    given = host_keys(tables, GIVEN, tables.moment - DAY)
    try:
        known = calls_of_a_day_before(tables)
    except Fault as fault:
        return People(hosts, users, given, set(), str(fault))
    called = {host for host, number in last_calls(tables).items() if known.get(host) != number}
    return People(hosts, users, given, called)


def rows_of(tables: Tables) -> Counts:
    """Counts the rows of one file."""
    counts = Counts(SCHEMA_NUMBER, tables.moment)
    for status, number in tables.rows("SELECT status, count(*) FROM unit GROUP BY status"):
        counts.workunits[STATUSES.get(status, "of no status")] += number
    counts.out = tables.number(OUT)
    numbers = next(tables.rows(INSTANCES, tables.moment))
    counts.instances.update({state: number or 0 for state, number in zip(STATES, numbers)})
    counts.stuck = len(list(stuck_in(tables)))
    counts.millicredits = tables.number("SELECT sum(credit) FROM host")
    most = {**MOST, "host": int(tables.settings["max_hosts"])}
    used = {table: tables.number(f"SELECT count(*) FROM {table}") for table in NOUNS}
    counts.limits = {noun: Limit(used[table], most[table]) for table, noun in NOUNS.items()}
    counts.bytes = tables.path.stat().st_size
    return counts


def total_of_people(files: Sequence[People], counts: Counts) -> None:
    """Counts the people of some files."""
    hosts: set[HostKey] = set().union(*(one.hosts for one in files))
    users: set[str] = set().union(*(one.users for one in files))
    given: set[HostKey] = set().union(*(one.given for one in files))
    called: set[HostKey] = set().union(*(one.called for one in files))
    counts.people = {"hosts": len(hosts), "users": len(users)}
    counts.people |= {"hosts with a job of the last day": len(given)}
    counts.people |= {"users with a job of the last day": len(users_of(given))}
    counts.calls_unknown = next((one.calls_unknown for one in reversed(files) if one.calls_unknown), "")
    if not counts.calls_unknown:
        counts.people |= {"hosts that called in the last day": len(called)}
        counts.people |= {"users that called in the last day": len(users_of(called))}


def total(files: Sequence[FileCounts]) -> Counts:
    """Returns the counts over some files, at least one. The limits are those of the last one."""
    counts = Counts(SCHEMA_NUMBER, workunits=Counter(dict.fromkeys(STATUSES.values(), 0)))
    for rows in (file.rows for file in files):
        counts.moment = max(counts.moment, rows.moment)
        counts.workunits.update(rows.workunits)
        counts.out += rows.out
        counts.instances.update(rows.instances)
        counts.stuck += rows.stuck
        counts.millicredits += rows.millicredits
        counts.limits = rows.limits
        counts.bytes += rows.bytes
    total_of_people([file.people for file in files], counts)
    return counts


def files_counted(paths: Iterable[Path]) -> list[FileCounts]:
    """Returns the counts of each of some files of tables."""
    with all_opened(paths) as all_tables:
        return [FileCounts(tables.path, rows_of(tables), people_of(tables)) for tables in all_tables]


def counted(paths: Iterable[Path]) -> Counts:
    """Returns the counts over files of tables."""
    return total(files_counted(paths))


# ---- Forms


def as_lines(counts: Counts) -> Iterator[str]:
    """Returns the counts for a person."""
    rows: list[tuple[str, str]] = []
    rows += [(f"workunits {status}", str(number)) for status, number in counts.workunits.items()]
    rows += [("workunits stuck, of the open ones", str(counts.stuck))]
    rows += [(f"instances {state}", str(number)) for state, number in counts.instances.items()]
    rows += [(what, str(number)) for what, number in counts.people.items()]
    if counts.calls_unknown:
        rows.append(("hosts that called in the last day", f"unknown: {counts.calls_unknown}"))
    rows += [("credit", credit_number(counts.millicredits))]
    for name, limit in counts.limits.items():
        share = 100 * limit.used // limit.most
        rows.append((f"{name} used", f"{limit.used} of {limit.most} ({share} %)"))
    rows += [("bytes", str(counts.bytes)), ("schema", str(counts.schema))]
    width = max(len(what) for what, _ in rows)
    return (f"{what:{width}}  {value}" for what, value in rows)


def metric(name: str, help_text: str, samples: dict[str, object]) -> Iterator[str]:
    """Yields a gauge with its samples, each by its labels."""
    yield f"# HELP bsched_{name} {help_text}"
    yield f"# TYPE bsched_{name} gauge"
    for labels, value in samples.items():
        yield f"bsched_{name}{labels} {value}"


def labelled(label: str, values: dict[str, int]) -> dict[str, object]:
    """Returns samples, one for each value of a label."""
    return {f'{{{label}="{name.replace(" ", "_")}"}}': number for name, number in values.items()}


def as_metrics(counts: Counts) -> Iterator[str]:
    """Yields the counts in the text format of Prometheus."""
    yield from metric("copy_timestamp_seconds", "When the copy was taken.", {"": counts.moment})
    yield from metric("schema", "The schema of the tables.", {"": counts.schema})
    yield from metric("tables_bytes", "The size of the copies.", {"": counts.bytes})
    yield from metric("credits", "All credit.", {"": credit_number(counts.millicredits)})
    yield from metric("workunits", "Workunits by their status.", labelled("status", counts.workunits))
    yield from metric(
        "stuck_workunits", "Open workunits that no user with a host can take.", {"": counts.stuck}
    )
    yield from metric("instances", "Instances by their state.", labelled("state", counts.instances))
    yield from metric("people", "Hosts and users.", labelled("kind", counts.people))
    used = {name: limit.used for name, limit in counts.limits.items()}
    most = {name: limit.most for name, limit in counts.limits.items()}
    yield from metric("rows", "Rows of the tables.", labelled("of", used))
    yield from metric("rows_limit", "How many rows there may be.", labelled("of", most))


def as_json(counts: Counts) -> Iterator[str]:
    """Yields the counts as one line of JSON."""
    yield counts.text()

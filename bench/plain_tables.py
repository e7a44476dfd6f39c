#!/usr/bin/env python3
"""The plain Python scheduler over a SQLite file: the twin with which `bench/serve life` compares bsched.

usage: plain_tables.py [--once] TABLES PORT
       plain_tables.py --upgrade TABLES
Serves the existing tables of a file on 127.0.0.1, one connection after the other, over a blocking socket. It
prints the port once it listens. docs/PROFILE.md states the formats and the rules, docs/STORED.md the stored
tables. The rules of one workunit are those of plain.py. If a message has a field `x-moment`, the twin acts on
it as of that second. With --upgrade it upgrades tables of the first schema to the newest.

Settings and applications are cached. All else is looked up by the statements of the proved program, as often
as the program does. Rows of accounts and workunits, and versions, stay cached until such a row is put. Rows
of instances and hosts stay cached, as they are put. So do the credit of users, how many jobs a host was sent
on a day, what hosts hold, and the first places of what waits. Hosts by account and client, and workunits by
name, stay cached until such a row is put with another key or name. A row that is past the last one leaves all
this cached: no row had its number. The slot for a host's next call stays cached until anything is put. With
--once no look-up is cached from one message to the next, and no statement runs twice for one message. Each
message that changes anything is one transaction, which is on the disk before the answer (journal_mode WAL,
synchronous FULL).
"""
import socket
import sqlite3
import sys
import time
from bisect import insort
from collections import Counter
from collections.abc import Iterator
from pathlib import Path
from typing import Any, NamedTuple

import plain
from plain_formats import KINDS, Record, Refused, is_word, record_of, rows_of, text
from served import needs

Row = tuple[Any, ...]
TableRow = tuple[str, Row]  # a table, and a row of it
Choice = tuple[int, plain.Version | None]  # the number of a chosen instance, and the version for it
Message = tuple[str, dict[str, str], bytes | None]  # first line, fields by name, and body

FIRST_SCHEMA = """
CREATE TABLE setting (name TEXT NOT NULL PRIMARY KEY, value ANY NOT NULL) STRICT;
CREATE TABLE account (id INTEGER PRIMARY KEY, auth TEXT NOT NULL UNIQUE, name TEXT NOT NULL) STRICT;
CREATE TABLE app (id INTEGER PRIMARY KEY, name TEXT NOT NULL UNIQUE, agreement INTEGER) STRICT;
CREATE TABLE version (id INTEGER PRIMARY KEY, app_id INTEGER NOT NULL REFERENCES app, platform TEXT NOT NULL,
  num INTEGER NOT NULL, UNIQUE (app_id, platform, num)) STRICT;
CREATE TABLE unit (id INTEGER PRIMARY KEY, name TEXT NOT NULL UNIQUE, app_id INTEGER NOT NULL REFERENCES app,
  min_quorum INTEGER NOT NULL, target_nresults INTEGER NOT NULL, max_error_results INTEGER NOT NULL,
  max_total_results INTEGER NOT NULL, max_success_results INTEGER NOT NULL, delay_bound INTEGER NOT NULL,
  rsc_fpops_est INTEGER NOT NULL, rsc_memory_bound INTEGER NOT NULL, rsc_disk_bound INTEGER NOT NULL,
  credit INTEGER NOT NULL, status INTEGER NOT NULL) STRICT;
CREATE TABLE host (id INTEGER PRIMARY KEY, account_id INTEGER NOT NULL REFERENCES account, cpid TEXT NOT NULL,
  platforms TEXT NOT NULL, fpops INTEGER NOT NULL, memory INTEGER NOT NULL, disk INTEGER NOT NULL,
  quota INTEGER NOT NULL, held INTEGER NOT NULL, credit INTEGER NOT NULL, UNIQUE (account_id, cpid)) STRICT;
CREATE TABLE instance (unit_id INTEGER NOT NULL REFERENCES unit, num INTEGER NOT NULL,
  host_id INTEGER REFERENCES host, sent INTEGER, deadline INTEGER, lapse INTEGER NOT NULL, outcome INTEGER,
  output TEXT, place INTEGER, queued INTEGER NOT NULL, PRIMARY KEY (unit_id, num)) STRICT;
CREATE TABLE kept (host_id INTEGER PRIMARY KEY REFERENCES host, seqno INTEGER NOT NULL, text TEXT NOT NULL,
  reply TEXT NOT NULL) STRICT;
CREATE TABLE batch (kind TEXT NOT NULL, name TEXT NOT NULL, text BLOB NOT NULL, answer TEXT NOT NULL,
  PRIMARY KEY (kind, name)) STRICT;
CREATE INDEX instance_queue ON instance (queued, unit_id, num);
CREATE INDEX instance_owner ON instance (host_id, unit_id, num);
CREATE INDEX instance_sent ON instance (host_id, sent);
CREATE INDEX instance_deadline ON instance (deadline);
"""
# what the second schema adds
SECOND_SCHEMA = """
CREATE TABLE kept4 (host_id INTEGER NOT NULL REFERENCES host, slot INTEGER NOT NULL, seqno INTEGER NOT NULL,
  text TEXT NOT NULL, reply TEXT NOT NULL, PRIMARY KEY (host_id, slot)) STRICT;
"""
# what the third schema adds
THIRD_SCHEMA = """
CREATE TABLE version_class (version_id INTEGER PRIMARY KEY REFERENCES version, class TEXT NOT NULL) STRICT;
CREATE TABLE unit_mark (unit_id INTEGER PRIMARY KEY REFERENCES unit, marked INTEGER NOT NULL, \
class TEXT) STRICT;
"""
# for each table: its columns, and how many of them, from the first on, are the key of a row
COLUMNS = {
    "setting": ("name, value", 1),
    "account": ("id, auth, name", 1),
    "app": ("id, name, agreement", 1),
    "version": ("id, app_id, platform, num", 1),
    "unit": (
        "id, name, app_id, min_quorum, target_nresults, max_error_results, max_total_results, "
        "max_success_results, delay_bound, rsc_fpops_est, rsc_memory_bound, rsc_disk_bound, credit, status",
        1,
    ),
    "host": ("id, account_id, cpid, platforms, fpops, memory, disk, quota, held, credit", 1),
    "instance": ("unit_id, num, host_id, sent, deadline, lapse, outcome, output, place, queued", 2),
    "kept4": ("host_id, slot, seqno, text, reply", 2),
    "batch": ("kind, name, text, answer", 2),
    "version_class": ("version_id, class", 1),
    "unit_mark": ("unit_id, marked, class", 1),
}
NEW_TABLES = ("kept4", "version_class", "unit_mark")  # tables that the first schema does not have
PLACES = "SELECT unit_id, num FROM instance WHERE unit_id > 0 AND num >= 0 AND "
FIRST_PAGE, FURTHER_PAGE = (
    8,
    64,
)  # how many waiting places a statement reads: the first one, and each further one
# the look-ups by their kinds
LOOK_UPS = {
    "account by authenticator": "SELECT id, auth, name FROM account WHERE id > 0 AND auth = ?1 ORDER BY id",
    "host by account and client": "SELECT id FROM host "
    "WHERE id > 0 AND account_id = ?1 AND cpid = ?2 ORDER BY id",
    "kept calls of a host": f"SELECT {COLUMNS['kept4'][0]} FROM kept4 WHERE host_id = ?1 ORDER BY rowid",
    "host by number": f"SELECT {COLUMNS['host'][0]} FROM host WHERE id = ?1 ORDER BY id",
    "what a host holds": f"{PLACES}host_id = ?1 AND sent >= 0 AND lapse = 0 AND outcome IS NULL "
    "ORDER BY sent DESC LIMIT ?2",
    "what a host was given": f"{PLACES}host_id = ?1 ORDER BY unit_id, num",
    "sent on a day": f"{PLACES}host_id = ?1 AND sent >= ?2 AND sent < ?3 ORDER BY sent",
    "hosts of a user": "SELECT id FROM host WHERE id > 0 AND account_id = ?1 ORDER BY id",
    "credit of a user": "SELECT credit FROM host WHERE id > 0 AND account_id = ?1 ORDER BY id",
    "workunit by name": "SELECT id FROM unit WHERE id > 0 AND name = ?1 ORDER BY id",
    "workunit": f"SELECT {COLUMNS['unit'][0]} FROM unit WHERE id = ?1 ORDER BY id",
    "mark of a workunit": f"SELECT {COLUMNS['unit_mark'][0]} FROM unit_mark "
    "WHERE unit_id = ?1 ORDER BY unit_id",
    "instances of a workunit": f"SELECT {COLUMNS['instance'][0]} FROM instance "
    "WHERE unit_id > 0 AND num >= 0 AND unit_id = ?1 ORDER BY unit_id, num",
    "version for a platform": "SELECT num FROM version "
    "WHERE id > 0 AND app_id = ?1 AND platform = ?2 ORDER BY id",
    "version of a number": "SELECT id FROM version "
    "WHERE id > 0 AND app_id = ?1 AND platform = ?2 AND num = ?3 ORDER BY id",
    "class of a version": f"SELECT {COLUMNS['version_class'][0]} FROM version_class "
    "WHERE version_id = ?1 ORDER BY version_id",
    **{
        f"what waits, {size} places": f"{PLACES}queued = 1 AND unit_id >= ?1 AND (unit_id > ?1 OR num >= ?2) "
        f"ORDER BY unit_id, num LIMIT {size}"
        for size in (FIRST_PAGE, FURTHER_PAGE)
    },
    "what is late": f"{PLACES}deadline >= ?1 AND deadline < ?2 AND lapse = 0 AND outcome IS NULL "
    "ORDER BY deadline",
    "kept import": f"SELECT {COLUMNS['batch'][0]} FROM batch WHERE kind = ?1 AND name = ?2 ORDER BY rowid",
    **{
        f"count of {table}s": f"SELECT id FROM {table} WHERE id > 0 ORDER BY id DESC LIMIT 1"
        for table in ("account", "app", "version", "unit", "host")
    },
}
SLOTS = 4  # how many calls of a host are kept
# how many rows are cached of a kind whose rows are large, and of one whose rows are small; how many versions
MOST_LARGE, MOST_SMALL, MOST_VERSIONS = 1_000, 10_000, 100
# the look-ups whose rows are cached
KEPT = {
    "account by authenticator": MOST_SMALL,
    "host by account and client": MOST_SMALL,
    "host by number": MOST_SMALL,
    "workunit by name": MOST_SMALL,
    "workunit": MOST_LARGE,
    "mark of a workunit": MOST_LARGE,
    "instances of a workunit": MOST_LARGE,
}
DAY = 86400
LAST_DEADLINE = 250_100_000_000
LEAST_DEADLINE = "SELECT min(deadline) FROM instance WHERE lapse = 0 AND outcome IS NULL"
MOST_LOOKS = 8  # how many workunits are looked up by key before all that the user had are listed
MOST_PLACES = 64  # how many places a page of what waits has at most
MOST_NOTED = 16  # how many offered workunits are cached in one pass through what waits


def put_texts(table: str) -> tuple[str, str]:
    """Returns two statements for a table's row: one puts it at its key, the other updates an existing row."""
    columns, keys = COLUMNS[table]
    names = columns.split(", ")
    given = [f"{name} = ?{number}" for number, name in enumerate(names, 1)]
    values = ", ".join(f"?{number}" for number in range(1, len(names) + 1))
    # a key of one number stays as it is; any other key is written again
    kept = 1 if keys == 1 and table != "setting" else 0
    moved = ", ".join(f"{name} = excluded.{name}" for name in names[kept:])
    return (
        f"INSERT INTO {table} ({columns}) VALUES ({values}) "
        f"ON CONFLICT ({', '.join(names[:keys])}) DO UPDATE SET {moved}",
        f"UPDATE {table} SET {', '.join(given[kept:])} WHERE {' AND '.join(given[:keys])}",
    )


PUTS = {table: put_texts(table)[0] for table in COLUMNS}
# tables whose rows mostly exist before they are put, so an UPDATE is tried first
CHANGES = {table: put_texts(table)[1] for table in ("unit", "host", "instance")}
STATUSES = ["open", "done", "errors", "success", "total"]
LAPSES = [None, "late", "dropped"]
OUTCOMES = {None: None, 1: 0, 3: 1}  # for each stored outcome, an exit status that means the same
UNIT_COLUMNS = COLUMNS["unit"][0].split(", ")

PHRASES = {
    200: "OK",
    400: "Bad Request",
    403: "Forbidden",
    404: "Not Found",
    405: "Method Not Allowed",
    409: "Conflict",
    411: "Length Required",
    413: "Payload Too Large",
}


# ---- Rows


class UnitRow(NamedTuple):
    """The row of a workunit, with its mark."""

    id: int
    name: str
    app_id: int
    min_quorum: int
    target_nresults: int
    max_error_results: int
    max_total_results: int
    max_success_results: int
    delay_bound: int
    rsc_fpops_est: int
    rsc_memory_bound: int
    rsc_disk_bound: int
    credit: int
    status: int
    marked: int
    version_class: str | None


class Unit(plain.Unit):
    """A workunit with its instances, as a message finds it. Its hosts are given by their numbers."""

    id: int
    app_id: int

    def __init__(self, row: UnitRow, agreement: str, rows: list[Row]) -> None:
        for column, value in zip(UnitRow._fields, row):
            setattr(self, column, value)
        self.agreement, self.stored, self.was, self.had_class = (
            agreement,
            rows,
            STATUSES[row.status],
            row.version_class,
        )
        self.status, self.instances = self.was, []
        judged: list[tuple[int, plain.Instance]] = []
        for _, number, host, sent, deadline, lapse, outcome, output, place, _ in rows:
            instance = plain.Instance(
                self, number, host, sent, deadline, LAPSES[lapse], OUTCOMES[outcome], output
            )
            self.instances.append(instance)
            if place is not None:
                judged.append((place, instance))
        self.judged = [instance for _, instance in sorted(judged, key=lambda pair: pair[0])]
        if self.status == "done":
            good = [instance for instance in self.judged if instance.exit_status == 0]
            best = plain.canonical(agreement, self, good)
            assert best is not None
            for instance in good:
                instance.verdict = plain.same(agreement, best, instance)

    def at(self, number: int) -> plain.Instance:
        """Returns the instance of a number."""
        return self.instances[number]

    def row(self) -> Row:
        """Returns its present row."""
        return *(getattr(self, column) for column in UNIT_COLUMNS[:-1]), STATUSES.index(self.status)

    def mark_row(self) -> Row:
        """Returns the present row of its mark."""
        return self.id, self.marked, self.version_class

    def instance_rows(self) -> list[Row]:
        """Returns the present rows of its instances."""
        places = {instance: place for place, instance in enumerate(self.judged, 1)}
        is_open = self.status == "open"
        return [
            (
                self.id,
                one.number,
                one.host,
                one.sent,
                one.deadline,
                LAPSES.index(one.lapse),
                None if one.exit_status is None else 3 if one.exit_status else 1,
                one.output,
                places.get(one),
                int(is_open and one.host is None),
            )
            for one in self.instances
        ]

    def add_shares(self, shares: dict[int, list[int]], sign: int) -> None:
        """Adds to its hosts' shares, or subtracts, what they have by this workunit: held jobs, and credit."""
        for one in self.instances:
            if one.host is not None:
                share = shares.setdefault(one.host, [0, 0])
                share[0] += sign * one.held()
                share[1] += sign * (self.credit if one.verdict else 0)


def unit_of(instance: plain.Instance) -> Unit:
    """Returns the workunit of an instance."""
    assert isinstance(instance.unit, Unit)
    return instance.unit


class Host:
    """A host's row."""

    def __init__(
        self,
        number: int,
        account: int,
        cpid: str,
        platforms: str,
        fpops: int,
        memory: int,
        disk: int,
        quota: int,
        *_counted: int,
    ) -> None:
        self.number, self.account, self.cpid, self.quota = number, account, cpid, quota
        self.platforms = platforms.split(",")
        self.facts = {"p_fpops": fpops, "m_nbytes": memory, "d_free": disk}

    def hears(self, record: Record) -> None:
        """Takes the facts and platforms that a call says."""
        self.facts = record["host_info"]
        self.platforms = [record["platform_name"], *record["alt_platforms"]]

    def row(self, held: int, credit: int) -> Row:
        """Returns its row with these counts."""
        facts = self.facts["p_fpops"], self.facts["m_nbytes"], self.facts["d_free"]
        return (
            self.number,
            self.account,
            self.cpid,
            ",".join(self.platforms),
            *facts,
            self.quota,
            held,
            credit,
        )


def least(numbers: list[int | None]) -> int:
    """Returns the slot for a call, given each slot's number: the first free one, else that of the least."""
    ranks = [-1 if number is None else number for number in numbers]
    return ranks.index(min(ranks))


def split_name(name: str) -> tuple[str, int] | None:
    """Returns the workunit's name and the number in a result's name, or None if it does not have both."""
    unit, underscore, number = name.rpartition("_")
    if (
        underscore
        and len(number) < 3
        and number.isascii()
        and number.isdigit()
        and (number == "0" or number[0] != "0")
    ):
        return unit, int(number)
    return None


# ---- The tables


def create(path: str | Path, settings: plain.Settings) -> None:
    """Creates new tables in a file, as `bsched create` does."""
    connection = sqlite3.connect(path)
    connection.executescript(
        f"PRAGMA journal_mode = WAL; BEGIN; {FIRST_SCHEMA} {SECOND_SCHEMA} {THIRD_SCHEMA} COMMIT;"
    )
    connection.executemany(PUTS["setting"], [("schema", 3), *settings.items()])
    connection.commit()
    connection.close()


def make_former(path: str | Path, newest: str | Path) -> None:
    """Creates tables of the first schema with the rows of newer ones. Of a host's calls it keeps the last."""
    connection = sqlite3.connect(path)
    connection.executescript(f"PRAGMA journal_mode = WAL; BEGIN; {FIRST_SCHEMA} COMMIT;")
    connection.execute("ATTACH ? AS newest", (newest,))
    for table, (columns, _) in COLUMNS.items():
        if table not in NEW_TABLES:
            connection.execute(f"INSERT INTO {table} SELECT {columns} FROM newest.{table} ORDER BY rowid")
    connection.execute(
        "INSERT INTO kept SELECT host_id, max(seqno), text, reply FROM newest.kept4 GROUP BY host_id"
    )
    connection.execute("UPDATE setting SET value = 1 WHERE name = 'schema'")
    connection.commit()
    connection.close()


# for each schema, the statements that upgrade tables to it from the one before
STEPS = {
    2: f"{SECOND_SCHEMA} INSERT INTO kept4 SELECT host_id, 0, seqno, text, reply FROM kept "
    "ORDER BY host_id; ",
    3: f"{THIRD_SCHEMA} INSERT INTO version_class SELECT id, platform FROM version ORDER BY id; "
    "INSERT INTO unit_mark SELECT id, 0, NULL FROM unit ORDER BY id; ",
}


def upgrade(path: str | Path, schema: int = 3) -> None:
    """Upgrades tables of the first schema in a file to this schema, as `bsched upgrade` does to the newest.
    Each step is a transaction, with one statement for all rows of a table."""
    connection = sqlite3.connect(path, isolation_level=None)
    connection.executescript("PRAGMA synchronous = FULL; PRAGMA foreign_keys = ON;")
    for reached in range(2, schema + 1):
        connection.executescript(
            f"BEGIN IMMEDIATE; {STEPS[reached]} UPDATE setting SET value = {reached} WHERE name = 'schema'; "
            "COMMIT;"
        )
    connection.close()


class Kept(dict[Any, Any]):
    """A cache of look-ups by their values. If it has `most` of them, the next one clears it first."""

    def __init__(self, most: int) -> None:
        super().__init__()
        self.most = most

    def keep(self, key: Any, value: Any) -> None:
        """Caches one more."""
        if len(self) >= self.most:
            self.clear()
        self[key] = value


class Tables:
    """The tables of a file: looks rows up, caches them, and puts rows."""

    def __init__(self, path: str | Path, once: bool = False, synchronous: str = "FULL") -> None:
        self.connection = sqlite3.connect(path, isolation_level=None)
        pragmas = (
            "locking_mode = EXCLUSIVE",
            "journal_mode = WAL",
            f"synchronous = {synchronous}",
            "foreign_keys = ON",
        )
        for pragma in pragmas:
            self.connection.execute(f"PRAGMA {pragma}").fetchall()
        self.once = once
        self.slot: tuple[int, int] | None = None  # a host, and the slot for its next call
        self.noted: list[
            tuple[int, list[Row], list[Row]]
        ] = []  # offered workunits, with their rows and marks
        # the page of waiting places that was read last: the place that it begins with, the one before which
        # it ends (None: it has all), and its places
        self.page: tuple[Row, Row | None, list[Row]] | None = None
        kinds: list[str] = [*LOOK_UPS] if once else [*KEPT]
        self.seen = {kind: Kept(KEPT.get(kind, MOST_LARGE)) for kind in kinds}
        self.versions = Kept(MOST_VERSIONS)
        # the credit of users by account; and by host: a day, and how many jobs the host was sent on it
        self.credits, self.sent = Kept(MOST_SMALL), Kept(MOST_SMALL)
        # the number of the last host and of the last workunit, once they were counted
        self.last: dict[str, int] = {}
        # the places of the jobs that hosts hold, in order
        self.held = Kept(MOST_LARGE)
        # no held instance has a deadline before the mark; `asked` is the moment that was asked about last
        (least_deadline,) = self.connection.execute(LEAST_DEADLINE).fetchone()
        self.mark, self.asked = LAST_DEADLINE if least_deadline is None else least_deadline, 0
        self.settings: plain.Settings = dict(
            self.connection.execute("SELECT name, value FROM setting ORDER BY rowid")
        )
        self.read_apps()

    def read_apps(self) -> None:
        """Reads the applications, which stay cached."""
        rows = self.connection.execute("SELECT id, name, agreement FROM app ORDER BY id").fetchall()
        self.apps = {
            number: (name, "exact" if near is None else f"within:{near}") for number, name, near in rows
        }

    def begin(self) -> None:
        """Begins a message. With --once it clears the cache."""
        if self.once:
            self.forget()

    def forget(self) -> None:
        """Clears the cache of look-ups."""
        for seen in (*self.seen.values(), self.versions, self.credits, self.sent, self.held):
            seen.clear()
        self.last.clear()
        self.page = None

    def is_new(self, table: str, number: int) -> bool:
        """Returns whether a row that was put is known to be new, since its number is past the last one."""
        is_new = table in self.last and number > self.last[table]
        if is_new:
            self.last[table] = number
        return is_new

    def note(self, table: str, row: Row) -> None:
        """Brings the cache up to date after a row was put: the cached row is replaced or removed."""
        key = row[:1]
        if table in ("unit", "unit_mark"):
            known = self.seen["workunit"].pop(key, None)
            self.seen["mark of a workunit"].pop(key, None)
            if table == "unit" and self.is_new(table, row[0]):
                self.seen["instances of a workunit"].keep(key, [])
            elif table == "unit" and (not known or known[0][1] != row[1]):
                self.seen["workunit by name"].clear()
        elif table == "instance":
            number, known = row[1], self.seen["instances of a workunit"].pop(key, None)
            self.move_sent(known, row)
            self.move_held(known, row)
            self.move_page(row)
            if known is not None and number <= len(known):
                self.seen["instances of a workunit"].keep(key, [*known[:number], row, *known[number + 1 :]])
        elif table == "host":
            known, is_new = self.seen["host by number"].pop(key, None), self.is_new(table, row[0])
            if not is_new and (not known or known[0][1:3] != row[1:3]):
                self.seen["host by account and client"].clear()
            self.move_credit(known, is_new, row)
            self.seen["host by number"].keep(key, [row])
        elif table == "account":
            self.seen["account by authenticator"].clear()
        elif table in ("app", "version", "version_class"):
            self.versions.clear()
        if table == "app":
            self.seen["workunit"].clear()
            self.seen["mark of a workunit"].clear()

    def move_credit(self, known: list[Row] | None, is_new: bool, row: Row) -> None:
        """If the host was cached, or is new, changes the cached credit of its user by what the row adds."""
        account = row[1]
        if is_new:
            before = 0
        elif known and known[0][1] == account:
            before = known[0][9]
        else:
            self.credits.clear()
            return
        if account in self.credits:
            self.credits[account] += row[9] - before

    def move_sent(self, known: list[Row] | None, row: Row) -> None:
        """If the workunit's instances were cached, changes the cached count of jobs sent to a host on a
        day."""
        if known is None:
            self.sent.clear()
            return
        old = known[row[1]] if row[1] < len(known) else None
        before = None if old is None or old[2] is None else (old[2], old[3] // DAY)
        after = None if row[2] is None else (row[2], row[3] // DAY)
        if before is None and after is not None:
            host, day = after
            known_day, count = self.sent.get(host, (None, 0))
            if known_day == day:
                self.sent[host] = day, count + 1
        elif before != after:
            self.sent.clear()

    def move_held(self, known: list[Row] | None, row: Row) -> None:
        """If the workunit's instances were cached, moves the place from the cached list of the host that held
        it to that of the host that holds it."""
        if known is None:
            self.held.clear()
            return
        place, old = row[:2], known[row[1]] if row[1] < len(known) else None
        before, after = (
            None if it is None or it[5] != 0 or it[6] is not None else it[2] for it in (old, row)
        )
        if before == after:
            return
        if before in self.held:
            self.held[before] = [it for it in self.held[before] if it != place]
        if after in self.held:
            insort(self.held[after], place)

    def is_on_page(self, place: Row) -> bool:
        """Returns whether a place is one that the cached page of what waits would have, if it waited."""
        if self.page is None:
            return False
        begin, end, _ = self.page
        return begin <= place and (end is None or place < end)

    def move_page(self, row: Row) -> None:
        """Puts the place of an instance into the cached page of what waits, or takes it out of it."""
        place, waits = row[:2], row[9] == 1
        if self.page is None or not self.is_on_page(place):
            return
        begin, end, places = self.page
        places = sorted({*places, place} if waits else {*places} - {place})
        is_kept = len(places) <= MOST_PLACES and (places or end is None)
        self.page = (begin, end, places) if is_kept else None

    def credit_of_user(self, account: int) -> int:
        """Returns the credit of a user."""
        if account not in self.credits:
            self.credits.keep(account, sum(row[0] for row in self.shown("credit of a user", account)))
        return int(self.credits[account])

    def sent_on_day(self, host: int, day: int) -> int:
        """Returns how many jobs a host was sent on a day, regardless of what became of them."""
        known_day, count = self.sent.get(host, (None, 0))
        if known_day != day:
            count = len(self.shown("sent on a day", host, day * DAY, day * DAY + DAY))
            self.sent.keep(host, (day, count))
        return int(count)

    def shown(self, kind: str, *values: Any) -> list[Row]:
        """Returns the rows of a look-up."""
        seen = self.seen.get(kind)
        if seen is not None and values in seen:
            known: list[Row] = seen[values]
            return known
        rows = self.connection.execute(LOOK_UPS[kind], values).fetchall()
        if seen is not None and (self.once or rows):
            seen.keep(values, rows)
        return rows

    def first(self, kind: str, *values: Any) -> Row | None:
        """Returns the first row of a look-up, or None if there is none."""
        rows = self.shown(kind, *values)
        return rows[0] if rows else None

    def only(self, kind: str, *values: Any) -> Row:
        """Returns the first row of a look-up that has one."""
        return self.shown(kind, *values)[0]

    def put(self, rows: list[TableRow]) -> None:
        """Puts rows in one transaction. Each is a table and its values."""
        self.slot = None
        for table, row in rows:
            if table == "instance" and row[2] is not None and row[5] == 0 and row[6] is None:
                self.mark = min(self.mark, row[4])
        if rows:
            self.connection.execute("BEGIN IMMEDIATE")
            expected = True  # whether an UPDATE is tried first; no longer once one finds no row
            for table, row in rows:
                tried = expected and table in CHANGES
                stood = tried and self.connection.execute(CHANGES[table], row).rowcount > 0
                if not stood:
                    self.connection.execute(PUTS[table], row)
                expected = stood if tried else expected
            self.connection.execute("COMMIT")
        for table, row in rows:
            self.note(table, row)
        if self.once:
            self.forget()

    def number_of(self, kind: str, *values: Any) -> int | None:
        """Returns the number that the first row of a look-up begins with, or None if there is no row."""
        row = self.first(kind, *values)
        return None if row is None else row[0]

    def kept_calls(self, host: int) -> list[list[Any]]:
        """Returns number, text and reply of each kept call of a host. It caches the slot for the next one."""
        calls = {slot: call for _, slot, *call in self.shown("kept calls of a host", host)}
        self.slot = host, least([calls[slot][0] if slot in calls else None for slot in range(SLOTS)])
        return list(calls.values())

    def slot_for(self, host: int) -> int:
        """Returns the slot into which the next call of a host is put."""
        if self.slot is None or self.slot[0] != host:
            self.kept_calls(host)
        assert self.slot is not None
        return self.slot[1]

    def counts(self) -> dict[str, int]:
        """Returns how many rows each table has. From now on a host or a workunit with a greater number is
        new."""
        counts = {
            table: self.number_of(f"count of {table}s") or 0
            for table in ("account", "app", "version", "unit", "host")
        }
        self.last = {table: counts[table] for table in ("host", "unit")}
        return counts

    def unit_row(self, number: int) -> UnitRow:
        """Returns the row of a workunit, with its mark."""
        row = self.only("workunit", number)
        _, marked, version_class = self.only("mark of a workunit", number)
        return UnitRow._make([*row, marked, version_class])

    def unit(self, number: int) -> Unit:
        """Returns a workunit with its agreement and its instances."""
        row = self.unit_row(number)
        _, agreement = self.apps[row.app_id]
        return Unit(row, agreement, self.shown("instances of a workunit", number))

    def host(self, number: int) -> Host | None:
        """Returns a host, or None if there is no row of it."""
        row = self.first("host by number", number)
        return None if row is None else Host(*row)

    def held_count(self, host: int) -> int:
        """Returns how many jobs a host holds. If it has no row, it checks that the host was given nothing."""
        row = self.first("host by number", host)
        if row is None:
            assert not self.shown("what a host was given", host)
            return 0
        return int(row[8])

    def held_by(self, host: int) -> list[Row]:
        """Returns the places of a host's held jobs, in order. The look-up goes from the newest job on."""
        held = self.held_count(host)
        if held and host not in self.held:
            self.held.keep(host, sorted(self.shown("what a host holds", host, held)))
        return list(self.held[host]) if held else []

    def due_from_mark(self, now: int) -> list[Row]:
        """Returns the places of the jobs held past their deadline. The look-up starts at the mark, which
        rises if it finds none."""
        due = sorted(self.shown("what is late", self.mark, now))
        if not due:
            self.mark = max(self.mark, now)
        return due

    def due_before(self, now: int) -> list[Row]:
        """Returns what due_from_mark does. If the mark is before the last moment asked, it first looks up
        whether jobs due then are still held."""
        if self.mark < self.asked:
            self.due_from_mark(self.asked)
        self.asked = now
        return self.due_from_mark(now)

    def credit_of_host(self, host: int) -> int:
        """Returns the credit of a host. If it has no row, it checks that the host was given nothing."""
        row = self.first("host by number", host)
        if row is None:
            assert not self.shown("what a host was given", host)
            return 0
        return int(row[9])

    def version(self, host: Host, app: int) -> plain.Version | None:
        """Returns number, platform and class of the newest version for the first platform that has one."""
        asked = tuple(host.platforms), app
        if asked in self.versions:
            known: plain.Version = self.versions[asked]
            return known
        for platform in host.platforms:
            if numbers := self.shown("version for a platform", app, platform):
                (newest,) = max(numbers)
                _, version_class = self.only(
                    "class of a version", self.number_of("version of a number", app, platform, newest)
                )
                found = newest, platform, version_class
                self.versions.keep(asked, found)
                return found
        return None

    def offered(self, unit: int) -> UnitRow:
        """Returns the row of an offered workunit. The first ones are cached when the offers end."""
        if self.once:
            return self.unit_row(unit)
        row, mark = (
            self.seen[kind].get((unit,)) or self.connection.execute(LOOK_UPS[kind], (unit,)).fetchall()
            for kind in ("workunit", "mark of a workunit")
        )
        if len(self.noted) < MOST_NOTED:
            self.noted.append((unit, row, mark))
        return UnitRow._make([*row[0], *mark[0][1:]])

    def offers_end(self) -> None:
        """Caches the rows that were noted of the offers so far."""
        for unit, row, mark in self.noted:
            self.seen["workunit"].keep((unit,), row)
            self.seen["mark of a workunit"].keep((unit,), mark)
        self.noted.clear()

    def read_page(self, size: int, *place: int) -> tuple[list[Row], Row | None]:
        """Returns up to `size` waiting places from a place on, and the place before which they end: None if
        there are no more."""
        places = self.shown(f"what waits, {size} places", *place)
        if len(places) < size:
            return places, None
        unit, number = places[-1]
        return places, (unit, number + 1)

    def waiting(self, *place: int) -> Iterator[Row]:
        """Yields the places of waiting instances, from a place on."""
        if not self.is_on_page(place):
            places, end = self.read_page(FIRST_PAGE, *place)
            self.page = place, end, places
        assert self.page is not None
        _, end, places = self.page
        places = [it for it in places if it >= place]
        while True:
            yield from places
            if end is None:
                return
            places, end = self.read_page(FURTHER_PAGE, *end)


class Page:
    """What a message read, each row once and in its present state, and which of it the message put."""

    def __init__(self, tables: Tables) -> None:
        self.tables = tables
        self.units: dict[int, Unit] = {}
        self.hosts: dict[int, Host] = {}
        self.put_units: set[int] = set()
        self.put_hosts: dict[int, Host] = {}

    def unit(self, number: int) -> Unit:
        """Returns a workunit."""
        if number not in self.units:
            self.units[number] = self.tables.unit(number)
        return self.units[number]

    def host(self, number: int) -> Host:
        """Returns an existing host."""
        if number not in self.hosts:
            host = self.tables.host(number)
            assert host is not None
            self.hosts[number] = host
        return self.hosts[number]

    def put_unit(self, number: int) -> None:
        """Notes that instances of a workunit are put."""
        self.put_units.add(number)

    def put_host(self, host: Host) -> None:
        """Notes that a host is put."""
        self.hosts[host.number] = self.put_hosts[host.number] = host

    def rows(self) -> list[TableRow]:
        """Returns the changed rows. What was put is looked up again, since counts change by differences."""
        tables = self.tables
        units: list[TableRow] = []
        marks: list[TableRow] = []
        instances: list[TableRow] = []
        shares: dict[int, list[int]] = {}
        for number in self.put_hosts:
            if tables.host(number) is None:
                tables.counts()
        for number in sorted(self.put_units):
            unit, before = self.units[number], tables.unit(number)
            before.add_shares(shares, -1)
            unit.add_shares(shares, 1)
            if unit.status != unit.was:
                units.append(("unit", unit.row()))
            if unit.version_class != unit.had_class:
                marks.append(("unit_mark", unit.mark_row()))
            stored = [*unit.stored, *[None] * (len(unit.instances) - len(unit.stored))]
            instances += [("instance", row) for row, old in zip(unit.instance_rows(), stored) if row != old]
        hosts = [
            self.host_row(number, *shares.get(number, (0, 0)))
            for number in sorted({*self.put_hosts, *shares})
        ]
        return [*units, *marks, *filter(None, hosts), *instances]

    def host_row(self, number: int, held: int, credit: int) -> TableRow | None:
        """Returns the row of a host if it was put or its share has changed, otherwise None."""
        if number not in self.put_hosts and (held, credit) == (0, 0):
            return None
        held += self.tables.held_count(number)
        credit += self.tables.credit_of_host(number)
        host = self.put_hosts.get(number) or self.tables.host(number)
        assert host is not None
        return "host", host.row(held, credit)


# ---- The job machine


class Machine:
    """How a call and a tick change the tables."""

    def __init__(self, tables: Tables) -> None:
        self.tables, self.settings = tables, tables.settings

    def instance(self, page: Page, host: Host, name: str) -> plain.Instance | None:
        """Returns the instance of that name if the host owns it, otherwise None."""
        parts = split_name(name)
        number = None if parts is None else self.tables.number_of("workunit by name", parts[0])
        if parts is None or number is None:
            return None
        unit = page.unit(number)
        instance = unit.at(parts[1]) if parts[1] < len(unit.instances) else None
        return instance if instance is not None and instance.host == host.number else None

    def fits(self, host: Host, unit: Unit | UnitRow, version: plain.Version | None) -> bool:
        """Returns whether the host can run the workunit in time with this version, whose class must be the
        workunit's if it has one."""
        return (
            unit.rsc_memory_bound <= host.facts["m_nbytes"]
            and unit.rsc_disk_bound <= host.facts["d_free"]
            and plain.estimate(unit, host) <= unit.delay_bound
            and version is not None
            and unit.version_class in (None, version[2])
        )

    def take_reports(
        self, page: Page, host: Host, results: list[Record], charges: Counter[int]
    ) -> list[Unit]:
        """Records the host's reports of its own instances. Returns the workunits that this touches."""
        touched: list[Unit] = []
        firsts: dict[str, Record] = {}
        for report in results:
            firsts.setdefault(report["name"], report)
        for name, report in firsts.items():
            instance = self.instance(page, host, name)
            if instance is None or instance.exit_status is not None:
                continue
            unit = unit_of(instance)
            instance.exit_status, instance.output = report["exit_status"], report["output"]
            if not unit.failed():
                unit.judged.append(instance)
                charges[host.number] += instance.exit_status != 0
            page.put_unit(unit.id)
            touched.append(unit)
        return touched

    def take_lost(
        self, page: Page, host: Host, held: list[Row], listed: set[str], now: int
    ) -> tuple[list[plain.Instance], list[Unit]]:
        """Sends again or drops what the host held and does not list. Returns the jobs sent again, and the
        workunits of the dropped ones."""
        resent, touched, lost = [], [], []
        for unit, number in held:
            instance = page.unit(unit).at(number)
            if instance.held() and instance.name() not in listed:
                lost.append(instance)
        for instance in lost:
            unit = unit_of(instance)
            page.put_unit(unit.id)
            if unit.status == "open" and self.fits(host, unit, self.tables.version(host, unit.app_id)):
                if now + plain.estimate(unit, host) > instance.due():
                    instance.deadline = now + unit.delay_bound
                resent.append(instance)
            else:
                instance.lapse = "dropped"
                touched.append(unit)
        return resent, touched

    def settle_all(self, page: Page, touched: list[Unit], charges: Counter[int]) -> Counter[int]:
        """Settles workunits and changes quotas. Returns each host's new credit. `charges` are those before
        verdicts."""
        merits: Counter[int] = Counter()
        gains: Counter[int] = Counter()
        for unit in dict.fromkeys(touched):
            for instance in plain.settle(unit.agreement, unit):
                (merits if instance.verdict else charges)[instance.host] += 1
                gains[instance.host] += unit.credit if instance.verdict else 0
            page.put_unit(unit.id)
        for number in sorted({*+charges, *merits}):
            host = page.host(number)
            quota = max(1, host.quota - charges[number]) * 2 ** merits[number]
            host.quota = min(self.settings["daily_result_quota"], quota)
            page.put_host(host)
        return gains

    def aborts(self, page: Page, host: Host, names: list[str]) -> list[str]:
        """Returns the names of results that the host should drop, each once."""
        aborted = []
        for name in dict.fromkeys(names):
            instance = self.instance(page, host, name)
            if instance is None or instance.exit_status is not None or instance.unit.failed():
                aborted.append(name)
        return aborted

    def user_had(self, account: int, unit: int) -> bool:
        """Returns whether a host of the user ever had an instance of a workunit, by look-ups of keys."""
        tables = self.tables
        owners = (row[2] for row in tables.shown("instances of a workunit", unit))
        hosts = (tables.host(owner) for owner in owners if owner is not None)
        return any(host is not None and host.account == account for host in hosts)

    def units_of_user(self, account: int) -> set[int]:
        """Returns the workunits of which a host of the user ever had an instance."""
        tables, had = self.tables, set[int]()
        for (number,) in tables.shown("hosts of a user", account):
            had.update(unit for unit, _ in tables.shown("what a host was given", number))
        return had

    def choose(
        self, host: Host, held: int, seconds: int, asked: int, now: int
    ) -> tuple[dict[int, Choice], str]:
        """Returns the places of jobs for the host, each with its version, and the end word."""
        tables, settings = self.tables, self.settings
        jobs: dict[int, Choice] = {}
        known: dict[int, plain.Version | None] = {}
        sent = tables.sent_on_day(host.number, now // DAY)
        # whether the user had a workunit: `looks` for some by key, `past` for all
        looks: dict[int, bool] = {}
        past: set[int] | None = None

        def had(unit: int) -> bool | None:
            return looks.get(unit) if past is None else unit in past

        def end_word() -> str | None:
            if seconds >= asked:
                return "enough"
            if len(jobs) >= settings["max_wus_to_send"]:
                return "reply_limit"
            if held + len(jobs) >= settings["max_wus_in_progress"]:
                return "in_progress_limit"
            return "daily_quota" if sent + len(jobs) >= host.quota else None

        word, offers = end_word(), tables.waiting(1, 0)
        while word is None:
            unit, number = next(offers, (None, None))
            if unit is None:
                tables.offers_end()
                return jobs, "no_eligible_work"
            if unit in jobs or had(unit):  # its row need not be read
                continue
            row = tables.offered(unit)
            if row.app_id in known and not self.fits(host, row, known[row.app_id]):
                continue
            if row.app_id in known and had(unit) is not None:
                jobs[unit] = number, known[row.app_id]
                seconds += plain.estimate(row, host)
                word = end_word()
                continue
            tables.offers_end()  # the offers resume here once version and past are known
            if row.app_id not in known:
                known[row.app_id] = tables.version(host, row.app_id)
            if known[row.app_id] and had(unit) is None:
                if len(looks) < MOST_LOOKS:
                    looks[unit] = self.user_had(host.account, unit)
                else:
                    past = self.units_of_user(host.account)
            offers = tables.waiting(unit, number)
        tables.offers_end()
        return jobs, word

    def job(
        self, host: Host, instance: plain.Instance, version: plain.Version | None, resent: bool
    ) -> Record:
        """Returns what a reply says about a job."""
        assert version is not None
        number, platform, _ = version
        return {
            "app_name": self.tables.apps[unit_of(instance).app_id][0],
            "estimate": plain.estimate(instance.unit, host),
            "name": instance.name(),
            "platform": platform,
            "report_deadline": instance.deadline,
            "resent": resent,
            "version_num": number,
            "wu_name": instance.unit.name,
        }

    def new_host(self, account: int, record: Record) -> Host:
        """Returns a new host with the next number."""
        number = self.tables.counts()["host"] + 1
        if number > self.settings["max_hosts"]:
            raise Refused(409, 12, "hosts_full")
        return Host(
            number,
            account,
            record["host_info"]["host_cpid"],
            "",
            1,
            0,
            0,
            self.settings["daily_result_quota"],
        )

    def call(
        self, account: int, number: int | None, record: Record, now: int
    ) -> tuple[int, list[TableRow], Record]:
        """Handles a fresh call. A host without a number is new. Returns its number, rows to put, and
        reply."""
        tables, page = self.tables, Page(self.tables)
        charges: Counter[int] = Counter()
        resent: list[plain.Instance] = []
        dropped: list[Unit] = []
        host = self.new_host(account, record) if number is None else page.host(number)
        host.hears(record)
        page.put_host(host)
        held, listed = tables.held_by(host.number), record.get("other_results")
        touched = self.take_reports(page, host, record["results"], charges)
        if listed is not None and self.settings["resend_lost_results"]:
            resent, dropped = self.take_lost(page, host, held, set(listed), now)
        gains = self.settle_all(page, touched + dropped, charges)
        aborts = self.aborts(page, host, listed or [])
        still = sum(unit not in page.units or page.unit(unit).at(place).held() for unit, place in held)
        seconds = sum(plain.estimate(instance.unit, host) for instance in resent)
        chosen, end_word = self.choose(host, still, seconds, record["work_req_seconds"], now)
        granted = []
        for unit, (place, version) in chosen.items():
            instance = page.unit(unit).at(place)
            instance.host, instance.sent, instance.deadline = (
                host.number,
                now,
                now + instance.unit.delay_bound,
            )
            if version is not None and instance.unit.marked and instance.unit.version_class is None:
                instance.unit.version_class = version[2]
            page.put_unit(unit)
            granted.append((instance, version))
        credit = tables.credit_of_host(host.number) + gains[host.number]
        user_credit = tables.credit_of_user(account)
        user_credit += sum(gain for number, gain in gains.items() if page.host(number).account == account)
        _, _, user_name = tables.only("account by authenticator", record["authenticator"])
        again = [(instance, tables.version(host, unit_of(instance).app_id)) for instance in resent]
        reply = {
            "end_word": end_word,
            "host_total_credit": credit,
            "hostid": host.number,
            "request_delay": self.settings["request_delay"],
            "result_abort": aborts,
            "result_ack": list(dict.fromkeys(report["name"] for report in record["results"])),
            "results": [self.job(host, *job, True) for job in again]
            + [self.job(host, *job, False) for job in granted],
            "rpc_seqno": record["rpc_seqno"],
            "user_name": user_name,
            "user_total_credit": user_credit,
        }
        return host.number, page.rows(), reply

    def tick(self, now: int) -> int:
        """Lapses every held instance that is past its deadline. Returns how many did."""
        self.tables.begin()
        page, touched = Page(self.tables), []
        charges: Counter[int] = Counter()
        for unit, number in self.tables.due_before(now):
            instance = page.unit(unit).at(number)
            instance.lapse = "late"
            charges[instance.host] += 1
            touched.append(unit_of(instance))
        self.settle_all(page, touched, charges)
        if not touched:
            self.tables.counts()  # as the program does if nothing changes
        self.tables.put(page.rows())
        return len(touched)


# ---- The service: what is kept of calls and imports, and the refusals


class Service(plain.Service):
    """Answers messages and the lines of a replay."""

    machine: Machine  # type: ignore[assignment]  # it has the rules of plain.py, over tables

    def __init__(self, tables: Tables) -> None:
        self.tables, self.machine = tables, Machine(tables)

    def app_place(self, name: str) -> int | None:
        """Returns the number of the application of this name, or None if there is none."""
        return next((number for number, (other, _) in self.tables.apps.items() if other == name), None)

    def stands(self, kind: str, row: list[str]) -> bool:
        """Returns whether the tables have a row with the name of this one."""
        if kind == "accounts":
            return self.tables.first("account by authenticator", row[0]) is not None
        if kind == "workunits":
            return self.tables.first("workunit by name", row[0]) is not None
        place = self.app_place(row[0])
        if kind == "apps" or place is None:
            return place is not None
        return self.tables.first("version of a number", place, row[1], int(row[2])) is not None

    def checked_rows(self, kind: str, body: str) -> list[list[str]]:
        """Returns the rows of an import, after checking that their names are new."""
        _, names, app, most = KINDS[kind]
        rows, new = rows_of(kind, body), set[Row]()
        for number, row in enumerate(rows, 1):
            name = tuple(row[:names])
            if self.stands(kind, row) or name in new:
                raise Refused(409, 15, "duplicate_name", row=number)
            new.add(name)
        for number, row in enumerate(rows, 1):
            if app is not None and self.app_place(row[app]) is None:
                raise Refused(409, 16, "unknown_reference", row=number)
        if self.tables.counts()[kind.removesuffix("s").removeprefix("work")] + len(rows) > most:
            raise Refused(409, 18, "table_full")
        return rows

    def added(self, kind: str, row: list[str], number: int) -> list[TableRow]:
        """Returns the rows that one row of an import puts, given the number that it gets."""
        if kind == "accounts":
            return [("account", (number, *row))]
        if kind == "apps":
            near = row[1].removeprefix("within:")
            return [("app", (number, row[0], None if near == "exact" else int(near)))]
        place = self.app_place(row[kind == "workunits"])
        assert place is not None
        if kind == "versions":
            return [("version", (number, place, row[1], int(row[2]))), ("version_class", (number, row[3]))]
        unit = Unit(
            UnitRow._make([number, row[0], place, *map(int, row[2:12]), 0, int(row[12]), None]),
            self.tables.apps[place][1],
            [],
        )
        unit.add(unit.target_nresults)
        return [
            ("unit", unit.row()),
            ("unit_mark", unit.mark_row()),
            *(("instance", instance) for instance in unit.instance_rows()),
        ]

    def imported(self, kind: str, batch: str, body: str) -> str:
        """Returns the answer to an import."""
        self.tables.begin()
        if kind not in KINDS:
            raise Refused(404, 2, "no_route")
        if len(body.encode()) > 1048576:
            raise Refused(413, 5, "too_large")
        kept = self.tables.first("kept import", kind, batch)
        if kept is not None:
            if kept[2] != body.encode():
                raise Refused(409, 17, "batch_reused")
            answer: str = kept[3]
            return answer
        rows = self.checked_rows(kind, body)
        last = self.tables.counts()[kind.removesuffix("s").removeprefix("work")]
        answer = text({"batch": batch, "kind": kind, "rows": len(rows)})
        put = [made for number, row in enumerate(rows, last + 1) for made in self.added(kind, row, number)]
        self.tables.put([*put, ("batch", (kind, batch, body.encode(), answer))])
        if kind == "apps":
            self.tables.read_apps()
        return answer

    def scheduler(self, body: bytes, now: int) -> str:
        """Returns the answer to a call."""
        self.tables.begin()
        record = record_of(body)
        tables, account = self.tables, self.tables.first("account by authenticator", record["authenticator"])
        if account is None:
            raise Refused(403, 8, "bad_account")
        number = tables.number_of("host by account and client", account[0], record["host_info"]["host_cpid"])
        if record["hostid"] not in (0, number):
            raise Refused(409, 9, "bad_host")
        seqno, request = record["rpc_seqno"], text(record)
        kept = [] if number is None else tables.kept_calls(number)
        if kept:
            last = max(call[0] for call in kept)
            before = next((call for call in kept if call[0] == seqno), None)
            if before is not None and before[1] == request:
                former: str = before[2]
                return former
            if seqno <= last:
                raise Refused(409, *((11, "reused") if before is not None else (10, "stale")), last=last)
        number, rows, fields = self.machine.call(account[0], number, record, now)
        reply = text(fields)
        tables.put([*rows, ("kept4", (number, tables.slot_for(number), seqno, request, reply))])
        return reply

    # ---- HTTP

    def routed(self, method: str, path: str, fields: dict[str, str], body: bytes | None, now: int) -> str:
        """Returns the body of the answer to a message. Raises Refused if it has another status than 200."""
        parts = path.split("?")[0].split("/")[1:]
        is_import = len(parts) == 3 and parts[0] == "import" and parts[1] in KINDS and is_word(parts[2])
        if not (parts in (["scheduler"], ["tick"]) or is_import):
            raise Refused(404, 2, "no_route")
        if method != "POST":
            raise Refused(405, 3, "wrong_method")
        if parts != ["scheduler"] and fields.get("x-operator-key") != self.tables.settings["operator_key"]:
            raise Refused(403, 13, "not_operator")
        if body is None:
            raise Refused(411, 4, "length_required")
        if parts == ["scheduler"]:
            return self.scheduler(body, now)
        if is_import:
            return self.imported(parts[1], parts[2], body.decode())
        return text({"lapsed": self.machine.tick(now)})

    def respond(self, message: Message) -> bytes:
        """Returns the bytes of the response to a message, given as first line, fields and body."""
        first, fields, body = message
        method, path, _ = first.split(" ")
        now = int(fields["x-moment"]) if "x-moment" in fields else int(time.time())
        try:
            status, answer = 200, self.routed(method, path, fields, body, now)
        except Refused as refusal:
            status, answer = refusal.status, refusal.body
        content = answer.encode()
        allow = "allow: POST\r\n" if status == 405 else ""
        head = f"HTTP/1.1 {status} {PHRASES[status]}\r\n{allow}content-type: application/json\r\n"
        return f"{head}content-length: {len(content)}\r\nconnection: close\r\n\r\n".encode() + content


def heard(connection: socket.socket) -> Message | None:
    """Returns a message's first line, its fields by name, and its body, or None if the client goes away."""
    data = b""
    while (end := data.find(b"\r\n\r\n")) < 0:
        some = connection.recv(65536)
        if not some:
            return None
        data += some
    first, *lines = data[:end].decode().split("\r\n")
    fields = {}
    for line in lines:
        name, _, value = line.partition(":")
        fields[name.lower()] = value.strip()
    body = data[end + 4 :]
    if "content-length" not in fields:
        return first, fields, b"" if "/tick" in first else None
    while len(body) < int(fields["content-length"]):
        some = connection.recv(65536)
        if not some:
            return None
        body += some
    return first, fields, body


def main() -> None:
    """Serves until it is killed, or upgrades."""
    if len(sys.argv) < 3:
        needs("bench/plain_tables.py", "it needs [--once] TABLES PORT, or --upgrade TABLES")
    *options, path, port = sys.argv[1:]
    if path == "--upgrade":
        upgrade(port)
        return
    service = Service(Tables(path, once="--once" in options))
    listener = socket.create_server(("127.0.0.1", int(port)))
    print(listener.getsockname()[1], flush=True)
    while True:
        connection, _ = listener.accept()
        with connection:
            connection.setsockopt(socket.IPPROTO_TCP, socket.TCP_NODELAY, 1)
            message = heard(connection)
            if message is not None:
                connection.sendall(service.respond(message))


if __name__ == "__main__":
    main()

"""The hosts that the bridge knows, in the state file, and the numbers by which clients know them.

bsched knows a host by its key, an authenticator and a host_cpid. Its number of a host belongs to one set of
tables. A further file numbers the hosts anew, and tables that were restored from a copy give a number a
second time. So clients get a hostid of the bridge's own, a random number that no other host in the state file
has. After a loss of that file a number can be given again, but hardly ever to a host of the same account; if
it is, the exchange finds it out by the host_cpid. bsched's number is for statements only.
"""
import secrets
import sqlite3
import time
from dataclasses import dataclass
from typing import cast

from bsched_files.file_names import FIRST

from ..common.state_file import StateFile

# Hostids have 31 bits. Former versions told clients bsched's numbers, which are at most 100,000.
LEAST_NUMBER, MOST_NUMBER = 100_001, 2**31 - 1
SERVED = FIRST  # the file of the project whose bsched the bridge calls
HEARD = "authenticator, host_cpid, hostid, scheduler_hostid, user_name, user_credit, host_credit, heard_at"
IN_FILE = f"host CROSS JOIN host_file ON host_file.host = host.id AND host_file.file = {SERVED}"
# the hosts that count for `most_hosts`: those that bsched has, or may have by now
COUNTED = (
    "(heard_at IS NOT NULL OR "
    "EXISTS (SELECT 1 FROM host_file WHERE host_file.host = host.id AND open_call IS NOT NULL))"
)
# a host that bsched has in no file was heard by none
UNHEARD = (
    "UPDATE host SET heard_at = NULL WHERE id = ?1 AND NOT EXISTS "
    "(SELECT 1 FROM host_file WHERE host = ?1 AND scheduler_hostid IS NOT NULL)"
)


@dataclass(frozen=True, slots=True)
class Key:
    """The key by which bsched knows a host."""

    authenticator: str
    host_cpid: str


IS_USED = "SELECT 1 FROM host WHERE hostid = ?1 UNION ALL SELECT 1 FROM host_day WHERE hostid = ?1"


@dataclass(frozen=True, slots=True)
class HeardHost:
    """A host as the latest reply described it."""

    authenticator: str  # of its account, since users may have the same name; it is a secret
    host_cpid: str
    hostid: int | None  # as its client knows it; None if no client was told the number yet
    scheduler_hostid: int
    user_name: str
    user_credit: int
    host_credit: int
    heard_at: int

    @property
    def key(self) -> Key:
        """The key of the host."""
        return Key(self.authenticator, self.host_cpid)


def random_number() -> int:
    """Returns a random hostid."""
    return LEAST_NUMBER + secrets.randbelow(MOST_NUMBER - LEAST_NUMBER + 1)


def new_hostid(connection: sqlite3.Connection) -> int:
    """Returns a random hostid that the state file has nowhere, within a transaction."""
    while connection.execute(IS_USED, (number := random_number(),)).fetchone() is not None:
        pass
    return number


def lose_number(connection: sqlite3.Connection, host: int) -> None:
    """Notes that the served file does not have a host any more, within a transaction."""
    connection.execute(
        "UPDATE host_file SET scheduler_hostid = NULL WHERE host = ? AND file = ?", (host, SERVED)
    )
    connection.execute(UNHEARD, (host,))


class Hosts:
    """The hosts in a state file."""

    def __init__(self, file: StateFile) -> None:
        self.file = file

    # ---- Whose host a client is

    def key_for_copy(self, authenticator: str, hostid: int) -> Key:
        """Returns the key for a client that sends the number of another host, or an unknown one. It is a new
        one, unless no client has used the number of an earlier such host: then its reply was lost.
        """
        row = self.file.row(
            "SELECT host_cpid FROM host WHERE authenticator = ? AND copy_of = ? AND client_seqno IS NULL "
            "ORDER BY id LIMIT 1",
            authenticator,
            hostid,
        )
        return Key(authenticator, secrets.token_hex(16) if row is None else cast(str, row[0]))

    def scheduler_hostid(self, key: Key) -> int | None:
        """Returns bsched's number of a host by the last reply, if there was one."""
        row = self.file.row(
            f"SELECT scheduler_hostid FROM {IN_FILE} WHERE authenticator = ? AND host_cpid = ?",
            key.authenticator,
            key.host_cpid,
        )
        return None if row is None else cast("int | None", row[0])

    def has_former_number(self, key: Key) -> bool:
        """Returns whether the client of a host was told a number by a bridge of an earlier version, and none
        since.
        """
        row = self.file.row(
            "SELECT has_former_number FROM host WHERE authenticator = ? AND host_cpid = ? AND hostid IS NULL",
            key.authenticator,
            key.host_cpid,
        )
        return row == (1,)

    def latest_keys(self, authenticator: str, most: int) -> list[Key]:
        """Returns the keys of the account's hosts that had a reply, the latest reply first."""
        rows = self.file.rows(
            f"SELECT host_cpid FROM {IN_FILE} WHERE authenticator = ? AND scheduler_hostid IS NOT NULL "
            "ORDER BY heard_at DESC, scheduler_hostid DESC LIMIT ?",
            authenticator,
            most,
        )
        return [Key(authenticator, cast(str, row[0])) for row in rows]

    # ---- Hosts that bsched does not have any more

    def newest(self, authenticator: str) -> tuple[Key, int] | None:
        """Returns the account's newest host without an open call, with bsched's number of it."""
        row = self.file.row(
            f"SELECT host_cpid, scheduler_hostid FROM {IN_FILE} WHERE authenticator = ? AND "
            "scheduler_hostid IS NOT NULL AND open_call IS NULL ORDER BY scheduler_hostid DESC LIMIT 1",
            authenticator,
        )
        return None if row is None else (Key(authenticator, cast(str, row[0])), cast(int, row[1]))

    def mark_gone(self, key: Key) -> None:
        """Notes that bsched does not know a host any more, unless it has an open call by now. The host keeps
        its number, and counts again for `most_hosts` once it calls.
        """
        with self.file.transaction() as connection:
            row = connection.execute(
                f"SELECT id FROM {IN_FILE} WHERE authenticator = ? AND host_cpid = ? AND open_call IS NULL",
                (key.authenticator, key.host_cpid),
            ).fetchone()
            if row is not None:
                lose_number(connection, row[0])

    # ---- Hosts, for people

    def heard(self, most: int, authenticator: str | None = None) -> list[HeardHost]:
        """Returns the hosts that called last, of all accounts or of one, the latest first."""
        query, order = (
            f"SELECT {HEARD} FROM {IN_FILE} WHERE heard_at IS NOT NULL AND scheduler_hostid IS NOT NULL",
            "ORDER BY heard_at DESC, scheduler_hostid DESC LIMIT ?",
        )
        if authenticator is None:
            rows = self.file.rows(f"{query} {order}", most)
        else:
            rows = self.file.rows(f"{query} AND authenticator = ? {order}", authenticator, most)
        return [HeardHost(*cast("tuple[str, str, int | None, int, str, int, int, int]", row)) for row in rows]

    def count(self) -> int:
        """Returns how many hosts have had a reply."""
        row = self.file.row("SELECT count(*) FROM host WHERE heard_at IS NOT NULL")
        return cast(int, row[0]) if row else 0

    def counted_by_account(self) -> dict[str, int]:
        """Returns how many hosts each account has that have had a reply, by its key."""
        rows = self.file.rows(
            "SELECT authenticator, count(*) FROM host WHERE heard_at IS NOT NULL " "GROUP BY authenticator"
        )
        return {cast(str, row[0]): cast(int, row[1]) for row in rows}

    def cpids(self, authenticator: str) -> dict[int, str]:
        """Returns the host_cpid of each host of an account that bsched has, by bsched's number."""
        rows = self.file.rows(
            f"SELECT scheduler_hostid, host_cpid FROM {IN_FILE} "
            "WHERE authenticator = ? AND scheduler_hostid IS NOT NULL",
            authenticator,
        )
        return {cast(int, row[0]): cast(str, row[1]) for row in rows}

    def user_credits(self) -> list[tuple[str, int]]:
        """Returns each account that has had a reply, with its credit from the latest reply to one of its
        hosts. A reply that came in the future, by the clock, is older than all others.
        """
        rows = self.file.rows(
            "SELECT authenticator, user_credit, max(CASE WHEN heard_at <= ? THEN heard_at ELSE 0 END) "
            "FROM host WHERE heard_at IS NOT NULL GROUP BY authenticator",
            int(time.time()),
        )
        return [(cast(str, row[0]), cast(int, row[1])) for row in rows]

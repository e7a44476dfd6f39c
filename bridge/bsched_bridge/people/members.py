"""The accounts that the bridge knows, in the state file.

Volunteers made some of them, with an e-mail address and a password. The others are the operator's. The bridge
knows an operator's account after the first reply to one of its hosts.
"""
import secrets
import sqlite3
from collections.abc import Iterable, Iterator
from dataclasses import dataclass, replace
from typing import cast

from bsched_files.moments import DAY

from ..common.state_file import StateFile
from .hosts import SERVED
from .passwords import Secret

COLUMNS = (
    "id, authenticator, email, salt, secret, cost, name, batch, is_imported, cpid, consent_at, is_exported, "
    "created_at, is_anonymous, team, preferences"
)
INSERT = (
    "INSERT INTO member (authenticator, email, salt, secret, cost, name, batch, cpid, consent_at, "
    "created_at, is_imported) VALUES (?, ?, ?, ?, ?, ?, ?, ?, ?, ?, 0)"
)
# the account is in a file of the project from the import on
IMPORTED = (
    "INSERT INTO member_file (member, file, credit) SELECT id, ?2, 0 FROM member "
    "WHERE id = ?1 AND is_imported = 1 ON CONFLICT DO NOTHING"
)
IN_FILE = (
    "INSERT INTO member_file (member, file, credit) VALUES (?, ?, ?) "
    "ON CONFLICT (member, file) DO UPDATE SET credit = excluded.credit"
)
# Rows of the operator's accounts have no batch. Accounts that a clock made which was ahead don't count later.
MADE_BETWEEN = "SELECT count(*) FROM member WHERE batch IS NOT NULL AND created_at > ? AND created_at <= ?"
ANONYMOUS = "anonymous"  # how pages and statistics call a user who chose so
ROWS_AT_ONCE = 1000


class EmailTaken(Exception):
    """Raised if another account has this e-mail address."""


class DayIsFull(Exception):
    """Raised if the limit of new accounts in 24 hours is reached."""


@dataclass(frozen=True, slots=True)
class Member:
    """An account."""

    id: int
    authenticator: str
    email: str | None
    secret: Secret | None
    name: str
    batch: str | None  # the import that makes it; none for the operator's accounts
    is_imported: bool
    cpid: str
    consent_at: int | None
    is_exported: bool
    created_at: int
    is_anonymous: bool = False
    team: int | None = None
    preferences: str | None = None  # as the state file has them

    @property
    def shown_name(self) -> str:
        """The name by which others know the user."""
        return ANONYMOUS if self.is_anonymous else self.name


def member_of(row: tuple[object, ...]) -> Member:
    """Returns the account in a row."""
    (
        number,
        authenticator,
        email,
        salt,
        digest,
        cost,
        name,
        batch,
        is_imported,
        cpid,
        consent_at,
        is_exported,
        made,
        is_anonymous,
        team,
        preferences,
    ) = row
    return Member(
        id=cast(int, number),
        authenticator=cast(str, authenticator),
        email=cast("str | None", email),
        secret=None if salt is None else Secret(cast(bytes, salt), cast(bytes, digest), cast(str, cost)),
        name=cast(str, name),
        batch=cast("str | None", batch),
        is_imported=bool(is_imported),
        cpid=cast(str, cpid),
        consent_at=cast("int | None", consent_at),
        is_exported=bool(is_exported),
        created_at=cast(int, made),
        is_anonymous=bool(is_anonymous),
        team=cast("int | None", team),
        preferences=cast("str | None", preferences),
    )


def new_batch_name() -> str:
    """Returns a new random name for an import."""
    return "account-" + secrets.token_hex(16)


def first_heard(connection: sqlite3.Connection, authenticator: str, name: str, now: int, credit: int) -> int:
    """Inserts the account that a reply is for, unless another reply has inserted it, and stores its credit
    over all files, within a transaction. Returns the account's number.
    """
    row = connection.execute(
        "INSERT INTO member (authenticator, name, is_imported, cpid, created_at, credit) "
        "VALUES (?, ?, 1, ?, ?, ?) ON CONFLICT (authenticator) DO UPDATE SET credit = excluded.credit "
        "RETURNING id",
        (authenticator, name, secrets.token_hex(16), now, credit),
    ).fetchone()
    return cast(int, row[0])


def store_credit(connection: sqlite3.Connection, number: int, credit: int) -> None:
    """Stores the credit of an account over all files, by its number, within a transaction."""
    connection.execute("UPDATE member SET credit = ? WHERE id = ?", (credit, number))


def store_file_credit(connection: sqlite3.Connection, number: int, credit: int) -> None:
    """Stores the credit of an account in the served file, by its number, within a transaction."""
    connection.execute(IN_FILE, (number, SERVED, credit))


class Members:
    """The accounts in a state file."""

    def __init__(self, file: StateFile) -> None:
        self.file = file

    def _one(self, where: str, *values: object) -> Member | None:
        """Returns the first account for which a condition holds."""
        row = self.file.row(f"SELECT {COLUMNS} FROM member WHERE {where}", *values)
        return None if row is None else member_of(row)

    def of_email(self, email: str) -> Member | None:
        """Returns the account with an e-mail address."""
        return self._one("email = ?", email)

    def of_key(self, authenticator: str) -> Member | None:
        """Returns the account with a key."""
        return self._one("authenticator = ?", authenticator)

    def open_ones(self) -> Iterator[Member]:
        """Yields the accounts whose import has no answer yet. Each is read when its turn comes."""
        last = 0
        while (member := self._one("is_imported = 0 AND id > ? ORDER BY id", last)) is not None:
            yield member
            last = member.id

    def all(self) -> Iterator[Member]:
        """Yields all accounts, in the order of their numbers."""
        last = 0
        while rows := self.file.rows(
            f"SELECT {COLUMNS} FROM member WHERE id > ? ORDER BY id LIMIT {ROWS_AT_ONCE}", last
        ):
            yield from map(member_of, rows)
            last = cast(int, rows[-1][0])

    def with_name(self, text: str, least_key: int) -> list[Member]:
        """Returns the accounts that a text names: by the address or the whole key, else by the front of the
        key, of at least this many characters, or by the name.
        """
        exact = self._one("email = ?1 OR authenticator = ?1", text) or self._one("email = ?", text.lower())
        if exact is not None:
            return [exact]
        rows = self.file.rows(
            f"SELECT {COLUMNS} FROM member WHERE name = ?1 OR "
            "(length(?1) >= ?2 AND substr(authenticator, 1, length(?1)) = ?1) ORDER BY id",
            text,
            least_key,
        )
        return list(map(member_of, rows))

    def shown(self, authenticators: Iterable[str]) -> dict[str, tuple[int, str]]:
        """Returns the numbers of some accounts, with the names by which others know them."""
        found = {}
        for authenticator in set(authenticators):
            member = self.of_key(authenticator)
            if member is not None:
                found[authenticator] = member.id, member.shown_name
        return found

    # ---- Making an account

    def is_day_full(self, now: int, most_a_day: int) -> bool:
        """Returns whether the limit of new accounts in 24 hours is reached. The operator's accounts don't
        count.
        """
        row = self.file.row(MADE_BETWEEN, now - DAY, now)
        return row is not None and cast(int, row[0]) >= most_a_day

    def insert(
        self, email: str, secret: Secret, name: str, has_consent: bool, now: int, most_a_day: int
    ) -> Member:
        """Inserts a new account with a key of its own. It is on the disk before it is returned, and not yet
        imported.
        """
        member = Member(
            id=0,
            authenticator=secrets.token_hex(16),
            email=email,
            secret=secret,
            name=name,
            batch=new_batch_name(),
            is_imported=False,
            cpid=secrets.token_hex(16),
            consent_at=now if has_consent else None,
            is_exported=False,
            created_at=now,
        )
        values = (
            member.authenticator,
            email,
            secret.salt,
            secret.digest,
            secret.cost,
            name,
            member.batch,
            member.cpid,
            member.consent_at,
            now,
        )
        with self.file.transaction() as connection:
            if connection.execute(MADE_BETWEEN, (now - DAY, now)).fetchone()[0] >= most_a_day:
                raise DayIsFull
            cursor = connection.execute(INSERT, values)
        return replace(member, id=cast(int, cursor.lastrowid))

    def mark_imported(self, member: Member) -> None:
        """Notes that bsched has the account. This is not synced: if it is lost, the same import is sent once
        more.
        """
        with self.file.transaction(is_synced=False) as connection:
            connection.execute("UPDATE member SET is_imported = 1 WHERE id = ?", (member.id,))
            connection.execute(IMPORTED, (member.id, SERVED))

    def with_new_batch(self, member: Member) -> Member:
        """Gives the account another import name from now on, and returns the account."""
        batch = new_batch_name()
        with self.file.transaction() as connection:
            connection.execute("UPDATE member SET batch = ? WHERE id = ?", (batch, member.id))
        return replace(member, batch=batch)

    def delete(self, member: Member) -> None:
        """Deletes an account that was not imported."""
        with self.file.transaction() as connection:
            connection.execute("DELETE FROM member WHERE id = ? AND is_imported = 0", (member.id,))

    # ---- What a user changes

    def change(self, member: Member, name: str, is_exported: bool, is_anonymous: bool = False) -> None:
        """Stores the name that the user chose, whether statistics sites may show it, and whether others know
        the user as anonymous.
        """
        with self.file.transaction() as connection:
            connection.execute(
                "UPDATE member SET name = ?, is_exported = ?, is_anonymous = ? WHERE id = ?",
                (name, is_exported, is_anonymous, member.id),
            )

    def change_preferences(self, member: Member, preferences: str | None) -> None:
        """Stores what a user wants of the clients, or that it is sent no more."""
        with self.file.transaction() as connection:
            connection.execute("UPDATE member SET preferences = ? WHERE id = ?", (preferences, member.id))

    def set_password(self, member: Member, email: str, secret: Secret) -> None:
        """Stores the e-mail address and the password that the user chose."""
        try:
            with self.file.transaction() as connection:
                connection.execute(
                    "UPDATE member SET email = ?, salt = ?, secret = ?, cost = ? WHERE id = ?",
                    (email, secret.salt, secret.digest, secret.cost, member.id),
                )
        except sqlite3.IntegrityError:
            raise EmailTaken from None

"""Accounts whose computers are refused, in the state file: the operator barred them, or they were deleted.

Deleting an account forgets who its user is. What stays says nothing about a person: the account's number, its
key, which stays barred, and when it was made. bsched's tables keep the account under the key, with its credit
and the name with which it was imported.
"""
import secrets
import sqlite3
from collections.abc import Callable
from enum import Enum
from typing import cast

from bsched_files.project_settings import HostRules

from ..common.state_file import StateFile
from .credit_days import forget_days
from .team_rows import leave_by_key

DELETED_NAME = "deleted"
FORGET_MEMBER = (
    "UPDATE member SET email = NULL, salt = NULL, secret = NULL, cost = NULL, name = ?, cpid = ?, "
    "consent_at = NULL, is_exported = 0, is_anonymous = 0, credit = NULL, preferences = NULL "
    "WHERE authenticator = ?"
)
FORGET_FILES = "DELETE FROM member_file WHERE member = (SELECT id FROM member WHERE authenticator = ?)"


class Barred(Enum):
    """Why the computers of an account are refused."""

    BY_OPERATOR = 0
    DELETED = 1


class Barring:
    """The barred accounts in a state file."""

    def __init__(self, file: StateFile) -> None:
        self.file = file

    def reason(self, authenticator: str) -> Barred | None:
        """Returns why the computers of an account are refused, or None if they are not."""
        row = self.file.row("SELECT is_deleted FROM barred WHERE authenticator = ?", authenticator)
        return None if row is None else Barred(row[0])

    def all(self) -> dict[str, Barred]:
        """Returns all barred accounts by their keys."""
        rows = self.file.rows("SELECT authenticator, is_deleted FROM barred")
        return {cast(str, key): Barred(is_deleted) for key, is_deleted in rows}

    def bar(self, authenticator: str, now: int) -> None:
        """Bars an account. One that is barred or deleted stays as it is."""
        with self.file.transaction() as connection:
            connection.execute(
                "INSERT INTO barred (authenticator, barred_at, is_deleted) VALUES (?, ?, 0) "
                "ON CONFLICT (authenticator) DO NOTHING",
                (authenticator, now),
            )

    def unbar(self, authenticator: str) -> None:
        """Ends the barring of an account, unless it was deleted."""
        with self.file.transaction() as connection:
            connection.execute(
                "DELETE FROM barred WHERE authenticator = ? AND is_deleted = 0", (authenticator,)
            )

    def delete(self, authenticator: str, now: int) -> None:
        """Deletes an account: bars its key for good, and forgets its user and its computers. All of it is on
        the disk when this returns, or nothing is.
        """
        with self.file.transaction() as connection:
            forget(connection, authenticator, now)
        self.file.wipe_log()


def is_barred(barring: Barring, rules: Callable[[], HostRules], authenticator: str) -> bool:
    """Returns whether the computers of an account are refused, also by the operator's settings."""
    return barring.reason(authenticator) is not None or authenticator in rules().barred


def forget(connection: sqlite3.Connection, authenticator: str, now: int) -> None:
    """Forgets the person of an account, in a transaction. The row of `barred` comes last: with it the account
    is fixed.
    """
    leave_by_key(connection, authenticator)
    forget_days(connection, authenticator)
    connection.execute(FORGET_MEMBER, (DELETED_NAME, secrets.token_hex(16), authenticator))
    connection.execute(FORGET_FILES, (authenticator,))
    for table in ("host", "closed_credit"):
        connection.execute(f"DELETE FROM {table} WHERE authenticator = ?", (authenticator,))
    connection.execute(
        "INSERT INTO barred (authenticator, barred_at, is_deleted) VALUES (?, ?, 1) "
        "ON CONFLICT (authenticator) DO UPDATE SET barred_at = excluded.barred_at, is_deleted = 1",
        (authenticator, now),
    )

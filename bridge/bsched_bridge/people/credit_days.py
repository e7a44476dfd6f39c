"""Credit by days, in the state file: a row for each day on which a host called, for it and for its account.

A host keeps rows of 60 days and an account of 366, so the tables are bounded by their numbers. Older rows,
and those of a clock that was ahead, go with the first call of a day. A call whose credit is that of the day's
row writes nothing.
"""
import sqlite3
from dataclasses import dataclass
from typing import cast


from ..common.state_file import StateFile

HOST_DAYS, MEMBER_DAYS = 60, 366


@dataclass(frozen=True, slots=True)
class CreditDay:
    """The credit at the last call of a day."""

    day: int  # days since 1970 (UTC)
    credit: int  # millicredits


@dataclass(frozen=True, slots=True)
class StoredDay:
    """The row of a host or an account for a day, as it was read."""

    number: int  # the hostid, or the number of the account
    day: int
    credit: int | None  # None if there is no row for this day


class DayTable:
    """A table with credit by days."""

    def __init__(self, name: str, owner: str, days: int) -> None:
        self._days = days
        self._insert = (
            f"INSERT INTO {name} ({owner}, day, credit) VALUES (?, ?, ?) "
            f"ON CONFLICT ({owner}, day) DO UPDATE SET credit = excluded.credit"
        )
        self._forget = f"DELETE FROM {name} WHERE {owner} = ? AND (day <= ? OR day > ?)"

    def record(self, connection: sqlite3.Connection, stored: StoredDay, today: int, credit: int) -> None:
        """Notes the credit for today, within a transaction. The first row of a day forgets rows that are too
        old. Nothing is written if the row has this credit already.
        """
        is_first = stored.day != today or stored.credit is None
        if not is_first and stored.credit == credit:
            return
        connection.execute(self._insert, (stored.number, today, credit))
        if is_first:
            connection.execute(self._forget, (stored.number, today - self._days, today))


HOST_TABLE = DayTable("host_day", "hostid", HOST_DAYS)
MEMBER_TABLE = DayTable("member_day", "member", MEMBER_DAYS)


def forget_days(connection: sqlite3.Connection, authenticator: str) -> None:
    """Deletes the rows of an account and its hosts, within a transaction."""
    connection.execute(
        "DELETE FROM host_day WHERE hostid IN (SELECT hostid FROM host WHERE authenticator = ?)",
        (authenticator,),
    )
    connection.execute(
        "DELETE FROM member_day WHERE member = (SELECT id FROM member WHERE authenticator = ?)",
        (authenticator,),
    )


class CreditDays:
    """Credit by days, for pages."""

    def __init__(self, file: StateFile) -> None:
        self.file = file

    def of_host(self, hostid: int) -> list[CreditDay]:
        """Returns the days of a host, the earliest first."""
        return days_of(
            self.file.looked("SELECT day, credit FROM host_day WHERE hostid = ? ORDER BY day", hostid)
        )

    def of_member(self, number: int) -> list[CreditDay]:
        """Returns the days of an account, the earliest first."""
        rows = self.file.looked("SELECT day, credit FROM member_day WHERE member = ? ORDER BY day", number)
        return days_of(rows)


def days_of(rows: list[tuple[object, ...]]) -> list[CreditDay]:
    """Returns the days in rows."""
    return [CreditDay(cast(int, day), cast(int, credit)) for day, credit in rows]

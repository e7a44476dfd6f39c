"""The users and computers of a project, for pages: lists by credit, and what is public of each one.

Whoever chose to be anonymous is called so here, and is not found by name.
"""
import time
from collections.abc import Sequence
from dataclasses import dataclass
from typing import cast

from ..common.state_file import StateFile
from ..requests.descriptions import Description, read_description
from .hosts import SERVED
from .members import ANONYMOUS

MOST_SEARCH = 64  # characters of a name that is searched for
MOST_FOUND = 200  # users whose computers are listed by a search
MANY, KEPT_SECONDS = 10_000, 60.0  # computers that take long to count, so their number is kept for a while
CALLED = "heard_at IS NOT NULL AND hostid IS NOT NULL"
USER = (
    "SELECT id, authenticator, name, is_anonymous, credit, created_at, (SELECT count(*) FROM host WHERE "
    f"host.authenticator = member.authenticator AND {CALLED}), team FROM member"
)
COMPUTER = (
    "SELECT hostid, host.authenticator, host_cpid, (SELECT scheduler_hostid FROM host_file "
    f"WHERE host_file.host = host.id AND host_file.file = {SERVED}), host_credit, heard_at, about, "
    "member.id, member.name, is_anonymous FROM host CROSS JOIN member "
    "ON member.authenticator = host.authenticator"
)
FOUND = (
    "SELECT authenticator FROM member WHERE credit IS NOT NULL AND is_anonymous = 0 AND name LIKE ? "
    f"ESCAPE '\\' ORDER BY credit DESC, id LIMIT {MOST_FOUND}"
)


@dataclass(frozen=True, slots=True)
class User:
    """What is public of a user. The authenticator is a secret, and is for look-ups alone."""

    number: int
    authenticator: str
    name: str
    is_anonymous: bool
    credit: int
    created_at: int
    computers: int
    team: int | None


@dataclass(frozen=True, slots=True)
class Computer:
    """What is public of a computer. The authenticator and the host_cpid are for look-ups alone."""

    number: int
    authenticator: str
    host_cpid: str
    scheduler_hostid: int
    credit: int
    heard_at: int
    about: Description
    user: int
    user_name: str


def shown_name(name: object, is_anonymous: object) -> str:
    """Returns the name by which pages call a user."""
    return ANONYMOUS if is_anonymous else cast(str, name)


def user_of(row: tuple[object, ...]) -> User:
    """Returns the user in a row."""
    number, authenticator, name, is_anonymous, credit, created_at, computers, team = row
    return User(
        cast(int, number),
        cast(str, authenticator),
        shown_name(name, is_anonymous),
        bool(is_anonymous),
        cast("int | None", credit) or 0,
        cast(int, created_at),
        cast(int, computers),
        cast("int | None", team),
    )


def computer_of(row: tuple[object, ...]) -> Computer:
    """Returns the computer in a row."""
    number, key, cpid, scheduler_number, credit, heard_at, about, user, name, is_anonymous = row
    return Computer(
        cast(int, number),
        cast(str, key),
        cast(str, cpid),
        cast(int, scheduler_number),
        cast(int, credit),
        cast(int, heard_at),
        read_description(cast("str | None", about)),
        cast(int, user),
        shown_name(name, is_anonymous),
    )


def pattern_of(name: str) -> str:
    """Returns the pattern of names that have a text in them."""
    escaped = name[:MOST_SEARCH].replace("\\", "\\\\").replace("%", "\\%").replace("_", "\\_")
    return f"%{escaped}%"


class Directory:
    """The users and computers in a state file. Calls don't wait for what it reads."""

    def __init__(self, file: StateFile) -> None:
        self.file = file
        self._computers = 0, -1.0  # how many there are, and until when that counts

    def _count(self, query: str, *values: object) -> int:
        """Returns a number of rows."""
        return cast(int, self.file.looked(query, *values)[0][0])

    # ---- Users

    def count_users(self, name: str = "") -> int:
        """Returns how many users have had a reply, or have a text in their name besides."""
        query = "SELECT count(*) FROM member WHERE credit IS NOT NULL"
        if not name:
            return self._count(query)
        return self._count(f"{query} AND is_anonymous = 0 AND name LIKE ? ESCAPE '\\'", pattern_of(name))

    def users(self, first: int, most: int, name: str = "") -> list[User]:
        """Returns some users, those with the most credit first."""
        order = "ORDER BY credit DESC, id LIMIT ? OFFSET ?"
        if not name:
            rows = self.file.looked(f"{USER} WHERE credit IS NOT NULL {order}", most, first)
        else:
            named = "credit IS NOT NULL AND is_anonymous = 0 AND name LIKE ? ESCAPE '\\'"
            rows = self.file.looked(f"{USER} WHERE {named} {order}", pattern_of(name), most, first)
        return list(map(user_of, rows))

    def user(self, number: int) -> User | None:
        """Returns the user with a number. There is none before the first reply, and after a deletion."""
        rows = self.file.looked(f"{USER} WHERE id = ? AND credit IS NOT NULL", number)
        return user_of(rows[0]) if rows else None

    def place(self, user: User) -> int:
        """Returns the place of a user by credit. Users of equal credit have one place."""
        return 1 + self._count("SELECT count(*) FROM member WHERE credit > ?", user.credit)

    def places(self, users: Sequence[User]) -> list[int]:
        """Returns the places of users, who are in the order of their credit. Each better user is counted
        once.
        """
        found: list[int] = []
        for before, user in zip([None, *users], users):
            if before is None:
                found.append(self.place(user))
            elif user.credit == before.credit:
                found.append(found[-1])
            else:
                query = "SELECT count(*) FROM member WHERE credit > ? AND credit <= ?"
                found.append(found[-1] + self._count(query, user.credit, before.credit))
        return found

    # ---- Computers

    def count_computers(self, name: str = "") -> int:
        """Returns how many computers have had a reply, or are those of users with a text in their name."""
        if not name:
            count, until = self._computers
            if time.monotonic() > until:
                count = self._count(f"SELECT count(*) FROM host INDEXED BY host_by_credit WHERE {CALLED}")
                until = time.monotonic() + (KEPT_SECONDS if count >= MANY else 0.0)
                self._computers = count, until
            return count
        return self._count(
            f"SELECT count(*) FROM host WHERE {CALLED} AND authenticator IN ({FOUND})", pattern_of(name)
        )

    def computers(self, first: int, most: int, name: str = "") -> list[Computer]:
        """Returns some computers, those with the most credit first."""
        order = "ORDER BY host_credit DESC, hostid"
        if not name:
            # the index alone leads to the first row of a late page
            page = f"SELECT id FROM host WHERE {CALLED} {order} LIMIT ? OFFSET ?"
            rows = self.file.looked(f"{COMPUTER} WHERE host.id IN ({page}) {order}", most, first)
        else:
            found = f"{CALLED} AND host.authenticator IN ({FOUND}) {order} LIMIT ? OFFSET ?"
            rows = self.file.looked(f"{COMPUTER} WHERE {found}", pattern_of(name), most, first)
        return list(map(computer_of, rows))

    def computers_of(self, user: User, most: int) -> list[Computer]:
        """Returns the computers of a user that called last."""
        query = f"{COMPUTER} WHERE {CALLED} AND host.authenticator = ? ORDER BY heard_at DESC, hostid DESC"
        return list(map(computer_of, self.file.looked(f"{query} LIMIT ?", user.authenticator, most)))

    def computer_of_key(self, authenticator: str, host_cpid: str) -> Computer | None:
        """Returns the computer under a key of bsched, if its client was told a number."""
        found = f"{CALLED} AND host.authenticator = ? AND host_cpid = ?"
        rows = self.file.looked(f"{COMPUTER} WHERE {found}", authenticator, host_cpid)
        return computer_of(rows[0]) if rows else None

    def computer(self, number: int) -> Computer | None:
        """Returns the computer with a number, if it has had a reply."""
        rows = self.file.looked(f"{COMPUTER} WHERE {CALLED} AND hostid = ?", number)
        return computer_of(rows[0]) if rows else None

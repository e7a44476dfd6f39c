"""Teams of users, in the state file. A user is in one team at most, and each team has a founder.

The founder can remove members. If the founder leaves, the member with the lowest number is the founder from
then on. A team without members is forgotten. The credit of a team is that of its members.
"""
import sqlite3
from dataclasses import dataclass
from enum import Enum
from typing import cast

from bsched_files.moments import DAY

from ..common.languages import gettext_noop
from ..common.limits import RecentCounts
from ..common.state_file import StateFile
from ..people.directory import USER, User, pattern_of, user_of
from ..people.members import Member
from ..people.names import clean_name, fold
from ..people.team_rows import leave

MOST_TEAMS = 1000
MOST_NEW = 3  # teams that a user makes in a day
# the credit and the number of the members of each team, or of one
SUMS = "SELECT team, coalesce(sum(credit), 0), count(*) FROM member WHERE team IS NOT NULL GROUP BY team"
SUMS_OF_ONE = "SELECT team, coalesce(sum(credit), 0), count(*) FROM member WHERE team = ? GROUP BY team"
TEAM = (
    "SELECT team.id, name, founder, created_at, together, members FROM sums "
    "JOIN team ON team.id = sums.number"
)


class TeamFault(Exception):
    """Raised if somebody can't do something with a team. The text says why."""


class Why(Enum):
    """Why it can't be done."""

    NO_NAME = gettext_noop("Give a name.")
    NO_TEAM = gettext_noop("No team has this name or number.")
    TAKEN = gettext_noop("Another team has this name.")
    IN_TEAM = gettext_noop("Leave your team first.")
    NO_MEMBER = gettext_noop("No other member of your team has this number.")
    NO_FOUNDER = gettext_noop("Only the founder of a team can remove members.")
    FULL = gettext_noop("The project has as many teams as it can have.")
    TOO_MANY = gettext_noop("You made several teams today. Try again tomorrow.")


@dataclass(frozen=True, slots=True)
class Team:
    """A team."""

    number: int
    name: str
    founder: int  # the number of a user
    created_at: int
    credit: int
    members: int


def like(connection: sqlite3.Connection, name: str) -> int | None:
    """Returns the number of the team whose name looks like another one, or None. Former bridges folded names
    in another way, so the names themselves are compared.
    """
    folded = fold(name)
    for number, other in connection.execute("SELECT id, name FROM team ORDER BY id"):
        if fold(other) == folded:
            return cast(int, number)
    return None


class Teams:
    """The teams in a state file."""

    def __init__(self, file: StateFile) -> None:
        self.file = file
        self._new = RecentCounts(MOST_NEW, DAY)

    # ---- For pages

    def _listed(self, sums: str, rest: str, *values: object) -> list[Team]:
        """Returns the teams of a query."""
        rows = self.file.looked(f"WITH sums (number, together, members) AS ({sums}) {TEAM} {rest}", *values)
        return [Team(*cast("tuple[int, str, int, int, int, int]", row)) for row in rows]

    def count(self, name: str = "") -> int:
        """Returns how many teams there are, or have a text in their name."""
        rows = self.file.looked("SELECT count(*) FROM team WHERE name LIKE ? ESCAPE '\\'", pattern_of(name))
        return cast(int, rows[0][0])

    def teams(self, first: int, most: int, name: str = "") -> list[Team]:
        """Returns some teams, those with the most credit first."""
        order = "ORDER BY together DESC, team.id LIMIT ? OFFSET ?"
        named = f"WHERE name LIKE ? ESCAPE '\\' {order}"
        return self._listed(SUMS, named, pattern_of(name), most, first)

    def team(self, number: int | None) -> Team | None:
        """Returns the team with a number."""
        found = [] if number is None else self._listed(SUMS_OF_ONE, "", number)
        return found[0] if found else None

    def place(self, team: Team) -> int:
        """Returns the place of a team by credit. Teams of equal credit have one place."""
        better = "WITH sums (number, together, members) AS"
        query = f"{better} ({SUMS}) SELECT count(*) FROM sums WHERE together > ?"
        return 1 + cast(int, self.file.looked(query, team.credit)[0][0])

    def members(self, team: Team, first: int, most: int) -> list[User]:
        """Returns some members of a team, those with the most credit first."""
        order = "ORDER BY coalesce(credit, 0) DESC, id LIMIT ? OFFSET ?"
        return list(
            map(user_of, self.file.looked(f"{USER} WHERE team = ? {order}", team.number, most, first))
        )

    def keys(self, team: Team) -> list[str]:
        """Returns the keys of the members of a team, the founder's first."""
        query = "SELECT authenticator FROM member WHERE team = ? ORDER BY id <> ?, id"
        return [cast(str, row[0]) for row in self.file.looked(query, team.number, team.founder)]

    # ---- What users do

    def make(self, member: Member, text: str, now: int) -> None:
        """Makes a team, whose founder is the user."""
        name = clean_name(text)
        if not name:
            raise TeamFault(Why.NO_NAME.value)
        with self.file.transaction() as connection:
            require_no_team(connection, member)
            if connection.execute("SELECT count(*) FROM team").fetchone()[0] >= MOST_TEAMS:
                raise TeamFault(Why.FULL.value)
            if like(connection, name) is not None:
                raise TeamFault(Why.TAKEN.value)
            if not self._new.take(member.id):
                raise TeamFault(Why.TOO_MANY.value)
            number = connection.execute(
                "INSERT INTO team (name, folded, founder, created_at) VALUES (?, ?, ?, ?)",
                (name, fold(name), member.id, now),
            ).lastrowid
            connection.execute("UPDATE member SET team = ? WHERE id = ?", (number, member.id))

    def join(self, member: Member, text: str) -> None:
        """Lets a user join the team with a name or a number. The number counts first, since a name can be
        chosen so that it is the number of another team.
        """
        name = clean_name(text)
        with self.file.transaction() as connection:
            require_no_team(connection, member)
            row = connection.execute("SELECT id FROM team WHERE CAST(id AS TEXT) = ?", (name,)).fetchone()
            number = like(connection, name) if row is None else cast(int, row[0])
            if number is None:
                raise TeamFault(Why.NO_TEAM.value)
            connection.execute("UPDATE member SET team = ? WHERE id = ?", (number, member.id))

    def leave(self, member: Member) -> None:
        """Lets a user leave a team."""
        with self.file.transaction() as connection:
            leave(connection, member.id)

    def remove(self, founder: Member, text: str) -> None:
        """Removes another member, by the number of the user, from the team of its founder."""
        number = int(text) if text.isascii() and text.isdigit() and len(text) < 10 else 0
        with self.file.transaction() as connection:
            team = connection.execute("SELECT id FROM team WHERE founder = ?", (founder.id,)).fetchone()
            if team is None:
                raise TeamFault(Why.NO_FOUNDER.value)
            query = "SELECT 1 FROM member WHERE id = ? AND team = ? AND id <> ?"
            if connection.execute(query, (number, team[0], founder.id)).fetchone() is None:
                raise TeamFault(Why.NO_MEMBER.value)
            leave(connection, number)


def require_no_team(connection: sqlite3.Connection, member: Member) -> None:
    """Raises TeamFault if a user is in a team, within a transaction."""
    row = connection.execute("SELECT team FROM member WHERE id = ?", (member.id,)).fetchone()
    if row is None or row[0] is not None:
        raise TeamFault(Why.IN_TEAM.value)

"""The files that statistics sites read: tables.xml, user.gz, team.gz and host.gz.

Their elements are those that BOINC's own db_dump writes.
"""
import hashlib
import os
from collections.abc import Collection, Iterable, Iterator, Mapping
from contextlib import ExitStack
from dataclasses import dataclass
from pathlib import Path
from xml.sax.saxutils import escape

from bsched_files.atomic import replace_file
from bsched_files.averages import Kept
from bsched_files.faults import Fault
from bsched_files.tables import all_opened
from bsched_files.texts import credit_number, xml_text

from .averages import Averages
from .copies.folder import turn
from .users import Host, User, users_of
from .volunteers import Team

TURN_SECONDS = 60.0


@dataclass(frozen=True, slots=True)
class Exported:
    """How many users and hosts there are, and how many users are named."""

    users: int
    agreed: int
    hosts: int


def element(name: str, members: dict[str, object]) -> str:
    """Returns an element with its members, one on a line."""
    lines = [f"    <{member}>{escape(xml_text(str(value)))}</{member}>" for member, value in members.items()]
    return "\n".join([f"<{name}>", *lines, f"</{name}>", ""])


def user_members(
    user: User, known: tuple[int, int], average: float, cpid: str, team: int | None, moment: int
) -> dict[str, object]:
    """Returns the members of a user who agreed."""
    number, created = known
    return {
        "id": number,
        "name": user.name,
        "country": "",
        "create_time": created,
        "total_credit": credit_number(user.millicredits),
        "expavg_credit": f"{average:.6f}",
        "expavg_time": moment,
        "cpid": cpid,
        **({} if team is None else {"teamid": team}),
    }


@dataclass(slots=True)
class TeamSum:
    """A team, with the credit of all its members. Its founder is named only if the founder agreed."""

    team: Team
    millicredits: int = 0
    average: float = 0.0
    founder: int | None = None  # the number of a user

    def members(self, moment: int) -> dict[str, object]:
        """Returns the members of the element."""
        return {
            "id": self.team.number,
            "name": self.team.name,
            **({} if self.founder is None else {"userid": self.founder}),
            "total_credit": credit_number(self.millicredits),
            "expavg_credit": f"{self.average:.6f}",
            "expavg_time": moment,
            "nusers": len(self.team.members),
            "create_time": self.team.created,
        }


def host_members(host: Host, kept: Kept, userid: int | None, cpid: str) -> dict[str, object]:
    """Returns the members of a host. They name its user only if the user agreed."""
    return {
        "id": kept.id,
        **({} if userid is None else {"userid": userid}),
        "create_time": kept.created,
        "rpc_time": kept.called,
        "total_credit": credit_number(host.millicredits),
        "expavg_credit": f"{kept.average or 0:.6f}",
        "expavg_time": kept.time,
        "p_fpops": host.fpops,
        "m_nbytes": host.memory,
        "d_free": host.disk,
        "avg_turnaround": 0,
        "credit_per_cpu_sec": 0,
        "host_cpid": hashlib.md5(f"{host.cpid}{cpid}".encode(), usedforsecurity=False).hexdigest(),
    }


class Export:
    """The elements of all files."""

    def __init__(
        self, averages: Averages, moment: int, agreed: Collection[str] | None, teams: Iterable[Team] = ()
    ) -> None:
        self.averages, self.moment, self.agreed = averages, moment, agreed
        self.sums = [TeamSum(team) for team in teams]
        self.sum_by_member = {key: one for one in self.sums for key in one.team.members}
        self.users: list[str] = []
        self.hosts: list[str] = []
        self.count, self.millicredits = 0, 0

    def add(self, user: User) -> None:
        """Adds a user with the user's hosts."""
        known = self.averages.user(user, self.moment)
        hosts = [(host, self.averages.host(user, host, self.moment)) for host in user.hosts.values()]
        cpid = self.averages.digest("cpid", user.authenticator)
        is_agreed = self.agreed is None or user.authenticator in self.agreed
        average = sum(kept.average or 0 for _, kept in hosts)
        team = self._add_to_team(user, average, known[0] if is_agreed else None)
        if is_agreed:
            self.users.append(element("user", user_members(user, known, average, cpid, team, self.moment)))
        for host, kept in hosts:
            userid = known[0] if is_agreed else None
            self.hosts.append(element("host", host_members(host, kept, userid, cpid)))
        self.count += 1
        self.millicredits += user.millicredits

    def _add_to_team(self, user: User, average: float, number: int | None) -> int | None:
        """Adds the credit of a user to that of the user's team, and returns the number of the team. A user
        who did not agree has no number.
        """
        found = self.sum_by_member.get(user.authenticator)
        if found is None:
            return None
        found.millicredits += user.millicredits
        found.average += average
        if user.authenticator == found.team.founder:
            found.founder = number
        return found.team.number

    def teams(self) -> Iterator[str]:
        """Yields the elements of the teams, once all users are added."""
        return (element("team", one.members(self.moment)) for one in self.sums)

    def totals(self) -> str:
        """Returns the text of tables.xml."""
        return element(
            "tables",
            {
                "update_time": self.moment,
                "nusers_total": self.count,
                "nteams_total": len(self.sums),
                "nhosts_total": len(self.hosts),
                "total_credit": credit_number(self.millicredits),
            },
        )


def listed(root: str, elements: Iterable[str]) -> Iterator[bytes]:
    """Yields a list of elements."""
    yield f"<{root}>\n".encode()
    for one in elements:
        yield one.encode()
    yield f"</{root}>\n".encode()


def state_of(folder: Path) -> Path:
    """Returns the file of the averages. It is next to the folder, because the folder is public."""
    return folder.with_name(f"{folder.name}-averages.json")


def export(
    paths: Iterable[Path],
    folder: Path,
    agreed: Collection[str] | None,
    names: Mapping[str, str] | None = None,
    averages_file: Path | None = None,
    teams: Iterable[Team] = (),
) -> Exported:
    """Writes the files of some tables into a folder. They name the users whose authenticators agreed, or with
    None all users. Sites know users and hosts by their numbers, so the numbers are stored before they are
    published. tables.xml is written last, because sites look at it first."""
    folder = Path(os.path.abspath(folder))
    if not folder.is_dir():
        raise Fault(f"{folder}: no such folder: make it first")
    with ExitStack() as stack:
        all_tables = stack.enter_context(all_opened(paths, names))
        stack.enter_context(turn(folder, TURN_SECONDS, "another `statistics` is at work"))
        averages = Averages(averages_file or state_of(folder))
        moment = max(tables.moment for tables in all_tables)
        made = Export(averages, moment, agreed, teams)
        for user in users_of(all_tables).values():
            made.add(user)
        averages.write()
        replace_file(folder / "user.gz", listed("users", made.users), moment)
        replace_file(folder / "team.gz", listed("teams", made.teams()), moment)
        replace_file(folder / "host.gz", listed("hosts", made.hosts), moment)
        replace_file(folder / "tables.xml", [made.totals().encode()])
    return Exported(made.count, len(made.users), len(made.hosts))

"""Credit from earlier files of a project, which is added to the credit in replies.

If the file of a project is full, the project starts another one with the same accounts (docs/NEXT_FILE.md,
"More than 200,000 workunits"). The earlier files are archives. Nobody writes them any more. They are opened
as every copy of tables is, and their schemas are tested.
"""
from collections import Counter
from collections.abc import Sequence
from dataclasses import dataclass, field, replace
from pathlib import Path

from bsched_files.faults import Fault
from bsched_files.tables import all_opened, project_mark
from bsched_files.toml_entries import OperatorFault

from ..common.state_file import StateFile
from ..scheduler.messages import Reply
from .hosts import SERVED, Key

# Until they call again, hosts and accounts have the rest of their credit in the file that is served.
REST_OF_HOSTS = (
    "UPDATE host_file SET credit = (SELECT max(0, coalesce(host_credit, 0) - coalesce((SELECT credit FROM "
    "closed_credit AS closed WHERE closed.authenticator = host.authenticator AND "
    "closed.host_cpid = host.host_cpid), 0)) FROM host WHERE id = host_file.host) WHERE file = ?"
)
REST_OF_ACCOUNTS = (
    "UPDATE member_file SET credit = (SELECT max(0, coalesce(member.credit, 0) - coalesce((SELECT "
    "sum(closed.credit) FROM closed_credit AS closed WHERE closed.authenticator = member.authenticator), 0)) "
    "FROM member WHERE id = member_file.member) WHERE file = ?"
)
CREDIT = "SELECT auth, cpid, credit FROM host JOIN account ON account.id = account_id"


@dataclass(frozen=True, slots=True)
class Archives:
    """The credit of hosts and users in archives, in millicredits."""

    hosts: Counter[Key] = field(default_factory=Counter)
    users: Counter[str] = field(default_factory=Counter)
    marks: set[str] = field(default_factory=set)  # of their tables

    def added_to(self, key: Key, reply: Reply) -> Reply:
        """Returns the reply to a host with the credit of the archives added."""
        user, host = self.users.get(key.authenticator, 0), self.hosts.get(key, 0)
        if not user and not host:
            return reply
        return replace(
            reply,
            user_total_credit=reply.user_total_credit + user,
            host_total_credit=reply.host_total_credit + host,
        )


def read_archives(paths: Sequence[Path]) -> Archives:
    """Reads the credit in some archives, once, when the bridge starts. They may be of an older schema. Credit
    of a file that is named twice, or by two copies, would count twice, so such a file is refused.
    """
    archives = Archives()
    if not paths:
        return archives
    try:
        with all_opened(paths, takes_older=True) as all_tables:
            for tables in all_tables:
                archives.marks.add(project_mark(tables))
                for authenticator, host_cpid, credit in tables.rows(CREDIT):
                    archives.hosts[Key(authenticator, host_cpid)] += credit
                    archives.users[authenticator] += credit
    except Fault as fault:
        path = next((path for path in paths if str(fault).startswith(f"{path}: ")), paths[0])
        what = str(fault).removeprefix(f"{path}: ")
        raise OperatorFault(path, None, f"can't be read as an archive: {what}") from None
    return archives


def fold(file: StateFile, archives: Archives) -> None:
    """Has the state file know the credit of archives, all of it in one transaction. If it knows it already,
    nothing is written. So a stop at any moment does no harm, nor does another list of archives.
    """
    hosts = {key: credit for key, credit in archives.hosts.items() if credit}
    with file.transaction() as connection:
        marks = {mark for (mark,) in connection.execute("SELECT mark FROM folded")}
        deleted = {
            key for (key,) in connection.execute("SELECT authenticator FROM barred WHERE is_deleted = 1")
        }
        found = {
            Key(authenticator, host_cpid): credit
            for authenticator, host_cpid, credit in connection.execute(
                "SELECT authenticator, host_cpid, credit FROM closed_credit"
            )
        }
        wanted = {key: credit for key, credit in hosts.items() if key.authenticator not in deleted}
        if (found, marks) == (wanted, archives.marks):
            return
        for table in ("closed_credit", "folded"):
            connection.execute(f"DELETE FROM {table}")
        connection.executemany(
            "INSERT INTO closed_credit (authenticator, host_cpid, credit) VALUES (?, ?, ?)",
            ((key.authenticator, key.host_cpid, credit) for key, credit in wanted.items()),
        )
        connection.executemany("INSERT INTO folded (mark) VALUES (?)", ((one,) for one in archives.marks))
        connection.execute(REST_OF_HOSTS, (SERVED,))
        connection.execute(REST_OF_ACCOUNTS, (SERVED,))

"""Users and their hosts over several files of tables. Credit is summed by authenticator and host_cpid."""
from collections.abc import Iterable
from dataclasses import dataclass, field
from pathlib import Path

from bsched_files.faults import Fault
from bsched_files.tables import Tables


HOSTS = """
SELECT auth, cpid, fpops, memory, disk, host.credit, min(sent), max(sent),
  (SELECT max(seqno) FROM kept4 WHERE host_id = host.id)
FROM host JOIN account ON account.id = account_id LEFT JOIN instance ON host_id = host.id
GROUP BY host.id ORDER BY host.id
"""

NAMES = "SELECT auth, shown_name(auth, name) FROM account ORDER BY id"


@dataclass(slots=True)
class Host:
    """A host of a user."""

    cpid: str
    millicredits: int = 0
    fpops: int = 0
    memory: int = 0
    disk: int = 0
    first_sent: int | None = None  # when it got its first job
    last_sent: int = 0
    calls: list[int] = field(default_factory=list)  # the number of its last call, for each file


@dataclass(slots=True)
class User:
    """A user."""

    authenticator: str
    name: str
    hosts: dict[str, Host] = field(default_factory=dict)

    @property
    def millicredits(self) -> int:
        """The credit of all hosts."""
        return sum(host.millicredits for host in self.hosts.values())


@dataclass(frozen=True, slots=True)
class HostRow:
    """What a file says about a host, in the order of the query."""

    fpops: int
    memory: int
    disk: int
    millicredits: int
    first_sent: int | None
    last_sent: int | None
    last_call: int | None


def add_host(host: Host, row: HostRow) -> None:
    """Adds what a file says about a host. The file that was named last describes the host."""
    host.fpops, host.memory, host.disk = row.fpops, row.memory, row.disk
    host.millicredits += row.millicredits
    if row.first_sent is not None:
        first = row.first_sent
        host.first_sent = first if host.first_sent is None else min(first, host.first_sent)
    host.last_sent = max(host.last_sent, row.last_sent or 0)
    host.calls.append(row.last_call or 0)


def users_of(all_tables: Iterable[Tables]) -> dict[str, User]:
    """Returns the users of files, by authenticator. The name is that of the file that was named last."""
    users: dict[str, User] = {}
    for tables in all_tables:
        for authenticator, name in tables.rows(NAMES):
            users.setdefault(authenticator, User(authenticator, name)).name = name
        for authenticator, cpid, *row in tables.rows(HOSTS):
            hosts = users[authenticator].hosts
            add_host(hosts.setdefault(cpid, Host(cpid)), HostRow(*row))
    return users


def agreed_in(path: Path) -> set[str]:
    """Returns the authenticators in a file, one on a line."""
    try:
        return {line.strip() for line in path.read_text().splitlines() if line.strip()}
    except OSError as error:
        raise Fault(f"{path}: {error.strerror}") from None
    except UnicodeDecodeError:
        raise Fault(f"{path}: it is not text: write an authenticator on each line") from None

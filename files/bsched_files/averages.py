"""Average credit a day, with BOINC's half-life of a week: `averages.json`, which `bsched-tools statistics`
writes into the folder of a project, for its own next run and for the bridge.

The file has no keys: it names users and hosts by a keyed digest. Until the next run the average of a host
falls as if it got no credit.
"""
import hmac
import secrets
from collections.abc import Sequence
from dataclasses import asdict, dataclass, field
from pathlib import Path

from .atomic import replace_file
from .faults import Fault
from .json_files import file_text, read_members
from .moments import DAY
from .texts import MILLICREDITS

FORMAT = 1
HALF_LIFE = 7 * DAY  # seconds
DIGITS = 32  # of a digest
MOST_BYTES = 64 * 1024 * 1024  # that a bridge reads; 100,000 hosts take 25 MB
MOST_KEPT = 1024 * 1024 * 1024  # that a run of the tools reads


def digest(salt: str, *texts: str) -> str:
    """Returns the name of a user (a key) or of a host (a key and a host_cpid), the same in each run."""
    return hmac.digest(salt.encode(), "\0".join(texts).encode(), "sha256").hex()[:DIGITS]


def decayed(average: float, seconds: float) -> float:
    """Returns an average after some time without new credit."""
    return average * 2 ** (-max(0.0, seconds) / HALF_LIFE)


def average_after(average: float | None, days: float, credit: float) -> float:
    """Returns the average after some days that brought this much new credit. If there is no average yet, it
    is the credit a day."""
    if average is None:
        return credit / max(days, 1)
    if days <= 0:
        return average
    weight = decayed(1.0, days * DAY)
    return average * weight + (1 - weight) * max(credit, 0) / days


@dataclass(slots=True)
class Kept:
    """What is kept about a host."""

    id: int
    created: int
    calls: list[int]
    called: int = 0
    millicredits: int = 0
    average: float | None = None
    time: int = 0

    def hear(self, calls: Sequence[int], last_sent: int, millicredits: int, moment: int) -> None:
        """Takes in what copies of this moment say about the host: the number of its last call in each file,
        when it got its last job, and its credit."""
        if self.calls != list(calls):
            self.calls, self.called = list(calls), moment
        self.called = max(self.called, last_sent)
        if self.average is not None and moment <= self.time:
            return
        since = self.created if self.average is None else self.time
        days = (moment - since) / DAY
        self.average = average_after(self.average, days, (millicredits - self.millicredits) / MILLICREDITS)
        self.millicredits, self.time = millicredits, moment


class AveragesFile:
    """The whole file, for those who write it."""

    def __init__(self, path: Path) -> None:
        self.path = path
        self.salt, self.users, self.hosts = secrets.token_hex(16), dict[str, list[int]](), dict[str, Kept]()
        if path.exists():
            self._read()

    def _read(self) -> None:
        """Reads the file."""
        try:
            members = read_members(self.path, FORMAT, MOST_KEPT)
            self.salt, self.users = str(members["salt"]), dict(members["users"])
            self.hosts = {name: Kept(**values) for name, values in members["hosts"].items()}
        except Fault as fault:
            raise Fault(f"{fault}: move it away, or restore a copy") from None
        except (ValueError, KeyError, TypeError, AttributeError):
            raise Fault(f"{self.path}: it has no averages: move it away, or restore a copy") from None

    def digest(self, *texts: str) -> str:
        """Returns the name of a user or a host in this file."""
        return digest(self.salt, *texts)

    def write(self) -> None:
        """Writes the file, whole or not at all."""
        hosts = {name: asdict(kept) for name, kept in self.hosts.items()}
        text = file_text(FORMAT, {"salt": self.salt, "users": self.users, "hosts": hosts})
        replace_file(self.path, [text.encode()], mode=0o600)


@dataclass(frozen=True, slots=True)
class HostAverages:
    """What the file says of hosts: for each the average credit a day, and when it was computed."""

    salt: str = ""
    hosts: dict[str, tuple[float, float]] = field(default_factory=dict)

    def at(self, moment: float, authenticator: str, host_cpid: str) -> float:
        """Returns the average of a host at a moment."""
        average, computed_at = self.hosts.get(digest(self.salt, authenticator, host_cpid), (0.0, 0.0))
        return decayed(average, moment - computed_at)


def read_averages(path: Path) -> HostAverages:
    """Reads the averages of hosts. Raises Fault if the file can't be read."""
    members = read_members(path, FORMAT, MOST_BYTES)
    try:
        hosts = {
            str(name): (float(kept["average"] or 0), float(kept["time"]))
            for name, kept in members["hosts"].items()
        }
        return HostAverages(str(members["salt"]), hosts)
    except (ValueError, KeyError, TypeError, AttributeError):
        raise Fault(f"{path}: it has no averages") from None

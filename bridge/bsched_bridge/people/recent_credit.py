"""Recent average credit: `bsched-tools statistics` computes it for each host from copies of the tables, and
keeps it in a file, which the bridge reads again after each change.
"""
import time
from collections.abc import Iterable
from dataclasses import dataclass
from pathlib import Path

from bsched_files.averages import HostAverages, read_averages
from bsched_files.json_files import WatchedFile


@dataclass(frozen=True, slots=True)
class Recent:
    """The recent average credit of a user, and of one of the user's hosts."""

    user: float
    host: float


class RecentCredit:
    """Reads the file of averages. Without a file, or with one that can't be read, all averages are 0."""

    def __init__(self, path: Path | None) -> None:
        self.path = path
        self._file = WatchedFile(path, read_averages, HostAverages(), "recent average credit is 0")

    def of_host(self, authenticator: str, host_cpid: str, now: float | None = None) -> float:
        """Returns the recent average credit of a host."""
        return self.of_hosts([(authenticator, host_cpid)], now)

    def of_hosts(self, hosts: Iterable[tuple[str, str]], now: float | None = None) -> float:
        """Returns the recent average credit of hosts together. A host is a key and a host_cpid."""
        return sum(self.of_each(hosts, now), 0.0)

    def of_each(self, hosts: Iterable[tuple[str, str]], now: float | None = None) -> list[float]:
        """Returns the recent average credit of each of some hosts."""
        averages, moment = self._file.value(), time.time() if now is None else now
        if not averages.hosts:
            return [0.0 for _ in hosts]
        return [averages.at(moment, authenticator, host_cpid) for authenticator, host_cpid in hosts]

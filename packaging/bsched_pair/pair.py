"""A pair of machines that has one project, and why it would not be safe."""
import re
from collections.abc import Iterator
from dataclasses import dataclass, field
from ipaddress import IPv4Address, IPv4Interface
from pathlib import Path

MACHINE = re.compile(r"[a-z0-9]([a-z0-9-]{0,61}[a-z0-9])?")  # a label of a name (RFC 1123, section 2.1)
PATH = re.compile(r"/[A-Za-z0-9_.+/-]{1,200}")
TOKEN_MILLISECONDS = 3000  # without a word of the other machine, until Corosync counts it as lost


NAME = re.compile(r"[A-Za-z0-9][A-Za-z0-9_.-]{0,63}")  # of a project


class Fault(Exception):
    """What can't be made, and why."""


@dataclass(frozen=True, slots=True)
class Machine:
    """One of the two machines."""

    name: str  # as `hostname` prints it
    address: IPv4Address  # on the network of the clients
    link: IPv4Address  # on the network between the two, over which the disk is replicated


@dataclass(frozen=True, slots=True)
class Vote:
    """The third machine, which has a vote and no data."""

    name: str
    address: IPv4Address


@dataclass(frozen=True, slots=True)
class Times:
    """Seconds that fit each other: a machine that lost its vote is reset before the other one starts."""

    watchdog: int = 10  # a machine that hangs, or has lost its vote, is reset after them
    sync: int = 9  # Corosync waits this long for the vote of the third machine
    fence: int = 20  # the other machine waits this long for the watchdog to reset this one
    stonith: int = 60  # a fencing that takes longer has failed

    @classmethod
    def of(cls, watchdog: int, sync: int) -> "Times":
        """Returns times by that of the watchdog and that of the vote."""
        return cls(watchdog, sync, 2 * watchdog, 5 * watchdog + 10)

    def faults(self) -> Iterator[str]:
        """Yields which times do not fit each other."""
        if not 5 <= self.watchdog <= 60:
            yield f"the watchdog resets after {self.watchdog} seconds: 5 to 60 are possible"
        if self.sync < 1:
            yield f"the vote is waited for {self.sync} seconds: 1 is the least"
        if self.sync > self.watchdog:
            yield (
                f"the vote is waited for {self.sync} seconds, longer than the watchdog's {self.watchdog}: "
                "sbd would not trust the vote"
            )
        if self.fence < 2 * self.watchdog:
            yield (
                f"the other machine starts the project after {self.fence} seconds, and the watchdog may need "
                f"twice its {self.watchdog}: at least {2 * self.watchdog} are safe"
            )
        if self.stonith <= self.fence + self.watchdog:
            least = self.fence + self.watchdog
            yield f"a fencing may take {self.stonith} seconds, and needs more than {least}"


@dataclass(frozen=True, slots=True)
class Pair:
    """Two machines for one project."""

    project: str
    machines: tuple[Machine, Machine]
    vote: Vote | None
    address: IPv4Interface  # of the project; it is on the machine that has it
    disk: Path  # on each of the two
    watchdog: Path
    times: Times = field(default_factory=Times)

    def faults(self) -> Iterator[str]:
        """Yields why the pair is not safe, or can't be."""
        one, other = self.machines
        if not NAME.fullmatch(self.project):
            yield f"{self.project} is no name of a project"
        names = [machine.name for machine in self.machines]
        if self.vote is None:
            yield "no third machine has a vote (--vote): after a cut of the network both would go on, or none"
        else:
            names.append(self.vote.name)
        for name in names:
            if not MACHINE.fullmatch(name):
                yield f"{name} is no name of a machine: it has lower-case letters, digits and '-' alone"
        if len(set(names)) < len(names):
            yield "two machines have the same name"
        addresses = [one.address, one.link, other.address, other.link, self.address.ip]
        if self.vote is not None:
            addresses.append(self.vote.address)
        if len(set(addresses)) < len(addresses):
            yield "an address is named twice: each machine has its own two, and the project one more"
        for machine in self.machines:
            if machine.address not in self.address.network:
                network = self.address.network
                yield f"{machine.address} of {machine.name} is not in the network {network} of the project"
            if machine.link in self.address.network:
                yield (
                    f"{machine.link} of {machine.name} is in the network of the clients: the link between "
                    "the two needs a network of its own"
                )
        for path in (self.disk, self.watchdog):
            is_below = path.parts[:2] == ("/", "dev") and ".." not in path.parts
            if not PATH.fullmatch(str(path)) or not is_below:
                yield f"{path} is no device in /dev"
        yield from self.times.faults()

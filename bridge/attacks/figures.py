"""What an attack may cost, what it did cost, and the comparison."""
from dataclasses import dataclass, field

MB = 10**6
MINUTE = 60.0


@dataclass(frozen=True, slots=True)
class Most:
    """What an attack may cost."""

    memory_mb: int = 300  # of the bridge's process
    # of the bridge and bsched, in a minute, for each attacker; None if it is not measured
    processor_seconds: float | None = 1.0
    disk_bytes: int = MB
    answer_seconds: float = 2.0  # for each honest message
    least_share: float = 0.95  # of the honest messages that are answered at the first try


@dataclass(slots=True)
class Served:
    """How honest messages of one kind were answered."""

    tried: int = 0
    at_first_try: int = 0
    longest: float = 0.0  # seconds
    faults: list[str] = field(default_factory=list)  # the first ones, for people

    def record(self, is_good: bool, seconds: float, fault: str = "") -> None:
        """Counts a message."""
        self.tried += 1
        self.at_first_try += is_good
        self.longest = max(self.longest, seconds)
        if not is_good and len(self.faults) < 3:
            self.faults.append(fault)

    def __str__(self) -> str:
        """Returns it as it is printed."""
        return f"{self.at_first_try} of {self.tried}, at most {self.longest:.2f} s"


@dataclass(frozen=True, slots=True)
class Costs:
    """What an attack did cost."""

    memory_mb: int
    processor_seconds: float | None  # as in Most; None if it was too short to measure
    disk_bytes: int
    served: dict[str, Served]  # by the kind of honest message; empty if nobody tried

    def excesses(self, most: Most) -> list[str]:
        """Returns what was more than it may be, in words."""
        found = []
        if self.memory_mb > most.memory_mb:
            found.append(f"the bridge had {self.memory_mb} MB of memory, and may have {most.memory_mb}")
        used, allowed = self.processor_seconds, most.processor_seconds
        if used is not None and allowed is not None and used > allowed:
            found.append(f"it took {used:.2f} processor seconds a minute, and may take {allowed:g}")
        if self.disk_bytes > most.disk_bytes:
            found.append(f"it took {self.disk_bytes:,} bytes of disk, and may take {most.disk_bytes:,}")
        for kind, served in self.served.items():
            if served.at_first_try < most.least_share * served.tried or not served.tried:
                found.append(f"honest {kind}: {served}: {served.faults}")
            elif served.longest > most.answer_seconds:
                found.append(f"honest {kind} took up to {served.longest:.1f} s")
        return found

    def __str__(self) -> str:
        """Returns them as they are printed."""
        used = (
            ""
            if self.processor_seconds is None
            else f", {self.processor_seconds:.2f} s of processor a minute"
        )
        served = "".join(f"; {kind} {one}" for kind, one in self.served.items())
        return f"{self.memory_mb} MB{used}, {self.disk_bytes / MB:.2f} MB of disk{served}"

"""Plan classes: versions that need several processors or a coprocessor (BOINC's documentation, "Plan
classes").

bsched knows no plan classes. It gives a host the version for the first of its platforms that has one. So a
version of a plan class is imported for a platform of its own, such as `x86_64-pc-linux-gnu.mt`: no platform
of BOINC has a dot. A call lists these platforms before the plain ones, if the host can run them and asks for
their resource.
"""
from collections.abc import Iterable
from dataclasses import dataclass, replace

from bsched_files.toml_entries import Entry

from .client_requests import MOST_PLATFORMS, ClientRequest

NCPUS = "{ncpus}"  # a placeholder in a command line
MOST_NCPUS = 1024
DOT = "."


@dataclass(frozen=True, slots=True)
class PlanClass:
    """A plan class."""

    name: str
    least_ncpus: int  # that a host must have
    most_ncpus: int  # that a job uses
    coproc: str | None  # the type of the coprocessor that a job needs
    coproc_count: float  # how many; a part of 1 shares one
    avg_ncpus: float | None  # that a job keeps busy; None: all that it may use
    speed: float | None  # compared with one processor of the host; None: as many times as it uses processors
    command_line: str  # of each job

    def can_run(self, request: ClientRequest) -> bool:
        """Returns whether the host of a request has what a job needs."""
        if request.p_ncpus < self.least_ncpus:
            return False
        return self.coproc is None or any(
            one.type == self.coproc and one.count >= self.coproc_count for one in request.coprocs
        )

    def seconds(self, request: ClientRequest) -> int:
        """Returns for how many seconds of its resource a client asks."""
        if self.coproc is None:
            return request.cpu_req_secs
        return max((one.req_secs for one in request.coprocs if one.type == self.coproc), default=0)

    def ncpus(self, request: ClientRequest) -> float:
        """Returns how many processors a job keeps busy."""
        return min(request.p_ncpus, self.most_ncpus) if self.avg_ncpus is None else self.avg_ncpus

    def flops(self, request: ClientRequest) -> float:
        """Returns the operations a second of a job."""
        return request.p_fpops * (self.ncpus(request) if self.speed is None else self.speed)

    def command_line_for(self, request: ClientRequest) -> str:
        """Returns the command line for a host."""
        return self.command_line.replace(NCPUS, str(round(self.ncpus(request))))


def split(platform: str) -> tuple[str, str]:
    """Returns the plain platform and the name of the plan class of one of bsched's platforms. A plain
    platform has an empty class.
    """
    plain, _, name = platform.partition(DOT)
    return plain, name


def by_resource(
    request: ClientRequest, classes: Iterable[PlanClass], platforms: frozenset[str]
) -> ClientRequest:
    """Returns a request as bsched gets it: with the platforms of those classes that the host can run and of
    which the catalogue has versions. If the client asks for work, only platforms of resources for which it
    asks are left, and it asks for the greatest of their seconds. At most 8 platforms are sent.
    """
    own = (request.platform_name, *request.alt_platforms)
    usable = [
        (f"{platform}{DOT}{one.name}", one) for platform in own for one in classes if one.can_run(request)
    ]
    usable = [(name, one) for name, one in usable if name in platforms]
    if not usable:
        return request
    seconds = max(request.cpu_req_secs, *(one.seconds(request) for _, one in usable))
    names = [name for name, one in usable if not seconds or one.seconds(request)]
    if not seconds or request.cpu_req_secs:
        names += own
    first, *others = names
    return replace(
        request, platform_name=first, alt_platforms=tuple(others[:MOST_PLATFORMS]), work_req_seconds=seconds
    )


def read_plan_class(entry: Entry) -> PlanClass:
    """Reads a plan class from the catalogue."""
    name = entry.word("name")
    if DOT in name:
        entry.fault("name has a dot, which separates it from the platform", "name")
    coproc = entry.word("coproc") if "coproc" in entry.members else None
    least = entry.whole("least_ncpus", 1, MOST_NCPUS, 1)
    most = entry.whole("most_ncpus", 1, MOST_NCPUS, 1 if coproc else MOST_NCPUS)
    if most < least:
        entry.fault("most_ncpus is less than least_ncpus", "most_ncpus")
    if coproc is None and "coproc_count" in entry.members:
        entry.fault("coproc_count needs coproc", "coproc_count")
    avg_ncpus = entry.number("avg_ncpus", 0.001, MOST_NCPUS) if "avg_ncpus" in entry.members else None
    speed = entry.number("speed", 0.001, 10**6) if "speed" in entry.members else None
    if coproc is not None and speed is None:
        entry.fault("speed is missing: how many times as fast as one processor its jobs are")
    command_line = entry.text("command_line", "")
    if not command_line.isprintable() or len(command_line.encode()) > 256:
        entry.fault("command_line has more than 256 bytes, or a control character", "command_line")
    count = entry.number("coproc_count", 0.001, 64, 1.0)
    one = PlanClass(name, least, most, coproc, count, avg_ncpus, speed, command_line)
    entry.end()
    return one

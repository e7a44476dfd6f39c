"""Files that make digest programs take all memory that the unit of the bridge may have."""
import re
import subprocess
import threading
from collections import Counter
from collections.abc import Iterator
from contextlib import contextmanager
from dataclasses import dataclass
from pathlib import Path

from bsched_bridge.catalogue.digest_programs import FIRST_TO_END
from trial.behind_nginx import UNIT
from trial.programs import TOP, TrialFault
from uploading import file_info, report

from .attack import through
from .files import given_jobs, send_upload
from .members import attach
from .sending import asked
from .target import ATTACKER, Target, address_of

GROUPS = Path("/sys/fs/cgroup")
NOT_RUN = "memory does not run out, since no memory group can be made on this machine"
PROGRAMS, PROCESSES, MEGABYTES = 4, 8, 450  # each process may have 512 MiB, and two programs run at once
HUNGRY = f"5 0 {PROCESSES} {MEGABYTES}\n".encode()
SMALL = b"3 0 2 50\n"  # for a machine on which nothing bounds the programs together
PAUSE_SECONDS, LOOK_SECONDS = 1.0, 0.2


def unit_bytes() -> int:
    """Returns how much memory the unit of the bridge may have."""
    found = re.search(r"^MemoryMax=(\d+)G$", (TOP / UNIT).read_text(), re.MULTILINE)
    if found is None:
        raise TrialFault("the unit has no MemoryMax")
    return int(found[1]) * 1024**3


@dataclass(frozen=True, slots=True)
class Version:
    """How memory groups are made with one version of control groups (cgroups(7))."""

    folder: Path  # of all groups
    entry: str  # how the line of /proc/N/cgroup that names the group of a process begins
    limits: tuple[str, ...]  # files that take how many bytes a group may have
    swap: str | None  # a file that takes how many bytes of swap it may have besides
    events: str  # the file that counts the processes that the kernel ended


@dataclass(frozen=True, slots=True)
class Group:
    """A memory group."""

    path: Path
    version: Version

    def add(self, process: int) -> None:
        """Puts a process into the group."""
        (self.path / "cgroup.procs").write_text(str(process))

    def processes(self) -> list[int]:
        """Returns the processes of the group."""
        return [int(text) for text in (self.path / "cgroup.procs").read_text().split()]

    def kills(self) -> int:
        """Returns how many processes of the group the kernel ended since its memory ran out."""
        found = re.search(r"^oom_kill (\d+)$", (self.path / self.version.events).read_text(), re.MULTILINE)
        return 0 if found is None else int(found[1])


def version_in(groups: Path) -> Version | None:
    """Returns with which version memory groups can be made, or None. Some machines have both."""
    controllers, first = groups / "cgroup.subtree_control", groups / "memory"
    if controllers.exists() and "memory" in controllers.read_text().split():
        return Version(groups, "0::/", ("memory.max",), "memory.swap.max", "memory.events")
    if (first / "memory.limit_in_bytes").exists():
        limits = ("memory.limit_in_bytes", "memory.memsw.limit_in_bytes")  # the second one with swap
        return Version(first, ":memory:/", limits, None, "memory.oom_control")
    return None


@contextmanager
def memory_group(groups: Path, name: str, most: int) -> Iterator[Group | None]:
    """Makes a memory group for the block, or yields None if that is not possible."""
    version = version_in(groups)
    if version is None:
        yield None
        return
    path = version.folder / name
    try:
        path.mkdir()
    except OSError:
        yield None
        return
    try:
        for limit in version.limits:
            if (path / limit).exists():  # a kernel that does not count swap has none for it
                (path / limit).write_text(str(most))
        if version.swap is not None and (path / version.swap).exists():
            (path / version.swap).write_text("0")
        yield Group(path, version)
    finally:
        path.rmdir()


def group_of(process: int, version: Version) -> Group:
    """Returns the group of a process."""
    lines = Path(f"/proc/{process}/cgroup").read_text().splitlines()
    line = next(line for line in lines if version.entry in line)
    return Group(version.folder / line.partition(version.entry)[2], version)


def take_memory(target: Target, ending: threading.Event) -> str:
    """Reports results whose files make the digest program take as much memory as it can, while the bridge and
    these programs have the memory of the unit.
    """
    with memory_group(GROUPS, f"bridge-attack-{target.worker()}", unit_bytes()) as group:
        if group is None:
            return f"{NOT_RUN}; {look_at_scores(target, ending)}"
        processes, former = target.gunicorn.processes(), group_of(target.worker(), group.version)
        try:
            for number in processes:
                group.add(number)
            report_hungry(target, ending, HUNGRY)
            through(target.gunicorn.processes()[:2] != processes[:2], "the kernel ended the bridge")
            kills = group.kills()
        finally:
            for number in group.processes():
                former.add(number)
    if not kills:
        raise TrialFault("the memory did not run out")
    return f"the kernel ended {kills} processes of digest programs, and the bridge served on"


def children_of(process: int) -> list[int]:
    """Returns the processes that a process and its children have started."""
    found = subprocess.run(["pgrep", "-P", str(process)], capture_output=True, text=True).stdout
    children = [int(word) for word in found.split()]
    return children + [one for child in children for one in children_of(child)]


def score_of(process: int) -> int:
    """Returns the score of a process: the kernel ends one with a higher score first if memory runs out."""
    return int(Path(f"/proc/{process}/oom_score_adj").read_text())


def look_at_scores(target: Target, ending: threading.Event) -> str:
    """Has small digest programs run, and looks at the scores of their processes that take memory."""
    bridge, scores = target.worker(), Counter[int]()

    def look() -> None:
        while not ending.wait(LOOK_SECONDS):
            for process in children_of(bridge):
                try:
                    if Path(f"/proc/{process}/comm").read_text() == "python3\n":
                        scores[score_of(process)] += 1
                except OSError:
                    continue  # it has ended

    looking = threading.Thread(target=look, daemon=True)
    looking.start()
    report_hungry(target, ending, SMALL)
    looking.join(60)
    if not scores:
        raise TrialFault("no digest program was seen")
    through(set(scores) != {FIRST_TO_END}, f"digest programs have the scores {dict(scores)}")
    through(score_of(bridge) >= FIRST_TO_END, f"the bridge has the score {score_of(bridge)}")
    return f"the kernel ends digest programs (score {FIRST_TO_END}) before the bridge ({score_of(bridge)})"


def report_hungry(target: Target, ending: threading.Event, data: bytes) -> None:
    """Reports results with a file again and again, until it ends."""
    results = given_jobs(target, "digested", PROGRAMS, "hungry", "hungry")
    hostid, seqno = attach(target, "hungry"), 0
    for result in results:
        send_upload(target, result, data, 1000)
    while not ending.is_set():
        for result in results:
            seqno += 1
            info = file_info(f"{result}_0", data).replace("<max_nbytes>20000", "<max_nbytes>1000")
            body = report(result, [info], hostid, key=ATTACKER, cpid="hungry", seqno=seqno)
            asked(target, address_of(0), "POST", "/cgi", body)
            ending.wait(PAUSE_SECONDS)

"""Whether both machines of a pair have the project: what DRBD says."""
import contextlib
import os
import re
import time
from collections.abc import Iterator
from dataclasses import dataclass
from pathlib import Path

from bsched_files.atomic import keep_file
from bsched_files.faults import Fault
from bsched_files.findings import Finding, Level
from bsched_files.moments import HOUR, MOST_MOMENT

from .projects import Project, UnitSettings

MAJOR = 147  # of the devices of DRBD
STATES = Path("/proc/drbd")
MOST_BYTES = 100_000  # of /proc/drbd
SINCE = "one-copy"  # the file in the folder of the units with the moment since when there is one copy
PAGE = "see docs/TWO_MACHINES.md"
RESYNCS = (
    "SyncSource",
    "SyncTarget",
    "PausedSyncS",
    "PausedSyncT",
    "WFBitMapS",
    "WFBitMapT",
    "StartingSyncS",
)
STATE = re.compile(r"cs:(\w+) ro:(\w+)/(\w+) ds:(\w+)/(\w+) (\w) ([a-z-]{6})")


@dataclass(frozen=True, slots=True)
class Replica:
    """What DRBD says of a disk."""

    connection: str
    disk: str  # the state of the disk of this machine
    other_disk: str  # that of the other machine, as far as it is known
    protocol: str
    is_suspended: bool  # whether writes wait
    progress: str  # of a resync; empty if there is none


def minor_of(folder: Path) -> int | None:
    """Returns the number of the disk of DRBD that has a folder, or None."""
    device = folder.stat().st_dev
    return os.minor(device) if os.major(device) == MAJOR else None


def read_replica(text: str, minor: int) -> Replica | None:
    """Reads the part of /proc/drbd about a disk. None if there is none."""
    parts = re.split(r"^ *(\d+): (?=cs:)", text, flags=re.MULTILINE)
    for number, part in zip(parts[1::2], parts[2::2], strict=True):
        found = STATE.match(part)
        if int(number) != minor or found is None:
            continue
        percent, left = re.search(r"sync'ed: *([\d.]+)%", part), re.search(r"finish: ([\d:]+)", part)
        progress = f"{percent[1]} %" if percent else ""
        if progress and left:
            progress += f", and {left[1]} are left"
        connection, _, _, disk, other, protocol, flags = found.groups()
        return Replica(connection, disk, other, protocol, flags[0] == "s", progress)
    return None


def since(project: Project, is_one_copy: bool) -> int | None:
    """Returns since when there is one copy only. The first look at it writes that down."""
    path = project.work / SINCE
    if not is_one_copy:
        path.unlink(missing_ok=True)
        return None
    try:
        moment = int(path.read_text(encoding="ascii"))
    except (OSError, ValueError):
        moment = 0
    now = int(time.time())
    if not 0 < moment <= min(now, MOST_MOMENT):
        moment = now
        with contextlib.suppress(Fault, OSError):  # what is found counts more than since when
            keep_file(project.made(project.work, 0o700) / SINCE, f"{now}\n".encode(), 0o600)
    return moment


def finding_of(replica: Replica, moment: int | None) -> Finding:
    """Returns how bad the state of a disk is, and what to do. There is one copy only since a moment."""
    late = moment is not None and time.time() - moment >= HOUR
    level = Level.CRITICAL if late else Level.WARNING
    ends = f"the project has one copy only, since {text_of(moment)}" if moment is not None else ""
    if replica.protocol != "C":
        text = f"DRBD has protocol {replica.protocol}: a takeover loses what was answered last: {PAGE}"
        return Finding("replica", Level.CRITICAL, text)
    if replica.is_suspended:
        text = "writes wait until the cluster knows that the other machine is off: `crm_mon -1` and "
        return Finding("replica", Level.CRITICAL, f"{text}`stonith_admin --history '*'` say why it does not")
    if replica.connection in RESYNCS:
        how_far = replica.progress or "it begins"
        return Finding("replica", Level.WARNING, f"a machine fetches what it lacks ({how_far}); {ends}")
    if replica.disk != "UpToDate":
        text = f"the disk of this machine is {replica.disk}, and the project is on that of the other one"
        return Finding("replica", Level.CRITICAL, f"{text}; {ends}: replace the disk: {PAGE}")
    if replica.connection == "StandAlone":
        text = f"this machine no longer looks for the other one; {ends}: `drbdadm connect bsched`, and {PAGE}"
        return Finding("replica", Level.CRITICAL, text)
    if moment is None:
        return Finding("replica", Level.GOOD, "both machines have the project")
    if replica.connection != "Connected":
        text = (
            f"the other machine is not connected ({replica.connection}); {ends}: look at it and at the link"
        )
        return Finding("replica", level, text)
    return Finding("replica", level, f"the disk of the other machine is {replica.other_disk}; {ends}: {PAGE}")


def text_of(moment: int | None) -> str:
    """Returns a moment for people."""
    return time.strftime("%Y-%m-%d %H:%M", time.gmtime(moment)) + " UTC"


def replica(project: Project, _settings: UnitSettings) -> Iterator[Finding]:
    """Looks whether both machines of a pair have the project."""
    minor = minor_of(project.folder)
    if minor is None:
        return
    with STATES.open(encoding="ascii", errors="replace") as file:
        state = read_replica(file.read(MOST_BYTES), minor)
    if state is None:
        yield Finding("replica", Level.UNKNOWN, f"{STATES} does not say the state of the disk {minor}")
        return
    is_good = (state.connection, state.disk, state.other_disk) == ("Connected", "UpToDate", "UpToDate")
    is_verified = state.connection in ("VerifyS", "VerifyT")
    yield finding_of(state, since(project, not (is_good or is_verified)))

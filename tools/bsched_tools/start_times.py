"""How long bsched takes to open tables when it starts, and whether a process is still at it.

An opening reads and checks each row, so its time rises with their number.
"""
import os
import re
import time
from contextlib import closing
from pathlib import Path

from bsched_files.faults import Fault
from bsched_files.tables import check_file, connected, faults_of, schema_fault

from .copies.holders import PROC, descriptors_of

# on a quiet machine (docs/MEASURED.md, "Openings, imports and upgrades")
ROWS_A_SECOND = 50_000
ROWS = "SELECT " + " + ".join(
    f"(SELECT count(*) FROM {name})" for name in ("unit", "instance", "host", "kept4")
)
LISTENS = "0A"  # the state of a socket in /proc/net/tcp
SOCKET = re.compile(r"socket:\[([0-9]+)\]")


def rows_in(path: Path) -> int | None:
    """Returns how many rows an opening reads, about. Returns None if they can't be counted."""
    try:
        check_file(path)
        with faults_of(path), closing(connected(path)) as connection:
            if schema_fault(connection) is None:
                return int(connection.execute(ROWS).fetchone()[0])
    except (Fault, OSError):
        pass
    return None


def start_text(rows: int) -> str:
    """Returns how long a start takes, as people read it."""
    seconds = round(rows / ROWS_A_SECOND)
    if seconds < 2:
        return "a start takes a second or two"
    return (
        f"a start takes some {seconds} seconds, and two or three times as long on a busy machine: "
        f"it checks {rows:,} rows"
    )


def serves(pid: int) -> bool:
    """Returns whether a process listens on a port."""
    sockets = set[str]()
    for descriptor in descriptors_of(pid):
        try:
            found = SOCKET.fullmatch(os.readlink(PROC / str(pid) / "fd" / descriptor))
        except OSError:
            continue
        if found:
            sockets.add(found[1])
    for name in ("tcp", "tcp6"):
        try:
            lines = (PROC / str(pid) / "net" / name).read_text().splitlines()[1:]
        except OSError:
            continue
        if any(fields[3] == LISTENS and fields[9] in sockets for fields in map(str.split, lines)):
            return True
    return False


def age_of(pid: int) -> float | None:
    """Returns for how many seconds a process has run, or None if it has ended."""
    try:
        fields = (PROC / str(pid) / "stat").read_text().rpartition(")")[2].split()
    except OSError:
        return None
    began = int(fields[19]) / os.sysconf("SC_CLK_TCK")
    return max(0.0, time.clock_gettime(time.CLOCK_BOOTTIME) - began)


def opening_text(pid: int, path: Path) -> str | None:
    """Returns that a process that has the tables does not serve yet, and how long a start takes. Returns None
    if it serves.
    """
    age = age_of(pid)
    if age is None or serves(pid):
        return None
    rows = rows_in(path)
    text = f"it has run for {age:.0f} seconds and does not serve yet"
    return text if rows is None else f"{text}; {start_text(rows)}"

"""The timers of a project's units, by the files that systemd keeps of them.

The bridge has no right to look at the units themselves. systemd sets the time of a file in `STAMPS` when a
timer elapses.
"""
from dataclasses import dataclass
from pathlib import Path

from .moments import HOUR, MINUTE

STAMPS = Path("/var/lib/systemd/timers")
# the timers that have such a file, with the seconds after which it is too old
TIMERS = {
    "tick": 12 * MINUTE,
    "copy": 3 * HOUR,
    "page": 3 * HOUR,
    "statistics": 30 * HOUR,
    "sweep": 30 * HOUR,
}


@dataclass(frozen=True, slots=True)
class Timer:
    """A timer of the project."""

    name: str
    last: float | None  # when it elapsed; None if it never did, as far as the bridge can know
    is_late: bool


def elapsed_at(unit: str) -> float | None:
    """Returns when a timer elapsed last, or None if systemd does not say it. The unit has no ending."""
    try:
        return (STAMPS / f"stamp-{unit}.timer").stat().st_mtime
    except OSError:
        return None


def timers_of(project: str | None, now: float) -> list[Timer]:
    """Returns the timers of a project of bsched-project. Of another bridge nothing is known."""
    if project is None:
        return []
    last = {name: elapsed_at(f"bsched-{name}@{project}") for name in TIMERS}
    return [Timer(name, at, at is not None and now - at > TIMERS[name]) for name, at in last.items()]

"""The units of systemd that a project has, in the order in which the cluster starts them."""
import subprocess
from dataclasses import dataclass

ASK_SECONDS = 30
STOP_SECONDS = 130  # for a timer: a tick that runs ends by itself, after 120 seconds at most
START_SECONDS = 600  # for a service: it opens its tables
TIMERS = ("tick", "copy", "results", "page", "statistics", "health", "sweep", "feed")


@dataclass(frozen=True, slots=True)
class Unit:
    """A unit of a project."""

    name: str  # of its resource in the cluster
    unit: str  # of systemd

    @property
    def is_timer(self) -> bool:
        """Whether it is a timer."""
        return self.unit.endswith(".timer")


def possible_units(project: str) -> list[Unit]:
    """Returns all units that a project may have."""
    services = [
        Unit("scheduler", f"bsched@{project}.service"),
        Unit("bridge", f"bsched-bridge@{project}.service"),
    ]
    return services + [Unit(name, f"bsched-{name}@{project}.timer") for name in TIMERS]


def says_yes(question: str, unit: str) -> bool:
    """Returns whether systemd says yes to a question, such as is-enabled."""
    command = ["systemctl", question, "--quiet", unit]
    try:
        done = subprocess.run(command, capture_output=True, timeout=ASK_SECONDS, check=False)
    except (OSError, subprocess.TimeoutExpired):
        return False
    return done.returncode == 0


def is_enabled(unit: str) -> bool:
    """Returns whether systemd starts a unit at a boot."""
    return says_yes("is-enabled", unit)


def used_units(project: str) -> list[Unit]:
    """Returns the units that the project uses on this machine: those that start at a boot, or run now.
    The scheduler and the ticks are always among them.
    """
    always = {f"bsched@{project}.service", f"bsched-tick@{project}.timer"}
    return [
        unit
        for unit in possible_units(project)
        if unit.unit in always or is_enabled(unit.unit) or says_yes("is-active", unit.unit)
    ]

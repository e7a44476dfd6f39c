"""What the machines say of themselves each second: who serves, and in which state their disks are."""
import socket
import threading
import time
from collections.abc import Iterable
from dataclasses import dataclass

from .networks import HERE

PORT = 7700
MOST_BYTES = 1000
STALE_SECONDS = 4.0  # a machine that says nothing for longer is not known to serve


@dataclass(frozen=True, slots=True)
class Look:
    """What a machine said at a moment."""

    at: float
    machine: str
    serves: bool  # something listens at the port of the scheduler
    disk: str  # the line of /proc/drbd

    @property
    def is_primary(self) -> bool:
        """Returns whether it may write to the disk."""
        return "ro:Primary/" in self.disk


def read_look(text: str, at: float) -> Look | None:
    """Reads what a machine said, or returns None if it is nothing of that kind."""
    name, _, rest = text.strip().partition(" ")
    serves, _, disk = rest.partition(" ")
    if name not in ("alpha", "beta", "gamma") or serves not in ("serves", "-"):
        return None
    return Look(at, name, serves == "serves", disk)


def both_at_once(looks: Iterable[Look]) -> str | None:
    """Returns when two machines served at the same time, or both could write to their disks, or None. Looks
    come in the order of time.
    """
    last: dict[str, Look] = {}
    for look in looks:
        last[look.machine] = look
        near = [one for one in last.values() if look.at - one.at <= STALE_SECONDS]
        for what, count in (
            ("serve", sum(one.serves for one in near)),
            ("can write", sum(one.is_primary for one in near)),
        ):
            if count > 1:
                names = " and ".join(sorted(one.machine for one in near))
                return f"{names} both {what}"
    return None


class Observer(threading.Thread):
    """Listens to the machines."""

    def __init__(self) -> None:
        super().__init__(name="observer", daemon=True)
        self._lock = threading.Lock()
        self._looks: list[Look] = []
        self._socket = socket.socket(socket.AF_INET, socket.SOCK_DGRAM)
        self._socket.bind((f"10.77.2.{HERE}", PORT))

    def run(self) -> None:
        """Listens until the process ends."""
        while True:
            text = self._socket.recv(MOST_BYTES).decode("ascii", "replace")
            look = read_look(text, time.monotonic())
            if look is not None:
                with self._lock:
                    self._looks.append(look)

    def since(self, moment: float) -> list[Look]:
        """Returns what was said since a moment."""
        with self._lock:
            return [look for look in self._looks if look.at >= moment]

    def serving(self) -> str | None:
        """Returns the machine that serves now, or None."""
        for look in reversed(self.since(time.monotonic() - STALE_SECONDS)):
            if look.serves:
                return look.machine
        return None

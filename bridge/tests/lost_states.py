"""Bridges that lose their state file."""
import pytest
from bridges import Bridge
from messages import FIRST
from numbering import NEW_HOSTID, rising
from twin import Twin

A, B = FIRST, FIRST + 1  # two computers of Ann


def loses_state(bridge: Bridge, monkeypatch: pytest.MonkeyPatch, later: int = 1000) -> None:
    """The bridge loses its state file, and starts with a new one some seconds later."""
    bridge.file.close()
    for path in bridge.folder.glob("bridge.db*"):
        path.unlink()
    monkeypatch.setattr(NEW_HOSTID, rising(lambda: FIRST + later))
    bridge.start()


def recorded(twin: Twin, name: str) -> str | None:
    """Returns the host_cpid of the host whose report of a result is recorded, or None."""
    unit, _, number = name.rpartition("_")
    instance = twin.service.machine.rows["workunits"][unit].instances[int(number)]
    if instance.exit_status is None:
        return None
    return next(key[1] for key, host in twin.service.machine.hosts.items() if host is instance.host)

"""Stops of a bridge between any two of its steps: syncs, renames, links, deletions, SQL statements and sends.

A stop is that of the process, or a power failure. After a power failure a name is gone that was given after
the last sync of its folder, and a file is empty that was never synced.
"""
import os
import sqlite3
from collections.abc import Callable
from pathlib import Path
from typing import Any

import pytest
from bridges import Bridge


class Stopped(BaseException):
    """Raised at the point where a bridge is stopped."""


class Connection:
    """A connection to SQLite whose statements are steps."""

    def __init__(self, connection: sqlite3.Connection, steps: "Steps") -> None:
        self.connection, self.steps = connection, steps

    def execute(self, statement: str, *values: tuple[Any, ...]) -> Any:
        """Runs a statement, unless the bridge is stopped."""
        return self.steps.around(lambda: self.connection.execute(statement, *values), statement.split()[0])

    def __getattr__(self, name: str) -> Any:
        return getattr(self.connection, name)


class Steps:
    """Stops a bridge at the n-th of its steps, before or after it. From then on the bridge does nothing
    more."""

    def __init__(self, at: int, is_after: bool) -> None:
        self.at, self.is_after, self.passed, self.is_stopped = at, is_after, 0, False
        self.kinds: set[str] = set()
        self.unsynced_names: list[Any] = []
        self.synced: set[int] = set()

    def around(self, act: Callable[..., Any], kind: str) -> Any:
        """Does one step, or stops."""
        if self.is_stopped:
            raise Stopped
        self.passed += 1
        self.kinds.add(kind)
        if self.passed != self.at:
            return act()
        self.is_stopped = True
        if self.is_after:
            act()
        raise Stopped

    def watch(self, monkeypatch: pytest.MonkeyPatch, bridge: Bridge) -> None:
        """Watches the steps of a bridge."""
        fsync, rename, link, unlink = os.fsync, os.rename, os.link, Path.unlink
        message = bridge.application.scheduler.message

        def synced(descriptor: int) -> None:
            fsync(descriptor)
            path = Path(os.readlink(f"/proc/self/fd/{descriptor}"))
            self.synced.add(path.stat().st_ino)
            self.unsynced_names = [name for name in self.unsynced_names if name.parent != path]

        def renamed(old: Path, new: Path) -> None:
            rename(old, new)
            self.unsynced_names.append(Path(new))

        def linked(old: Path, new: Path) -> None:
            link(old, new)
            self.unsynced_names.append(Path(new))

        monkeypatch.setattr(os, "fsync", lambda one: self.around(lambda: synced(one), "fsync"))
        monkeypatch.setattr(os, "rename", lambda *paths: self.around(lambda: renamed(*paths), "rename"))
        monkeypatch.setattr(os, "link", lambda *paths: self.around(lambda: linked(*paths), "link"))
        monkeypatch.setattr(
            Path, "unlink", lambda path, **more: self.around(lambda: unlink(path, **more), "unlink")
        )
        monkeypatch.setattr(
            bridge.application.scheduler,
            "message",
            lambda *words: self.around(lambda: message(*words), "send"),
        )
        for tables in (bridge.file, bridge.store.tables):
            monkeypatch.setattr(tables, "_connection", Connection(tables._connection, self))

    def fail_power(self, folder: Path) -> None:
        """Takes from the disk what a power failure may take."""
        for path in self.unsynced_names:
            path.unlink(missing_ok=True)
        for part in ("pending", "store"):
            for path in (folder / part).iterdir():
                if path.stat().st_ino not in self.synced:
                    path.chmod(0o600)
                    path.write_bytes(b"")

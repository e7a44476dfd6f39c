"""A bridge in a process of its own that kills itself at the n-th of its writes and sends.

usage: killed_bridge.py SETTINGS SOCKET N before|after
SOCKET is the descriptor of a socket that listens.
PYTHONPATH must have the folders bridge, bench and files.
"""
import os
import signal
import socket
import sys
from pathlib import Path
from typing import Any

import joining
import waitress

from bsched_bridge.application import Application
from bsched_bridge.catalogue.contents import read_catalogue
from bsched_bridge.common.state_file import StateFile
from bsched_bridge.scheduler.messages import Scheduler
from bsched_files.project_settings import read_settings


class Killed(joining.Stopped):
    """Ends the process, which gets no time to do anything."""

    def __init__(self) -> None:
        os.kill(os.getpid(), signal.SIGKILL)
        super().__init__()


class Places:
    """Takes the place of pytest's monkeypatch."""

    @staticmethod
    def setattr(target: Any, name: Any, value: Any) -> None:
        """Replaces an attribute for good."""
        setattr(target, name, value)


class Served:
    """A bridge like the one in the tests."""

    def __init__(self, path: Path) -> None:
        settings = read_settings(path)
        self.file = StateFile(settings.state)
        self.application = Application(
            settings, read_catalogue(settings.catalogue), self.file, Scheduler(settings.scheduler, 60)
        )


def main() -> None:
    """Serves until the process is killed."""
    path, listener, at, when = sys.argv[1:]
    setattr(joining, "Stopped", Killed)
    bridge = Served(Path(path))
    joining.Stops(int(at), when == "after").set(Places, bridge)
    waitress.serve(bridge.application, sockets=[socket.socket(fileno=int(listener))], threads=2)


if __name__ == "__main__":
    main()

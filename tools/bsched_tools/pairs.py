"""Two machines for one project: on which of them a project is that is not here."""
import re
import socket
from pathlib import Path

OPTIONS = "options"  # that bsched-project pair was given, a line each
MOST_CHARACTERS = 10_000
MACHINE = re.compile(r"^(?:--machine=)?([a-z0-9-]+)=[0-9.]+,[0-9.]+$", re.MULTILINE)


def elsewhere(folder: Path) -> str | None:
    """Returns where the project of a pair is, if its folder is empty here. None for other projects."""
    options = folder.parent.with_name(f"{folder.parent.name}-pair") / folder.name / OPTIONS
    try:
        with options.open(encoding="utf-8", errors="replace") as file:
            machines = MACHINE.findall(file.read(MOST_CHARACTERS))
    except OSError:
        return None
    here = socket.gethostname()
    others = " or ".join(name for name in machines if name != here)
    return f"{folder.name} is not on this machine: run this on {others}, or see `crm_mon -1`"

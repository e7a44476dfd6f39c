"""What this machine has: its name, a watchdog, and a disk that nothing uses."""
import socket
import subprocess
from collections.abc import Iterator
from pathlib import Path

from .pair import Pair

ASK_SECONDS = 30


def use_of(disk: Path) -> str | None:
    """Returns what uses a disk, or None. `lsblk` says it: a file system, or a part of the disk."""
    command = ["lsblk", "--noheadings", "--output", "NAME,FSTYPE,MOUNTPOINTS", "--raw", str(disk)]
    try:
        done = subprocess.run(command, capture_output=True, text=True, timeout=ASK_SECONDS, check=False)
    except (OSError, subprocess.TimeoutExpired) as error:
        return f"lsblk does not say what uses it: {error}"
    if done.returncode != 0:
        return f"lsblk does not say what uses it: {done.stderr.strip()}"
    lines = [line.split(" ") for line in done.stdout.splitlines()]
    if len(lines) > 1:
        return f"{lines[1][0]} is on it"
    words = [word for line in lines for word in line[1:] if word]
    return f"it has {' at '.join(words)}" if words else None


def faults_here(pair: Pair) -> Iterator[str]:
    """Yields what this machine lacks for the pair."""
    name = socket.gethostname()
    names = [machine.name for machine in pair.machines]
    if name not in names:
        pair_text = " and ".join(names)
        yield f"this machine is {name}, and the pair is {pair_text}: use names as `hostname` prints them"
    if not pair.watchdog.is_char_device():
        yield (
            f"{pair.watchdog} is no watchdog: without one, a machine that hangs is not reset. "
            "`modprobe softdog` makes one"
        )
    if not pair.disk.is_block_device():
        yield f"{pair.disk} is no disk"
    elif (use := use_of(pair.disk)) is not None:
        yield f"{pair.disk} is in use: {use}"

"""What scripts and tests share: the built program's path, free ports, and how to start, stop and measure
programs."""
import contextlib
import os
import random
import socket
import subprocess
import sys
import time
from collections.abc import Mapping, Sequence
from pathlib import Path
from typing import BinaryIO, NoReturn

BUILT = os.path.join(
    os.path.dirname(os.path.dirname(os.path.abspath(__file__))), "crates", "bsched", "out", "bsched"
)
USAGE = 64  # the status of a script that lacks what it needs
PORTS = range(10_000, 32_000)
RETURNED: set[int] = set()  # the ports that were chosen so far


def needs(script: str, what: str) -> NoReturn:
    """Ends the script with one line that says what it needs, and status 64."""
    print(f"{script}: {what}", file=sys.stderr)
    sys.exit(USAGE)


def program_at(script: str, path: str) -> str:
    """Returns the program's path, from the root. If there is no program, the script ends with one line."""
    if not os.access(path, os.X_OK) or os.path.isdir(path):
        needs(
            script,
            f"there is no program at {path}: build it with `rt run` in crates/bsched, or say --program PATH",
        )
    return os.path.abspath(path)


def free_port(first: int = PORTS.start, count: int = len(PORTS)) -> int:
    """Returns a port on which nothing listens, at no address, chosen from some ports. They are below those
    that the system gives to clients: from one of these a client that waits for a server could connect to
    itself. No port is returned twice."""
    while True:
        port = random.randrange(first, first + count)
        with socket.socket() as listener, contextlib.suppress(OSError):
            listener.bind(("", port))
            if port not in RETURNED:
                RETURNED.add(port)
                return port


def listens(port: int) -> bool:
    """Returns whether something listens on a port of 127.0.0.1. A listener answers at once; this connection
    counts as one that was served."""
    with socket.socket() as probe:
        probe.settimeout(1)
        return probe.connect_ex(("127.0.0.1", port)) == 0


class NotStarted(SystemExit):
    """Raised if a program does not start. It ends a script that does not catch it."""


def start(
    command: Sequence[str | Path],
    port: int,
    seconds: float = 10,
    folder: Path | None = None,
    environment: Mapping[str, str] | None = None,
    log: BinaryIO | None = None,
) -> "subprocess.Popen[bytes]":
    """Starts a program, and returns it once it listens on a port. If that takes longer, the program is killed
    and NotStarted is raised. The program can get a folder, an environment and a log."""
    process = subprocess.Popen(command, cwd=folder, env=environment, stdout=log, stderr=log)
    until = time.monotonic() + seconds
    while time.monotonic() < until and process.poll() is None:
        if listens(port):
            return process
        time.sleep(0.005)
    stop(process)
    raise NotStarted(f"{command[0]} does not start")


def stop(process: "subprocess.Popen[bytes]") -> None:
    """Kills a program and waits for its end."""
    process.kill()
    process.wait(timeout=60)


def ordered(program: str, *args: str) -> str:
    """Runs the program with these arguments and returns what it prints. It must end with status 0."""
    return subprocess.run([program, *args], check=True, capture_output=True, text=True).stdout


def started(
    program: str,
    tables: str,
    port: int,
    count: int = 1_000_000,
    before: Sequence[str] = (),
    seconds: float = 10,
) -> "subprocess.Popen[bytes]":
    """Starts the program as a server of tables, for a number of connections. If `before` is given, it runs
    under that command."""
    args = ["serve", "--tables", tables, "--port", str(port), "--count", str(count)]
    return start([*before, program, *args], port, seconds)


def wants(found: object, wanted: object, what: str) -> None:
    """Ends the run if something is not what it must be."""
    if found != wanted:
        raise SystemExit(f"{what}: {found!r} instead of {wanted!r}")


def processor_seconds(process: "subprocess.Popen[bytes]") -> float:
    """Returns the processor time that a process of one thread has used, in seconds."""
    with open(f"/proc/{process.pid}/schedstat") as file:
        return int(file.read().split()[0]) / 1e9


def memory_of(process: "subprocess.Popen[bytes]", word: str) -> int:
    """Returns what the kernel says about the memory of a process under a word, in kilobytes."""
    with open(f"/proc/{process.pid}/status") as file:
        return next(int(line.split()[1]) for line in file if line.startswith(f"{word}:"))


def peak(process: "subprocess.Popen[bytes]") -> int:
    """Returns the peak memory of a process, in kilobytes."""
    return memory_of(process, "VmHWM")

"""The scheduler and the bridge: they run until the end, and are started again if one of them ends.

Each process has a session of its own, so Ctrl-C on the terminal reaches only `./run`, which ends them in
order. If `./run` is killed, the kernel sends them SIGTERM.
"""
import subprocess
import time
from collections import deque
from pathlib import Path

from bsched_files.faults import Fault
from served import listens
from trial.programs import Program, TrialFault

GUARD = ["setsid", "setpriv", "--pdeathsig", "TERM", "--"]
FREE_SECONDS = 20  # for what a killed run left, until it has ended
END_SECONDS = 15
MOST_LOG = 1_000_000  # bytes; a larger log is removed at a start
MOST_STARTS, START_SPAN = 5, 60.0  # a program that is started more often within these seconds is given up


def wait_until_free(program: Program) -> None:
    """Waits until nothing listens on the port of a program. A former run may be ending."""
    until = time.monotonic() + FREE_SECONDS
    while listens(program.port):
        if time.monotonic() > until:
            raise Fault(
                f"another program listens on port {program.port}, which {program.name} needs:"
                " stop that program, or begin a new project by --fresh"
            )
        time.sleep(0.2)


def log_of(program: Program) -> Path:
    """Returns the path of a program's log."""
    return program.folder / f"{program.name}.log"


def start(program: Program) -> None:
    """Starts a program, and waits until it listens."""
    wait_until_free(program)
    log = log_of(program)
    if log.exists() and log.stat().st_size > MOST_LOG:
        log.unlink()
    try:
        program.start()
    except TrialFault as fault:
        raise Fault(str(fault)) from None


def end(program: Program) -> None:
    """Asks a program to end. If it does not, it is killed."""
    if program.process is None:
        return
    program.process.terminate()
    try:
        program.process.wait(END_SECONDS)
    except subprocess.TimeoutExpired:
        program.kill()
    program.process = None


class Keeper:
    """Programs that are kept running."""

    def __init__(self) -> None:
        self.programs: list[Program] = []
        self.starts: dict[str, deque[float]] = {}

    def add(self, program: Program) -> None:
        """Starts a program, and keeps it running from now on."""
        program.words = [*GUARD, *program.words]
        self.programs.append(program)  # before the start, so that a signal meanwhile ends it, too
        start(program)

    def look(self) -> list[str]:
        """Starts again what has ended, and returns the names of these programs. If one ends again and again,
        that is a fault."""
        ended = [one for one in self.programs if one.process is not None and one.process.poll() is not None]
        for program in ended:
            starts = self.starts.setdefault(program.name, deque(maxlen=MOST_STARTS))
            starts.append(time.monotonic())
            if len(starts) == MOST_STARTS and starts[-1] - starts[0] < START_SPAN:
                raise Fault(f"the {program.name} ends again and again: see {log_of(program)}")
            start(program)
        return [program.name for program in ended]

    def end(self) -> None:
        """Ends all programs, the last one first."""
        while self.programs:
            end(self.programs.pop())

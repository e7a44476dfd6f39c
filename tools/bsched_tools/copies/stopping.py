"""Stops a process for a moment, and makes sure that it is continued.

Before the process is stopped, this one makes a child that waits for the end of a pipe. When this process
ends, in any way, the child continues the stopped process. It also does so after the time limit. A process is
named by its pidfd, because its number can be given to another process.
"""
import os
import re
import select
import signal
import time
from collections.abc import Iterator
from contextlib import contextmanager, suppress
from dataclasses import dataclass

from bsched_files.faults import Fault

from .faults import Retry

STOP_SECONDS = 1.0  # a process that does not stand still by then is continued
STILL_SECONDS = 10.0  # no process stands still for longer
PAUSE_SECONDS = 0.0005
CHILD_SECONDS = 2.0  # how long to wait for the end of the child
SWITCHES = re.compile(r"ctxt_switches:\s+(\d+)")


@dataclass(frozen=True, slots=True)
class Process:
    """A process with its pidfd."""

    pid: int
    pidfd: int

    def send(self, number: signal.Signals) -> None:
        """Sends a signal."""
        try:
            signal.pidfd_send_signal(self.pidfd, number)
        except ProcessLookupError:
            raise Retry(f"process {self.pid} has ended") from None
        except PermissionError:
            raise Fault(f"process {self.pid} is another user's: run this as root, or as that user") from None

    def has_ended(self) -> bool:
        """Returns whether the process has ended. Until then no other process gets its number."""
        return bool(select.select([self.pidfd], [], [], 0)[0])


@contextmanager
def process_of(pid: int) -> Iterator[Process]:
    """Yields a process by its number."""
    try:
        pidfd = os.pidfd_open(pid)
    except ProcessLookupError:
        raise Retry(f"process {pid} has ended") from None
    try:
        yield Process(pid, pidfd)
    finally:
        os.close(pidfd)


Threads = dict[str, tuple[str, list[str]]]


def threads_of(process: Process) -> Threads:
    """Returns the state of each thread, and how often it has given up the processor so far."""
    folder, states = f"/proc/{process.pid}/task", {}
    try:
        for thread in os.listdir(folder):
            with open(f"{folder}/{thread}/status", errors="replace") as status:
                text = status.read()
            states[thread] = re.findall(r"^State:\s+(\w)", text, re.MULTILINE)[0], SWITCHES.findall(text)
    except (FileNotFoundError, ProcessLookupError):
        return {}
    return states


def is_still(states: Threads) -> bool:
    """Returns whether a signal has stopped all threads."""
    return bool(states) and all(state == "T" for state, _ in states.values())


def wait_until_still(process: Process) -> Threads:
    """Waits until a process stands still. Returns the state of its threads at that time."""
    ends = time.monotonic() + STOP_SECONDS
    while not is_still(states := threads_of(process)):
        if process.has_ended():
            raise Retry(f"process {process.pid} has ended")
        if time.monotonic() > ends:
            raise Retry(f"process {process.pid} did not stop within a second, and was continued: try again")
        time.sleep(PAUSE_SECONDS)
    return states


def watch(process: Process, pipe_end: int) -> None:
    """Runs in the child: waits for the end of the pipe or the time limit, continues the process, and ends."""
    try:
        os.setsid()
        poll = select.poll()
        poll.register(pipe_end, select.POLLIN | select.POLLHUP)
        poll.poll(STILL_SECONDS * 1000)
    finally:
        try:
            signal.pidfd_send_signal(process.pidfd, signal.SIGCONT)
        finally:
            os._exit(0)


@contextmanager
def watched(process: Process) -> Iterator[None]:
    """Has a child watch this process during the block. The child takes no signal but SIGKILL."""
    pipe_end, own_end = os.pipe()
    before = signal.pthread_sigmask(signal.SIG_BLOCK, signal.valid_signals())
    try:
        child = os.fork()
        if child == 0:
            os.close(own_end)
            watch(process, pipe_end)
    finally:
        signal.pthread_sigmask(signal.SIG_SETMASK, before)
        os.close(pipe_end)
    try:
        yield
    finally:
        os.close(own_end)
        end_of(child)


def end_of(child: int) -> None:
    """Waits a short time for the end of a child."""
    ends = time.monotonic() + CHILD_SECONDS
    with suppress(ChildProcessError):
        while os.waitpid(child, os.WNOHANG) == (0, 0) and time.monotonic() < ends:
            time.sleep(PAUSE_SECONDS)


@dataclass(slots=True)
class Still:
    """How long a process stood still."""

    seconds: float = 0.0


@contextmanager
def stopped(process: Process) -> Iterator[Still]:
    """Stops a process during the block. If the process ran meanwhile, the block's work is void, and Retry is
    raised."""
    still = Still()
    with watched(process):
        began = time.perf_counter()
        try:
            process.send(signal.SIGSTOP)
            states = wait_until_still(process)
            yield still
            if time.perf_counter() - began >= STILL_SECONDS:
                raise Fault(f"it was not copied within {STILL_SECONDS:.0f} seconds: is the disk slow?")
            if threads_of(process) != states:
                raise Retry(f"process {process.pid} ran while it should have been stopped")
        finally:
            with suppress(Retry):
                process.send(signal.SIGCONT)
            still.seconds = time.perf_counter() - began

"""What the cases `compare`, `slow` and `row` of `bench/serve` share.

They run the program and a reference, which is another build of it, over copies of the same tables. Both
answer the same calls in turn. The answers must be equal byte for byte, except for deadlines: a program acts
on the second of its own clock. So a deadline must be the second of the call that got the job, plus the
workunit's delay bound. Then it is replaced by zeros, and the answers are compared.
"""
import json
import os
import random
import re
import signal
import socket
import time
from collections import Counter
from collections.abc import Sequence
from dataclasses import dataclass
from types import FrameType
from typing import Any, NoReturn

import serve_life
from serve_life import Answered
from served import free_port, processor_seconds, started, wants

OPENING = 900  # how many seconds an opening may take
ANSWER = 3600  # how many seconds an answer may take, also under valgrind
MOST_COUNT = 1_000_000  # how many connections a server takes
DEADLINE = re.compile(rb'"report_deadline":(\d+)')


@dataclass
class Options:
    """What the command line says. `calls` is how many calls the case `row` makes. The next three say how
    large the project of the case `whole` is, and what decides its calls. `part` divides the sizes of the case
    `dear`."""

    program: str
    reference: str | None
    calls: int
    workunits: int
    hosts: int
    seed: int
    part: int

    def programs(self) -> list[str]:
        """Returns the program, and the reference if there is one."""
        return [self.program] if self.reference is None else [self.program, self.reference]


def limit_time(case: str, seconds: int) -> None:
    """Ends the script if a case takes longer than a number of seconds. The servers end with it."""

    def end(_number: int, _frame: FrameType | None) -> NoReturn:
        raise SystemExit(f"{case}: not done after {seconds} seconds")

    signal.signal(signal.SIGALRM, end)
    signal.alarm(seconds)


def stat_seconds(process: Any) -> float:
    """Returns the processor time of a process with all its threads, in seconds. The kernel counts it in
    hundredths of a second."""
    with open(f"/proc/{process.pid}/stat") as file:
        fields = file.read().rpartition(")")[2].split()
    return (int(fields[11]) + int(fields[12])) / os.sysconf("SC_CLK_TCK")


def wait_until_idle(process: Any) -> None:
    """Waits until a process sleeps: then the kernel has counted all its processor time."""
    for _ in range(10_000):
        with open(f"/proc/{process.pid}/stat") as file:
            if file.read().rpartition(")")[2].split()[0] == "S":
                return
        time.sleep(0.0001)


def begun(program: str, tables: str, before: Sequence[str] = ()) -> serve_life.Run:
    """Starts a program's server over tables, under the command `before` if it is given, and returns it once
    it takes connections. All servers run on one processor, so other work of the machine there slows all of
    them."""
    begin, port = time.perf_counter(), free_port()
    run = serve_life.Run(started(program, tables, port, MOST_COUNT, before, OPENING), port, begin)
    os.sched_setaffinity(run.server.pid, {max(os.sched_getaffinity(0))})
    wait_until_idle(run.server)
    return run


def ended(run: serve_life.Run) -> None:
    """Ends a server. Its processor time is read in nanoseconds from schedstat, which counts one thread only.
    At the end /proc/PID/stat, which counts all threads in hundredths of a second, must agree."""
    wait_until_idle(run.server)
    fine, coarse = processor_seconds(run.server), stat_seconds(run.server)
    wants(abs(fine - coarse) <= 0.05 + coarse / 100, True, f"that {fine} and {coarse} seconds agree")
    run.end()


def reset_peak(run: serve_life.Run) -> None:
    """Resets the peak memory of a server."""
    with open(f"/proc/{run.server.pid}/clear_refs", "w") as file:
        file.write("5")


def message_of(body: bytes) -> bytes:
    """Returns the message of a call."""
    return serve_life.HEAD % (0, len(body), body)


def exchange(port: int, message: bytes) -> Answered:
    """Sends a message over a connection of its own. Returns the answer with its times."""
    start = time.time()
    with socket.create_connection(("127.0.0.1", port), timeout=ANSWER) as connection:
        connection.sendall(message)
        answer = b""
        while some := connection.recv(65536):
            answer += some
    return answer, start, time.time()


def exchange_timed(run: serve_life.Run, message: bytes) -> tuple[Answered, float]:
    """Sends a message, and waits until the server sleeps. Also returns the server's processor seconds."""
    before = processor_seconds(run.server)
    answer = exchange(run.port, message)
    wait_until_idle(run.server)
    return answer, processor_seconds(run.server) - before


class Clock:
    """The deadlines that one program set, by the names of the jobs."""

    def __init__(self) -> None:
        self.deadlines: dict[str, int] = {}

    def without(self, answered: Answered) -> bytes:
        """Returns an answer with zeros for its deadlines. If the name of a job is new, this call got it."""
        answer, start, end = answered
        for job in json.loads(answer.partition(b"\r\n\r\n")[2]).get("results", []):
            name, deadline = job["name"], job["report_deadline"]
            if name not in self.deadlines:
                sent = deadline - serve_life.DELAY
                wants(int(start) <= sent <= end, True, f"that {name} was sent in the second of its call")
                self.deadlines[name] = deadline
            wants(deadline, self.deadlines[name], f"the deadline of {name}")
        return DEADLINE.sub(lambda found: b'"report_deadline":' + b"0" * len(found[1]), answer)


def same_answers(body: bytes, each: list[bytes]) -> None:
    """Ends the run if the programs gave different answers to a call."""
    if any(one != each[0] for one in each):
        raise SystemExit(f"an answer differs\nthe call: {body!r}\n" + "\n".join(map(repr, each)))


class Played(serve_life.Life):
    """Calls of clients. Each goes to every server as soon as it is made. The servers take turns at
    being first. They must answer the same, so it does not matter whose answer the client hears."""

    def __init__(self, runs: list[serve_life.Run], timed: bool) -> None:
        self.pick, self.seen = random.Random(1), Counter()
        self.runs, self.timed, self.count = runs, timed, 0
        self.clocks = [Clock() for _ in runs]
        self.seconds: list[float] = []  # what each server took for the last call, if that is timed

    def exchange_all(self, message: bytes) -> list[Answered]:
        """Sends a message to every server and returns the answers."""
        order = list(range(len(self.runs)))
        if self.count % 2:
            order.reverse()
        self.count += 1
        found = {}
        for number in order:
            run = self.runs[number]
            found[number] = exchange_timed(run, message) if self.timed else (exchange(run.port, message), 0.0)
        self.seconds = [found[number][1] for number in range(len(self.runs))]
        return [found[number][0] for number in range(len(self.runs))]

    def send(self, body: bytes) -> dict[str, Any] | None:
        """Makes one more call. Returns its reply, or None if it is refused."""
        answers = self.exchange_all(message_of(body))
        same_answers(body, [clock.without(one) for clock, one in zip(self.clocks, answers)])
        head, _, reply = answers[0][0].partition(b"\r\n\r\n")
        return json.loads(reply) if head.startswith(b"HTTP/1.1 200 ") else None

"""The cases `compare` and `row` of `bench/serve`: two builds of the program, and many calls in a row."""
import os
import statistics

import serve_life
from played import (
    Clock,
    Options,
    Played,
    begun,
    ended,
    exchange,
    limit_time,
    message_of,
    reset_peak,
    same_answers,
    wait_until_idle,
)
from serve_life import LEAST, MOST, SIZES, Life, Reply, copied, made
from served import peak, processor_seconds, wants

ROUNDS = 10
TURN = 50  # how many calls one program answers before the other answers them
LEAST_UNITS = 10_000  # the least number of workunits in the project of `row`
MOST_LOG = 16 * 2**20  # the log of `row` stays below this, in bytes
MOST_GROWTH = 16 * 1024  # the peak memory of its calls grows by less after the first tenth, in kilobytes


def ratio_text(one: float, other: float) -> str:
    """Returns the text that says how many times as much one is as the other."""
    return f"{one / other:.2f} times" if other else "no ratio"


# ---- The case compare


class Pair:
    """The program, and the reference if there is one, with the same calls. Each runs over tables of the same
    project that it created itself."""

    def __init__(self, programs: list[str], units: int, folder: str, bodies: list[bytes]) -> None:
        self.programs, self.units, self.folder, self.bodies = programs, units, folder, bodies
        self.seconds: list[list[float]] = []  # for each turn, the processor seconds of each program
        self.calls = self.rounds = 0

    def begin(self) -> "Pair":
        """Starts the servers, one after the other, over fresh copies."""
        self.at, self.clocks = 0, [Clock() for _ in self.programs]
        self.runs = []
        for number, program in enumerate(self.programs):
            path = made(program, self.units)
            self.runs.append(begun(program, copied(path, self.folder, f"{number}.{self.units}.db")))
        self.openings = [opening_of(run) for run in self.runs]
        return self

    def go(self, count: int) -> "Pair":
        """Makes `count` more calls to each program, in turns."""
        while count > 0:
            self.take_turn(min(TURN, count))
            count -= TURN
        return self

    def take_turn(self, count: int) -> None:
        """Makes `count` more calls to one program after the other. They take turns at being first."""
        bodies, order = self.bodies[self.at : self.at + count], list(range(len(self.runs)))
        if self.rounds % 2:
            order.reverse()
        answers: dict[int, list[bytes]] = {}
        took: dict[int, float] = {}
        for number in order:
            server = self.runs[number].server
            before = processor_seconds(server)
            answered = [exchange(self.runs[number].port, message_of(body)) for body in bodies]
            wait_until_idle(server)
            took[number] = processor_seconds(server) - before
            answers[number] = [self.clocks[number].without(one) for one in answered]
        for body, *each in zip(bodies, *(answers[number] for number in range(len(self.runs)))):
            same_answers(body, each)
        self.seconds.append([took[number] for number in range(len(self.runs))])
        self.at, self.calls, self.rounds = self.at + count, self.calls + count, self.rounds + 1

    def end(self) -> None:
        """Ends the servers."""
        for run in self.runs:
            ended(run)

    def tell(self) -> None:
        """Prints what a call took."""
        ours, *theirs = (sum(each) / self.calls * 1e6 for each in zip(*self.seconds))
        line = f"compare: {self.units} workunits: a call takes {ours:.0f} microseconds of the processor"
        if theirs:
            ratios = [one / other for one, other in self.seconds]
            line += (
                f", by the reference {theirs[0]:.0f}: {ratio_text(ours, theirs[0])}; in the turns "
                f"{min(ratios):.2f} to {max(ratios):.2f} times, median {statistics.median(ratios):.2f}; "
                f"{self.calls} answers are equal"
            )
        print(line, flush=True)


def opening_of(run: serve_life.Run) -> tuple[float, float]:
    """Returns the processor seconds and the peak memory, in kilobytes, of the opening of a server that has
    heard no call."""
    return processor_seconds(run.server), float(run.open_peak)


def openings_in_reverse(programs: list[str], units: int, folder: str) -> list[tuple[float, float]]:
    """Returns what an opening by each program took. The last program opens its copy first."""
    found = []
    for program in reversed(programs):
        run = begun(program, copied(made(program, units), folder))
        found.append(opening_of(run))
        ended(run)
    return found[::-1]


def tell_opening(units: int, openings: list[tuple[float, float]]) -> None:
    """Prints what an opening took: processor seconds, and peak memory in kilobytes."""
    (seconds, kilobytes), *theirs = openings
    line = f"compare: {units} workunits: an opening takes {seconds:.2f} processor seconds"
    for other, _ in theirs:
        line += f", by the reference {other:.2f}: {ratio_text(seconds, other)}"
    line += f"; its peak memory is {kilobytes / 1024:.1f} MB"
    for _, other in theirs:
        line += f", of the reference {other / 1024:.1f}: {ratio_text(kilobytes, other)}"
    print(line, flush=True)


def compare(options: Options, folder: str) -> None:
    """Compares the program and the reference over the calls of the case `life`. A round uses up the smallest
    project, so each round starts it anew."""
    limit_time("compare", 1800)
    pairs = {}
    for units, count in SIZES.items():
        lived = Life(made(options.program, units), folder)
        lived.mixed(units, count * (1 if units == LEAST else ROUNDS)).ended()
        pairs[units] = Pair(options.programs(), units, folder, lived.bodies)
    large = [units for units in SIZES if units != LEAST]
    before = openings_in_reverse(options.programs(), MOST, folder)
    for units in large:
        pairs[units].begin()
    # each program opened the tables twice: the shorter time and the larger memory count
    both = zip(before, pairs[MOST].openings)
    tell_opening(MOST, [(min(one[0], other[0]), max(one[1], other[1])) for one, other in both])
    for _ in range(ROUNDS):
        pairs[LEAST].begin().go(SIZES[LEAST]).end()
        for units in large:
            pairs[units].go(SIZES[units])
    for units in large:
        pairs[units].end()
    for units in SIZES:
        pairs[units].tell()


# ---- The case row


class Row(Played):
    """Calls in a row. After each hundred the size of the log is read."""

    def __init__(self, run: serve_life.Run, path: str, calls: int) -> None:
        super().__init__([run], timed=False)
        self.path, self.window, self.made, self.log = path, calls // 10, 0, 0
        self.clock = processor_seconds(run.server)
        # after each tenth: its processor seconds, the peak memory and the largest log so far
        self.windows: list[tuple[float, int, int]] = []

    def send(self, body: bytes) -> Reply | None:
        """Makes one more call. After each tenth of all it measures the server."""
        reply = super().send(body)
        self.made += 1
        if self.made % 100 == 0:
            self.log = max(self.log, os.path.getsize(f"{self.path}-wal"))
        if self.made % self.window == 0:
            server = self.runs[0].server
            wait_until_idle(server)
            now = processor_seconds(server)
            self.windows.append((now - self.clock, peak(server), self.log))
            self.clock = now
        return reply


def row(options: Options, folder: str) -> None:
    """Makes many calls in a row over one file."""
    limit_time("row", 3600)
    calls = options.calls
    wants(calls >= 1000, True, "that there are at least 1000 calls")
    units = max(LEAST_UNITS, calls * 6 // 10)  # enough work for all of them
    path = copied(made(options.program, units), folder)
    run, size = begun(options.program, path), os.path.getsize(path)
    open_peak = run.open_peak
    reset_peak(run)
    played = Row(run, path, calls)
    played.mixed(units, calls)
    ended(run)
    (first, early, early_log), *_, (last, late, log) = played.windows
    each, seen = played.window, played.seen
    print(
        f"row: {calls} calls at {units} workunits, {seen['jobs given']} jobs, {seen['reports']} reports; "
        f"a call takes {first / each * 1e6:.0f} microseconds of the processor in the first {each} calls and "
        f"{last / each * 1e6:.0f} in the last: {ratio_text(last, first)}"
    )
    print(
        f"row: the log reaches {early_log / 1e6:.1f} MB in the first {each} calls, {log / 1e6:.1f} in all; "
        f"the peak memory is {early / 1024:.1f} MB in the first {each} calls, {late / 1024:.1f} in all and "
        f"{open_peak / 1024:.1f} in the opening; the file grows from {size / 1e6:.1f} to "
        f"{os.path.getsize(path) / 1e6:.1f} MB"
    )
    wants(log < MOST_LOG, True, f"that the log stays below {MOST_LOG} bytes")
    wants(late - early < MOST_GROWTH, True, f"that the peak memory grows by less than {MOST_GROWTH} kB")

"""The case `dear` of `bench/serve`: the dearest messages, and whether they keep to their goals.

The tables are those of dear_tables.py. The program starts anew for each group of cases, and answers each
message once. The twin answers it, too (twinned.py), and the module `sqlite3`, which is SQLite in C, runs the
twin's statements alone. A reference, which is another build of the program, also answers each message but the
refused ones, if it is named.

A goal for a call is a multiple of a fresh host's call, for each hundred rows that its rules make it read: a
workunit that it reports, lists, has lost or gets, its mark, all its instances, and the hosts whose credit or
quota change. It does not count what the program reads to find them.
"""
import contextlib
import itertools
import json
import os
import statistics
import string
from collections.abc import Iterator, Sequence
from dataclasses import dataclass, field, replace
from typing import Any

import plain_tables
import serve_life
from dear_tables import EACH, INSTANCES, LIMITS, Large, Sizes, Small
from plain_formats import KINDS
from played import DEADLINE, Options, begun, ended, exchange_timed, limit_time
from serve_life import CREDIT, DELAY, HOUR, Recorder, Run, copied, request
from serve_worst import FRESH
from served import wants
from twinned import TICK, Message, Twinned, call_of, import_of

MOST_BODY, MOST_IMPORT, MOST_NAMES = 262_144, 1_048_576, 1024
OWN_ROWS = 2  # the rows of a workunit besides its instances: itself and its mark
ASKED = 10  # how many jobs the busy user asks for
DEEP = 125  # how deep the objects of a refused body are nested, within the body and an array
FRESH_CALL = "a fresh host's call, without a job"
TRIES = 5  # how often each refused body is sent; the least time counts
# the goals: a call compared with a fresh one for each hundred rows, microseconds for an instance of a tick,
# milliseconds of any message and of an import, and a refused body compared with blanks
MOST_RATIO, MOST_LATE, MOST_TIME, MOST_IMPORT_TIME, MOST_REFUSED = 3.0, 50.0, 250.0, 1000.0, 2.0


# ---- Messages and figures


@dataclass(frozen=True)
class Took:
    """What a message took: processor milliseconds of the program, and of SQLite in C for the statements (None
    if the twin has none), the milliseconds for which serving stood still, and those of the reference (None if
    there is none)."""

    what: str
    rows: int
    ours: float
    bare: float | None
    clock: float
    reference: float | None = None


class Figures:
    """What messages took, compared with a fresh host's call in processor milliseconds, and what did not keep
    to each goal."""

    def __init__(self) -> None:
        self.fresh, self.broken = 0.0, dict[str, list[str]]()

    def check(self, goal: str, what: str, is_kept: bool) -> None:
        """Notes whether a message kept to a goal."""
        broken = self.broken.setdefault(goal, [])
        if not is_kept:
            broken.append(what)

    def tell_fresh(self, milliseconds: float) -> None:
        """Prints what a fresh host's call took, and compares the further messages with it."""
        self.fresh = milliseconds
        print(f"dear: {FRESH_CALL}: {milliseconds:.2f} milliseconds", flush=True)

    def tell(self, took: Took) -> None:
        """Prints what a message took."""
        times = took.ours / self.fresh
        line = f"dear: {took.what}: {took.ours:.1f} milliseconds, {times:.1f} times a fresh call"
        if took.rows:
            line += f" ({took.rows} rows, {100 * times / took.rows:.2f} times for each hundred)"
        line += f"; serving stands still for {took.clock:.0f}"
        if took.bare is not None:
            line += f"; the statements alone by SQLite in C {took.bare:.1f}"
        if took.reference is not None:
            line += f"; the reference {took.reference:.1f}, so {took.ours / took.reference:.2f} times as much"
        print(line, flush=True)

    def tell_import(self, took: Took) -> None:
        """Prints what an import took, and checks its goal."""
        self.tell(took)
        goal = f"an import takes less than {MOST_IMPORT_TIME:.0f} milliseconds"
        self.check(goal, took.what, took.ours < MOST_IMPORT_TIME)

    def tell_other(self, took: Took) -> None:
        """Prints what another message took, and checks its goal."""
        self.tell(took)
        goal = f"no other message takes more than {MOST_TIME:.0f} milliseconds"
        self.check(goal, took.what, took.ours <= MOST_TIME)

    def tell_call(self, took: Took) -> None:
        """Prints what a call took, and checks its goals."""
        self.tell_other(took)
        most = MOST_RATIO * self.fresh * max(1.0, took.rows / 100)
        goal = f"a call takes at most {MOST_RATIO:.0f} times a fresh one for each hundred rows"
        self.check(goal, took.what, took.ours <= most)

    def tell_tick(self, took: Took, late: int) -> None:
        """Prints what a tick took that found late jobs, and checks its goals."""
        self.tell_other(took)
        each = took.ours * 1000 / late
        self.tell_each(each)
        goal = f"a tick takes at most {MOST_LATE:.0f} microseconds an instance"
        self.check(goal, took.what, each <= MOST_LATE)

    def tell_each(self, microseconds: float) -> None:
        """Prints what each late instance of a tick took."""
        print(f"dear: that is {microseconds:.0f} microseconds for each late instance", flush=True)

    def tell_goals(self) -> None:
        """Prints which goals hold."""
        for goal, broken in self.broken.items():
            print(f"dear: {goal}: " + ("holds" if not broken else "does not hold: " + "; ".join(broken)))


@dataclass
class Bench:
    """The program that is measured, a folder for copies of tables, the figures, and the reference, if any."""

    program: str
    folder: str
    figures: Figures = field(default_factory=Figures)
    reference: str | None = None

    def command(self) -> Sequence[str]:
        """Returns the command under which the program runs."""
        return ()

    @contextlib.contextmanager
    def watched(self, run: Run, what: str) -> Iterator[None]:
        """Watches the program while it answers a message."""
        yield

    def group(self, tables: str) -> "Group":
        """Begins a group of messages over a copy of tables."""
        return Group(self, tables)

    def begun(self, tables: str) -> Run:
        """Starts the program alone over a copy of tables."""
        return begun(self.program, copied(tables, self.folder, "ours.db"), self.command())

    def begun_reference(self, tables: str) -> Run | None:
        """Starts the reference over a copy of tables, if there is one."""
        if self.reference is None:
            return None
        return begun(self.reference, copied(tables, self.folder, "reference.db"))


def reference_took(reference: Run | None, message: bytes, answer: bytes) -> float | None:
    """Returns the processor milliseconds that the reference, if any, takes for a message. But for the
    deadlines it must give this answer."""
    if reference is None:
        return None
    (other, _, _), seconds = exchange_timed(reference, message)
    wants(DEADLINE.sub(b"", other), DEADLINE.sub(b"", answer), "the answer of the reference")
    return seconds * 1e3


class Group:
    """Messages to one run of the program over a copy of tables, to the twin, to SQLite in C, and to the
    reference, if there is one."""

    def __init__(self, bench: Bench, tables: str) -> None:
        ours, theirs, bare = (
            copied(tables, bench.folder, f"{name}.db") for name in ("ours", "theirs", "bare")
        )
        self.bench = bench
        self.both = Twinned(bench.program, ours, theirs, lambda name: DELAY, bench.command())
        self.both.begin()
        self.recorder = Recorder(self.both.tables)
        self.bare = plain_tables.Tables(bare).connection
        self.reference = bench.begun_reference(tables)
        self.numbers: dict[int, int] = {}

    def send(self, what: str, rows: int, message: Message) -> tuple[Took, bytes]:
        """Sends a message. Returns what it took, and the body of the answer, which must be good."""
        with self.bench.watched(self.both.run, what):
            heard = self.both.send(message)
        bare = serve_life.run_bare(self.bare, self.recorder.taken())
        wants(heard.answer[:13], b"HTTP/1.1 200 ", f"the status of the answer to {what}")
        reference = reference_took(self.reference, message.raw(), heard.answer)
        took = Took(what, rows, heard.seconds * 1e3, bare * 1e3, heard.clock_seconds * 1e3, reference)
        return took, heard.content()

    def ask(self, what: str, rows: int, host: int, user: int, **fields: Any) -> tuple[Took, Any]:
        """Makes a call of a host. The tables know its first one."""
        self.numbers[host] = self.numbers.get(host, 1) + 1
        body = request(user, f"host{host}", self.numbers[host], **fields)
        took, content = self.send(what, rows, call_of(body))
        return took, json.loads(content)

    def fresh(self, user: int) -> Took:
        """Makes the first call of a user's new host, which asks for nothing."""
        took, _ = self.ask(FRESH_CALL, 0, 10**6 + user, user, work_req_seconds=0)
        return took

    def end(self) -> None:
        """Ends all. The rows of the program and of the twin must be equal then."""
        self.bare.close()
        self.recorder.close()
        if self.reference is not None:
            ended(self.reference)
        ended(self.both.run)
        self.both.same_rows(self.both.ours)


def report_of(name: str, output: str) -> dict[str, Any]:
    """Returns a report of a success."""
    return {"name": name, "exit_status": 0, "output": output}


def large_calls(bench: Bench, large: Large, tables: str) -> None:
    """Measures calls about large workunits."""
    figures, each, jobs = bench.figures, OWN_ROWS + INSTANCES, large.sizes.jobs
    group = bench.group(tables)
    took = [group.fresh(large.hosts + number) for number in range(1, FRESH + 1)]
    figures.tell_fresh(statistics.median(one.ours for one in took))
    for shape in large.shapes:
        (name,) = shape.names(1)
        what = f"a report that differs from {INSTANCES - 1} others, {shape.what}"
        results = [report_of(name, shape.output(shape.holder))]
        one, _ = group.ask(what, each + 1, shape.holder, shape.holder, results=results)
        figures.tell_call(one)
    group.end()
    for shape in large.shapes:
        group, host = bench.group(tables), shape.holder
        group.fresh(large.hosts + 1)
        names = shape.names(large.sizes.reports)
        results = [report_of(name, shape.output(host)) for name in names]
        what = f"{len(names)} such reports in one call, {shape.what}"
        one, reply = group.ask(what, each * len(names) + 1, host, host, results=results)
        wants(reply["result_ack"], names, what)
        figures.tell_call(one)
        group.end()
    shape = large.shapes[0]
    own, others = shape.names(jobs), shape.names(MOST_NAMES - jobs, 0)
    listed = f"a host lists {len(own + others)} names, {jobs} of them its jobs of such workunits"
    cases = {listed: own + others, f"a host has lost {jobs} jobs of such workunits": list[str]()}
    for what, names in cases.items():
        group = bench.group(tables)
        group.fresh(large.hosts + 1)
        one, _ = group.ask(what, each * jobs + 1, shape.holder, shape.holder, other_results=names)
        figures.tell_call(one)
        group.end()


def late_tick(bench: Bench, tables: str, late: int, what: str, rows: int) -> None:
    """Measures a tick that finds late jobs."""
    group = bench.group(tables)
    took, content = group.send(f"a tick with {late} late jobs of {what}", rows, TICK)
    wants(json.loads(content), {"lapsed": late}, "a tick")
    bench.figures.tell_tick(took, late)
    group.end()


def small_calls(bench: Bench, small: Small, tables: str) -> None:
    """Measures calls about small workunits."""
    figures, group, each = bench.figures, bench.group(tables), OWN_ROWS + 2
    group.fresh(next(small.free_users()))
    host, user = small.many[0], small.user_of(small.many[0])
    for when in ("", ", once more"):
        what = f"a user with {len(small.many)} hosts asks for {ASKED} jobs{when}"
        took, reply = group.ask(what, ASKED * each + 1, host, user, work_req_seconds=ASKED * HOUR)
        wants(len(reply["results"]), ASKED, what)
        figures.tell_call(took)
    host, user, jobs = small.loser, small.user_of(small.loser), len(small.lost)
    own, rows = [f"unit-{unit}_0" for unit in small.lost], jobs * each + 1
    took, reply = group.ask(f"a host lists its {jobs} jobs", rows, host, user, other_results=own)
    wants(reply["results"], [], took.what)
    figures.tell_call(took)
    took, reply = group.ask(f"a host has lost {jobs} jobs", rows, host, user, other_results=[])
    wants(len(reply["results"]), jobs, took.what)
    figures.tell_call(took)
    host, user, reports = small.second, small.user_of(small.second), len(small.agreed)
    what = f"{reports} reports that each decide a workunit"
    results = [report_of(f"unit-{unit}_1", "42") for unit in small.agreed]
    took, reply = group.ask(what, reports * (each + 1) + 1, host, user, results=results)
    wants(reply["host_total_credit"], reports * CREDIT, what)
    figures.tell_call(took)
    group.end()


# ---- Imports


def shortest_names() -> Iterator[str]:
    """Yields names of workunits of three characters."""
    return map("".join, itertools.product(string.ascii_letters + string.digits, repeat=3))


def import_text(rows: Iterator[str]) -> tuple[str, int]:
    """Returns an import of workunits with the most bytes that it may have, and the number of its rows. Line
    feeds fill it."""
    lines = [",".join(KINDS["workunits"][0])]
    size = len(lines[0]) + 1
    for row in rows:
        if size + len(row) + 1 > MOST_IMPORT:
            break
        lines.append(row)
        size += len(row) + 1
    text = "\n".join([*lines, ""])
    return text + "\n" * (MOST_IMPORT - len(text)), len(lines) - 1


def imports(bench: Bench, small: Small, tables: str) -> None:
    """Measures imports, and the first fresh call after each."""
    shortest = (f"{name},d,2,2,0,2,0,1,1,0,0,0" for name in shortest_names())
    usual = (f"further-{number},dock,2,2,3,8,6,{LIMITS}" for number in itertools.count(1))
    users = small.free_users()
    for which, rows in (("usual", usual), ("the shortest", shortest)):
        group = bench.group(tables)
        group.fresh(next(users))
        text, count = import_text(rows)
        what = f"an import of {MOST_IMPORT} bytes, {count} {which} workunits with two instances"
        took, content = group.send(what, 0, import_of("workunits", "most", text))
        wants(json.loads(content)["rows"], count, what)
        bench.figures.tell_import(took)
        one = group.fresh(next(users))
        first = "the first fresh call after that import"
        bench.figures.tell_call(replace(one, what=first))
        group.end()


# ---- Statements, and bodies


def statement(bench: Bench, small: Small, tables: str) -> None:
    """Measures a statement. The twin has none."""
    run, reference = bench.begun(tables), bench.begun_reference(tables)
    message = f"GET /hosts/{small.busy_host} HTTP/1.1\r\nx-operator-key: {serve_life.KEY}\r\n\r\n".encode()
    results = small.sizes.results
    what, rows = f"a statement of a host with {results} results", results * (OWN_ROWS + 2) + 1
    with bench.watched(run, what):
        (answer, start, end), seconds = exchange_timed(run, message)
    lines = answer.partition(b"\r\n\r\n")[2].count(b"\n")
    wants(lines, results + 2, "the lines of a statement")
    other = reference_took(reference, message, answer)
    bench.figures.tell_other(Took(what, rows, seconds * 1e3, None, (end - start) * 1e3, other))
    for each in (run, reference):
        if each is not None:
            ended(each)


def filled_body(begin: bytes, items: Iterator[bytes], end: bytes) -> bytes:
    """Returns a body of the most bytes that a call may have: its begin, as many items as fit, with commas,
    blanks, and its end."""
    parts, room = list[bytes](), MOST_BODY - len(begin) - len(end)
    for item in items:
        if len(item) + 1 > room:
            break
        parts.append(item)
        room -= len(item) + 1
    body = begin + b",".join(parts)
    return body + b" " * (MOST_BODY - len(body) - len(end)) + end


def bodies() -> dict[str, bytes]:
    """Returns bodies of calls of an account that does not exist, by what else they have. The blanks come
    first."""
    call = request(0, "host0", 1)[:-1]
    first, last = call + b',"x":[', b"]}"
    objects, arrays = b'{"a":' * DEEP + b"0" + b"}" * DEEP, b"[" * DEEP + b"]" * DEEP
    members = (b'"%d":0' % number for number in itertools.count())
    return {
        "blanks": filled_body(call, iter(()), b"}"),
        "nested objects": filled_body(first, itertools.repeat(objects), last),
        "nested arrays": filled_body(first, itertools.repeat(arrays), last),
        "empty objects": filled_body(first, itertools.repeat(b"{}"), last),
        "unknown members": filled_body(call + b",", members, b"}"),
        "zeros": filled_body(first, itertools.repeat(b"0"), last),
        "numbers with exponents": filled_body(first, itertools.repeat(b"1.5e9"), last),
        "a text with escapes": filled_body(first + b'"', itertools.repeat(b"\\u00e9"), b'"' + last),
        "nested objects without an end": filled_body(first, itertools.repeat(objects), b""),
    }


def refused(bench: Bench, tables: str) -> None:
    """Measures bodies that are refused."""
    figures, run, blanks = bench.figures, bench.begun(tables), 0.0
    for what, body in bodies().items():
        wants(len(body), MOST_BODY, f"the bytes of {what}")
        each = []
        for _ in range(TRIES):
            (answer, start, end), seconds = exchange_timed(run, call_of(body).raw())
            error = json.loads(answer.partition(b"\r\n\r\n")[2])["error"]
            wants(error, "bad_json" if what.endswith("without an end") else "bad_account", what)
            each.append((seconds * 1e3, (end - start) * 1e3))
        ours, clock = min(each)
        blanks = blanks or ours
        line = f"a refused body of {MOST_BODY} bytes, {what}"
        figures.tell_other(Took(line, 0, ours, None, clock))
        print(f"dear: that is {ours / blanks:.1f} times as much as blanks", flush=True)
        goal = f"a refused body takes at most {MOST_REFUSED:.0f} times as much as blanks"
        figures.check(goal, what, ours <= MOST_REFUSED * blanks)
    ended(run)


# ---- All of them


class Tables:
    """The files for the messages, and what is in them."""

    def __init__(self, program: str, folder: str, sizes: Sizes) -> None:
        self.large_path, self.late_path, self.small_path = (
            os.path.join(folder, f"{name}.db") for name in ("large", "late", "small")
        )
        self.large, self.small = Large(sizes), Small(sizes)
        self.large.make(program, self.large_path)
        self.large.make_late(self.large_path, self.late_path)
        self.small.make(program, self.small_path)


def good_messages(bench: Bench, tables: Tables) -> None:
    """Measures the messages that are not refused."""
    large, small = tables.large, tables.small
    large_calls(bench, large, tables.large_path)
    small_calls(bench, small, tables.small_path)
    units, late = large.late_units(), len(small.late)
    rows = units * (OWN_ROWS + INSTANCES) + EACH
    late_tick(bench, tables.late_path, units * EACH, "large workunits", rows)
    rows = late * (OWN_ROWS + 2) + len(small.late_hosts)
    late_tick(bench, tables.small_path, late, "small workunits", rows)
    imports(bench, small, tables.small_path)
    statement(bench, small, tables.small_path)


def dear(options: Options, folder: str) -> None:
    """Measures the dearest messages."""
    limit_time("dear", 7200)
    bench = Bench(options.program, folder, reference=options.reference)
    tables = Tables(options.program, folder, Sizes().part(options.part))
    good_messages(bench, tables)
    refused(bench, tables.small_path)
    bench.figures.tell_goals()

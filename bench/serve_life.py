"""The cases of `bench/serve` over the tables of a growing project.

They are life, opening, upgrade, ticks, past, statements, twins and profile. Each compares the program with
plain_tables.py, a scheduler in Python that runs the same statements with the module `sqlite3` over the same
tables, in one run and with the same messages. The messages are made first, by plain_tables.py in this
process, so the client only sends bytes and keeps the answers. The program acts on the second of its own
clock. The twin gets that second with each message. Then each answer must be equal byte for byte, and at the
end all rows must be equal too.
"""
import atexit
import contextlib
import itertools
import json
import os
import random
import re
import shutil
import socket
import sqlite3
import statistics
import subprocess
import sys
import tempfile
import time
import zlib
from collections import Counter
from collections.abc import Mapping, Sequence
from typing import Any, Self

import plain
import plain_tables
import project
from instructions import Instructions
from plain_formats import KINDS, Refused, record_of, text
from served import free_port, memory_of, ordered, peak, processor_seconds, started, wants

TWIN = os.path.join(os.path.dirname(os.path.abspath(__file__)), "plain_tables.py")
KEY = "change-this-key"
SETTINGS = {
    "daily_result_quota": 1000,
    "max_hosts": 100_000,
    "max_wus_in_progress": 8,
    "max_wus_to_send": 4,
    "operator_key": KEY,
    "request_delay": 60,
    "resend_lost_results": True,
}
SIZES = {100: 180, 10_000: 200, 200_000: 200}  # for each number of workunits, how many calls a round has
LEAST, MOST, ROUNDS = min(SIZES), max(SIZES), 10
PAST = 20_000  # how many earlier results a host has
LINES = 4000  # how many calls the project has with which the twins are compared
UPGRADED = 10_000, 100_000  # how many hosts the upgraded tables have
FPOPS, HOUR, DELAY, CREDIT = 10**9, 3600, 604_800, 5000
HEAD = b"POST /scheduler HTTP/1.1\r\nhost: 127.0.0.1\r\nx-moment: %010d\r\ncontent-length: %d\r\n\r\n%b"
TICK = f"POST /tick HTTP/1.1\r\nx-operator-key: {KEY}\r\n\r\n".encode()
MADE = tempfile.TemporaryDirectory()  # the large tables, which several cases use
Reply = dict[str, Any]
Answered = tuple[bytes, float, float]  # an answer, and the seconds before and after the call
Ran = tuple[str, Sequence[Any]]  # a statement that was run, and its values
Rates = tuple[float, float]  # calls per second by the clock, and of the server's processor time


# ---- Tables of a project


def hosts_of(units: int) -> int:
    """Returns how many hosts there are for a number of workunits: half as many, less 1 in 100 still to
    come."""
    return units // 2 - units // 200


def user_of(host: int) -> int:
    """Returns the user of a host. Each user has ten hosts."""
    return (host - 1) // 10 + 1


def request(user: int, cpid: str, seqno: int, **more: Any) -> bytes:
    """Returns the body of a call."""
    fields = {
        "authenticator": f"user{user}",
        "rpc_seqno": seqno,
        "host_info": {"host_cpid": cpid, "p_fpops": FPOPS, "m_nbytes": 8 * 10**9, "d_free": 9 * 10**10},
        "platform_name": "x86_64-pc-linux-gnu",
        **more,
    }
    return json.dumps(fields, separators=(",", ":")).encode()


def import_rows(service: plain_tables.Service, kind: str, rows: list[str]) -> None:
    """Imports rows, ten thousand in a batch."""
    header = ",".join(KINDS[kind][0])
    for first in range(0, len(rows), 10_000):
        service.imported(kind, f"b{first}", "\n".join([header, *rows[first : first + 10_000], ""]))


def import_users(service: plain_tables.Service, hosts: int) -> None:
    """Imports the users of a number of hosts."""
    import_rows(service, "accounts", [f"user{user},User {user}" for user in range(1, user_of(hosts) + 1)])


def host_rows(host: int, user: int | None = None) -> list[plain_tables.TableRow]:
    """Returns the rows that the first call of a host leaves. It asked for nothing. Each user has ten hosts,
    if the user is not named."""
    user, cpid = user_of(host) if user is None else user, f"host{host}"
    body = text(record_of(request(user, cpid, 1)))
    reply = {
        "end_word": "enough",
        "host_total_credit": 0,
        "hostid": host,
        "request_delay": SETTINGS["request_delay"],
        "result_abort": [],
        "result_ack": [],
        "results": [],
        "rpc_seqno": 1,
        "user_name": f"User {user}",
        "user_total_credit": 0,
    }
    row = (
        host,
        user,
        cpid,
        "x86_64-pc-linux-gnu",
        FPOPS,
        8 * 10**9,
        9 * 10**10,
        SETTINGS["daily_result_quota"],
        0,
        0,
    )
    return [("host", row), ("kept4", (host, 0, 1, body, text(reply)))]


def settings_file(settings: Mapping[str, Any] = SETTINGS) -> str:
    """Writes a file of settings and returns its path."""
    path = os.path.join(MADE.name, "settings.toml")
    with open(path, "w") as file:
        file.writelines(f"{name} = {json.dumps(value)}\n" for name, value in settings.items())
    return path


def create(program: str, path: str, settings: Mapping[str, Any] = SETTINGS) -> None:
    """Creates new tables in a file with the program."""
    output = ordered(program, "create", "--settings", settings_file(settings), "--tables", path)
    wants(output, "created\n", "new tables")


def import_texts(program: str, path: str, texts: Mapping[str, str]) -> None:
    """Imports a text of each kind into the tables of a file, by the command of the program."""
    file = os.path.join(MADE.name, "import.csv")
    for kind, lines in texts.items():
        with open(file, "w") as imported:
            imported.write(lines)
        ordered(program, "import", "--tables", path, "--kind", kind, "--batch", "b1", "--file", file)


def made(program: str, units: int) -> str:
    """Makes tables with a number of workunits, none of which was given out, and with hosts that called once.
    Returns their path."""
    path = os.path.join(MADE.name, f"{zlib.crc32(os.path.realpath(program).encode())}.{units}.db")
    if os.path.exists(path):
        return path
    create(program, path)
    tables = plain_tables.Tables(path, synchronous="OFF")
    service, hosts = plain_tables.Service(tables), hosts_of(units)
    import_users(service, hosts)
    import_rows(service, "apps", ["dock,exact", "fold,within:2"])
    import_rows(
        service,
        "versions",
        [f"{app},x86_64-pc-linux-gnu,{number}" for app in ("dock", "fold") for number in (1, 2)],
    )
    limits = f"2,2,3,8,6,{DELAY},{HOUR * FPOPS},1000000000,1000000000,{CREDIT}"
    apps = ["fold", "dock", "dock", "dock"]
    import_rows(
        service, "workunits", [f"unit-{unit},{apps[unit % 4]},{limits}" for unit in range(1, units + 1)]
    )
    tables.put([row for host in range(1, hosts + 1) for row in host_rows(host)])
    tables.connection.close()
    return path


def made_past(program: str) -> str:
    """Makes the largest tables with a past, and returns their path. Host 1 has PAST earlier results, of
    workunits that it and others have done. Others have done PAST more. PAST further workunits are open: host
    11 had one instance of each, and the other one waits. All given jobs were reported, and their deadlines
    are long past."""
    path = os.path.join(MADE.name, "past.db")
    if os.path.exists(path):
        return path
    shutil.copyfile(made(program, MOST), path)
    half, last = hosts_of(MOST) // 2, hosts_of(MOST) * 99 // 100
    connection = sqlite3.connect(path, isolation_level=None)
    connection.execute("BEGIN")
    given = (
        "UPDATE instance SET host_id = ?, sent = ?, deadline = ?, outcome = 1, output = '42', place = ?, "
        "queued = 0 WHERE unit_id = ? AND num = ?"
    )
    for unit in range(1, 3 * PAST + 1):
        sent = 1_600_000_000 + unit
        first = 1 if unit <= PAST else 21 + unit % (half - 21) if unit <= 2 * PAST else 11
        connection.execute(given, (first, sent, sent + DELAY, 1, unit, 0))
        if unit <= 2 * PAST:
            connection.execute(given, (half + unit % (last - half), sent, sent + DELAY, 2, unit, 1))
    connection.execute("UPDATE unit SET status = 1 WHERE id <= ?", (2 * PAST,))
    counted = "SELECT host_id, count(*) * ? FROM instance WHERE unit_id <= ? GROUP BY host_id"
    for host, credit in connection.execute(counted, (CREDIT, 2 * PAST)).fetchall():
        connection.execute("UPDATE host SET credit = ? WHERE id = ?", (credit, host))
    connection.execute("COMMIT")
    connection.close()
    return path


def made_former(hosts: int, folder: str) -> str:
    """Makes tables of the first schema with a number of hosts that called once, and returns their path."""
    newest, path = (os.path.join(folder, f"{name}{hosts}.db") for name in ("newest", "former"))
    plain_tables.create(newest, SETTINGS)
    tables = plain_tables.Tables(newest, synchronous="OFF")
    import_users(plain_tables.Service(tables), hosts)
    tables.put([row for host in range(1, hosts + 1) for row in host_rows(host)])
    tables.connection.close()
    plain_tables.make_former(path, newest)
    return path


def copied(path: str, folder: str, name: str = "copy.db") -> str:
    """Makes a fresh copy of tables, which is on the disk, and returns its path."""
    copy = os.path.join(folder, name)
    for name in (copy, f"{copy}-wal"):
        if os.path.exists(name):
            os.remove(name)
    shutil.copyfile(path, copy)
    with open(copy, "rb+") as file:
        os.fsync(file.fileno())
    return copy


# ---- Messages


class Client:
    """A host, as its own software sees it."""

    def __init__(self, user: int, cpid: str, seqno: int = 0) -> None:
        self.user, self.cpid, self.seqno = user, cpid, seqno
        self.jobs: list[str] = []  # the names of what it has
        self.unheard: bytes | None = None  # the call whose reply was lost
        self.facts: Reply = {}  # what else its calls say


def standing(host: int) -> Client:
    """Returns the client of a host that called once."""
    return Client(user_of(host), f"host{host}", 1)


class Life:
    """Calls of clients, answered as they are made, over a copy of the tables; and counts of what happened."""

    def __init__(self, path: str, folder: str) -> None:
        self.pick = random.Random(1)
        self.tables = plain_tables.Tables(copied(path, folder), once=True, synchronous="OFF")
        self.service, self.now = plain_tables.Service(self.tables), int(time.time())
        self.bodies: list[bytes] = []
        self.seen: Counter[str] = Counter()

    def send(self, body: bytes) -> Reply | None:
        """Makes one more call. Returns its reply, or None if it is refused."""
        self.bodies.append(body)
        try:
            reply: Reply = json.loads(self.service.scheduler(body, self.now))
        except Refused:
            return None
        return reply

    def answered(self, body: bytes) -> Reply:
        """Makes one more call, which must not be refused. Returns its reply."""
        reply = self.send(body)
        if reply is None:
            raise SystemExit(f"a call is refused: {body!r}")
        return reply

    def report(self, name: str) -> Reply:
        """Returns what a client reports of a finished job: mostly what others report of its workunit."""
        chance, unit = self.pick.random(), int(name.split("_")[0].removeprefix("unit-"))
        if chance < 0.03:
            return {"name": name, "exit_status": 195}
        return {
            "name": name,
            "exit_status": 0,
            "output": str(unit * 37 % 1000 + (50 if chance < 0.06 else 0)),
        }

    def call(
        self, client: Client, asked: int, kept: float = 0.0, lost: float = 0.0, silent: float = 0.0
    ) -> None:
        """Makes a fresh call that asks for a number of seconds. The chances are to keep a job, to lose the
        reply, to list no results."""
        client.seqno += 1
        done = [name for name in client.jobs if self.pick.random() >= kept]
        is_silent = self.pick.random() < silent
        more: Reply = (
            {} if is_silent else {"other_results": [name for name in client.jobs if name not in done]}
        )
        results = [self.report(name) for name in done]
        more |= client.facts
        body = request(
            client.user, client.cpid, client.seqno, work_req_seconds=asked, results=results, **more
        )
        reply = self.answered(body)
        self.seen["fresh calls"] += 1
        self.seen["reports"] += len(done)
        self.seen["jobs sent again"] += sum(job["resent"] for job in reply["results"])
        self.seen["jobs given"] += sum(not job["resent"] for job in reply["results"])
        self.take(client, body, reply, lost)

    def take(self, client: Client, body: bytes, reply: Reply, lost: float) -> None:
        """Takes a reply as the client does: it forgets jobs and has new ones, or it never hears the reply."""
        client.unheard = body if self.pick.random() < lost else None
        self.seen["replies lost"] += client.unheard is not None
        if client.unheard is None:
            gone = reply["result_ack"] + reply["result_abort"]
            had = [name for name in client.jobs if name not in gone]
            client.jobs = had + [job["name"] for job in reply["results"] if job["name"] not in had]

    def mixed(self, units: int, count: int) -> Self:
        """Makes a number of calls of a project's life. All hosts of some users call, about 36 times per
        user."""
        users, active = user_of(hosts_of(units)), max(5, count // 36)
        clients = [
            standing(10 * (number * users // active) + one)
            for number in range(active)
            for one in range(1, 11)
        ]
        for number in range(count):
            client = self.pick.choice(clients)
            if self.pick.random() < 0.02:
                client = Client(client.user, f"new{number}")
                clients.append(client)
                self.seen["new hosts"] += 1
            if client.unheard is not None and self.pick.random() < 0.5:
                self.seen["repeats"] += 1
                self.take(client, client.unheard, self.answered(client.unheard), 0.1)
            elif client.seqno > 4 and self.pick.random() < 0.01:
                self.seen["stale calls"] += 1
                self.send(request(client.user, client.cpid, client.seqno - 4, work_req_seconds=7))
            else:
                asked = self.pick.choice([0, *[1] * 8, HOUR + 1])
                self.call(client, asked, kept=0.15, lost=0.1, silent=0.05)
        return self

    def ended(self) -> Self:
        """Counts the workunits that are done, and closes the copy."""
        self.seen["workunits done"] = self.tables.connection.execute(
            "SELECT count(*) FROM unit WHERE status = 1"
        ).fetchone()[0]
        self.tables.connection.close()
        return self


# ---- Servers, and one client


class Run:
    """What one server did: its answers, each with the times before and after it, and what they took."""

    def __init__(self, server: subprocess.Popen[Any], port: int, begin: float) -> None:
        self.server, self.port, self.open_seconds = server, port, time.perf_counter() - begin
        self.open_stays, self.open_peak, self.end_peak = memory_of(server, "VmRSS"), peak(server), 0
        self.answers: list[Answered] = []
        self.seconds = self.server_seconds = self.client_seconds = 0.0
        atexit.register(self.end)  # also if the run ends early

    def send(self, messages: list[bytes]) -> Self:
        """Sends messages, each over a connection of its own, one after the other."""
        address, answers = ("127.0.0.1", self.port), self.answers
        before, own, begin = processor_seconds(self.server), time.process_time(), time.perf_counter()
        for message in messages:
            start = time.time()
            with socket.socket() as connection:
                connection.connect(address)
                connection.sendall(message)
                answer = connection.recv(65536)
                while some := connection.recv(65536):
                    answer += some
            answers.append((answer, start, time.time()))
        self.seconds += time.perf_counter() - begin
        self.client_seconds += time.process_time() - own
        self.server_seconds += processor_seconds(self.server) - before
        self.end_peak = peak(self.server)
        return self

    def end(self) -> Self:
        """Kills the server. What it answered is in the file."""
        self.server.kill()
        self.server.wait()
        return self

    def end_by_itself(self) -> None:
        """Makes the last connection that a server serves, and waits for its end."""
        with socket.socket() as connection:
            connection.connect(("127.0.0.1", self.port))
        self.server.wait()


def run_ours(program: str, tables: str, count: int = 1_000_000, before: Sequence[str] = ()) -> Run:
    """Starts the program over tables, for a number of connections, under the command `before` if it is
    given."""
    begin, port = time.perf_counter(), free_port()
    return Run(started(program, tables, port, count, before, seconds=3600), port, begin)


def run_twin(tables: str, *options: str) -> Run:
    """Starts plain_tables.py over tables."""
    begin = time.perf_counter()
    server = subprocess.Popen(
        [sys.executable, TWIN, *options, tables, "0"], stdout=subprocess.PIPE, text=True
    )
    assert server.stdout is not None
    return Run(server, int(server.stdout.readline()), begin)


def messages_of(bodies: list[bytes], moments: list[int]) -> list[bytes]:
    """Returns the messages of calls, each with the second at which the twin acts on it."""
    return [HEAD % (moment, len(body), body) for body, moment in zip(bodies, moments)]


def moments_in(bodies: list[bytes], answers: list[Answered], seen: set[bytes]) -> list[int]:
    """Returns the second at which the program acted on each call: the one in which a new job was sent, else
    the one in which the call was made. A call that was seen before is a repeat, which gets an earlier
    reply."""
    moments = []
    for body, (answer, start, end) in zip(bodies, answers):
        jobs = json.loads(answer.partition(b"\r\n\r\n")[2]).get("results", [])
        sent = {job["report_deadline"] - DELAY for job in jobs if not job["resent"]}
        if body in seen or not sent:
            moments.append(int(start))
        else:
            wants(
                len(sent) == 1 and int(start) <= min(sent) <= end,
                True,
                "a deadline that is of the call's second",
            )
            moments.append(min(sent))
        seen.add(body)
    return moments


def same_rows(ours: str, theirs: str) -> None:
    """Ends the run if two files of tables have different rows. It prints the first difference."""
    files = [sqlite3.connect(path) for path in (ours, theirs)]
    for table, (columns, keys) in plain_tables.COLUMNS.items():
        order = ", ".join(columns.split(", ")[:keys])
        rows = (file.execute(f"SELECT {columns} FROM {table} ORDER BY {order}") for file in files)
        for one, other in itertools.zip_longest(*rows):
            if one != other:
                raise SystemExit(f"{table}: a row of the program {one!r}, of the twin {other!r}")
    for file in files:
        file.close()


class Recorder:
    """The connection of tables, which records the statements that are run over it, with their values."""

    def __init__(self, tables: plain_tables.Tables) -> None:
        self.tables = tables
        self.ran: list[Ran] = []
        self.connection, self.tables.connection = self.tables.connection, self  # type: ignore[assignment]

    def execute(self, statement: str, values: Sequence[Any] = ()) -> sqlite3.Cursor:
        """Runs a statement."""
        self.ran.append((statement, values))
        return self.connection.execute(statement, values)

    def taken(self) -> list[Ran]:
        """Returns the statements that were run since the last time."""
        ran, self.ran = self.ran, []
        return ran

    def close(self) -> None:
        """Closes the connection."""
        self.connection.close()


def ran_by(path: str, folder: str, bodies: list[bytes]) -> list[list[Ran]]:
    """Returns the statements of each of these calls, over a copy of tables."""
    recorder = Recorder(plain_tables.Tables(copied(path, folder), synchronous="OFF"))
    service, now = plain_tables.Service(recorder.tables), int(time.time())
    each: list[list[Ran]] = []
    for body in bodies:
        with contextlib.suppress(Refused):
            service.scheduler(body, now)
        each.append(recorder.taken())
    recorder.close()
    return each


def run_bare(connection: sqlite3.Connection, ran: list[Ran]) -> float:
    """Runs statements. Returns the processor seconds."""
    begin = time.process_time()
    for statement, values in ran:
        connection.execute(statement, values).fetchall()
    return time.process_time() - begin


class Race:
    """The program, the twin once with each set of options, and the statements alone by the module `sqlite3`.
    All have the same calls, over fresh copies of the same tables. The servers must answer the same, and leave
    the same rows."""

    def __init__(
        self,
        program: str,
        path: str,
        folder: str,
        bodies: list[bytes],
        twins: Sequence[Sequence[str]] = ((),),
    ) -> None:
        self.program, self.path, self.folder, self.bodies, self.twins = program, path, folder, bodies, twins
        self.ran, self.bare_seconds = ran_by(path, folder, bodies), 0.0

    def begin(self) -> Self:
        """Copies the tables, and starts the servers."""
        name = os.path.basename(self.path)
        ours, bare, *theirs = (
            copied(self.path, self.folder, f"{number}.{name}") for number in range(len(self.twins) + 2)
        )
        self.copies, self.connection, self.at = [ours, *theirs], plain_tables.Tables(bare).connection, 0
        self.seen: set[bytes] = set()
        twins = (run_twin(copy, *options) for copy, options in zip(theirs, self.twins))
        self.runs = [run_ours(self.program, ours), *twins]
        return self

    def go(self, count: int) -> Self:
        """Makes `count` more calls, to one server after the other."""
        bodies, ran, (ours, *others) = self.bodies[self.at :][:count], self.ran[self.at :][:count], self.runs
        ours.send(messages_of(bodies, [0] * count))
        messages = messages_of(bodies, moments_in(bodies, ours.answers[self.at :], self.seen))
        for run in others:
            run.send(messages)
            for body, (one, _, _), (other, _, _) in zip(
                bodies, ours.answers[self.at :], run.answers[self.at :]
            ):
                if one != other:
                    raise SystemExit(
                        f"an answer differs\nthe call: {body!r}\nthe program: {one!r}\n"
                        f"the twin: {other!r}"
                    )
        self.bare_seconds += sum(run_bare(self.connection, call) for call in ran)
        self.at += count
        return self

    def end(self) -> list[Run]:
        """Stops the servers, compares their rows, and returns what the servers did."""
        self.connection.close()
        for run in self.runs:
            run.end()
        for copy in self.copies[1:]:
            same_rows(self.copies[0], copy)
        return self.runs


# ---- The cases


def rates_of(runs: Sequence[Run]) -> Rates:
    """Returns the calls per second of some runs: by the clock, and by the server's processor time."""
    count = sum(len(run.answers) for run in runs)
    return count / sum(run.seconds for run in runs), count / sum(run.server_seconds for run in runs)


def ratio_text(ours: Rates, theirs: Rates) -> str:
    """Returns the text that says how the first rates of calls compare with the others."""
    return (
        f"{ours[0] / theirs[0]:.2f} times as many calls a second ({ours[0]:.0f} and {theirs[0]:.0f}), "
        f"{ours[1] / theirs[1]:.2f} times as many per second of the server's processor time "
        f"({ours[1]:.0f} and {theirs[1]:.0f})"
    )


def memory_text(run: Run) -> str:
    """Returns the text that says a run's memory."""
    return (
        f"peak memory {run.open_peak / 1024:.0f} MB then, of which {run.open_stays / 1024:.0f} MB stay, and "
        f"{run.end_peak / 1024:.0f} MB after the calls"
    )


def rows_read(path: str) -> float:
    """Returns the seconds in which the module `sqlite3` reads all rows of a file."""
    connection, begin = sqlite3.connect(path), time.perf_counter()
    for table, (columns, _) in plain_tables.COLUMNS.items():
        connection.execute(f"SELECT {columns} FROM {table}").fetchall()
    connection.close()
    return time.perf_counter() - begin


def print_life(units: int, lived: Life, race: Race, runs: list[list[Run]], rates: dict[int, Rates]) -> None:
    """Prints what the calls took over tables of one size."""
    ours, theirs, once = zip(*runs)
    calls = sum(len(run.answers) for run in ours)
    rates[units], client, bare = (
        rates_of(ours),
        sum(run.client_seconds for run in ours) / calls,
        race.bare_seconds / calls,
    )
    print(
        f"life: {units} workunits, {hosts_of(units)} hosts, {ROUNDS} rounds, {calls} calls in all; ", end=""
    )
    print(
        ", ".join(f"{many} {what}" for what, many in lived.seen.items())
        + (" in each" if units == LEAST else "")
    )
    print(
        "life: all answers and rows are the twin's; the program answers "
        f"{ratio_text(rates[units], rates_of(theirs))}"
    )
    print(
        "life: compared with the twin that runs no statement twice in a call "
        f"{ratio_text(rates[units], rates_of(once))}"
    )
    print(
        f"life: a call takes {1 / rates[units][1] / bare:.2f} times the processor time that its statements "
        f"alone take by the module sqlite3 ({1e6 / rates[units][1]:.0f} and {bare * 1e6:.0f} microseconds); "
        f"the client takes {client * 1e6:.0f}"
    )
    opened, read = min(run.open_seconds for run in ours), rows_read(race.path)
    print(
        f"life: the tables are opened in {opened / read:.1f} times the time in which the module sqlite3 "
        f"reads all rows ({opened:.2f} and {read:.2f} seconds), {memory_text(ours[-1])}; of the twin "
        f"{theirs[-1].end_peak / 1024:.0f} MB; the file has {os.path.getsize(race.path) / 1e6:.1f} MB",
        flush=True,
    )


def life(program: str, folder: str) -> None:
    """Measures calls that ask, report and now and then lose a reply, over small and large tables. The sizes
    and the servers take turns, round by round. A round uses up the smallest project, so it begins anew with
    each."""
    lives: dict[int, Life] = {}
    races: dict[int, Race] = {}
    runs: dict[int, list[list[Run]]] = {}
    rates: dict[int, Rates] = {}
    for units, count in SIZES.items():
        path = made(program, units)
        lives[units] = Life(path, folder).mixed(units, count * (1 if units == LEAST else ROUNDS)).ended()
        races[units], runs[units] = Race(program, path, folder, lives[units].bodies, [(), ("--once",)]), []
    for units in [*SIZES][1:]:
        races[units].begin()
    for _ in range(ROUNDS):
        runs[LEAST].append(races[LEAST].begin().go(SIZES[LEAST]).end())
        for units in [*SIZES][1:]:
            races[units].go(SIZES[units])
    for units in [*SIZES][1:]:
        runs[units].append(races[units].end())
    for units in SIZES:
        print_life(units, lives[units], races[units], runs[units], rates)
    print(
        f"life: at {MOST} workunits, compared with {LEAST}, the program answers "
        f"{ratio_text(rates[MOST], rates[LEAST])}"
    )


# Runs a command, and prints its status, its seconds and its peak memory in kilobytes. It is a process of its
# own, since a process that is forked from a large one counts as large.
PEAK = """
import resource, subprocess, sys, time
begin = time.perf_counter()
done = subprocess.run(sys.argv[1:], stdout=subprocess.DEVNULL, stderr=subprocess.DEVNULL)
print(done.returncode, time.perf_counter() - begin, resource.getrusage(resource.RUSAGE_CHILDREN).ru_maxrss)
"""


def taken_by(status: int, *args: str) -> tuple[float, int]:
    """Returns the seconds, and the peak memory in kilobytes, of a command. It must end with this status."""
    ended, seconds, kilobytes = ordered(sys.executable, "-c", PEAK, *args).split()
    wants(int(ended), status, f"the status of {args}")
    return float(seconds), int(kilobytes)


def bare_opening(program: str, path: str) -> tuple[float, int]:
    """Returns what the library's own opening of a file takes. It runs `create`, which is refused since the
    file has tables: that opens the file and reads no row."""
    return taken_by(1, program, "create", "--settings", settings_file(), "--tables", path)


def opening(program: str, folder: str) -> None:
    """Measures an opening's time and peak memory, compared with the library's own opening of the file."""
    for units in SIZES:
        path = copied(made(program, units), folder)
        bare, ours = bare_opening(program, path), run_ours(program, path, count=1)
        ours.end()
        print(
            f"opening: {units} workunits in {ours.open_seconds:.2f} seconds, with a peak of "
            f"{ours.open_peak / 1024:.0f} MB; of the library alone {bare[0]:.2f} seconds "
            f"({ours.open_seconds / bare[0]:.1f} times) and {bare[1] / 1024:.0f} MB "
            f"({ours.open_peak / bare[1]:.1f} times)"
        )


def schema_in(path: str) -> list[plain_tables.Row]:
    """Returns a file's tables and indexes in the order of their creation, each statement on one line."""
    with contextlib.closing(sqlite3.connect(path)) as base:
        rows = base.execute(
            "SELECT type, name, tbl_name, coalesce(sql, '') FROM sqlite_schema ORDER BY rowid"
        ).fetchall()
    return [(*row[:3], " ".join(row[3].split())) for row in rows]


def kept_before(path: str) -> list[plain_tables.Row]:
    """Returns the rows of the table in which the first schema keeps calls."""
    with contextlib.closing(sqlite3.connect(path)) as base:
        return base.execute("SELECT * FROM kept ORDER BY host_id").fetchall()


def is_whole(path: str) -> None:
    """Ends the run if SQLite finds a fault in a file."""
    with contextlib.closing(sqlite3.connect(path)) as base:
        wants(base.execute("PRAGMA integrity_check").fetchall(), [("ok",)], "the check of the file by SQLite")
        wants(base.execute("PRAGMA foreign_key_check").fetchall(), [], "the rows that refer to none")


def upgrade(program: str, folder: str) -> None:
    """Measures an upgrade of tables of the first schema, compared with the same by the module `sqlite3` and
    with the library's own opening of the file. It also checks what the upgraded tables hold."""
    new = os.path.join(folder, "new.db")
    create(program, new)
    for hosts in UPGRADED:
        former = made_former(hosts, folder)
        ours, theirs = (copied(former, folder, name) for name in ("ours.db", "theirs.db"))
        statement = [program, "statement", "--tables", ours, "--host", str(hosts)]
        refused = subprocess.run(statement, capture_output=True, text=True)
        wants(
            (refused.stdout, refused.stderr, refused.returncode),
            ("", "bsched: old schema\n", 1),
            "an order on old tables",
        )
        bare = bare_opening(program, ours)
        one, other = taken_by(0, program, "upgrade", "--tables", ours), taken_by(
            0, sys.executable, TWIN, "--upgrade", theirs
        )
        wants(
            ordered(program, "upgrade", "--tables", ours),
            "schema 3\n",
            "what an upgrade of upgraded tables prints",
        )
        wants(ordered(*statement).splitlines()[-1], "total,,,,,,,0.000", "a statement of upgraded tables")
        same_rows(ours, theirs)
        wants(
            (schema_in(ours), kept_before(ours)),
            (schema_in(new), kept_before(former)),
            "the schema, and the former table",
        )
        is_whole(ours)
        print(
            f"upgrade: {hosts} hosts in {one[0]:.2f} seconds with a peak of {one[1] / 1024:.0f} MB; the "
            f"module sqlite3 takes {other[0]:.2f} seconds ({one[0] / other[0]:.1f} times) and "
            f"{other[1] / 1024:.0f} MB, the library's own opening of the file {bare[0]:.2f} seconds "
            f"({one[0] / bare[0]:.1f} times) and {bare[1] / 1024:.0f} MB; all rows are those of the twin, "
            "and the schema is that of new tables"
        )


def tick_seconds(program: str, path: str, folder: str) -> list[float]:
    """Returns the median seconds of a tick at which nothing is late, by the program and by the twin."""
    runs = run_ours(program, copied(path, folder, "ours.db")), run_twin(copied(path, folder, "twin.db"))
    for _ in range(25):
        for run in runs:
            run.send([TICK])
    for run in runs:
        for answer, _, _ in run.end().answers:
            wants(answer.rpartition(b"\r\n\r\n")[2], b'{"lapsed":0}', "a tick")
    return [statistics.median(end - start for _, start, end in run.answers) for run in runs]


def ticks(program: str, folder: str) -> None:
    """Measures ticks at which nothing is late."""
    few, many, past = (
        tick_seconds(program, path, folder)
        for path in (made(program, LEAST), made(program, MOST), made_past(program))
    )
    print(
        f"ticks: if nothing was ever given out, a tick at {MOST} workunits takes {many[0] / few[0]:.1f} "
        f"times as long as at {LEAST} ({many[0] * 1e3:.2f} and {few[0] * 1e3:.2f} milliseconds; of the twin "
        f"{many[1] * 1e3:.2f})"
    )
    print(
        f"ticks: with {5 * PAST} results that were reported in time and whose deadlines are past, "
        f"{past[0] / many[0]:.0f} times that ({past[0] * 1e3:.0f} milliseconds), {past[0] / past[1]:.1f} "
        f"times as long as of the twin ({past[1] * 1e3:.0f})"
    )


def past(program: str, folder: str) -> None:
    """Measures calls of hosts and users with a long past."""
    path, rounds = made_past(program), 7
    whose = {
        "a host with no past": standing(hosts_of(MOST)),
        f"a host with {PAST} earlier results": standing(1),
        "another host of that user": standing(2),
        f"a host whose user had one instance of each of the first {PAST} workunits that wait": standing(11),
    }
    lived = Life(path, folder)
    for _ in range(rounds):
        for client in whose.values():
            lived.call(client, 1)
    lived.ended()
    ours, theirs = Race(program, path, folder, lived.bodies).begin().go(len(lived.bodies)).end()
    fresh = 0.0
    for number, what in enumerate(whose):
        # the first round gives each client its first job; after it each call reports a job and gets one
        one, other = (
            statistics.median(end - start for _, start, end in run.answers[len(whose) + number :: len(whose)])
            for run in (ours, theirs)
        )
        fresh = fresh or one
        print(
            f"past: a call of {what}, that reports a job and gets one, takes {one * 1e3:.1f} milliseconds: "
            f"{one / fresh:.1f} times as long as of the first, {one / other:.2f} times as long as of the "
            f"twin ({other * 1e3:.1f})"
        )
    print(f"past: these tables are opened in {ours.open_seconds:.1f} seconds, {memory_text(ours)}")


def kind_of(text: str) -> str:
    """Returns the kind of a statement that was run."""
    kinds = {
        **plain_tables.LOOK_UPS,
        **{f"put: {table}": put for table, put in plain_tables.PUTS.items()},
        **{f"change: {table}": change for table, change in plain_tables.CHANGES.items()},
    }
    for kind, statement in kinds.items():
        if re.fullmatch(re.sub(r"\\\?\d+", ".*", re.escape(statement)), text, re.DOTALL):
            return kind
    return text.split(" ")[0]


def statements(program: str, folder: str) -> None:
    """Prints how many statements of each kind one call runs."""

    def call(service: plain_tables.Service, host: int, seqno: int, asked: int, **more: Any) -> None:
        client = standing(host)
        service.scheduler(
            request(client.user, client.cpid, seqno, work_req_seconds=asked, **more), 1_000_000_000
        )

    counts = []
    for once in (False, True):
        tables = plain_tables.Tables(copied(made(program, LEAST), folder), once=once)
        service = plain_tables.Service(tables)
        call(service, 1, 2, HOUR + 1)
        call(service, 11, 2, 1)
        call(service, 11, 3, 0, results=[{"name": "unit-1_1", "exit_status": 0, "output": "42"}])
        ran: list[str] = []
        tables.connection.set_trace_callback(ran.append)
        report = {"name": "unit-1_0", "exit_status": 0, "output": "42"}
        call(service, 1, 3, HOUR + 1, results=[report], other_results=[])
        tables.connection.close()
        counts.append(Counter(map(kind_of, ran)))
    print(
        "statements: of a call that reports a job, by which its quorum is reached, has lost one and gets one;"
    )
    print("in the twin, which does those of the program; and in the twin where none is run twice in a call")
    for kind, many in [*counts[0].items(), ("in all", counts[0].total())]:
        print(f"  {kind:30} {many:4} {counts[1].get(kind, counts[1].total()):4}")


def twins(_program: str, folder: str) -> None:
    """Compares the answers of plain_tables.py and plain.py, for the lines of a project and for the stored
    run."""
    with open(os.path.join(os.path.dirname(TWIN), "..", "crates", "bsched", "stdin"), "rb") as file:
        stored = file.read().splitlines()
    both: list[tuple[str, plain.Settings, list[bytes]]] = [
        ("a project's life", project.SETTINGS, project.lines(LINES)[0].splitlines()),
        ("the stored run", {}, stored),
    ]
    for what, settings, lines in both:
        for once in (False, True):
            path = os.path.join(folder, f"{len(lines)}{once}.db")
            plain_tables.create(path, {**plain.SETTINGS, **settings, "operator_key": KEY})
            one = plain.Service({**plain.SETTINGS, **settings})
            other = plain_tables.Service(plain_tables.Tables(path, once, "OFF"))
            for number, line in enumerate(lines, 1):
                wants(other.answer(line), one.answer(line), f"the answer to line {number} of {what}")
        print(f"twins: good, {len(lines)} answers of {what}")


def under(before: Sequence[str], program: str, path: str, folder: str, bodies: list[bytes]) -> None:
    """Runs the program under a command, over a copy of tables with these calls, until it ends by itself."""
    # the probe that finds the listener counts as one connection, and so does the last one
    run = run_ours(program, copied(path, folder), len(bodies) + 2, before)
    run.send(messages_of(bodies, [0] * len(bodies))).end_by_itself()


def profile(program: str, folder: str) -> None:
    """Prints the system calls and instructions of a short life, and how many look-ups it runs."""
    path, found = made(program, LEAST), os.path.join(folder, "found")
    bodies = Life(path, folder).mixed(LEAST, SIZES[LEAST]).ended().bodies
    if shutil.which("strace") is None:
        print("profile: strace: not installed, not run")
    else:
        under(["strace", "-c", "-S", "calls", "-o", found], program, path, folder, bodies)
        with open(found) as file:
            lines = "".join(file.readlines()[:10])
        print(f"profile: the system calls of {len(bodies)} calls and of the opening\n{lines}", end="")
    if shutil.which("valgrind") is None:
        print("profile: valgrind: not installed, not run")
        return
    counts = []
    none: list[bytes] = []
    for some in (none, bodies):
        under(
            ["valgrind", "-q", "--tool=callgrind", f"--callgrind-out-file={found}"],
            program,
            path,
            folder,
            some,
        )
        counts.append(Instructions.read(found))
    spent = counts[1].since(counts[0])
    own, whole = spent.own, spent.whole
    twin = sum(statement.startswith("SELECT") for ran in ran_by(path, folder, bodies) for statement, _ in ran)
    looked = spent.calls["sqlite::connection::Connection::query_near"]
    print(f"profile: the program runs {looked} look-ups in these calls, the twin {twin}")
    print(f"profile: {own.total() // len(bodies)} instructions per call; their percentages:")
    stages = {"sqlite::connection::Connection::query_near": "look-ups", "table_rows::put::put_each": "puts"}
    stages["sqlite::connection::Connection::commit"] = "the commit"
    stages["message_engine::commits::commit_and_answer"] = "that a commit calls, these two with it"
    stages["call_working_set::by_name::put_all"] = "changes put into a call state, in the step and the commit"
    for what, many in [
        *((f"all {stage}", whole[function]) for function, stage in stages.items()),
        *((f"the crate {crate}", many) for crate, many in spent.by_crate().most_common(10)),
        *own.most_common(16),
    ]:
        print(f"  {100 * many / own.total():5.1f} {what}")


CASES = {
    "life": life,
    "opening": opening,
    "upgrade": upgrade,
    "ticks": ticks,
    "past": past,
    "statements": statements,
    "twins": twins,
    "profile": profile,
}

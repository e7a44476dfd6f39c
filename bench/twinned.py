"""The program as a server, and the twin in this process, with the same messages one after the other.

Each runs over tables of its own. The program acts on the second of its own clock, and the twin
(plain_tables.py) on the second that it is given. So a message goes to the program first. The deadlines in its
answer say in which second it acted. The twin acts on that second, and its answer must be equal byte for byte.
"""
import contextlib
import hashlib
import json
import sqlite3
import time
from collections.abc import Callable, Sequence
from dataclasses import dataclass

import plain_tables
import serve_life
from played import DEADLINE, begun, ended, exchange_timed
from serve_life import KEY, Reply, Run
from served import wants

SCHEDULER = "POST /scheduler HTTP/1.1"
OPERATOR = {"x-operator-key": KEY}
DAY = 86400
# the names of the jobs that hosts hold, with their deadlines
HELD = (
    "SELECT unit.name || '_' || num, deadline FROM instance JOIN unit ON unit.id = unit_id "
    "WHERE host_id IS NOT NULL AND outcome IS NULL AND lapse = 0"
)


@dataclass(frozen=True)
class Message:
    """The first line, the fields and the body of a message."""

    first: str
    body: bytes = b""
    is_operator: bool = False

    def raw(self) -> bytes:
        """Returns its bytes."""
        key = f"x-operator-key: {KEY}\r\n" if self.is_operator else ""
        return f"{self.first}\r\n{key}content-length: {len(self.body)}\r\n\r\n".encode() + self.body

    def answered_by(self, twin: plain_tables.Service, moment: int) -> bytes:
        """Returns the answer of the twin at a moment."""
        fields = {"x-moment": str(moment), **(OPERATOR if self.is_operator else {})}
        return twin.respond((self.first, fields, self.body))


def call_of(body: bytes) -> Message:
    """Returns the message of a call."""
    return Message(SCHEDULER, body)


def import_of(kind: str, batch: str, text: str) -> Message:
    """Returns the message of an import."""
    return Message(f"POST /import/{kind}/{batch} HTTP/1.1", text.encode(), is_operator=True)


TICK = Message("POST /tick HTTP/1.1", is_operator=True)


@dataclass(frozen=True)
class Heard:
    """An answer, the processor seconds that each of the two took for it, and the seconds until the client had
    the program's."""

    answer: bytes
    seconds: float
    twin_seconds: float
    clock_seconds: float

    def content(self) -> bytes:
        """Returns the body of the answer."""
        return self.answer.partition(b"\r\n\r\n")[2]

    def reply(self) -> Reply | None:
        """Returns the body of a good answer, or None if the message was refused."""
        if not self.answer.startswith(b"HTTP/1.1 200 "):
            return None
        reply: Reply = json.loads(self.content())
        return reply


class Deadlines:
    """The latest deadlines of jobs by their names, and the seconds at which they were set."""

    def __init__(self, delay_of: Callable[[str], int]) -> None:
        self.delay_of, self.known = delay_of, dict[str, int]()

    def moment(self, reply: Reply, start: float, end: float) -> int:
        """Returns the second at which the program acted on a call, which was made between two times. A new
        deadline says it. A job that is sent again keeps its deadline if there is time for it. Several seconds
        can be possible. They then have the same effect."""
        seconds = set(range(int(start), int(end) + 1))
        for job in reply["results"]:
            name, deadline = job["name"], job["report_deadline"]
            if job["resent"] and deadline == self.known.get(name):
                seconds = {second for second in seconds if second + job["estimate"] <= deadline}
            else:
                seconds &= {deadline - self.delay_of(name)}
            self.known[name] = deadline
        if not seconds:
            raise SystemExit(f"a reply with deadlines that are not of its second: {reply!r}")
        return min(seconds)


class Twinned:
    """The program, under the command `before` if it is given, and the twin. `delay_of` returns the delay
    bound of a job by its name."""

    def __init__(
        self,
        program: str,
        ours: str,
        theirs: str,
        delay_of: Callable[[str], int],
        before: Sequence[str] = (),
    ) -> None:
        self.program, self.ours, self.theirs, self.before = program, ours, theirs, before
        self.deadlines, self.digest = Deadlines(delay_of), hashlib.sha256()
        self.made: set[int] = set()  # the hashes of all calls that were made

    def begin(self) -> Run:
        """Starts both. Returns the server."""
        self.run = begun(self.program, self.ours, self.before)
        self.open_twin()
        return self.run

    def open_twin(self) -> None:
        """Opens the tables of the twin."""
        self.tables = plain_tables.Tables(self.theirs, synchronous="OFF")
        self.deadlines.known = dict(self.tables.connection.execute(HELD))
        self.twin = plain_tables.Service(self.tables)

    def end(self) -> None:
        """Ends both. What they answered is in their files."""
        ended(self.run)
        self.tables.connection.close()

    def acted(self, message: Message, answer: bytes, start: float, end: float) -> int:
        """Returns the second at which the program acted on a message."""
        key = hash(message.body)
        is_first = message.first == SCHEDULER and key not in self.made
        self.made.add(key)
        if not is_first or not answer.startswith(b"HTTP/1.1 200 "):
            return int(start)
        return self.deadlines.moment(json.loads(answer.partition(b"\r\n\r\n")[2]), start, end)

    def send(self, message: Message) -> Heard:
        """Sends a message to both. No message is sent in the last second of a day: a host is sent so many
        jobs on a day, and the twin must count on the same one."""
        if int(time.time()) % DAY == DAY - 1:
            time.sleep(1.1)
        (answer, start, end), seconds = exchange_timed(self.run, message.raw())
        moment, before = self.acted(message, answer, start, end), time.process_time()
        other = message.answered_by(self.twin, moment)
        twin_seconds = time.process_time() - before
        if answer != other:
            raise SystemExit(
                f"an answer differs\nthe message: {message!r}\nthe program: {answer!r}\nthe twin: {other!r}"
            )
        self.digest.update(message.body)
        self.digest.update(DEADLINE.sub(b"", answer))
        return Heard(answer, seconds, twin_seconds, end - start)

    def first_row(self, query: str) -> plain_tables.Row:
        """Returns the first row of a query in the twin's tables."""
        row: plain_tables.Row = self.tables.connection.execute(query).fetchone()
        return row

    def same_rows(self, path: str) -> None:
        """Ends the run if a copy of the program's tables has other rows than those of the twin, which is
        closed."""
        serve_life.same_rows(path, self.theirs)

    def same_first_row(self, path: str, query: str, what: str) -> None:
        """Ends the run if a query has another first row in a copy of the program's tables than in those of
        the twin, which is open."""
        with contextlib.closing(sqlite3.connect(path)) as connection:
            wants(connection.execute(query).fetchone(), self.first_row(query), what)
